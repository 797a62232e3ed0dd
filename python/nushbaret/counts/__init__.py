"""Plans in which rows and columns count several times: nodes, who is short, and what may change."""

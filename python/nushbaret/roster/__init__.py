"""The command for rosters with names: what it reads, and how it answers."""

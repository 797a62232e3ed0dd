"""Plans by rows of 0/1 variables: how they are found, and certificates that are checked."""

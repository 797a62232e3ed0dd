"""How costs are read, as exact numbers: from matrices, frames, sparse matrices and lists to one problem."""

"""The assignment problem: the proved library, levels for costs beyond its range, exact duals and checks."""

"""Assignments for costs that nobody holds: matrices and lists of pairs beyond one machine's memory, block by block, in
this process or on a cluster of Dask, and proved."""
from .calls import solve, solve_pairs
from .checking import check
from .engines import Engine
from .result import BeyondResult, OutOfTime

__all__ = ["BeyondResult", "Engine", "OutOfTime", "check", "solve", "solve_pairs"]

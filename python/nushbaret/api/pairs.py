"""Pairs with names: frames of pairs, triples, dicts and graphs."""
from collections.abc import Mapping
from typing import Any, Dict, Iterable, Iterator, List, NamedTuple, Optional, Sequence, Tuple

from ..costs import naming, reading
from ..costs.source import Source
from .results import Result
from .shown import Missing
from .solve import Progress, solve_source

_TITLES = ["row", "column", "cost"]


class _Listed(NamedTuple):
    """The names of pairs and their costs; and those of rows and columns that may have no pair, or None."""

    rows: List[Any]
    columns: List[Any]
    costs: Any
    all_rows: Optional[List[Any]] = None
    all_columns: Optional[List[Any]] = None


def solve_pairs(pairs: Any, maximize: bool = False, decimals: Optional[int] = None, partial: bool = False,
                missing: Missing = "refuse", timeout: Optional[float] = None, progress: Progress = None, *,
                unmatched_cost: Any = None, rows: Optional[Iterable[Any]] = None,
                columns: Optional[Iterable[Any]] = None, weight: str = "weight") -> Result:
    """A best assignment where rows and columns have names, and only the listed pairs may be used.

    Parameters
    ----------
    pairs : DataFrame, iterable, dict or graph
        A frame with the columns row, column and cost, or with three columns in this order. An iterable of (row, column,
        cost), or an array of three columns. A dict of costs by (row, column), or for each row a dict of costs by
        column. A graph of networkx: an edge goes from a row to a column where it has a direction; otherwise nodes have
        the attribute `bipartite`, 0 for rows and 1 for columns, or `rows` names the rows.
        A pair that is given several times counts once, at its least cost, also under maximize.
    maximize, decimals, partial, missing, timeout, progress, unmatched_cost
        As in `solve`.
    rows, columns : iterable of names, optional
        All rows and all columns in their order, also those without a pair. Without them those of the pairs, in the
        order in which they come first.
    weight : str, optional
        The attribute that an edge's cost has. As in networkx, an edge without it costs 1.

    Returns
    -------
    Result
        `pairs`, `to_frame()`, `to_series()` and `as_dict()` have the names; `rows` and `columns` are numbers in
        `labels`.

    Raises
    ------
    ValueError
        As in `solve`; or if a pair doesn't have three parts, or a row or column isn't among those that are named, or is
        named twice, or a graph doesn't say which nodes are rows.
    TypeError
        As in `solve`; or if `pairs` is nothing of these, or a name can't be hashed.
    Infeasible, TimeoutError, MemoryError, LibraryNotFound
        As in `solve`.

    Examples
    --------
    >>> import nushbaret
    >>> costs = {"Ada": {"early": 4, "late": 1}, "Ben": {"early": 2}}
    >>> nushbaret.solve_pairs(costs).as_dict()
    {'Ada': 'late', 'Ben': 'early'}
    >>> nushbaret.solve_pairs([("Ada", "early", 4), ("Ada", "late", 1), ("Ben", "early", 2)]).cost
    3
    """
    manner = reading.manner(maximize, decimals, missing)
    of_rows, of_columns = (None if names is None else list(names) for names in (rows, columns))
    listed = _listed(pairs, manner, of_rows, weight)
    row_numbers, row_names = _numbers(listed.rows, of_rows or listed.all_rows, "row")
    column_numbers, column_names = _numbers(listed.columns, of_columns or listed.all_columns, "column")
    source = Source(listed.costs, row_numbers, column_numbers, (len(row_names), len(column_names)), manner,
                    labels=(row_names, column_names))
    return solve_source(source, None, partial, timeout, progress, unmatched_cost)


def _listed(pairs: Any, manner: reading.Manner, rows: Optional[List[Any]], weight: str) -> _Listed:
    if naming.is_frame(pairs):
        return _of_frame(pairs, manner)
    if hasattr(pairs, "edges") and hasattr(pairs, "nodes"):
        return _of_graph(pairs, rows, weight)
    if isinstance(pairs, Mapping):
        return _of_triples(_of_dict(pairs))
    numpy = reading.numpy_of(pairs)
    if numpy is not None:
        held = reading.array_of(numpy, pairs)
        if held.ndim != 2 or held.shape[1] != 3:
            raise ValueError(f"pairs is an array of the shape {held.shape}: it must have three columns")
        return _Listed(held[:, 0].tolist(), held[:, 1].tolist(), held[:, 2])
    if isinstance(pairs, (str, bytes)) or not hasattr(pairs, "__iter__"):
        raise TypeError(f"pairs is {pairs!r}: it must be a frame, an iterable of (row, column, cost), a dict or a "
                        "graph")
    return _of_triples(pairs)


def _of_frame(frame: Any, manner: reading.Manner) -> _Listed:
    titles = list(frame.columns)
    if all(titles.count(title) == 1 for title in _TITLES):
        frame = frame[_TITLES]
    elif len(titles) != 3:
        raise ValueError(f"the frame of pairs has the columns {titles}: it must have row, column and cost, or three")
    costs = reading.array_of_frame(reading.loaded_numpy(), frame.iloc[:, [2]], manner)
    return _Listed(frame.iloc[:, 0].tolist(), frame.iloc[:, 1].tolist(), costs.reshape(-1))


def _of_dict(pairs: Any) -> Iterator[Tuple[Any, Any, Any]]:
    """The pairs of a dict of costs by pairs, or of a dict of dicts."""
    for key, value in pairs.items():
        if isinstance(value, Mapping):
            yield from ((key, column, cost) for column, cost in value.items())
        elif isinstance(key, tuple) and len(key) == 2:
            yield key[0], key[1], value
        else:
            raise ValueError(f"pairs[{key!r}] is {value!r}: a dict has costs by (row, column), or dicts of costs by "
                             "column")


def _of_triples(pairs: Iterable[Any]) -> _Listed:
    rows: List[Any] = []
    columns: List[Any] = []
    costs: List[Any] = []
    for place, pair in enumerate(pairs):
        try:
            row, column, cost = pair
        except (TypeError, ValueError):
            raise ValueError(f"pairs[{place}] is {pair!r}: it must be (row, column, cost)") from None
        rows.append(row)
        columns.append(column)
        costs.append(cost)
    return _Listed(rows, columns, costs)


def _of_graph(graph: Any, rows: Optional[List[Any]], weight: str) -> _Listed:
    """The edges of a graph of networkx, each from its row on."""
    sides, is_directed = _sides(graph, rows), graph.is_directed()
    found = []
    for first, second, held in graph.edges(data=True):
        if sides[first] == sides[second]:
            raise ValueError(f"the edge of {first!r} and {second!r} joins two {('columns', 'rows')[sides[first]]}")
        if is_directed and not sides[first]:
            raise ValueError(f"the edge from {first!r} to {second!r} goes from a column to a row")
        row, column = (first, second) if sides[first] else (second, first)
        found.append((row, column, held.get(weight, 1)))
    listed = _of_triples(found)
    return listed._replace(all_rows=[node for node in graph.nodes if sides[node]],
                           all_columns=[node for node in graph.nodes if not sides[node]])


def _sides(graph: Any, rows: Optional[List[Any]]) -> Dict[Any, bool]:
    """Whether each node of a graph is a row."""
    if rows is not None:
        named = set(rows)
        return {node: node in named for node in graph.nodes}
    held = dict(graph.nodes(data="bipartite"))
    wrong = [node for node, side in held.items() if side not in (0, 1) or side is None]
    if not wrong:
        return {node: side == 0 for node, side in held.items()}
    if not graph.is_directed():
        raise ValueError(f"which nodes are rows? Node {wrong[0]!r} has no attribute bipartite of 0 or 1: name the rows")
    alone = [node for node in graph.nodes if not graph.out_degree(node) and not graph.in_degree(node)]
    if alone:
        raise ValueError(f"is node {alone[0]!r} a row? It has no edge: name the rows")
    return {node: graph.out_degree(node) > 0 for node in graph.nodes}


def _numbers(names: Sequence[Any], every: Optional[List[Any]], kind: str) -> Tuple[List[int], List[Any]]:
    """The number of each pair's row or column, and the names of all."""
    known: Dict[Any, int] = {}
    try:
        for name in names if every is None else every:
            if every is not None and name in known:
                raise ValueError(f"the {kind} {name!r} is named twice")
            known.setdefault(name, len(known))
        numbers = [known[name] for name in names]
    except TypeError:
        raise TypeError(f"a {kind} has a name that can't be hashed") from None
    except KeyError as missing:
        raise ValueError(f"a pair has the {kind} {missing.args[0]!r}, which isn't among those that are named") from None
    return numbers, list(known)

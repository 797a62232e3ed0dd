"""Plans in JSON, read against their schema."""
import json
import math
from collections import Counter
from typing import Any, Dict, List, NamedTuple, NoReturn, Tuple

from .names import NoName, as_name, quoted, said
from .sheets import MOST_BYTES, RosterFault, content_of

# Of plans in JSON; those before are read too.
FORMAT = 4
# More digits make no cost.
MOST_DIGITS = 1000
# How messages call what JSON has, by the names of texts.
KINDS: Tuple[Tuple[Tuple[type, ...], str], ...] = (
    ((bool,), "boolean"), ((str,), "string"), ((int, float), "number"), ((list,), "array"), ((dict,), "object"))


class NamedPair(NamedTuple):
    """A pair of a plan by names, the line where it stands, or in JSON its number, and its cost as it is written there,
    if any is."""

    person: str
    object: str
    line: int
    cost: str


class _NoJson(ValueError):
    """Why a text is no JSON that plans are read from."""


def plan_of_json(path: str) -> List[NamedPair]:
    """The pairs of a plan: an object with a list `pairs`, of objects with a `person` and an `object`, both texts, and
    maybe a `cost`, a number or a text; and maybe with a `format`, a whole number from 1 to FORMAT.

    Raises `RosterFault` for the first place that is otherwise, and `OSError` where the file can't be read.
    """
    plan = _parsed(path)
    if not isinstance(plan, dict) or not isinstance(plan.get("pairs"), list):
        is_there = isinstance(plan, dict) and "pairs" in plan
        found = said("its pairs", _kind(plan["pairs"])) if is_there else (
            said("it has no", "'pairs'") if isinstance(plan, dict) else said("it is", _kind(plan)))
        raise RosterFault(path, said("no plan", found))
    form = plan.get("format", FORMAT)
    if isinstance(form, bool) or not isinstance(form, int) or not 1 <= form <= FORMAT:
        shown = quoted(form) if isinstance(form, str) else str(form) if isinstance(form, (int, float)) else _kind(form)
        raise RosterFault(path, said("format", shown, FORMAT))
    return [_pair(path, pair, number) for number, pair in enumerate(plan["pairs"], 1)]


def _pair(path: str, pair: Any, number: int) -> NamedPair:
    """A pair, by its number from 1."""
    if not isinstance(pair, dict):
        raise RosterFault(path, said("no pair", _kind(pair)), number)
    cost = pair.get("cost", "")
    if isinstance(cost, (bool, list, dict)):
        raise RosterFault(path, said("odd cost", _kind(cost)), number)
    person, object_ = (_name(path, pair, key, number) for key in ("person", "object"))
    return NamedPair(person, object_, number, "" if cost is None else str(cost))


def _name(path: str, pair: Dict[str, Any], key: str, number: int) -> str:
    """The name of a pair's person or object."""
    name = pair.get(key)
    if not isinstance(name, str):
        found = said("its name", key, _kind(name)) if key in pair else said("it has no", key)
        raise RosterFault(path, said("two texts", found), number)
    try:
        return as_name(name.strip())
    except NoName as fault:
        raise RosterFault(path, said("odd name", fault, key), number) from None


def _parsed(path: str) -> Any:
    """What a file has in JSON."""
    data = content_of(path)
    if len(data) > MOST_BYTES:
        raise RosterFault(path, said("long file", MOST_BYTES))
    try:
        text = data.decode("utf-8-sig")
    except UnicodeDecodeError as fault:
        line = data.count(b"\n", 0, fault.start) + 1
        raise RosterFault(path, f"no JSON: bytes that are no UTF-8, in line {line}") from None
    try:
        return json.loads(text, object_pairs_hook=_object, parse_constant=_constant, parse_int=_integer,
                          parse_float=_fraction)
    except json.JSONDecodeError as fault:
        what = "it is empty" if not text.strip() else "it ends too early" if fault.pos >= len(
            text.rstrip()) else said("JSON is otherwise")
        raise RosterFault(path, said("no JSON", f"{what}, in line {fault.lineno}, column {fault.colno}")) from None
    except _NoJson as fault:
        raise RosterFault(path, said("no JSON", fault)) from None
    except RecursionError:
        raise RosterFault(path, "no plan: lists and objects in one another, too deep") from None


def _object(pairs: List[Tuple[str, Any]]) -> Dict[str, Any]:
    """An object, of which each key stands once."""
    found = dict(pairs)
    if len(found) < len(pairs):
        key = Counter(key for key, _ in pairs).most_common(1)[0][0]
        raise _NoJson(f"{quoted(key)} stands twice in an object")
    return found


def _constant(word: str) -> NoReturn:
    raise _NoJson(f"{word} is no number")


def _integer(word: str) -> int:
    if len(word) > MOST_DIGITS:
        raise _NoJson(f"a number of more than {MOST_DIGITS} digits")
    return int(word)


def _fraction(word: str) -> float:
    if math.isinf(float(word)):
        raise _NoJson(f"{quoted(word)} is beyond all numbers")
    return float(word)


def _kind(value: Any) -> str:
    """What a value is."""
    return next((said(name) for kind, name in KINDS if isinstance(value, kind)), "null")

"""Drawn models of rows, searches of all their plans, a check of certificates in fractions, and finding within this
process."""
import itertools
import time
from fractions import Fraction

from nushbaret.rows import certificates as files
from nushbaret.rows import finding
from nushbaret.rows import process
from nushbaret.rows.model import Limits, Model, Row

try:
    import scipy
except ImportError:
    scipy = None


def drawn_model(draw):
    """Up to nine variables of up to three persons or nobody, up to six rows of up to five sentences; a plan may exist
    or not."""
    count = draw.randint(1, 9)
    rows = []
    for _ in range(draw.randint(0, 6)):
        variables = sorted(draw.sample(range(count), draw.randint(0, min(count, 5))))
        least = draw.choice((None, draw.randint(-1, 3)))
        most = draw.choice((None, (least or 0) + draw.randint(0, 2)))
        rows.append(Row(least, tuple((variable, draw.choice((1, 1, 1, -1, 2, 3))) for variable in variables), most,
                        f"rule {draw.randint(0, 4)}"))
    unit = draw.choice((1, 1, 2, 5))
    costs = tuple(unit * draw.randint(-4, 6) for _ in range(count))
    return Model(count, costs, tuple(rows), tuple(draw.choice((0, 1, 2, None)) for _ in range(count)))


def drawn_month(draw, persons=3, days=5):
    """A month: two kinds of shifts a day, one shift a day for each person, rest, at most so many days in a row and in
    all, hours, and how many each shift needs. The sentences name the rule and the person."""
    place = {key: number for number, key in enumerate(itertools.product(range(persons), range(days), range(2)))}
    rows = []
    for person in range(persons):
        def ones(days_, kinds=(0, 1), person=person):
            return tuple((place[person, day, kind], 1) for day in days_ for kind in kinds)
        rows += [Row(None, ones([day]), 1, f"one shift a day ({person})", person) for day in range(days)]
        rows += [Row(None, ones([day], [1]) + ones([day + 1], [0]), 1, f"rest ({person})", person)
                 for day in range(days - 1)]
        rows += [Row(None, ones(range(day, day + 3)), 2, f"days in a row: 2 ({person})", person)
                 for day in range(days - 2)]
        hours = tuple((place[person, day, kind], 77 + 18 * kind) for day in range(days) for kind in (0, 1))
        rows.append(Row(draw.randint(80, 200), hours, draw.randint(240, 330), f"hours ({person})", person))
    for day, kind in itertools.product(range(days), range(2)):
        least = draw.choice((0, 0, 1, 1, 1, 2))
        rows.append(Row(least, tuple((place[person, day, kind], 1) for person in range(persons)),
                        least + draw.randint(0, 1), f"{day} {kind}"))
    costs = tuple(draw.randint(0, 9) for _ in place)
    return Model(len(place), costs, tuple(rows), tuple(person for person, _, _ in place))


def meets(plan, rows):
    """Whether a plan meets rows, by sums of its own."""
    for row in rows:
        value = sum(factor * plan[variable] for variable, factor in row.terms)
        if (row.least is not None and value < row.least) or (row.most is not None and value > row.most):
            return False
    return True


def plans(model, texts=None):
    """All plans that meet the rows, or those with some sentences."""
    rows = [row for row in model.rows if texts is None or row.text in texts]
    return [plan for plan in itertools.product((0, 1), repeat=model.variables) if meets(plan, rows)]


def cost(model, plan):
    return sum(one * taken for one, taken in zip(model.costs, plan))


def least_cost(model):
    """The least cost of a month's plans, person by person: for each use of the shared rows the cheapest months; None
    where there is no plan."""
    shared = [row for row in model.rows if row.person is None]
    cheapest = {(0,) * len(shared): 0}
    for person in sorted(set(model.persons)):
        own = [variable for variable in range(model.variables) if model.persons[variable] == person]
        rows = [row for row in model.rows if row.person == person]
        grown = {}
        for uses, price in _months(model, own, rows, shared).items():
            for before, spent in cheapest.items():
                key = tuple(map(sum, zip(before, uses)))
                if all(row.most is None or use <= row.most for row, use in zip(shared, key)):
                    grown[key] = min(grown.get(key, 10**9), spent + price)
        cheapest = grown
    fits = [price for uses, price in cheapest.items()
            if all((row.least or 0) <= use for row, use in zip(shared, uses))]
    return min(fits, default=None)


def _months(model, own, rows, shared):
    """The cheapest months of a person by their uses of the shared rows."""
    found = {}
    for taken in itertools.product((0, 1), repeat=len(own)):
        plan = dict(zip(own, taken))
        if all((row.least or 0) <= sum(factor * plan[variable] for variable, factor in row.terms)
               and (row.most is None or sum(factor * plan[variable] for variable, factor in row.terms) <= row.most)
               for row in rows):
            uses = tuple(sum(factor * plan.get(variable, 0) for variable, factor in row.terms) for row in shared)
            price = sum(model.costs[variable] for variable in own if plan[variable])
            found[uses] = min(found.get(uses, 10**9), price)
    return found


class Channel(process.Channel):
    """What both processes report, kept in a list."""

    def __init__(self):
        super().__init__(None, None)
        self.told = []

    def say(self, **told):
        self.told.append(told)


def found_here(model, seconds=600, sums=()):
    """What `find` returns, with the work of both processes done here, one after the other."""
    from nushbaret.rows import highs, prover
    search, channel = finding._PlanSearch(model, sums), Channel()
    highs.look_for_plans(search.scaled, channel, time.monotonic() + seconds)
    prover.look_for_bounds(search.scaled, channel, seconds, sums)
    for message in channel.told:
        finding._taken(search, [], message)
    return search.finding()


# The check in fractions.


def shows(certificate):
    """Whether a certificate shows its claim: the tree is read by calling itself, sums are of fractions, and each weight
    by itself."""
    plan = certificate.plan
    if plan is not None:
        if not certificate.rows or len(plan) != certificate.variables or any(value not in (0, 1) for value in plan):
            return False
        if certificate.rows[-1].least is not None or certificate.rows[-1].most is None:
            return False
        if not meets(plan, certificate.rows[:-1]):
            return False
    try:
        is_shown, rest = _shown(list(certificate.rows), list(certificate.tree), certificate.variables, 0)
    except (IndexError, OverflowError):
        return False
    return is_shown and not rest


def _shown(rows, numbers, variables, depth):
    kind, count = numbers[0], numbers[1]
    head = 2 + kind
    if kind not in (0, 1) or count < 0 or len(numbers) < head + 2 * count or depth > 1000:
        raise IndexError
    pairs = [tuple(numbers[head + 2 * at:head + 2 * at + 2]) for at in range(count)]
    rest = numbers[head + 2 * count:]
    if kind == 0:
        return _is_leaf(rows, pairs, variables), rest
    if any(not 0 <= variable < variables for variable, _ in pairs):
        raise IndexError
    below, rest = _shown(rows + [Limits(None, tuple(pairs), numbers[2])], rest, variables, depth + 1)
    above, rest = _shown(rows + [Limits(numbers[2] + 1, tuple(pairs), None)], rest, variables, depth + 1)
    return below and above, rest


def _is_leaf(rows, pairs, variables):
    bound, weights = Fraction(0), [Fraction(0)] * variables
    for row, factor in pairs:
        if row < 0:
            raise IndexError
        least, terms, most = rows[row]
        side = least if factor > 0 else most
        if factor != 0 and side is None:
            return False
        bound += Fraction(factor) * (side if factor != 0 else 0)
        for variable, coefficient in terms:
            weights[variable] += Fraction(factor) * coefficient
    return sum(max(weight, Fraction(0)) for weight in weights) < bound


def changed(draw, certificate):
    """The certificate with one of its numbers changed: of a row, the plan or the tree."""
    lists = files.lists_of(certificate)
    name = draw.choice(("least", "most", "coefficients", "variables", "tree", "tree", "tree",
                        *(["plan"] if lists.plan else [])))
    values = list(getattr(lists, name))
    places = [place for place, value in enumerate(values) if value is not None]
    place = draw.choice(places or [0])
    if places:
        values[place] += draw.choice((-2, -1, 1, 2, -values[place] or 3))
    try:
        return files.certificate_of(lists._replace(**{name: values}))
    except files.CertificateFault:
        return None

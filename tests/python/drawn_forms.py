"""Matrices in every form that callers have, drawn, and the same in fractions; whether the calls agree with these."""
import itertools
from decimal import Decimal
from fractions import Fraction

import nushbaret
from optional import np, pd, sparse

WHOLE = ("bool", "int8", "uint8", "int16", "uint16", "int32", "uint32", "int64", "uint64")
FLOATS = ("float16", "float32", "float64", "longdouble")


class Interface:
    """What becomes an array by `__array_interface__`."""

    def __init__(self, array):
        self.held, self.__array_interface__ = array, array.__array_interface__


def exactly(value, doubles):
    """A cost as a fraction: a float is the decimal that it prints as, or its double; None forbids its pair."""
    if value is None:
        return None
    if hasattr(value, "dtype"):
        if value.dtype.kind in "biu":
            return Fraction(int(value))
        return Fraction(*value.as_integer_ratio()) if doubles else Fraction(str(value))
    return Fraction(value) if doubles or not isinstance(value, float) else Fraction(repr(value))


def values(draw, kind, shape):
    """Values of a kind, as an array."""
    rng = np.random.default_rng(draw.randrange(2**32))
    if kind in WHOLE:
        most = 2 if kind == "bool" else min(np.iinfo(kind).max, draw.choice((3, 100, 2**53, 2**63 - 1)))
        return rng.integers(0, most, shape, "uint64").astype(kind)
    scale = draw.choice((1, 100, 1e-3))
    held = rng.random(shape) * scale if draw.random() < 0.6 else rng.integers(-9, 10, shape) / draw.choice((1, 4, 10))
    return held.astype(kind)


def objects(draw, shape):
    """Numbers of several kinds."""
    drawn = (lambda: draw.randrange(-5, 20), lambda: draw.random(), lambda: Decimal(draw.randrange(-50, 200)) / 10,
             lambda: Fraction(draw.randrange(-5, 20), 3), lambda: None if draw.random() < 0.3 else 2)
    chosen = draw.choice((drawn[:2], drawn[:1], drawn, drawn[2:]))
    return [[draw.choice(chosen)() for _ in range(shape[1])] for _ in range(shape[0])]


def arranged(draw, held):
    """The same array in another order of memory."""
    way = draw.randrange(6)
    if way == 0:
        return np.asfortranarray(held)
    if way == 1:
        wide = np.zeros((2 * held.shape[0], 3 * held.shape[1]), held.dtype)
        wide[::2, ::3] = held
        return wide[::2, ::3]
    if way == 2:
        return np.ascontiguousarray(held[::-1, ::-1])[::-1, ::-1]
    return held.astype(held.dtype.newbyteorder()) if way == 3 and held.dtype != np.longdouble else held


class Case:
    """A form of a matrix, its costs in fractions by both senses of a float (None where a pair is forbidden), whether it
    is sparse, and the words of a call."""

    def __init__(self, draw):
        shape = draw.randrange(1, 5), draw.randrange(1, 5)
        self.maximize, self.words, self.is_sparse, self.name = draw.random() < 0.4, {}, False, "lists"
        if np is None or draw.random() < 0.2:
            held = objects(draw, shape)
            self.form = draw.choice((list, tuple))(map(draw.choice((list, tuple)), held))
        else:
            held = self.of_array(draw, shape)
        self.exact = {doubles: [[exactly(cost, doubles) for cost in row] for row in held] for doubles in (False, True)}

    def of_array(self, draw, shape):
        """An array, or what is made of one; returns its costs."""
        kind = draw.choice(WHOLE + FLOATS + ("float64", "float32", "object"))
        if kind == "object":
            held = np.array([*objects(draw, shape), None], object)[:-1]
            held = np.array([list(row) for row in held], object).reshape(shape)
        else:
            held = arranged(draw, values(draw, kind, shape))
        self.name, self.form = kind, held
        way = draw.randrange(8)
        if way == 0 and kind not in ("object", "longdouble"):
            self.name, self.form = f"interface of {kind}", Interface(held)
        elif way == 1:
            self.name, self.form = f"masked {kind}", np.ma.array(held, mask=False)
        elif way == 2 and kind != "object":
            mask = np.random.default_rng(draw.randrange(2**32)).random(shape) < 0.2
            self.name, self.form, self.words = f"masked {kind}", np.ma.array(held, mask=mask), {"missing": "forbid"}
            return [[None if mask[row, column] else held[row, column] for column in range(shape[1])]
                    for row in range(shape[0])]
        elif way == 3 and pd is not None and kind not in ("longdouble",):
            self.name, self.form = f"frame of {kind}", pd.DataFrame(held.astype(held.dtype.newbyteorder("=")))
        elif way == 4 and pd is not None and kind in ("float64", "int64"):
            return self.of_mixed_frame(draw, held)
        elif way == 5 and sparse is not None and kind not in ("object", "float16", "longdouble", "bool"):
            return self.of_sparse(draw, held)
        return held

    def of_mixed_frame(self, draw, held):
        """A frame whose columns are of several kinds."""
        frame = pd.DataFrame(np.ascontiguousarray(held))
        own = values(draw, draw.choice(("int8", "float32", "int64")), (len(held),))
        frame[0] = own
        self.name, self.form = "mixed frame", frame
        return [[own[row], *held[row][1:]] for row in range(len(held))]

    def of_sparse(self, draw, held):
        held = np.ascontiguousarray(held.astype(held.dtype.newbyteorder("=")))
        allowed = np.random.default_rng(draw.randrange(2**32)).random(held.shape) < 0.7
        rows, columns = np.nonzero(allowed)
        entries = sparse.coo_matrix((held[rows, columns], (rows, columns)), held.shape)
        self.is_sparse, self.form = True, draw.choice((entries, entries.tocsr(), entries.tocsc(),
                                                       sparse.csr_array(entries)))
        self.name = f"sparse {self.form.format} of {held.dtype}"
        return [[cost if allowed[row, column] else None for column, cost in enumerate(own)]
                for row, own in enumerate(held)]

    def best(self, doubles):
        """The best sum of as many pairs as the shorter side has; None where there is no plan."""
        costs = self.exact[doubles]
        if len(costs) > len(costs[0]):
            costs = [list(column) for column in zip(*costs)]
        sums = (sum(own) for own in ([costs[row][column] for row, column in enumerate(plan)]
                                     for plan in itertools.permutations(range(len(costs[0])), len(costs)))
                if None not in own)
        return (max if self.maximize else min)(sums, default=None)

    def found(self, doubles):
        """The sum of the plan that a call finds; None where it says that there is none."""
        try:
            if doubles:
                rows, columns = nushbaret.linear_sum_assignment(self.form, self.maximize, **self.words)
            elif self.is_sparse:
                result = nushbaret.solve_sparse(self.form, maximize=self.maximize, **self.words)
            else:
                result = nushbaret.solve(self.form, self.maximize, **self.words)
            rows, columns = (rows, columns) if doubles else (result.rows, result.columns)
        except nushbaret.Infeasible:
            return None
        cost = sum(self.exact[doubles][int(row)][int(column)] for row, column in zip(rows, columns))
        if not doubles and Fraction(result.cost) != cost or len(set(map(int, columns))) != len(rows):
            raise AssertionError(f"{self.name}: {result.cost if not doubles else columns}")
        return cost

    def judge(self, doubles):
        """That a call says what the fractions say. What isn't a double is refused by SciPy's call."""
        if doubles and self.is_sparse:
            return
        whole = [cost for row in self.exact[True] for cost in row if cost is not None]
        found, best = self.found(doubles), self.best(doubles)
        if found != best:
            raise AssertionError(f"{self.name}, doubles {doubles}: {found} in the place of {best}; {whole}")


class Wrong:
    """A form with a cost that is refused, and the error."""

    def __init__(self, draw):
        bad, self.fault = draw.choice(((float("nan"), ValueError), ("x", (TypeError, ValueError)), (1j, TypeError),
                                       (float("-inf"), ValueError)))
        row, column = draw.randrange(3), draw.randrange(3)
        held = [[draw.randrange(9) for _ in range(3)] for _ in range(3)]
        held[row][column] = bad
        self.form = held
        if np is not None and draw.random() < 0.6:
            kind = {str: object, complex: complex}.get(type(bad), draw.choice((float, np.float32, np.float16, object)))
            self.form = np.array(held, kind)
            if pd is not None and draw.random() < 0.4:
                self.form = pd.DataFrame(self.form)

    def judge(self):
        for call in (nushbaret.solve, nushbaret.linear_sum_assignment):
            try:
                call(self.form)
            except self.fault:
                continue
            raise AssertionError(f"not refused by {call.__name__}: {self.form}")


def judge_some(draw, count):
    """Judges so many cases, each tenth of them wrong ones; returns how many there were of each form."""
    names = {}
    for number in range(count):
        if number % 10 == 9:
            Wrong(draw).judge()
            continue
        case = Case(draw)
        for doubles in (False, True):
            case.judge(doubles)
        names[case.name] = names.get(case.name, 0) + 1
    return names

"""Plans for doubles held against exact numbers: costs of the kinds that trackers and matchers have, and whether a plan
is best for them, shown in whole numbers without the library. As a script it looks at many: exact_doubles.py [SMALL
[LARGE]] problems of up to 12 x 30 and of up to 200 x 200. Needs NumPy."""
import sys

from optional import np


def _boxes(rng, n):
    corner, size = rng.random((n, 2)) * 100, rng.random((n, 2)) * 20 + 5
    return np.hstack([corner, corner + size])


def _overlaps(rng, n, m):
    """1 - IoU of boxes and of moved ones."""
    most = max(n, m)
    first = _boxes(rng, most)
    second = (first + rng.normal(0, 2, first.shape))[rng.permutation(most)][:m]
    first = first[:n]
    low, high = np.maximum(first[:, None, :2], second[None, :, :2]), np.minimum(first[:, None, 2:], second[None, :, 2:])
    common = np.clip(high - low, 0, None).prod(2)
    return 1 - common / (_area(first)[:, None] + _area(second)[None] - common)


def _area(boxes):
    return (boxes[:, 2] - boxes[:, 0]) * (boxes[:, 3] - boxes[:, 1])


def _distances(rng, n, m):
    return np.sqrt(((rng.random((n, 1, 2)) - rng.random((1, m, 2)))**2).sum(2))


def _gated(gate):
    def draw(rng, n, m):
        """Distances of points and of moved ones; a far pair costs the gate."""
        first = rng.random((max(n, m), 2)) * 200
        second = (first + rng.normal(0, 4, first.shape))[rng.permutation(max(n, m))][:m]
        costs = np.sqrt(((first[:n, None] - second[None])**2).sum(2))
        return np.where(costs > 30, gate, costs)
    return draw


def _nearly_tied(rng, n, m):
    costs = rng.integers(1, 5, (n, m)) / 10.0
    return np.nextafter(costs, costs + rng.integers(-1, 2, (n, m)))


KINDS = {
    "uniform": lambda rng, n, m: rng.random((n, m)),
    "logarithms": lambda rng, n, m: -np.log(rng.random((n, m))),
    "distances": _distances,
    "1 - IoU": _overlaps,
    "uniform of 32 bits": lambda rng, n, m: rng.random((n, m), dtype=np.float32).astype(np.float64),
    "distances of 32 bits": lambda rng, n, m: _distances(rng, n, m).astype(np.float32).astype(np.float64),
    "gate 1e5": _gated(1e5),
    "gate 1e9": _gated(1e9),
    "gate 1e15": _gated(1e15),
    "gate inf": _gated(np.inf),
    "whole": lambda rng, n, m: rng.integers(0, 10, (n, m)).astype(float),
    "tenths": lambda rng, n, m: rng.integers(0, 10, (n, m)) / 10.0,
    "nearly tied": _nearly_tied,
    "products": lambda rng, n, m: rng.random((n, 1)) * rng.random((1, m)),
    "sums": lambda rng, n, m: rng.random((n, 1)) + rng.random((1, m)),
    "normal": lambda rng, n, m: rng.normal(size=(n, m)),
    "tiny": lambda rng, n, m: rng.integers(0, 1000, (n, m)) * 5e-324,
    "huge": lambda rng, n, m: rng.random((n, m)) * 1e300,
    "many infinite": lambda rng, n, m: np.where(rng.random((n, m)) < 0.6, np.inf, rng.random((n, m)) * 3),
    "1e300 among others": lambda rng, n, m: np.where(rng.random((n, m)) < 0.5, 1e300, rng.random((n, m))),
    "of any size": lambda rng, n, m: np.ldexp(rng.random((n, m)), rng.integers(-40, 40, (n, m))),
}
SMALL = [(2, 2), (3, 3), (5, 5), (8, 8), (12, 12), (3, 5), (8, 12), (12, 30), (7, 4)]
LARGE = [(50, 50), (100, 100), (200, 200), (60, 90)]


def whole_of(costs):
    """Doubles as whole numbers of one unit, exactly, in an array of objects; an infinite one is more than all others
    together."""
    ratios = [None if value in (np.inf, -np.inf) else value.as_integer_ratio() for value in costs.ravel().tolist()]
    unit = max((ratio[1] for ratio in ratios if ratio), default=1)
    found = [None if ratio is None else ratio[0] * (unit // ratio[1]) for ratio in ratios]
    far = 1 + 2 * sum(abs(value) for value in found if value is not None)
    whole = np.array([far if value is None else value for value in found], object).reshape(costs.shape)
    return whole, far


def is_best(costs, rows, columns, maximize=False):
    """Whether a plan is a best one for doubles: it has no forbidden pair, and no round of changes costs less (Bellman
    and Ford), in whole numbers. Rows or columns without a pair get dummies, which cost nothing."""
    whole, far = whole_of(-costs if maximize else costs)
    if (len(set(rows.tolist())) != min(costs.shape) or len(set(columns.tolist())) != min(costs.shape)
        or (whole[rows, columns] >= far).any()):
        return False
    most = max(costs.shape)
    square = np.zeros((most, most), object)
    square[:costs.shape[0], :costs.shape[1]] = whole
    own = np.full(most, -1)
    own[rows] = columns
    own[own < 0] = sorted(set(range(most)).difference(columns.tolist()))
    changes = square[:, own] - square[np.arange(most), own][:, None]
    worth = np.zeros(most, object)
    for _ in range(most + 1):
        lower = np.minimum(worth, (worth[:, None] + changes).min(axis=0))
        if (lower == worth).all():
            return True
        worth = lower
    return False


def look(call, seed, count, sizes, infeasible):
    """How many plans were best, and how many problems had none, of so many drawn ones; AssertionError for one that
    isn't. `infeasible` is what the call raises where there is no plan."""
    best, without, names = 0, 0, list(KINDS)
    for turn in range(count):
        rng = np.random.default_rng([seed, turn])
        name, (n, m), maximize = names[turn % len(names)], sizes[turn // len(names) % len(sizes)], turn % 5 == 0
        costs = KINDS[name](rng, n, m)
        costs = -costs if maximize else costs
        try:
            rows, columns = call(costs, maximize)
        except infeasible:
            assert np.isinf(costs).any(), name
            without += 1
            continue
        assert is_best(costs, rows, columns, maximize), f"{name}, {n} x {m}, turn {turn}, maximize {maximize}"
        best += 1
    return best, without


def main():
    import nushbaret
    counts = [int(word) for word in sys.argv[1:]] + [20000, 2000][len(sys.argv) - 1:]
    for count, sizes in zip(counts, (SMALL, LARGE)):
        best, without = look(nushbaret.linear_sum_assignment, 1, count, sizes, nushbaret.Infeasible)
        print(f"up to {sizes[-2]}: {best} plans, each best for its doubles; {without} problems without a plan",
              flush=True)


if __name__ == "__main__":
    main()

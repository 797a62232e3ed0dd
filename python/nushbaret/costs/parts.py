"""Steps over long arrays of NumPy's, a part at a time: a part stays in the processor's cache, and Ctrl-C is heeded in
between."""
from typing import Any, Callable, Iterator

PART = 2**16

Work = Callable[[slice], Any]


def parts(count: int) -> Iterator[slice]:
    """The places from 0 to `count`, in parts."""
    return (slice(begin, min(begin + PART, count)) for begin in range(0, count, PART))


def filled(numpy: Any, kind: Any, count: int, work: Work) -> Any:
    """An array of so many numbers; `work` gives those of a part."""
    found = numpy.empty(count, kind)
    for part in parts(count):
        found[part] = work(part)
    return found


def places_where(numpy: Any, count: int, work: Work) -> Any:
    """The places, of so many, where `work` says yes for a part."""
    found = [work(part).nonzero()[0] + part.start for part in parts(count)]
    return numpy.concatenate(found) if found else numpy.empty(0, numpy.intp)


def in_order(numpy: Any, values: Any) -> Any:
    """The numbers of an array in the order of C; a copy only where they don't stand so in memory."""
    if values.flags.c_contiguous or values.ndim != 2:
        return values.ravel()
    found = numpy.empty(values.shape, values.dtype)
    turned = abs(values.strides[0]) < abs(values.strides[1])
    into, source = (found.T, values.T) if turned else (found, values)
    height = max(1, PART // max(1, source.shape[1]))
    for begin in range(0, len(source), height):
        into[begin:begin + height] = source[begin:begin + height]
    return found.ravel()


# Doubles as whole numbers: times a power of two, rounded.

# Beyond these powers of two a factor may be no double.
MOST_SHIFT = 900


def size_of(flat: Any) -> float:
    """The greatest size of doubles; not finite where one isn't. (A dot product would start threads.)"""
    return max(float(flat.max()), -float(flat.min())) if flat.size else 0.0


def in_fixed_point(numpy: Any, costs: Any, shift: int) -> Any:
    """Doubles times 2**shift, rounded to the nearest whole numbers, which have less than 51 bits."""
    if not -MOST_SHIFT < shift < MOST_SHIFT:
        return numpy.rint(numpy.ldexp(costs, shift)).astype(numpy.int64)
    # Whatever is added to this double is rounded at its last bit, and the bits of the sum count units of that one.
    adder = numpy.array(1.5 * 2.0**(52 - shift))
    found = numpy.empty(costs.shape, numpy.int64)
    for part in parts(len(costs)):
        numpy.add(costs[part], adder, found[part].view(numpy.float64))
        found[part] -= adder.view(numpy.int64)
    return found

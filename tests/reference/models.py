"""The four codes, the four joins and the models of the console, each made as a generator matrix.

A join puts the matrices of its parts together in blocks, or takes a column or a row away.
"""
import functools

from codes import Code, Refused
from fields import FOUR, THREE, TWO, unit_rows, without

LONGEST_PART = 64  # of repetition and parity
LARGEST_WORKING_LENGTH = 4096


# The four codes


def repetition(field, n):
    if not 1 <= n <= LONGEST_PART:
        raise Refused(11)
    return Code(field, [[1] * n], n, n, [0], ([0], [1]))


def parity(field, n):
    if not 2 <= n <= LONGEST_PART:
        raise Refused(11)
    k = n - 1
    generator = [row + [field.negatives[1]] for row in unit_rows(k)]
    return Code(field, generator, 2, n, list(range(k)), ([0] * k, unit_rows(k)[0]))


def hamming():
    generator = [
        [1, 0, 0, 0, 1, 1, 1],
        [0, 1, 0, 0, 1, 1, 0],
        [0, 0, 1, 0, 1, 0, 1],
        [0, 0, 0, 1, 0, 1, 1],
    ]
    return Code(TWO, generator, 3, 7, [0, 1, 2, 3], ([0, 0, 0, 0], [0, 1, 0, 0]))


def hexacode():
    # Of the message a, b, c the last three places are a·y² + b·y + c at y = 1, x and x + 1.
    generator = [
        [1, 0, 0, 1, 3, 2],
        [0, 1, 0, 1, 2, 3],
        [0, 0, 1, 1, 1, 1],
    ]
    return Code(FOUR, generator, 4, 6, [0, 1, 2], ([0, 0, 0], [1, 0, 0]))


# The four joins


def limited(working_length):
    if working_length > LARGEST_WORKING_LENGTH:
        raise Refused(6)
    return working_length


def joined_pair(u, v, shows_first):
    """The pair of one part, with zeros for the message of the other; None if one of them shows none."""
    if u.pair is None or v.pair is None:
        return None
    if shows_first:
        return tuple(message + [0] * v.k for message in u.pair)
    return tuple([0] * u.k + message for message in v.pair)


def plotkin(u, v):
    """Words u and then u + v, so that u's matrix stands twice and v's below it on the right."""
    if u.n != v.n:
        raise Refused(5)
    working_length = limited(3 * u.n + u.working_length + v.working_length)
    generator = [row + row for row in u.generator] + [[0] * v.n + row for row in v.generator]
    carriers = u.carriers + [None] * v.k
    pair = joined_pair(u, v, 2 * u.d <= v.d)
    return Code(u.field, generator, min(2 * u.d, v.d), working_length, carriers, pair)


def direct_sum(u, v):
    """A word of u and then a word of v: two blocks."""
    working_length = limited(u.n + v.n + u.working_length + v.working_length)
    generator = [row + [0] * v.n for row in u.generator] + [[0] * u.n + row for row in v.generator]
    carriers = u.carriers + [None if carrier is None else carrier + u.n for carrier in v.carriers]
    pair = joined_pair(u, v, u.d <= v.d)
    return Code(u.field, generator, min(u.d, v.d), working_length, carriers, pair)


def carriers_without(carriers, place):
    """The carriers once the word has lost this place."""

    def moved(carrier):
        if carrier is None or carrier == place:
            return None
        return carrier - 1 if carrier > place else carrier

    return [moved(carrier) for carrier in carriers]


def puncture(code, place):
    """The column of a place is taken away."""
    if place >= code.n:
        raise Refused(7)
    if code.d < 2:
        raise Refused(8)
    working_length = limited(code.working_length + code.n)
    generator = [without(row, place) for row in code.generator]
    return Code(code.field, generator, code.d - 1, working_length, carriers_without(code.carriers, place), None)


def shorten(code, message_place):
    """The row of a message place is taken away, and the column that repeats it."""
    if message_place >= code.k:
        raise Refused(7)
    if code.k < 2:
        raise Refused(9)
    carrier = code.carriers[message_place]
    if carrier is None:
        raise Refused(10)
    working_length = limited(code.working_length + code.n)
    generator = [without(row, carrier) for row in without(code.generator, message_place)]
    carriers = carriers_without(without(code.carriers, message_place), carrier)
    return Code(code.field, generator, code.d, working_length, carriers, None)


# The models


def reed_muller(m):
    """RM(1, m): m Plotkin joins over two."""
    code = repetition(TWO, 1)
    for _ in range(m):
        code = plotkin(code, repetition(TWO, code.n))
    return code


def four_pile():
    return plotkin(parity(FOUR, 6), hexacode())


def tower():
    base = puncture(shorten(direct_sum(repetition(FOUR, 4), four_pile()), 1), 5)
    return plotkin(base, repetition(FOUR, 14))


MAKERS = {
    "rep5-three": lambda: repetition(THREE, 5),
    "parity3-three": lambda: parity(THREE, 3),
    "hamming": hamming,
    "hexacode": hexacode,
    "rm3": lambda: reed_muller(3),
    "mariner": lambda: reed_muller(5),
    "four-pile": four_pile,
    "three-pile": lambda: plotkin(parity(THREE, 5), repetition(THREE, 5)),
    "split": lambda: direct_sum(repetition(TWO, 1), repetition(TWO, 2)),
    "rig": lambda: direct_sum(hexacode(), four_pile()),
    "short-hamming": lambda: shorten(hamming(), 0),
    "punctured-hexacode": lambda: puncture(hexacode(), 2),
    "tower": tower,
}


@functools.cache
def model(name):
    """The code of a model, made once, so that the lists and tables that belong to it are made once too."""
    return MAKERS[name]()

"""What the program `vectors` prints, by the matrices."""
import itertools

from codes import weight
from fields import FOUR
from models import hamming, hexacode

MARK = 255  # a place whose symbol is lost: every byte that is no symbol is one, and this one is put where one is wanted


def digits(symbols):
    return "".join("M" if x == MARK else str(x) for x in symbols)


def word_lines(name, code):
    for message in code.messages():
        yield f"{name} {digits(message)} {digits(code.word(message))}"


def weight_lines(name, code):
    weights = [weight(word) for word in code.words]
    for occurring in sorted(set(weights)):
        yield f"{name} weight {occurring}: {weights.count(occurring)} words"


def neighbours(pairs):
    """Two pairs change places, or two pairs are turned round, or every symbol is multiplied by 2."""
    for i, j in itertools.combinations(range(3), 2):
        exchanged = list(pairs)
        exchanged[i], exchanged[j] = pairs[j], pairs[i]
        yield tuple(exchanged)
        yield tuple(pair[::-1] if place in (i, j) else pair for place, pair in enumerate(pairs))
    yield tuple(tuple(FOUR.scaled(2, pair)) for pair in pairs)


def images(shape):
    """All that is reached from the shape, one step after the other."""
    reached = {shape}
    fresh = [shape]
    while fresh:
        found = set(neighbours(fresh.pop())) - reached
        reached |= found
        fresh += found
    return reached


def shape_lines(name, code):
    for text in ("01 01 23", "23 23 23", "00 11 11", "11 22 33", "00 00 00"):
        shape = tuple(tuple(int(digit) for digit in pair) for pair in text.split())
        reached = [tuple(itertools.chain(*pairs)) for pairs in images(shape)]
        words = [image for image in reached if code.message_of(image) is not None]
        yield f"{name} shape {text}: {len(reached)} images, {len(words)} words"


def mend_lines(code, most_marks):
    for received in itertools.product([*range(code.q), MARK], repeat=code.n):
        if received.count(MARK) <= most_marks:
            word = code.word_in_reach(received)
            yield f"mend {digits(received)}: {'refused 3' if word is None else digits(word)}"


def vector_lines():
    yield from word_lines("hexacode", hexacode())
    yield from weight_lines("hexacode", hexacode())
    yield from shape_lines("hexacode", hexacode())
    yield from word_lines("hamming", hamming())
    yield from mend_lines(hamming(), 2)

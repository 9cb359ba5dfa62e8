#!/usr/bin/env python3
"""Checks the second program by itself: words worked out by hand, distances, and one way to mend against the other."""
import random
import sys

sys.dont_write_bytecode = True  # nothing is to be left beside the sources

from codes import LONGEST_WORD_LIST, weight
from models import MAKERS, hexacode, model
from store import Store

MARK = 255

# n, k, d and W of the models, and the carriers.
NUMBERS = {
    "rep5-three": ((5, 1, 5, 5), [0]),
    "parity3-three": ((3, 2, 2, 3), [0, 1]),
    "hamming": ((7, 4, 3, 7), [0, 1, 2, 3]),
    "hexacode": ((6, 3, 4, 6), [0, 1, 2]),
    "rm3": ((8, 4, 4, 29), [0, None, None, None]),
    "mariner": ((32, 6, 16, 125), [0] + [None] * 5),
    "four-pile": ((12, 8, 4, 30), [0, 1, 2, 3, 4, None, None, None]),
    "three-pile": ((10, 5, 4, 25), [0, 1, 2, 3, None]),
    "split": ((3, 2, 1, 6), [0, 1]),
    "rig": ((18, 11, 4, 54), [0, 1, 2, 6, 7, 8, 9, 10, None, None, None]),
    "short-hamming": ((6, 3, 3, 14), [0, 1, 2]),
    "punctured-hexacode": ((5, 3, 3, 12), [0, 1, None]),
    "tower": ((28, 9, 6, 137), [0, 4, None, 5, 6, None, None, None, None]),
}

# Messages and their words.
WORDS = [
    ("hexacode", "123", "123030"),
    ("four-pile", "12301100", "123011023123"),
    ("short-hamming", "100", "100110"),
    ("mariner", "000001", "0" * 16 + "1" * 16),
    ("mariner", "010000", "01" * 16),
    ("split", "10", "100"),
    ("punctured-hexacode", "123", "12030"),
    # With the 0 put in, the sum has the messages 1 and 0 2 3 0 1 2 3 0. In the pile u is 023010 and v is 230101, so the
    # sum's word is 1111 023010 213111. It loses place 4, a 0, and then place 5, a 3. The right half adds 14 ones.
    ("tower", "123012301", "11112010213111" + "00003101302000"),
]

# Received words, and the words that they are mended to, or None. M is a mark.
MENDED = [
    ("rep5-three", "22M02", "22222"),
    ("rep5-three", "22M01", None),
    ("parity3-three", "1M2", "102"),
    ("parity3-three", "112", None),
    ("hexacode", "100MMM", "100132"),
    ("hexacode", "10MMMM", None),
    ("four-pile", "103011M23123", "123011023123"),
    ("split", "10M", None),
    ("mariner", "1" * 7 + "0" * 24 + "M", "0" * 32),
    ("mariner", "1" * 8 + "0" * 24, None),
]

# Symbols of levels, most significant first.
LEVELS = [("rep5-three", 200, "021102"), ("hexacode", 200, "3020"), ("hamming", 200, "11001000")]


def symbols(text):
    return bytes(MARK if digit == "M" else int(digit) for digit in text)


def expect(what, found, wanted):
    if found != wanted:
        sys.exit(f"{what}: {found}, not {wanted}")


def check_by_hand():
    for name, (numbers, carriers) in NUMBERS.items():
        code = model(name)
        expect(name, (code.n, code.k, code.d, code.working_length), numbers)
        expect(f"carriers of {name}", code.carriers, carriers)
    for name, message, word in WORDS:
        expect(f"{name} {message}", model(name).word(symbols(message)), symbols(word))
        expect(f"{name} {word}", model(name).message_of(symbols(word)), symbols(message))
    for name, received, word in MENDED:
        expect(f"{name} {received}", model(name).word_in_reach(symbols(received)), word and symbols(word))
    for name, level, digits in LEVELS:
        expect(f"level {level} over {name}", bytes(Store(model(name), 1, 1).symbols_of_level(level)), symbols(digits))
    cells = bytearray(12)
    Store(model("four-pile"), 1, 2).record(0, [200, 7], cells, bytearray(30))
    expect("levels 200, 7", bytes(cells), symbols("302001311211"))


def check_distances():
    """The least weight of a word other than zero, over all words. The rig has the words of its parts side by side."""
    for name in sorted(set(MAKERS) - {"rig"}):
        expect(f"distance of {name}", min(map(weight, model(name).words[1:])), model(name).d)
    expect("distance of rig", min(hexacode().d, model("four-pile").d), model("rig").d)


def damaged(chosen, code, word):
    received = bytearray(word)
    for place in chosen.sample(range(code.n), chosen.randint(0, min(code.d + 1, code.n))):
        received[place] = chosen.choice([MARK, chosen.randrange(256)] + 2 * [chosen.randrange(code.q)])
    return bytes(received)


def check_mends():
    """Both ways to mend give the same where both can be gone; for the long codes, a word in reach is found again."""
    chosen = random.Random(0)
    for name in sorted(set(MAKERS) - {"mariner"}):
        code = model(name)
        for _ in range(500):
            word = code.word([chosen.randrange(code.q) for _ in range(code.k)])
            received = damaged(chosen, code, word)
            mended = code.word_by_syndrome(received)
            if code.q**code.k <= LONGEST_WORD_LIST:
                expect(f"{name} {list(received)}", mended, code.word_of_least_toll(received))
            elif code.toll(word, received) < code.d:
                expect(f"{name} {list(received)}", mended, word)
            elif mended is not None and code.toll(mended, received) >= code.d:
                sys.exit(f"{name} {list(received)}: {list(mended)} is not in reach")


if __name__ == "__main__":
    check_by_hand()
    check_distances()
    check_mends()
    print("examples, distances and mends: as they should be")

#!/usr/bin/env python3
"""Prints random scripts for the console, the same one for the same arguments.

    stress.py SEED LINES [MODEL ..]    about LINES lines over all models, or over these
    stress.py limits                   a script that takes sizes and a tally to their limits

To compare two programs, run both on the same script:

    python3 stress.py 1 500 > script
    python3 reference.py console < script | cmp - <(console < script)

Every line is also carried out here by the second program, so that the next one can be chosen by what has come of it:
damage goes into words that are recorded, slips that are out are let go, and memory that was made short is soon made
long enough again. Damage is mostly just below the distance and at it.
"""
import random
import sys

sys.dont_write_bytecode = True  # nothing is to be left beside the sources

from models import MAKERS
from script import COMMANDS, Session
from words import LONGEST_LIST, list_text

LONGEST_CELLS_LIST = 3000  # stores with more cells are not filled by a list
UNREADABLE = "-1 +3 256 1000000001 1.5 * 3* *3 2*3*4 4*256 x 0x1 2000001*0 99999999999999999999*0 a*1 1*b 1,000".split()
UNKNOWN = ["Send 1", " send 1", "records 0 1", "touch up 0", "let-go0", "\tstop", "?", "> stop", "model\t", "M", "0"]


class Writer:
    """Chooses lines one after the other."""

    def __init__(self, seed, names):
        self.random = random.Random(seed)
        self.names = names
        self.session = Session()
        self.queue = []  # lines that belong together and come next

    # Choices

    def chance(self, probability):
        return self.random.random() < probability

    def number(self, first, last):
        return self.random.randint(first, last)

    def pick(self, **weights):
        """One of the names, by weight; a line stands for `-`."""
        names = [name.replace("_", "-") for name in weights]
        return self.random.choices(names, list(weights.values()))[0]

    def near(self, size):
        """Mostly enough, now and then one too few or far too few."""
        kind = self.pick(exact=10, more=4, less=2, few=1)
        sizes = {"exact": size, "more": size + self.number(1, 9), "less": max(size - 1, 0)}
        return sizes[kind] if kind in sizes else self.number(0, size)

    def large(self):
        """A size that is as large as a list may be, or about that."""
        return self.random.choice([100_000, 1_999_000, LONGEST_LIST, LONGEST_LIST + 1])

    def number_near(self, size):
        """A number below this size, now and then not."""
        if self.chance(0.9):
            return self.number(0, max(size - 1, 0))
        return self.random.choice([size, size + 1, 63, 64, 65, 255, 256, 65536, 1_000_000_000])

    def dirt(self, count):
        byte = self.random.choice([0, 1, 2, 77, 170, 255])
        if self.chance(0.7):
            return bytes([byte]) * count
        return bytes(self.number(0, 255) for _ in range(count))

    def mark(self, q):
        return self.random.choice([255, q, self.number(q, 255)])

    def message(self, code):
        if self.chance(0.1):
            return bytes(code.k)
        return bytes(self.number(0, code.q - 1) for _ in range(code.k))

    def damages(self, code, word):
        """Bytes for some places of the word: marks and wrong symbols that cost about the distance."""
        toll = self.random.choice([0, 1, code.d - 1, code.d - 1, code.d - 1, code.d, code.d, code.d + 1, code.n])
        wrong = self.number(0, toll // 2)
        # Now and then all the damage is in one half.
        start = self.random.choice([0, 0, code.n // 2])
        end = self.random.choice([code.n, code.n, max(code.n // 2, start + 1)])
        places = self.random.sample(range(start, end), min(toll - wrong, end - start))
        for i, place in enumerate(places):
            if i < wrong:
                yield place, (word[place] + self.number(1, code.q - 1)) % code.q
            else:
                yield place, self.mark(code.q)

    def damaged(self, code, word):
        received = bytearray(word)
        for place, byte in self.damages(code, word):
            received[place] = byte
        return bytes(received)

    def list_words(self, listed):
        """The list in one of the ways to write it."""
        if self.chance(0.7):
            return list_text(listed).split() if listed else []
        words = [self.random.choice(["{}", "{}", "1*{}", "0{}", "001*{}"]).format(byte) for byte in listed]
        if self.chance(0.2):
            words.insert(self.number(0, len(words)), f"0*{self.number(0, 255)}")
        return words

    def line(self, keyword, *arguments):
        """A line of a keyword, numbers and lists."""
        words = [keyword]
        for argument in arguments:
            words += self.list_words(argument) if isinstance(argument, (bytes, bytearray)) else [str(argument)]
        return " ".join(words)

    # Lines that need no store

    def model_line(self):
        return self.line("model", self.random.choice(self.names))

    def making_line(self):
        keyword = self.pick(
            make_repetition=1, make_parity=1, make_plotkin=2, make_sum=2, make_puncture=2, make_shorten=2
        )  # fmt: skip
        length = self.random.choice([0, 1, 2, 2, 3, 7, 32, 63, 64, 65, 128])
        if keyword in ("make-repetition", "make-parity"):
            return self.line(keyword, length)
        if keyword in ("make-puncture", "make-shorten"):
            return self.line(keyword, max(length - self.number(-1, 3), 0), length)
        return self.line(keyword, length if self.chance(0.5) else self.random.choice([0, 1, 2, 64, 65]), length)

    def with_dirt(self, content, size):
        """Memory that begins with the content and has about this size."""
        size = self.near(size)
        return content[:size] + self.dirt(size - len(content))

    def call_line(self, code):
        keyword = self.pick(send=2, mend=5, read=2, show=1)
        message = self.message(code)
        word = code.word(message)
        if keyword == "send" and self.chance(0.2):
            place = self.number(0, code.k - 1)
            message = message[:place] + bytes([self.mark(code.q)]) + message[place + 1 :]
        if keyword == "mend" or keyword == "read" and self.chance(0.4):
            word = self.damaged(code, word)
        if self.chance(0.05):
            word = bytes(self.number(0, code.q) for _ in range(code.n))
        if keyword == "show":
            line = self.line("show", self.dirt(self.near(2 * code.working_length)))
        else:
            line = self.line(keyword, self.with_dirt(message if keyword == "send" else word, code.working_length))
        return f"{line} {self.large()}*{self.number(0, 255)}" if self.chance(0.01) else line

    def store_line(self):
        if self.chance(0.15):
            cues = self.random.choice([0, 1, 12, 47, 48, 63, 64, 65, 1_000_000_000])
            levels = self.random.choice([0, 1, 12, 383, 384, 385, 511, 512, 513, 1_000_000_000])
            return self.line("store", cues, levels)
        return self.line("store", self.number(1, 4), self.number(1, 9))

    # Lines for a store

    def levels(self, store):
        count = store.levels if self.chance(0.6) else self.number(0, store.levels)
        if self.chance(0.06):
            count = store.levels + self.number(1, 3)
        return self.dirt(count) if self.chance(0.3) else bytes(self.number(0, 255) for _ in range(count))

    def cells_line(self, store):
        cells = bytes(self.session.cells)
        kind = self.pick(print=8, words=3, symbols=1, shorter=1, longer=1, bytes=1)
        if store.cells > LONGEST_CELLS_LIST:
            return "cells" if self.chance(0.1) else f"cells {store.cells}*{self.number(0, 3)}"
        if kind == "print":
            return "cells"
        if kind == "words":
            # Words of any messages: of some no level comes, or something that is not 0 is left behind the levels.
            words = (store.code.word(self.message(store.code)) for _ in range(store.cues * store.words))
            return self.line("cells", b"".join(words))
        if kind == "symbols":
            return self.line("cells", bytes(self.number(0, store.code.q) for _ in range(store.cells)))
        if kind == "shorter":
            return self.line("cells", cells[: self.near(max(store.cells - 1, 0))] or b"\0")
        if kind == "longer":
            return self.line("cells", cells + self.dirt(self.number(1, 9)))
        return self.line("cells", self.dirt(store.cells))

    def damage_lines(self, store):
        """Damage to one word, then a call that meets it."""
        cue = self.random.choice(sorted(store.recorded) or [0])
        where = self.random.choice(store.word_slices(cue))
        damages = self.damages(store.code, self.session.cells[where].ljust(store.code.n, b"\0"))
        lines = [self.line("damage", where.start + place, byte) for place, byte in damages if self.chance(0.97)]
        lines.append(self.line(self.random.choice(["touch-up", "recall"]), cue))
        if self.chance(0.1):
            lines.insert(0, self.line("damage", self.number_near(len(self.session.cells)), self.number(0, 255)))
        return lines

    def repair_line(self, store):
        """Makes long enough again what is too short for the store's calls, if something is."""
        if len(self.session.cells) < store.cells:
            return f"cells {store.cells}*0"
        if self.session.memory_size < store.code.working_length:
            return self.line("memory", store.code.working_length + self.number(0, 3), self.number(0, 255))
        if self.session.levels_size < store.levels:
            return self.line("levels", store.levels + self.number(0, 3), self.number(0, 255))
        return None

    def slip(self):
        out = sorted(self.session.slips)
        return self.random.choice(out) if out and self.chance(0.9) else self.number(0, self.session.slips_given + 1)

    def store_call_line(self, store):
        repair = self.repair_line(store)
        if repair and self.chance(0.4):
            return repair
        if self.session.running and self.chance(0.8):
            keyword = self.pick(touch_up=4, recall=4, stop=1, tally=1, cells=2, damage=8, memory=1, levels=1)
        else:
            keyword = self.pick(
                record=8, record_by_slip=4, hold=4, other_slip=2, let_go=4, wipe=1, touch_up=2, recall=4, start=1,
                stop=0.3, tally=1, cells=2, damage=5, memory=1, levels=1,
            )  # fmt: skip
        cue = self.number_near(store.cues)
        if keyword == "damage":
            first, *self.queue = self.damage_lines(store)
            return first
        if keyword == "cells":
            return self.cells_line(store)
        if keyword == "record":
            return self.line("record", cue, self.levels(store))
        if keyword == "record-by-slip":
            return self.line("record-by-slip", self.slip(), self.levels(store))
        if keyword == "let-go":
            return self.line("let-go", self.slip())
        if keyword in ("memory", "levels"):
            size = self.near(store.code.working_length if keyword == "memory" else store.levels)
            return self.line(keyword, self.large() if self.chance(0.02) else size, self.number(0, 255))
        return keyword if keyword in ("start", "stop", "tally") else self.line(keyword, cue)

    # Lines that cannot be carried out, and all lines

    def spoiled(self, line):
        """The line with a fault in it."""
        words = line.split(" ")
        place = self.number(0, len(words))
        kind = self.pick(extra=2, missing=2, empty=2, replaced=4, trailing=1)
        if kind == "extra":
            words.insert(place, self.random.choice(["0", "1", "7", *UNREADABLE]))
        elif kind == "missing":
            words.pop()
        elif kind == "empty":
            words.insert(place, "")
        elif kind == "replaced":
            words[min(place, len(words) - 1)] = self.random.choice(UNREADABLE)
        else:
            words.append("")
        return " ".join(words)

    def any_command(self):
        """A command with a number or two, whether or not it can be carried out now."""
        keyword = self.random.choice(sorted(set(COMMANDS) - {b"model"})).decode()
        return self.line(keyword, *(self.number(0, 5) for _ in range(self.random.choice([0, 1, 1, 2, 2, 3]))))

    def fitting_line(self):
        session = self.session
        if not session.has_model and self.chance(0.5):
            return self.any_command()
        if not session.has_model or self.chance(0.03):
            return self.model_line()
        if self.chance(0.04):
            return self.making_line()
        if session.store is not None:
            return self.store_call_line(session.store)
        if session.code is None:
            return self.model_line()
        return self.store_line() if self.chance(0.05) else self.call_line(session.code)

    def next_line(self):
        if self.queue:
            return self.queue.pop(0)
        kind = self.pick(fitting=90, spoiled=5, any=3, unknown=0.5, comment=0.3, blank=0.3)
        if kind == "fitting":
            return self.fitting_line()
        if kind == "spoiled":
            return self.spoiled(self.fitting_line())
        if kind == "any":
            return self.any_command()
        return {"unknown": self.random.choice(UNKNOWN), "comment": "# a comment", "blank": ""}[kind]

    def lines(self, count):
        for _ in range(count):
            line = self.next_line()
            if line and not line.startswith("#"):
                self.session.answer(line.encode())
            yield line


def size_lines():
    """Stores just below and just above the most cells and the ranges, and the longest lists."""
    for sizes in ("64 384", "64 385", "47 512", "48 511", "48 512", "64 512", "65 1", "0 1", "1 0", "1 513", "1 1"):
        yield "model mariner"
        yield f"store {sizes}"
        yield "record 63 1 2 3"
        yield "recall 63"
        yield "send 125*0"
    yield "cells 2000000*1"
    yield "cells 1999999*1 1 1"
    yield "record 0 255"
    yield "damage 1999999 7"
    yield "damage 2000000 7"
    yield "cells"
    yield "memory 2000000 9"
    yield "memory 2000001 9"
    yield "levels 2000000 9"
    yield "levels 2000001 9"
    yield "recall 0"
    yield "model mariner"
    yield "send 0 1 0 0 0 1 1999994*7"
    yield "send 0 1 0 0 0 1 1999995*7"


def tally_lines():
    """One cue of as many words as there can be; each time all of them are damaged and mended again."""
    words, length = 3072, 5
    yield "model rep5-three"
    yield "store 1 512"
    yield "record 0"
    for damaged in [words] * 21 + [1022, 0, 1, 3]:
        yield " ".join(["cells"] + ["4*0 1"] * damaged + [f"{(words - damaged) * length}*0"])
        yield "touch-up 0"
        yield "tally"


def main(arguments):
    if arguments == ["limits"]:
        lines = [*size_lines(), *tally_lines()]
    elif len(arguments) >= 2 and all(map(str.isdigit, arguments[:2])) and set(arguments[2:]) <= set(MAKERS):
        lines = Writer(int(arguments[0]), arguments[2:] or list(MAKERS)).lines(int(arguments[1]))
    else:
        sys.exit("usage: stress.py SEED LINES [MODEL ..] | stress.py limits")
    sys.stdout.writelines(line + "\n" for line in lines)


if __name__ == "__main__":
    main(sys.argv[1:])

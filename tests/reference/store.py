"""The store of cues over a code: levels are kept as words in cells that are handed to each call.

A slip is the number of the cue that it was given for: which store gave it makes no difference to any answer.
"""
from codes import Refused

MOST_CUES = 64
MOST_LEVELS = 512
MOST_CELLS = 1_048_576
LARGEST_LEVEL = 255
LARGEST_TALLY = 65_535


class Store:
    """A store of so many cues of so many levels. Which cues are recorded and which are held is kept in two sets."""

    def __init__(self, code, cues, levels):
        if not 1 <= cues <= MOST_CUES or not 1 <= levels <= MOST_LEVELS:
            raise Refused(11)
        self.code = code
        self.cues = cues
        self.levels = levels
        self.level_symbols = 1
        while code.q**self.level_symbols <= LARGEST_LEVEL:
            self.level_symbols += 1
        self.words = -(-levels * self.level_symbols // code.k)  # for each cue, rounded up
        self.cells = cues * self.words * code.n
        if self.cells > MOST_CELLS:
            raise Refused(6)
        self.recorded = set()
        self.held = set()
        self.tally = 0

    # Refusals that several calls share

    def want_cue(self, cue):
        if cue >= self.cues:
            raise Refused(12)

    def want_cells(self, cells):
        if len(cells) < self.cells:
            raise Refused(1)

    def want_memory(self, memory):
        if len(memory) < self.code.working_length:
            raise Refused(1)

    def want_levels_that_fit(self, levels):
        if len(levels) > self.levels:
            raise Refused(13)

    def want_free(self, cue):
        if cue in self.held:
            raise Refused(14)

    def want_recorded(self, cue):
        if cue not in self.recorded:
            raise Refused(15)

    # Levels and words

    def clear(self, memory):
        memory[: self.code.working_length] = bytes(self.code.working_length)

    def word_slices(self, cue):
        """Where in the cells the words of a cue are."""
        first = cue * self.words * self.code.n
        return [slice(first + w * self.code.n, first + (w + 1) * self.code.n) for w in range(self.words)]

    def mended_words(self, cue, cells):
        """For each word of the cue where it is, what is found there, and the word in reach of it or None."""
        for where in self.word_slices(cue):
            found = bytes(cells[where])
            yield where, found, self.code.word_in_reach(found)

    def symbols_of_level(self, level):
        return [level // self.code.q**i % self.code.q for i in reversed(range(self.level_symbols))]

    def level_of_symbols(self, symbols):
        return sum(symbol * self.code.q**i for i, symbol in enumerate(reversed(symbols)))

    def write(self, cue, levels, cells, memory):
        symbols = [symbol for level in levels for symbol in self.symbols_of_level(level)]
        symbols += [0] * (self.words * self.code.k - len(symbols))
        for w, where in enumerate(self.word_slices(cue)):
            cells[where] = self.code.word(symbols[w * self.code.k : (w + 1) * self.code.k])
        self.recorded.add(cue)
        self.clear(memory)

    def levels_read(self, cue, cells):
        """The levels of a cue, from the cells alone."""
        symbols = []
        for w, (_, _, word) in enumerate(self.mended_words(cue, cells)):
            if word is None:
                raise Refused(3, f" cue {cue} word {w}")
            symbols += self.code.message_of(word)
        size = self.level_symbols
        levels = [self.level_of_symbols(symbols[i * size : (i + 1) * size]) for i in range(self.levels)]
        for i, level in enumerate(levels):
            if level > LARGEST_LEVEL:
                raise Refused(16, f" cue {cue} level {i}")
        if any(symbols[self.levels * size :]):
            raise Refused(16, f" cue {cue} level {self.levels}")
        return levels

    # Calls

    def record(self, cue, levels, cells, memory):
        self.want_cue(cue)
        self.want_cells(cells)
        self.want_memory(memory)
        self.want_levels_that_fit(levels)
        self.want_free(cue)
        self.write(cue, levels, cells, memory)

    def record_by_slip(self, cue, levels, cells, memory):
        self.want_cue(cue)
        self.want_cells(cells)
        self.want_memory(memory)
        self.want_levels_that_fit(levels)
        if cue not in self.held:
            raise Refused(17)
        self.write(cue, levels, cells, memory)

    def hold(self, cue):
        self.want_cue(cue)
        self.want_free(cue)
        self.held.add(cue)

    def let_go(self, cue):
        self.held.discard(cue)

    def wipe(self, cue, cells):
        self.want_cue(cue)
        self.want_cells(cells)
        self.want_free(cue)
        for where in self.word_slices(cue):
            cells[where] = bytes(self.code.n)
        self.recorded.discard(cue)

    def touch_up(self, cue, cells, memory):
        """How many words were changed, and how many were beyond reach."""
        self.want_cue(cue)
        self.want_cells(cells)
        self.want_memory(memory)
        self.want_recorded(cue)
        changed = beyond_reach = 0
        for where, found, word in self.mended_words(cue, cells):
            if word is None:
                beyond_reach += 1
            elif word != found:
                cells[where] = word
                changed += 1
        self.tally = min(self.tally + changed, LARGEST_TALLY)
        self.clear(memory)
        return changed, beyond_reach

    def recall(self, cue, cells, levels, memory):
        self.want_cue(cue)
        self.want_cells(cells)
        self.want_memory(memory)
        if len(levels) < self.levels:
            raise Refused(1)
        self.want_recorded(cue)
        # From here on, whatever the outcome is, nothing but levels and zeros is left.
        levels[: self.levels] = bytes(self.levels)
        self.clear(memory)
        levels[: self.levels] = bytes(self.levels_read(cue, cells))

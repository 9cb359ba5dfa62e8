"""Linear codes as matrices, and the four calls of a code.

Send multiplies the message by the generator matrix. Read multiplies the word by the parity-check matrix that belongs to
it. Mend takes the least toll over a list of all words where that list is short; for other codes it drops the marked
places, finds the wrong places by their syndrome and solves for the message at the places that are left.
"""
import functools
import itertools

from fields import reduce_rows, transposed, unit_rows

LONGEST_WORD_LIST = 4096


class Refused(Exception):
    """A call or a making that is refused, with its number and, for some, the values that go with it."""

    def __init__(self, number, values=""):
        super().__init__(f"refused {number}{values}")


def weight(word):
    return sum(x != 0 for x in word)


class Encoding:
    """Messages of k symbols turned into words of n symbols by a generator matrix whose rows are independent."""

    def __init__(self, field, generator):
        self.field = field
        self.q = field.q
        self.generator = generator
        self.columns = transposed(generator)
        self.k = len(generator)
        self.n = len(self.columns)

    def is_mark(self, byte):
        return byte >= self.q

    def word(self, message):
        return bytes(self.field.dot(message, column) for column in self.columns)

    @functools.cached_property
    def reduction(self):
        """The reduced generator matrix, the matrix that makes it of the generator matrix, and the pivots."""
        both = [row + unit for row, unit in zip(self.generator, unit_rows(self.k))]
        rows, pivots = reduce_rows(self.field, both)
        if pivots[-1] >= self.n:
            raise ValueError("two messages have the same word")
        return [row[: self.n] for row in rows], [row[self.n :] for row in rows], pivots

    @functools.cached_property
    def parity_check(self):
        """A row for each place that is no pivot: 1 there, and what makes up for it at the pivots."""
        reduced, _, pivots = self.reduction
        check = []
        for free in sorted(set(range(self.n)) - set(pivots)):
            row = [0] * self.n
            row[free] = 1
            for i, pivot in enumerate(pivots):
                row[pivot] = self.field.negatives[reduced[i][free]]
            check.append(row)
        return check

    def syndrome(self, word):
        return bytes(self.field.dot(row, word) for row in self.parity_check)

    def message_of(self, word):
        """The message of this word, or None if it is no word."""
        if any(map(self.is_mark, word)) or any(self.syndrome(word)):
            return None
        _, transform, pivots = self.reduction
        at_pivots = [word[pivot] for pivot in pivots]
        return bytes(self.field.dot(at_pivots, column) for column in transposed(transform))

    @functools.cache
    def errors(self, most):
        """Every error at no more than `most` places, by its syndrome. No two may have the same one."""
        check_columns = transposed(self.parity_check)
        found = {}
        for count in range(most + 1):
            for places in itertools.combinations(range(self.n), count):
                for values in itertools.product(range(1, self.q), repeat=count):
                    syndrome = [0] * len(self.parity_check)
                    for place, value in zip(places, values):
                        part = self.field.scaled(value, check_columns[place])
                        syndrome = self.field.sum_of_rows(syndrome, part)
                    if bytes(syndrome) in found:
                        raise ValueError("words lie closer together than the distance")
                    found[bytes(syndrome)] = dict(zip(places, values))
        return found

    def message_within(self, most, received):
        """The message whose word differs from these symbols at no more than `most` places, or None."""
        error = self.errors(most).get(self.syndrome(received))
        if error is None:
            return None
        differences = [error.get(place, 0) for place in range(self.n)]
        return self.message_of(self.field.difference_of_rows(received, differences))

    @functools.cache
    def at_places(self, places):
        """The same messages, with words of these places alone."""
        return Encoding(self.field, [[row[place] for place in places] for row in self.generator])


class Code(Encoding):
    """A linear code with its distance, its working length and what else is asked of a code.

    `carriers` has for each place of the message the place of the word that repeats it, or None. `pair` has two
    messages whose words lie at the distance, or is None for a code that shows none.
    """

    def __init__(self, field, generator, d, working_length, carriers, pair):
        super().__init__(field, generator)
        self.d = d
        self.working_length = working_length
        self.carriers = carriers
        self.pair = pair
        self.confirm()

    def confirm(self):
        """What is stated beside the matrix has to fit it."""
        for place, carrier in enumerate(self.carriers):
            if carrier is not None and self.columns[carrier] != unit_rows(self.k)[place]:
                raise ValueError(f"place {carrier} of the word does not repeat place {place} of the message")
        if self.pair is not None:
            first, second = (self.word(message) for message in self.pair)
            if sum(x != y for x, y in zip(first, second)) != self.d:
                raise ValueError("the shown pair does not lie at the distance")

    def messages(self):
        """All messages in counting order, the first symbol most significant."""
        return itertools.product(range(self.q), repeat=self.k)

    @functools.cached_property
    def words(self):
        """The list of all words, in counting order of their messages: every sum of multiples of the rows."""
        words = [bytes(self.n)]
        for row in self.generator:
            multiples = [self.field.scaled(factor, row) for factor in range(self.q)]
            words = [bytes(self.field.sum_of_rows(word, multiple)) for word in words for multiple in multiples]
        # The distance of a linear code is the least weight of a word that is not all zeros.
        if min(map(weight, words[1:])) < self.d:
            raise ValueError("words lie closer together than the distance")
        return words

    def toll(self, word, received):
        """Twice the wrong places and once the marked ones."""
        return sum(1 if y >= self.q else 2 * (x != y) for x, y in zip(word, received))

    def word_of_least_toll(self, received):
        """The word whose toll is below the distance, or None: found in the list of all words."""
        nearest = min(self.words, key=lambda word: self.toll(word, received))
        return nearest if self.toll(nearest, received) < self.d else None

    def word_by_syndrome(self, received):
        """The same by the unmarked places: as many of them may be wrong as the marked ones leave toll for."""
        unmarked = tuple(place for place, byte in enumerate(received) if not self.is_mark(byte))
        marked = self.n - len(unmarked)
        if marked >= self.d:
            return None
        most_wrong = (self.d - 1 - marked) // 2
        message = self.at_places(unmarked).message_within(most_wrong, [received[place] for place in unmarked])
        return None if message is None else self.word(message)

    @functools.lru_cache(maxsize=100_000)
    def word_in_reach(self, received):
        """The word of the message in reach of these n bytes, or None."""
        if self.q**self.k <= LONGEST_WORD_LIST:
            return self.word_of_least_toll(received)
        return self.word_by_syndrome(received)


# Calls: each changes the memory that it is handed


def want_bytes(memory, count):
    if len(memory) < count:
        raise Refused(1)


def put(memory, result, count):
    """The result in front, zeros behind it up to `count`, and later bytes as they were."""
    memory[:count] = bytes(result) + bytes(count - len(result))


def send(code, memory):
    want_bytes(memory, code.working_length)
    message = bytes(memory[: code.k])
    for place, symbol in enumerate(message):
        if code.is_mark(symbol):
            raise Refused(2, f" place {place}")
    put(memory, code.word(message), code.working_length)


def mend(code, memory):
    want_bytes(memory, code.working_length)
    received = bytes(memory[: code.n])
    word = code.word_in_reach(received)
    put(memory, received if word is None else word, code.working_length)
    if word is None:
        raise Refused(3)


def read(code, memory):
    want_bytes(memory, code.working_length)
    word = bytes(memory[: code.n])
    message = code.message_of(word)
    put(memory, word if message is None else message, code.working_length)
    if message is None:
        raise Refused(4)


def show(code, memory):
    want_bytes(memory, 2 * code.working_length)
    first, second = code.pair
    put(memory, [*first, *second], 2 * code.working_length)

"""The words of a script's lines: how they are read and how numbers and lists are printed."""
import itertools

LARGEST_NUMBER = 1_000_000_000
LARGEST_BYTE = 255
LONGEST_LIST = 2_000_000
SHORTEST_RUN = 4


class Cannot(Exception):
    """A line that cannot be carried out, with the reason."""


def unreadable():
    return Cannot("wrong arguments")


def to_number(word, largest=LARGEST_NUMBER):
    if not word.isdigit():
        raise unreadable()
    digits = word.lstrip(b"0") or b"0"
    # A number with too many digits is too large, and need not be worked out.
    if len(digits) > len(str(largest)) or int(digits) > largest:
        raise unreadable()
    return int(digits)


def to_byte(word):
    return to_number(word, LARGEST_BYTE)


def to_size(word):
    return to_number(word, LONGEST_LIST)


def to_list(words):
    listed = bytearray()
    for word in words:
        count, star, byte = word.partition(b"*")
        run = (to_number(count), to_byte(byte)) if star else (1, to_byte(word))
        if len(listed) + run[0] > LONGEST_LIST:
            raise unreadable()
        listed += bytes([run[1]]) * run[0]
    return listed


def list_text(listed):
    runs = [(byte, len(list(run))) for byte, run in itertools.groupby(listed)]
    words = [[f"{count}*{byte}"] if count >= SHORTEST_RUN else [str(byte)] * count for byte, count in runs]
    return " ".join(itertools.chain(*words)) or "-"


# Readers of a command's words: each gives the arguments of the action


def exactly(*readers):
    """As many words as there are readers, each read by its own."""

    def arguments(words):
        if len(words) != len(readers):
            raise unreadable()
        return [reader(word) for reader, word in zip(readers, words)]

    return arguments


def a_list(words):
    return [to_list(words)]


def a_list_or_nothing(words):
    return [to_list(words) if words else None]


def number_and_list(words):
    if not words:
        raise unreadable()
    return [to_number(words[0]), to_list(words[1:])]

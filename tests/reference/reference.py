#!/usr/bin/env python3
"""The codes, the store and the console once more, by other means, to compare the proved programs with.

    reference.py vectors             prints what the program `vectors` must print
    reference.py console < SCRIPT    prints what the program `console` must print for this script

Every code is a generator matrix here (codes.py), and a join of codes is a matrix put together from theirs (models.py).
A symbol is a polynomial (fields.py). The store (store.py) keeps which cues are recorded and held, and the tally; a
script goes through script.py, its words through words.py. Nothing of the proved sources is used, so that where the two
print the same, neither took an error over from the other.
"""
import sys

sys.dont_write_bytecode = True  # nothing is to be left beside the sources

from script import run_script
from vectors import vector_lines


def main(arguments):
    if arguments == ["vectors"]:
        sys.stdout.buffer.writelines(line.encode() + b"\n" for line in vector_lines())
    elif arguments == ["console"]:
        run_script(sys.stdin.buffer.read(), sys.stdout.buffer)
    else:
        sys.exit("usage: reference.py vectors | reference.py console < SCRIPT")


if __name__ == "__main__":
    main(sys.argv[1:])

"""Scripts: what each line does and answers."""
import functools

import codes
from codes import Refused
from fields import TWO
from models import MAKERS, direct_sum, model, parity, plotkin, puncture, repetition, shorten
from store import MOST_CUES, Store
from words import (
    Cannot,
    a_list,
    a_list_or_nothing,
    exactly,
    list_text,
    number_and_list,
    to_byte,
    to_number,
    to_size,
    unreadable,
)

DIRT = 170  # what working memory and levels hold until a script says otherwise


def to_model(word):
    name = word.decode("ascii", "replace")
    if name not in MAKERS:
        raise unreadable()
    return name


def numbers_text(code):
    return f"n {code.n}, k {code.k}, d {code.d}, W {code.working_length}"


def outcome_of(operation, *arguments):
    """Carries the operation out and says how it went."""
    try:
        operation(*arguments)
    except Refused as refusal:
        return str(refusal)
    return "accepted"


class Session:
    """What a script has come to.

    A model has a code until a store is made over it. Slips that are still out have their cue under their number; slips
    are numbered through the script, so that a new model does not begin again at 0.
    """

    def __init__(self):
        self.has_model = False
        self.slips_given = 0
        self.end_store()

    def end_store(self):
        self.code = None
        self.store = None
        self.running = False
        self.cells = bytearray()
        self.set_memory(0, DIRT)
        self.set_levels(0, DIRT)
        self.slips = {}

    def fresh_memory(self):
        return bytearray([self.memory_byte]) * self.memory_size

    def fresh_levels(self):
        return bytearray([self.levels_byte]) * self.levels_size

    # Models, calls of a code and makings

    def choose(self, name):
        self.end_store()
        self.has_model = True
        self.code = model(name)
        carriers = " ".join("-" if carrier is None else str(carrier) for carrier in self.code.carriers)
        return f"{name}: {numbers_text(self.code)}, carriers {carriers}"

    def call(self, operation, memory):
        if operation is codes.show and self.code.pair is None:
            raise Cannot("shows no pair")
        outcome = outcome_of(operation, self.code, memory)
        return f"{outcome}; memory {list_text(memory)}"

    def make(self, making, *numbers):
        try:
            return numbers_text(making(*numbers))
        except Refused as refusal:
            return str(refusal)

    # The store and what is handed to its calls

    def make_store(self, cues, levels):
        code, self.code = self.code, None
        try:
            self.store = Store(code, cues, levels)
        except Refused as refusal:
            return str(refusal)
        self.cells = bytearray(self.store.cells)
        self.set_memory(code.working_length, DIRT)
        self.set_levels(levels, DIRT)
        return f"accepted; {self.store.words} words, {self.store.cells} cells"

    def set_or_print_cells(self, listed):
        if listed is None:
            return f"cells {list_text(self.cells)}"
        self.cells = listed
        return f"{len(listed)} cells"

    def damage(self, cell, byte):
        if cell >= len(self.cells):
            raise Cannot("no such cell")
        old, self.cells[cell] = self.cells[cell], byte
        return f"cell {cell}: {old} to {byte}"

    def set_memory(self, size, byte):
        self.memory_size, self.memory_byte = size, byte
        return f"memory {size}"

    def set_levels(self, size, byte):
        self.levels_size, self.levels_byte = size, byte
        return f"levels {size}"

    # Calls of the store

    def slip_cue(self, slip):
        if slip not in self.slips:
            raise Cannot("no such slip")
        return self.slips[slip]

    def record(self, cue, levels):
        memory = self.fresh_memory()
        outcome = outcome_of(self.store.record, cue, levels, self.cells, memory)
        return f"{outcome}; memory {list_text(memory)}"

    def record_by_slip(self, slip, levels):
        memory = self.fresh_memory()
        outcome = outcome_of(self.store.record_by_slip, self.slip_cue(slip), levels, self.cells, memory)
        return f"{outcome}; memory {list_text(memory)}"

    def give_slip(self, store, cue):
        try:
            store.hold(cue)
        except Refused as refusal:
            return str(refusal)
        slip = self.slips_given
        self.slips[slip] = cue
        self.slips_given += 1
        return f"slip {slip}"

    def hold(self, cue):
        return self.give_slip(self.store, cue)

    def other_slip(self, cue):
        return self.give_slip(Store(repetition(TWO, 1), MOST_CUES, 1), cue)

    def let_go(self, slip):
        self.store.let_go(self.slip_cue(slip))
        del self.slips[slip]
        return "let go"

    def wipe(self, cue):
        return outcome_of(self.store.wipe, cue, self.cells)

    def touch_up(self, cue):
        memory = self.fresh_memory()
        try:
            changed, beyond_reach = self.store.touch_up(cue, self.cells, memory)
            outcome = f"changed {changed}, beyond reach {beyond_reach}"
        except Refused as refusal:
            outcome = str(refusal)
        return f"{outcome}; memory {list_text(memory)}"

    def recall(self, cue):
        memory, levels = self.fresh_memory(), self.fresh_levels()
        outcome = outcome_of(self.store.recall, cue, self.cells, levels, memory)
        return f"{outcome}; levels {list_text(levels)}; memory {list_text(memory)}"

    def start(self):
        self.running = True
        return "running"

    def stop(self):
        self.running = False
        return "plotting"

    def tally(self):
        return f"tally {self.store.tally}"

    # What a command needs: each raises the first reason why it is not there

    def needs_nothing(self):
        pass

    def needs_model(self):
        if not self.has_model:
            raise Cannot("no model")

    def needs_code(self):
        self.needs_model()
        if self.code is None:
            raise Cannot("no code")

    def needs_store(self):
        self.needs_model()
        if self.store is None:
            raise Cannot("no store")

    def needs_plotting(self):
        self.needs_store()
        if self.running:
            raise Cannot("the store is running")

    def needs_running(self):
        self.needs_store()
        if not self.running:
            raise Cannot("the store is plotting")

    def answer(self, line):
        keyword, *words = line.split(b" ")
        try:
            if keyword not in COMMANDS:
                raise Cannot("unknown command")
            read_words, need, action = COMMANDS[keyword]
            arguments = read_words(words)
            need(self)
            return action(self, *arguments)
        except Cannot as reason:
            return f"? {reason}"


def call_of(operation):
    return a_list, Session.needs_code, lambda session, memory: session.call(operation, memory)


def making_of(make, count):
    """A making from so many numbers."""
    readers = exactly(*[to_number] * count)
    return readers, Session.needs_nothing, lambda session, *numbers: session.make(make, *numbers)


two_repeated = functools.partial(repetition, TWO)
two_with_parity = functools.partial(parity, TWO)

# For each command: how its words are read, what it needs, and what is then done.
COMMANDS = {
    b"model": (exactly(to_model), Session.needs_nothing, Session.choose),
    b"send": call_of(codes.send),
    b"mend": call_of(codes.mend),
    b"read": call_of(codes.read),
    b"show": call_of(codes.show),
    b"make-repetition": making_of(two_repeated, 1),
    b"make-parity": making_of(two_with_parity, 1),
    b"make-plotkin": making_of(lambda a, b: plotkin(two_repeated(a), two_repeated(b)), 2),
    b"make-sum": making_of(lambda a, b: direct_sum(two_repeated(a), two_repeated(b)), 2),
    b"make-puncture": making_of(lambda p, n: puncture(two_repeated(n), p), 2),
    b"make-shorten": making_of(lambda j, n: shorten(two_with_parity(n), j), 2),
    b"store": (exactly(to_number, to_number), Session.needs_code, Session.make_store),
    b"cells": (a_list_or_nothing, Session.needs_store, Session.set_or_print_cells),
    b"damage": (exactly(to_number, to_byte), Session.needs_store, Session.damage),
    b"memory": (exactly(to_size, to_byte), Session.needs_store, Session.set_memory),
    b"levels": (exactly(to_size, to_byte), Session.needs_store, Session.set_levels),
    b"record": (number_and_list, Session.needs_plotting, Session.record),
    b"record-by-slip": (number_and_list, Session.needs_plotting, Session.record_by_slip),
    b"hold": (exactly(to_number), Session.needs_plotting, Session.hold),
    b"other-slip": (exactly(to_number), Session.needs_plotting, Session.other_slip),
    b"let-go": (exactly(to_number), Session.needs_plotting, Session.let_go),
    b"wipe": (exactly(to_number), Session.needs_plotting, Session.wipe),
    b"touch-up": (exactly(to_number), Session.needs_store, Session.touch_up),
    b"recall": (exactly(to_number), Session.needs_store, Session.recall),
    b"start": (exactly(), Session.needs_plotting, Session.start),
    b"stop": (exactly(), Session.needs_running, Session.stop),
    b"tally": (exactly(), Session.needs_store, Session.tally),
}


def run_script(script, output):
    session = Session()
    for line in script.split(b"\n"):
        if line and not line.startswith(b"#"):
            output.write(b"> " + line + b"\n" + session.answer(line).encode() + b"\n")

"""zuntjev.py: the yard divider from Python, over libzuntjev as a shared library. It needs nothing but Python.

The library, after `./build-c target/c`:

    cc -shared -Wl,--whole-archive target/c/libzuntjev.a -Wl,--no-whole-archive -o target/c/libzuntjev.so

Two pens of 3 and 4 heads, alone or together (7), and the gate between them:

    divider = Divider([Pen(3, [3, 7], [0]), Pen(4, [4, 7], [2])], [Gate(0, 1, 4)])
    divider.initialize()    # Consistent(handed=[])
    divider.propagate(5)    # Consistent(handed=[0, 2]): the gate is open, so both groups have 7 heads
    divider.reason(0)       # [5]
    divider.undo(5)

include/zuntjev.h says what each call does, docs/SOLVERS.md in which order a solver makes them.
"""
import ctypes
import os
import re
import struct
from collections import namedtuple
from dataclasses import dataclass

# A pen's heads, the sizes that its group may have (none: any), and for each size but the first the literal that says
# "this size or more". A gate's two pens, and the literal that says that it is shut.
Pen = namedtuple("Pen", "heads sizes lits")
Gate = namedtuple("Gate", "u v lit")
Plan = namedtuple("Plan", "pens gates same_size extra_walls")

MEANINGS = {
    1: "too many pens, gates or sizes",
    2: "heads outside their range",
    3: "a size outside its range, or sizes that do not rise",
    4: "wrong number of size literals",
    5: "a literal outside its range",
    6: "an end of a gate is no pen",
    7: "a buffer is too short, or what is in it cannot be",
    8: "initialised again after a consistent one",
    9: "a literal that the plan does not have",
    10: "the literal to be notified stands already, or its negation does",
    11: "the literal to be undone is not the newest",
    13: "same-size option: something would follow from a fixed size of 0",
    14: "what follows is false in the table, and neither it nor what it follows from was set at the current level",
    15: "no reason is recorded for the literal",
    16: "the open gates that the reason goes by are not open any more",
    17: "a malformed line",
    18: "every run between the two pens has a shut gate, or one pen is unknown",
    19: "the page buffer is under 39 bytes a group",
}


class Refused(Exception):
    """A call that was refused, and changed nothing: the refusal's number, and what it means."""

    def __init__(self, number, call):
        self.number, self.meaning, self.call = number, MEANINGS.get(number, "an unknown number"), call
        super().__init__("%s is refused with %d: %s" % (call, self.number, self.meaning))


@dataclass(frozen=True)
class Consistent:
    """The answer "no conflict": the literals that follow, in the order in which they were handed on."""
    handed: list


@dataclass(frozen=True)
class Conflict:
    """The answer "a conflict": the literals that cannot hold together."""
    lits: list


@dataclass(frozen=True)
class Noted:
    """The answer to a literal that came with something pending: it stands, and nothing was analyzed."""


STATE_LEN, CURSOR_LEN, LINE_LEN, MAX_SIZES = 133440, 8, 39, 32
CONFLICT, NOTED = -100, -101
BESIDE = os.path.join(os.path.dirname(os.path.abspath(__file__)), "..", "..", "target", "c", "libzuntjev.so")

# What each call is lent: a letter for each argument, b a buffer and its length, n a count, i a number.
LENT = {"build": "bnbniib", "initialize": "bbbbb", "propagate": "bbbbbii", "undo": "bbbi", "calc_reason": "bbbib",
        "calc_last": "bbbb", "run": "bbbiib", "page": "bbbb", "check": "b"}


def load(path=None):
    """The shared library, by default target/c/libzuntjev.so of this folder's repository."""
    library = ctypes.CDLL(path or BESIDE)
    kinds = {"b": [ctypes.c_void_p, ctypes.c_size_t], "n": [ctypes.c_size_t], "i": [ctypes.c_int32]}
    for call, letters in LENT.items():
        function = getattr(library, "zuntjev_" + call)
        function.argtypes = [kind for letter in letters for kind in kinds[letter]]
        function.restype = ctypes.c_int32
    return library


def lent(length, data=b""):
    """A buffer with its length beside it, as the calls take them. Also one of no bytes has an address."""
    buffer = (ctypes.c_uint8 * max(length, 1))(*data)
    return buffer, length


def cut(x):
    """A number that fits into 4 bytes. One that does not is outside every range, and so is what it is cut to."""
    return max(-2**31, min(x, 2**31 - 1))


def int32(x):
    return struct.pack("<i", cut(x))


def vertex_bytes(pen):
    """A pen as zuntjev_build reads it. Of too many sizes or literals the true count is put, which is refused."""
    def room(numbers):
        return b"".join(map(int32, (list(numbers) + [0] * MAX_SIZES)[:MAX_SIZES]))
    heads, sizes, lits = pen
    return int32(heads) + int32(len(sizes)) + int32(len(lits)) + room(sizes) + room(lits)


def variables_of(pens, gates):
    """The plan's variables, rising: those of gates, and of the size literals of pens that have sizes."""
    lits = [lit for _, _, lit in gates] + [lit for _, sizes, lits in pens if sizes for lit in lits]
    return sorted({lit // 2 for lit in lits})


class Divider:
    """The divider of one plan, with the buffers that it is lent. `table` has a code for each variable: 0 unset; set
    at an earlier level of the search: 1 true, 2 false; set at the current one: 3 true, 4 false."""

    def __init__(self, pens, gates, same_size=False, extra_walls=False, library=None):
        self.library = library or load()
        vertices, edges = b"".join(map(vertex_bytes, pens)), b"".join(int32(x) for gate in gates for x in gate)
        self.state = lent(STATE_LEN)
        self.call("build", *lent(len(vertices), vertices), len(pens), *lent(len(edges), edges), len(gates),
                  int(same_size), int(extra_walls), *self.state)
        self.variables = variables_of(pens, gates)
        size_lits = sum(len(lits) for _, sizes, lits in pens if sizes)
        self.values = lent(self.variables[-1] + 1 if self.variables else 0)
        self.list = lent(4 * len(self.variables))
        self.log = lent(16 * (len(gates) + size_lits)) + lent(CURSOR_LEN)
        self.buffer = lent(2 * (len(gates) + 2 * len(pens) + 4))
        self.sheet = lent(LINE_LEN * len(pens))
        self.table = self.values[0]

    def call(self, name, *arguments):
        """Makes a call; its answer, where it is not refused."""
        answer = getattr(self.library, "zuntjev_" + name)(*arguments)
        if CONFLICT < answer < 0:
            raise Refused(-answer, name)
        return answer

    def answered(self, answer):
        """The answer of a call that analyzes. A conflict's list is fetched at once, as it must be."""
        if answer == CONFLICT:
            return Conflict(self.last())
        return Noted() if answer == NOTED else Consistent(self.numbers(self.list, answer))

    @staticmethod
    def numbers(buffer, count):
        """The literals, or the gates of a run, at a buffer's start: two bytes each."""
        return list(struct.unpack_from("<%dH" % count, buffer[0]))

    def fill_table(self, codes):
        """Sets the whole table: the codes of these variables, and 0 for every other one."""
        ctypes.memset(self.table, 0, len(self.table))
        for variable, code in codes.items():
            self.table[variable] = code

    def initialize(self):
        """Notifies what is true in the table, and looks for what follows: Consistent or Conflict."""
        return self.answered(self.call("initialize", *self.state, *self.values, *self.list, *self.log))

    def propagate(self, lit, pending=0):
        """Notifies a literal: Consistent, Conflict, or Noted where more are pending. Its variable, if it is unset in
        the table, is marked as set at the current level; a refused call takes the mark back."""
        marked = 0 <= lit < 2 * self.values[1] and self.table[lit // 2] == 0
        if marked:
            self.table[lit // 2] = 3 + lit % 2
        try:
            return self.answered(self.call("propagate", *self.state, *self.values, *self.list, *self.log, cut(lit),
                                           cut(pending)))
        except Refused:
            if marked:
                self.table[lit // 2] = 0
            raise

    def undo(self, lit):
        """Takes back the newest notification, which must be this literal's, and unsets its variable."""
        self.call("undo", *self.state, *self.log, cut(lit))
        self.table[lit // 2] = 0

    def reason(self, lit):
        """The literals from which this one follows. Fetch it before anything else is notified or undone."""
        return self.numbers(self.buffer, self.call("calc_reason", *self.state, *self.log, cut(lit), *self.buffer))

    def last(self):
        """The list last left: a conflict's, straight after it."""
        return self.numbers(self.buffer, self.call("calc_last", *self.state, *self.log, *self.buffer))

    def check(self):
        """Tests the state's plan, which no other call does: refused with 7 where a building gives no such plan."""
        self.call("check", *self.state)

    def run(self, start, end):
        """The gates to pass from one pen to another, in order: the run with the fewest undecided gates."""
        return self.numbers(self.buffer, self.call("run", *self.state, *self.log, cut(start), cut(end), *self.buffer))

    def page(self):
        """The page for the shed wall: a line for each group."""
        return bytes(self.sheet[0][:self.call("page", *self.state, *self.log, *self.sheet)]).decode("ascii")


# The lines of the program yard that are no pens: how many numbers follow the letter, and their ranges.
ANY = (-999999999, 999999999)
SHAPES = {"O": [(0, 1)] * 2, "G": [ANY] * 3, "V": [(0, 4095), (0, 4)], "I": [], "N": [ANY] * 2, "U": [ANY], "R": [ANY]}


def read_line(line):
    """The letter and the numbers of a line; None if it is malformed."""
    letter, *fields = line.split("\t")
    if letter == "R" and fields == ["-"]:
        return letter, []
    if not all(re.fullmatch("-?[0-9]{1,9}", field) for field in fields):
        return None
    numbers = [int(field) for field in fields]
    if letter == "P":
        fits = len(numbers) >= 2 and 0 <= numbers[1] <= len(numbers) - 2
    else:
        shape = SHAPES.get(letter)
        fits = shape is not None and len(shape) == len(numbers) and all(
            least <= x <= most for x, (least, most) in zip(numbers, shape))
    return (letter, numbers) if fits else None


def read_plan(text):
    """The plan in yard's lines (README.md has them). The lines of calls that follow it are tested, and not made."""
    pens, gates, options, calls = [], [], [0, 0], False
    lines = text.split("\n")
    if lines[-1] == "":
        lines.pop()
    for count, line in enumerate(lines):
        letter, numbers = read_line(line) or ("", [])
        if not letter or letter == "O" and count > 0 or letter in "PG" and calls:
            raise Refused(17, "line %d" % (count + 1))
        if letter == "O":
            options = numbers
        elif letter == "P":
            heads, k, *rest = numbers
            pens.append(Pen(heads, rest[:k], rest[k:]))
        elif letter == "G":
            gates.append(Gate(*numbers))
        else:
            calls = True
    return Plan(pens, gates, bool(options[0]), bool(options[1]))

"""The machine that a program means: one heap, in which nothing moves or is lost. It follows an order that `ael sim --order` printed, mark
by mark, and tells of each what it changed. docs/LANGUAGE.md says what instructions do, and what the marks are ("The order")."""
from typing import List, NamedTuple, Optional, Tuple, Union

from assembler import NUMBERS, Instruction, Register

REGISTERS = 8
BOARD_WORDS = 16
MOST_PRINTED = 65_536
LONGEST_RECORD = 4095
PAGE_WORDS = 64


class Reference(NamedTuple):
    """The record that a mutator made as its so many-th, counted from 1."""

    mutator: int
    serial: int

    def __str__(self):
        return f"{self.mutator}.{self.serial}"


Value = Union[int, Reference]


class Change(NamedTuple):
    """What became of a place: a register `r4`, a word of the board `board 3`, or word 2 of a record `0.7[2]`."""

    place: str
    old: Value
    new: Value


class Event(NamedTuple):
    """What a mark of the order did. A mutator past its code's end has no instruction. An end stands in place of changes."""

    mark: str
    mutator: Optional[int] = None
    instruction: Optional[Instruction] = None
    changes: Tuple[Change, ...] = ()
    made: Optional[Reference] = None
    printed: Optional[int] = None
    end: Optional[str] = None
    emptied: Tuple[Reference, ...] = ()


class Ended(Exception):
    """An instruction that ends its mutator, and the end's text."""


class Record:
    """A record: its kind, as a checkpoint names it, how many of its words are fields, and its words."""

    def __init__(self, kind, fields, words):
        self.kind, self.fields, self.words = kind, fields, words

    def references(self):
        """What its fields refer to."""
        return [it for it in self.words[: self.fields] if isinstance(it, Reference)]

    def word(self, index):
        if index >= len(self.words):
            raise Ended("out of range")
        return self.words[index]

    def admit(self, index, value):
        """Ends a mutator that may not store this value into the word."""
        if self.kind == "weak":
            raise Ended("weak cell")
        if isinstance(value, Reference) and index >= self.fields:
            raise Ended("pointer into raw")

    def size(self):
        """The words that it takes in the heap."""
        return len(self.words) + (2 if self.kind in ("mixed", "weak") else 1)


class Mutator:
    """A mutator: its next instruction's number, its registers, what it printed, how many instructions it executed, and its end."""

    def __init__(self, number, code):
        self.number, self.code = number, code
        self.counter, self.executed = 0, 0
        self.registers: List[Value] = [0] * REGISTERS
        self.printed: List[int] = []
        self.end: Optional[str] = None

    def next(self):
        """Its next instruction, if there is one."""
        return self.code[self.counter] if self.counter < len(self.code) else None

    def lines(self):
        """What it has printed."""
        return [f"{self.number}: {it}" for it in [*self.printed, self.end or "stopped"]]

    def value(self, register):
        return self.registers[register.number]

    def number_in(self, operand):
        """The number that an operand is or holds."""
        value = self.value(operand) if isinstance(operand, Register) else operand
        if isinstance(value, Reference):
            raise Ended("not a number")
        return value

    def reference_in(self, register):
        value = self.value(register)
        if not isinstance(value, Reference):
            raise Ended("not a pointer")
        return value


def quotient(a, b):
    if b == 0:
        raise Ended("zero divisor")
    return a // b


def remainder(a, b):
    if b == 0:
        raise Ended("zero divisor")
    return a % b


OPERATIONS = {
    "add": lambda a, b: (a + b) % NUMBERS,
    "sub": lambda a, b: (a - b) % NUMBERS,
    "mul": lambda a, b: a * b % NUMBERS,
    "div": quotient,
    "rem": remainder,
    "lt": lambda a, b: int(a < b),
}


def record_of(mutator, name, operands):
    """The record that `new`, `raw`, `mix` or `weak` makes of these operands."""
    if name == "weak":
        return Record("weak", 0, [mutator.reference_in(operands[0])])
    counts = [mutator.number_in(it) for it in operands]
    if sum(counts) > LONGEST_RECORD - (name == "mix"):
        raise Ended("out of range")
    kind = {"new": "fields", "raw": "raw", "mix": "mixed"}[name]
    return Record(kind, 0 if name == "raw" else counts[0], [0] * sum(counts))


def board_place(mutator, operand):
    place = mutator.number_in(operand)
    if place >= BOARD_WORDS:
        raise Ended("out of range")
    return place


class Machine:
    """The mutators of a program with their heap and board. A mutator executes at most so many turns."""

    def __init__(self, program, turns=1_000_000):
        self.mutators = [Mutator(number, code) for number, code in enumerate(program.mutators)]
        self.turns = turns
        self.board: List[Value] = [0] * BOARD_WORDS
        self.records: List[List[Record]] = [[] for _ in self.mutators]
        self.cells: List[Reference] = []
        # the cells that are empty once the copying is done
        self.lost: List[Reference] = []
        # what the instruction at work does
        self.changes: List[Change] = []
        self.made: Optional[Reference] = None

    def lines(self):
        """What all mutators have printed, as `ael sim` prints it."""
        return [line for it in self.mutators for line in it.lines()]

    def record(self, reference):
        return self.records[reference.mutator][reference.serial - 1]

    def apply(self, mark):
        """Follows a mark of the order, and tells what it did."""
        self.changes, self.made = [], None
        if mark[0] == "F":
            self.lost = self.cells_to_empty()
            return Event(mark)
        if mark == "T":
            return self.trace()
        if mark[0] == "X":
            return self.find_full(mark)
        return self.step(mark)

    def step(self, mark):
        """Executes a mutator's next instruction, or gives it its end."""
        number = int(mark)
        mutator = self.mutators[number] if number < len(self.mutators) else None
        if mutator is None or mutator.end is not None:
            return Event(mark)
        instruction, printed = mutator.next(), len(mutator.printed)
        try:
            self.execute(mutator, instruction)
        except Ended as end:
            mutator.end = str(end)
            return Event(mark, number, instruction, end=mutator.end)
        printed = mutator.printed[printed] if len(mutator.printed) > printed else None
        return Event(mark, number, instruction, tuple(self.changes), self.made, printed)

    def execute(self, mutator, instruction):
        if mutator.executed >= self.turns:
            raise Ended("turns out")
        if instruction is None:
            raise Ended("jump out")
        after = (mutator.counter + 1) % NUMBERS
        if instruction.name in OPERATIONS:
            target = self.compute(mutator, instruction)
        else:
            target = getattr(self, f"do_{instruction.name}")(mutator, *instruction.operands)
        mutator.counter = after if target is None else target
        mutator.executed += 1

    # ---- marks of the collector

    def cells_to_empty(self):
        """The cells that refer to what can't be reached from the board, registers of mutators without an end, and fields."""
        if not self.cells:
            return []
        reached = self.reached()
        return [it for it in self.cells if self.record(it).words[0] != 0 and self.record(it).words[0] not in reached]

    def reached(self):
        """The records that can be reached."""
        roots = [*self.board, *(value for it in self.mutators if it.end is None for value in it.registers)]
        work = [it for it in roots if isinstance(it, Reference)]
        reached = set(work)
        while work:
            for it in self.record(work.pop()).references():
                if it not in reached:
                    reached.add(it)
                    work.append(it)
        return reached

    def trace(self):
        """The copying is done, and the cells are emptied that lost their records by the last exchange."""
        emptied = [it for it in self.lost if self.record(it).words[0] != 0]
        for it in emptied:
            self.set_word(it, 0, 0)
        return Event("T", changes=tuple(self.changes), emptied=tuple(emptied))

    def find_full(self, mark):
        """A mutator finds the heap full, if its next instruction wants as many pages as the mark says."""
        number, asked, room, live = map(int, mark[1:].split(","))
        mutator = self.mutators[number]
        if self.pages_asked(mutator) != asked:
            return Event(mark)
        mutator.end = f"heap full asked {asked} room {room} live {live}"
        return Event(mark, number, mutator.next(), end=mutator.end)

    def pages_asked(self, mutator):
        """The pages that the record of its next instruction takes, if it makes one."""
        instruction = mutator.next()
        if mutator.end is not None or mutator.executed >= self.turns or instruction is None:
            return None
        if instruction.name not in ("new", "raw", "mix", "weak"):
            return None
        try:
            size = record_of(mutator, instruction.name, instruction.operands[1:]).size()
        except Ended:
            return None
        return -(-size // PAGE_WORDS)

    # ---- what instructions change

    def set_register(self, mutator, register, value):
        self.changes.append(Change(f"r{register.number}", mutator.registers[register.number], value))
        mutator.registers[register.number] = value

    def set_board(self, place, value):
        self.changes.append(Change(f"board {place}", self.board[place], value))
        self.board[place] = value

    def set_word(self, reference, index, value):
        words = self.record(reference).words
        self.changes.append(Change(f"{reference}[{index}]", words[index], value))
        words[index] = value

    # ---- the instructions: each returns the number of the one at which it goes on, or None for the next

    def compute(self, mutator, instruction):
        """`add`, `sub`, `mul`, `div`, `rem` and `lt`."""
        d, a, b = instruction.operands
        a, b = mutator.number_in(a), mutator.number_in(b)
        self.set_register(mutator, d, OPERATIONS[instruction.name](a, b))

    def do_li(self, mutator, d, k):
        self.set_register(mutator, d, k)

    def do_mov(self, mutator, d, a):
        self.set_register(mutator, d, mutator.value(a))

    def do_eq(self, mutator, d, a, b):
        self.set_register(mutator, d, int(mutator.value(a) == mutator.value(b)))

    def do_jmp(self, _mutator, target):
        return target

    def do_jz(self, mutator, a, target):
        return target if mutator.value(a) == 0 else None

    def do_jal(self, mutator, d, target):
        self.set_register(mutator, d, (mutator.counter + 1) % NUMBERS)
        return target

    def do_jr(self, mutator, a):
        return mutator.number_in(a)

    def make(self, name, mutator, d, *operands):
        record = record_of(mutator, name, operands)
        records = self.records[mutator.number]
        records.append(record)
        self.made = Reference(mutator.number, len(records))
        if name == "weak":
            self.cells.append(self.made)
        self.set_register(mutator, d, self.made)

    def do_new(self, *operands):
        self.make("new", *operands)

    def do_raw(self, *operands):
        self.make("raw", *operands)

    def do_mix(self, *operands):
        self.make("mix", *operands)

    def do_weak(self, *operands):
        self.make("weak", *operands)

    def do_ld(self, mutator, d, a, x):
        reference, index = mutator.reference_in(a), mutator.number_in(x)
        self.set_register(mutator, d, self.record(reference).word(index))

    def do_st(self, mutator, a, x, b):
        reference, index = mutator.reference_in(a), mutator.number_in(x)
        self.record(reference).word(index)
        self.record(reference).admit(index, mutator.value(b))
        self.set_word(reference, index, mutator.value(b))

    def do_cas(self, mutator, d, a, x, b, c):
        reference, index = mutator.reference_in(a), mutator.number_in(x)
        expected, new = mutator.value(b), mutator.value(c)
        found = self.record(reference).word(index)
        self.record(reference).admit(index, new)
        if found == expected:
            self.set_word(reference, index, new)
        self.set_register(mutator, d, int(found == expected))

    def do_len(self, mutator, d, a):
        self.set_register(mutator, d, len(self.record(mutator.reference_in(a)).words))

    def do_isp(self, mutator, d, a):
        self.set_register(mutator, d, int(isinstance(mutator.value(a), Reference)))

    def do_get(self, mutator, d, x):
        self.set_register(mutator, d, self.board[board_place(mutator, x)])

    def do_put(self, mutator, x, a):
        self.set_board(board_place(mutator, x), mutator.value(a))

    def do_swap(self, mutator, d, x):
        place = board_place(mutator, x)
        old, value = self.board[place], mutator.value(d)
        self.set_board(place, value)
        self.set_register(mutator, d, old)

    def do_out(self, mutator, a):
        number = mutator.number_in(a)
        if len(mutator.printed) == MOST_PRINTED:
            raise Ended("output full")
        mutator.printed.append(number)

    def do_snap(self, _mutator):
        """Nothing that is seen here changes."""

    def do_halt(self, _mutator):
        raise Ended("halt")

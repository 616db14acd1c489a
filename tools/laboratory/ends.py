"""Where the mutators of a run ended, and what their registers held: by replaying the plain machine in the order of the run."""
from assembler import Register
from plain_machine import BOARD_WORDS, LONGEST_RECORD, PAGE_WORDS, Machine, Reference

# so long an order is replayed, which takes some seconds
MOST_MARKS = 500_000
# what the range of an operand is, by the instruction
LIMITS = {
    "new": f"a record has at most {LONGEST_RECORD} words",
    "raw": f"a record has at most {LONGEST_RECORD} words",
    "mix": f"a mixed record has at most {LONGEST_RECORD - 1} words",
    "get": f"the board has words 0 to {BOARD_WORDS - 1}",
    "put": f"the board has words 0 to {BOARD_WORDS - 1}",
    "swap": f"the board has words 0 to {BOARD_WORDS - 1}",
}
# of these the first operand is read too; of others it is what they change
READS_FIRST = ("jz", "jr", "st", "put", "out")


def counted(number, what):
    return f"{number} {what}{'s' * (number != 1)}"


def described(record):
    """A record in words."""
    fields, words = record.fields, len(record.words)
    return {
        "fields": f"a record of {counted(fields, 'field')}",
        "raw": f"a raw record of {counted(words, 'word')}",
        "mixed": f"a mixed record of {counted(fields, 'field')} and {counted(words - fields, 'raw word')}",
        "weak": "a weak cell",
    }[record.kind]


def held(machine, mutator, register):
    """What a register holds, in words."""
    value = mutator.value(register)
    if isinstance(value, Reference):
        return f"r{register.number} refers to {value}, {described(machine.record(value))}"
    return f"r{register.number} is {value}"


def registers_read(instruction):
    """The registers that an instruction reads, each once."""
    operands = instruction.operands[instruction.name not in READS_FIRST :]
    return list(dict.fromkeys(it for it in operands if isinstance(it, Register)))


def why_full(end):
    """A full heap in words."""
    asked, room, live = (int(it) for it in end.split()[3::2])
    wants = f"it asks for {counted(asked, 'page')}, {counted(asked * PAGE_WORDS, 'word')}"
    return f"{wants}, of a space with {live} live words and {room} free: try more --pages, or --limit"


def why(machine, mutator, instruction):
    """What stands behind the end of a mutator at an instruction."""
    if mutator.end == "turns out":
        return f"{mutator.executed} instructions were executed, the most that --turns allows; a loop may have no end, or wait for long"
    if mutator.end == "output full":
        return f"{len(mutator.printed)} numbers were printed"
    if mutator.end.startswith("heap full"):
        return why_full(mutator.end)
    reads = "; ".join(held(machine, mutator, it) for it in registers_read(instruction))
    limit = LIMITS.get(instruction.name, "") if mutator.end == "out of range" else ""
    return "; ".join(it for it in (reads, limit) if it)


def place_of(instruction, last):
    """The line of an instruction with its text; without one that of the last which was executed."""
    if instruction is None:
        return "before its first instruction" if last is None else f'line {last.line}, behind "{last.text}"'
    return f'line {instruction.line}, "{instruction.text}"'


def line_of(machine, mutator, instruction, last):
    """The line that tells of a mutator's end."""
    end = " ".join(mutator.end.split()[:2]) if mutator.end.startswith("heap full") else mutator.end
    if end == "jump out":
        reason = f"there is no instruction {mutator.counter}; its section has {len(mutator.code)}, and a halt may be missing"
    else:
        reason = why(machine, mutator, instruction)
    return f"mutator {mutator.number}, {place_of(instruction, last)}: {end}: {reason}"


def ends_of(program, marks, turns):
    """The machine that has followed the marks, and a line for each mutator whose end isn't halt, in the order of their numbers."""
    machine = Machine(program, turns)
    last, lines = {}, {}
    for mark in marks:
        event = machine.apply(mark)
        if event.end not in (None, "halt"):
            lines[event.mutator] = line_of(machine, machine.mutators[event.mutator], event.instruction, last.get(event.mutator))
        elif event.instruction:
            last[event.mutator] = event.instruction
    return machine, [lines[it] for it in sorted(lines)]

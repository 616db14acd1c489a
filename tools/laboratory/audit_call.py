"""Says whether OUTPUT, which `./ael sim --order --dump PROGRAM` printed, is an output of PROGRAM: joins the two and runs `ael audit`.
Behind the program's line there may be another, on standard error: which option was missing, or what was expected in the first wrong line."""
import argparse
import re
import subprocess
import sys

import assembler
import commands
from mistakes import mistakes_of
from plain_machine import Machine, Reference
from programs import AEL, READ_FAULT, Failed, run_command

YES, TEXT_REFUSED, NOT_TRUE = 0, 1, 9
CALL = "./ael sim --order --dump PROGRAM"
# lines that an output mustn't have, by how they begin, with the options that print them
OTHER_OPTIONS = {"cycles ": "--cycles", "checkpoint ": "--snap"}


def read(path):
    try:
        with open(path, "rb") as source:
            return source.read()
    except OSError as why:
        raise Failed(READ_FAULT, f"audit: {path}: {why.strerror}\n") from None


def begins(lines, front):
    """The number of the first line that begins so, counted from 0."""
    return next((number for number, it in enumerate(lines) if it.startswith(front)), None)


def wrong_form(lines):
    """Why an output isn't of the form of one, so far as an option is to blame."""
    for front, option in (("order", "--order"), ("dump ", "--dump")):
        if begins(lines, front) is None:
            return f"{option} was missing: OUTPUT is to be what {CALL} prints"
    for front, option in OTHER_OPTIONS.items():
        if begins(lines, front) is not None:
            return f"{option} was given, and an audit takes no such lines: OUTPUT is to be what {CALL} prints"
    return "OUTPUT has a line that no output has there, or one too few"


def machine_of(program, lines, turns):
    """The plain machine, having followed the order that the output tells."""
    machine = Machine(assembler.assemble(program), turns)
    for mark in lines[begins(lines, "order")].split()[1:]:
        machine.apply(mark)
    return machine


def value_of(word):
    """What a word of a register means: a number, or where it points."""
    value = int(word, 16)
    return f"a pointer to word {value >> 2}" if value & 3 == 1 else f"{value >> 2}"


def about_line(machine, lines, number):
    expected = [*machine.lines(), "the line with the order"]
    return f"line {number} of OUTPUT is {lines[number - 1]}; expected was {expected[number - 1]}"


def about_register(machine, lines, mutator, register):
    expected = machine.mutators[mutator].registers[register]
    expected = f"a pointer to record {expected}" if isinstance(expected, Reference) else expected
    found = lines[begins(lines, "dump ") + 1 + mutator].split()[register]
    return f"r{register} of mutator {mutator} is {value_of(found)}, {found}; expected was {expected}"


def about_word(lines, place):
    """The line that tells a word of the table, behind those of mutators and workers."""
    dump = begins(lines, "dump ")
    _, mutators, workers = (int(it) for it in lines[dump].split()[1:])
    number = dump + 1 + mutators + workers + place
    return f"word {place} is line {number + 1} of OUTPUT, {lines[number]}"


def about_verdict(verdict, program, lines, turns):
    """More of what isn't as it should be."""
    what, *numbers = re.match(r"audit: no: (\w+) (.*)", verdict).groups()
    numbers = [int(it) for it in numbers[0].split()]
    if what == "word":
        return about_word(lines, *numbers)
    machine = machine_of(program, lines, turns)
    return about_line(machine, lines, *numbers) if what == "line" else about_register(machine, lines, *numbers)


def about_refusal(program, lines):
    """Why the text or the output was refused."""
    mistakes = mistakes_of(program)
    return f"PROGRAM: {mistakes[0]}" if mistakes else wrong_form(lines)


def arguments():
    usage = "./audit [--turns T] PROGRAM OUTPUT"
    parser = argparse.ArgumentParser(prog="audit", usage=usage, description=__doc__, allow_abbrev=False)
    turns = f"as of the run: {commands.TURNS.range()}, else {commands.TURNS.default}"
    parser.add_argument("--turns", metavar="T", default="1000000", help=turns)
    parser.add_argument("program", metavar="PROGRAM", help="a file")
    parser.add_argument("output", metavar="OUTPUT", help="a file")
    return parser.parse_args()


def audit():
    given = arguments()
    AEL.prepare()
    program, output = read(given.program), read(given.output)
    joined = program + b"\n" * (not program.endswith(b"\n")) + b".output\n" + output
    ended = subprocess.run([AEL.path(), "audit", "--turns", given.turns], input=joined, stdout=subprocess.PIPE)
    sys.stdout.write(ended.stdout.decode())
    sys.stdout.flush()
    lines = output.decode(errors="replace").splitlines()
    if ended.returncode == TEXT_REFUSED:
        print(about_refusal(program, lines), file=sys.stderr)
    elif ended.returncode == NOT_TRUE:
        print(about_verdict(ended.stdout.decode(), program, lines, int(given.turns)), file=sys.stderr)
    return ended.returncode


if __name__ == "__main__":
    run_command(audit)

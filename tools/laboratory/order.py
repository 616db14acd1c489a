"""The order of a run, and the machine that follows it."""
from typing import List, NamedTuple

from assembler import assemble
from commands import STEPS, TURNS
from plain_machine import Machine
from programs import AEL, RUNS


class Output(NamedTuple):
    """What a run printed: its status, the lines of its mutators, and the marks of its order."""

    status: int
    lines: List[str]
    marks: List[str]


def run_to(request, step, *flags):
    """The status and the output of a run that is stopped after a step."""
    return AEL.run(["sim", "--steps", str(step), *flags, *request.words(STEPS)], request.text, RUNS)


def output_of(request, steps=None):
    """What the run prints up to its order, or what it has printed after so many steps."""
    status, printed = run_to(request, steps or request.number(STEPS), "--order")
    lines = printed.decode().splitlines()
    end = next(number for number, line in enumerate(lines) if line.startswith("order"))
    return Output(status, lines[:end], lines[end].split()[1:])


def machine_of(request):
    """The plain machine of a request's text, before its first instruction."""
    return Machine(assemble(request.text), request.number(TURNS))


def askers_of(machine, pages):
    """The mutators whose next instruction makes a record of so many pages: one of them asked for the flip that comes next."""
    return [it.number for it in machine.mutators if machine.pages_asked(it) == pages]


def flip_text(machine, mark, flips):
    """An exchange of the spaces in words: its number, and who asked for how much."""
    pages = int(mark[1:])
    asked = "for 1 page" if pages == 1 else f"for {pages} pages"
    who = " or ".join(map(str, askers_of(machine, pages)))
    return f"flip {flips}: mutator {who} asked {asked}" if who else f"flip {flips}: asked {asked}"


def cells_text(emptied):
    """The end of a cycle's copying in words, with the weak cells that became empty."""
    if not emptied:
        return "the copying is done, and no weak cell lost its record"
    names = ", ".join(map(str, emptied))
    return f"the copying is done, and these weak cells are empty: {names}"

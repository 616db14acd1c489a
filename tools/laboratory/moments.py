"""Pictures of a run: what it has come to after a step, and what happened since the picture before."""
import concurrent.futures
import itertools
import os
import re
from typing import List, NamedTuple

from commands import SCANNERS
from dump import Dump
from happenings import Workers, collector_between, mutator_did
from order import machine_of, run_to
from programs import PICTURE, STEPS_OUT
from schedule import schedule_of

AHEAD = 8  # moments that are begun before they are wanted, for each processor
# the shapes of a picture: elements without any inside, those with some, and what begins and ends the whole
SHAPE = re.compile(r"<(?:rect|path)[^>]*/>|<(rect|text|style|marker|a)\b.*?</\1>|<[^>]*>")


class Moment(NamedTuple):
    """What a run has come to after a step."""

    step: int
    cycles: str
    live: str
    mark_count: int
    dump: Dump
    shapes: List[str]


class Picture(NamedTuple):
    """A moment with what happened since the one before: who made its step, the marks, the events, and what the mutators have now."""

    moment: Moment
    worker: str
    marks: List[str]
    events: List[str]
    lines: List[int]
    written: List[list]
    printed: List[int]


def count_steps(request, most):
    """How many steps a run makes that comes to its end: the fewest that aren't too few."""
    fewest = 1
    while fewest < most:
        middle = (fewest + most) // 2
        if run_to(request, middle)[0] == STEPS_OUT:
            fewest = middle + 1
        else:
            most = middle
    return fewest


def moment_of(request, step):
    output = run_to(request, step, "--order", "--cycles", "--dump")[1]
    told, dump = output.split(b"\ndump ", 1)
    lines = told.decode().split("\n")
    order = next(line for line in reversed(lines) if line.startswith("order"))
    cycles = next(line for line in reversed(lines) if line.startswith("cycles")).split()
    svg = PICTURE.run([], b"dump " + dump, (0,))[1].decode()
    shapes = [it.group() for it in SHAPE.finditer(svg)]
    return Moment(step, cycles[1], cycles[3], order.count(" "), Dump(b"dump " + dump), shapes)


def moments_of(request, steps):
    """What a run has come to after each of these steps. A few are made ahead, side by side."""
    processors = os.cpu_count() or 1
    batch = AHEAD * processors
    with concurrent.futures.ThreadPoolExecutor(processors) as pool:
        for first in range(0, len(steps), batch):
            yield from pool.map(lambda step: moment_of(request, step), steps[first : first + batch])


class Camera:
    """Makes pictures of moments that follow one another. The plain machine follows the order beside them."""

    def __init__(self, request, marks, every):
        self.machine, self.marks, self.every = machine_of(request), marks, every
        mutators = len(self.machine.mutators)
        self.workers = Workers(mutators)
        self.schedule = schedule_of(request.text, request.options.seed, mutators + request.number(SCANNERS))
        self.step = self.followed = 0
        self.last = None

    def follow(self, count):
        """Lets the machine come to so many marks, and gives the events."""
        marks, self.followed = self.marks[self.followed : count], count
        return [self.machine.apply(mark) for mark in marks]

    def picture(self, moment):
        """The picture of a moment."""
        steps, self.step = moment.step - self.step, moment.step
        worker = next(itertools.islice(self.schedule, steps - 1, None))
        first = self.followed
        before = [list(it.registers) for it in self.machine.mutators]
        did = self.follow(moment.mark_count)
        # what came before the first picture of a window is no event of it
        events = self.events(did, moment) if steps <= self.every else []
        self.last = moment
        return Picture(
            moment,
            self.workers.name(worker),
            self.marks[first : moment.mark_count],
            events,
            [self.line(it) for it in self.machine.mutators],
            list(self.written(before, did)),
            [len(it.printed) for it in self.machine.mutators],
        )

    def events(self, did, moment):
        """What happened since the picture before."""
        told = [mutator_did(event, self.workers) for event in did]
        if self.last:
            told += collector_between(self.last.dump, moment.dump, moment.live, self.workers)
        return [text for text in told if text]

    def line(self, mutator):
        """The line of a mutator's next instruction, or 0 if it has none."""
        instruction = mutator.next() if mutator.end is None else None
        return instruction.line if instruction else 0

    def written(self, before, did):
        """The registers that were written, each with its mutator and what it holds."""
        names = {(event.mutator, change.place) for event in did for change in event.changes}
        for number, mutator in enumerate(self.machine.mutators):
            for register, value in enumerate(mutator.registers):
                if (number, f"r{register}") in names or before[number][register] != value:
                    yield [number, register, str(value)]

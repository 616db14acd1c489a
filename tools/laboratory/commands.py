"""The commands of `ael` with their options, as its own words are read: what they are for, and what is wrong with words that are refused."""
import difflib
import re
from typing import NamedTuple, Optional, Tuple

MOST_SEED = 2**64 - 1


class Option(NamedTuple):
    """An option: what it means, and its letter, its range and what holds if it isn't given, if it has a value."""

    name: str
    means: str
    letter: str = ""
    least: int = 0
    most: int = 0
    default: str = ""
    # what the least value is called, if not by its number
    from_other: str = ""

    def range(self):
        """Its range in words."""
        return f"{self.from_other or self.least} to {grouped(self.most)}"

    def takes(self, word):
        """Whether a word is a value in its range. A seed has no sign, other numbers may have one."""
        sign = r"\+?" if self.most == MOST_SEED else "[+-]?"
        return re.fullmatch(f"{sign}[0-9]+", word, re.ASCII) is not None and self.least <= int(word[:30]) <= self.most

    def shown(self):
        """As it stands among words: an operand by its name, an option with dashes."""
        return self.name if self.name.isupper() else f"--{self.name}"


def grouped(number):
    """A number as the documents write it."""
    return "2^64 - 1" if number == MOST_SEED else f"{number:,}" if number >= 10_000 else f"{number}"


PAGES = Option("pages", "pages of 64 words of each space that are in use at first", "N", 4, 2048, "256")
LIMIT = Option("limit", "pages to which a space may grow", "G", 4, 2048, "N", "N")
SCANNERS = Option("scanners", "workers that scan beside the mutators", "C", 0, 8, "1")
TURNS = Option("turns", "instructions that a mutator executes at most", "T", 1, 10_000_000, "1,000,000")
STEPS = Option("steps", "steps that the run makes at most", "S", 1, 100_000_000, "10,000,000")
SEED = Option("seed", "what the schedule is drawn from", "X", 0, MOST_SEED, "the schedule of the text")
WORKERS = Option("workers", "mutators that make the concordance", "K", 1, 16, "2")
ORDER = Option("order", "tell the order of the run")
CYCLES = Option("cycles", "tell how often the spaces were exchanged, and the words copied since")
SNAP = Option("snap", "make checkpoints, and print the last one")
DUMP = Option("dump", "tell the registers and the whole heap")
DEPTH_OPERAND = Option("DEPTH", "2^DEPTH keys go into each tree", "DEPTH", 1, 9)
SEED_OPERAND = Option("SEED", "what keys and schedule are drawn from", "SEED", 0, MOST_SEED)


class Command(NamedTuple):
    """A command: what it does, whether it reads an input, its options, its operands, and two examples of its words."""

    name: str
    does: str
    input: str
    options: Tuple[Option, ...]
    examples: Tuple[str, str]
    operands: Tuple[Option, ...] = ()

    def usage(self):
        operands = [it.letter for it in self.operands]
        return " ".join([f"./ael {self.name}", *["[OPTION ..]"] * bool(self.options), *operands, *["[FILE]"] * bool(self.input)])


COMMANDS = {
    it.name: it
    for it in (
        Command(
            "asm",
            "prints the listing of a program",
            "a program",
            (),
            ("./ael asm examples/loop.ael", "./ael asm < examples/tree.ael"),
        ),
        Command(
            "sim",
            "runs the mutators of a program by a schedule, and prints their numbers and ends",
            "a program",
            (PAGES, LIMIT, SCANNERS, TURNS, STEPS, SEED, ORDER, CYCLES, SNAP, DUMP),
            ("./ael sim examples/first.ael", "./ael sim --seed 3 --order examples/meet.ael"),
        ),
        Command(
            "run",
            "runs each mutator and each scanner on a thread, and prints the same",
            "a program",
            (PAGES, LIMIT, SCANNERS, TURNS, CYCLES, SNAP, DUMP),
            ("./ael run examples/tree.ael", "./ael run --pages 4 --cycles examples/shared.ael"),
        ),
        Command(
            "concord",
            "prints the concordance of a text: each word once, with the numbers of its lines",
            "a text",
            (WORKERS, PAGES),
            ("./ael concord examples/star.txt", "./ael concord --workers 1 --pages 8 examples/star.txt"),
        ),
        Command(
            "bench",
            "runs a benchmark by a schedule, as sim --cycles would",
            "",
            (),
            ("./ael bench 3 1", "./ael bench 1 0"),
            (DEPTH_OPERAND, SEED_OPERAND),
        ),
        Command(
            "audit",
            "says whether an output of sim --order --dump is one of its program; ./audit PROGRAM OUTPUT joins the two",
            "a program, a line .output, and an output",
            (TURNS,),
            (
                "(cat examples/first.ael; echo .output; ./ael sim --order --dump examples/first.ael) | ./ael audit",
                "./audit examples/first.ael <(./ael sim --order --dump examples/first.ael)",
            ),
        ),
    )
}
CHECK = Command(
    "check",
    "tells the mistakes of a program, up to twenty, and runs nothing; it needs no build",
    "a program",
    (),
    ("./ael check examples/first.ael", "./ael check < examples/loop.ael"),
)
PAGES_OF_HELP = {**COMMANDS, CHECK.name: CHECK}
HELP_WORDS = ("--help", "-h", "help")


# ---- help


def help_of_all():
    rows = "\n".join(f"  {it.name:8} {it.does}" for it in PAGES_OF_HELP.values())
    return f"""ael runs the programs of threads that share a heap, while a concurrent copying collector moves its records.

  ./ael COMMAND [OPTION ..] [FILE]

{rows}

A command reads FILE, or else its standard input. `./ael help COMMAND` tells its options and two examples, `./ael --version` what runs.
Beside it: ./preview WORDS runs it without its proofs, ./trace tells each instruction of a run, ./film and ./picture show the heap,
./explore tries many schedules, ./audit PROGRAM OUTPUT judges an output. Begin with docs/TUTORIAL.md; docs/LANGUAGE.md has the language."""


def option_row(option):
    name = option.shown() if option.name.isupper() else f"{option.shown()} {option.letter}"
    default = f"; {option.default} if it isn't given" if option.default else ""
    means = f"{option.means}: {option.range()}{default}" if option.letter else option.means
    return f"  {name:14} {means}"


def help_of(command):
    reads = f"It reads {command.input}: FILE, or else its standard input." if command.input else "It reads nothing."
    lines = [command.usage(), command.does, "", reads, ""]
    words = [*command.operands, *command.options]
    if words:
        lines += ["options:" if command.options else "words:", *map(option_row, words), ""]
    return "\n".join([*lines, "examples:", *(f"  {it}" for it in command.examples)])


def help_asked(words):
    """The page of help that these words ask for, if they do."""
    if words[:1] and words[0] in HELP_WORDS:
        if len(words) == 1:
            return help_of_all()
        return help_of(PAGES_OF_HELP[words[1]]) if len(words) == 2 and words[1] in PAGES_OF_HELP else None
    if words and words[0] in PAGES_OF_HELP and any(it in HELP_WORDS[:2] for it in words[1:]):
        return help_of(PAGES_OF_HELP[words[0]])
    return None


# ---- words that are refused


class Refused(Exception):
    """Why words are refused."""


def near(word, names):
    """The name that was meant, if there is one like it."""
    found = difflib.get_close_matches(word, names, 1, 0.65)
    return f"; did you mean {found[0]}?" if found else ""


def others_with(name):
    """The commands that have an option."""
    found = [it.name for it in COMMANDS.values() if any(option.shown() == name for option in it.options)]
    return f", but of {' and '.join(found)}" if found else ""


def has(options):
    return f"; its options are {', '.join(options)}" if options else "; it has no options"


def value_for(option, own, others):
    """The value of an option, which stands behind `=` or is the next of the other words."""
    if own is None and (not others or others[0].startswith("-") and others[0] != "-"):
        raise Refused(f"{option.shown()}: its value is missing, {option.range()}")
    return others.pop(0) if own is None else own


def number(option, word):
    if not option.takes(word):
        raise Refused(f"{option.shown()}: {word or 'the empty word'} is not {option.least} to {grouped(option.most)}")
    return int(word)


def read_option(command, word, others, given):
    """Reads an option, and its value if it has one."""
    name, equals, own = word.partition("=")
    options = {it.shown(): it for it in command.options}
    if name not in options:
        raise Refused(f"{name}: no option of {command.name}{near(name, options) or others_with(name) or has(options)}")
    option = options[name]
    if name in given:
        raise Refused(f"{name}: it stands there twice")
    if option.letter:
        given[name] = number(option, value_for(option, own if equals else None, others))
    elif equals:
        raise Refused(f"{name}: it has no value")
    else:
        given[name] = 1


def read_words(command, words):
    """The options that are given behind a command, and the words that are none."""
    given, plain, others = {}, [], [*words]
    while others:
        word = others.pop(0)
        if word == "--":
            return given, plain + others
        if word.startswith("-") and word != "-":
            read_option(command, word, others, given)
        else:
            plain.append(word)
    return given, plain


def read_command(words):
    if not words:
        raise Refused("a command is missing")
    if words[0].startswith("-"):
        raise Refused(f"{words[0]}: options stand behind a command")
    if words[0] not in COMMANDS:
        raise Refused(f"{words[0] or 'the empty word'}: no such command{near(words[0], PAGES_OF_HELP)}")
    return COMMANDS[words[0]]


def read(words):
    """Reads words as the program does, and refuses those that it refuses."""
    command = read_command(words)
    given, plain = read_words(command, words[1:])
    for option, word in zip(command.operands, plain):
        number(option, word)
    if len(plain) < len(command.operands):
        missing = command.operands[len(plain)]
        raise Refused(f"{missing.letter} is missing, {missing.range()}")
    if len(plain) > len(command.operands):
        surplus = plain[len(command.operands)]
        file = ", and no file that can be read" if command.input else ""
        raise Refused(f"{surplus or 'the empty word'}: no word of {command.name}{file}")
    pages = given.get("--pages", int(PAGES.default))
    if given.get("--limit", pages) < pages:
        raise Refused(f"--limit: {given['--limit']} is less than the {pages} of --pages")
    return command, given


def fault_of(words) -> Optional[str]:
    """Why the program refuses these words, or None if it takes them."""
    try:
        read(words)
    except Refused as why:
        return str(why)
    return None


def given_by(words):
    """The values of the options that words give which are taken."""
    return read(words)[1]


def hint(words, fault):
    """The line that is told of words that are refused."""
    page = f"help {words[0]}" if words and words[0] in COMMANDS else "help"
    return f"{fault} (commands: {', '.join(PAGES_OF_HELP)}; ./ael {page} tells more)"


def file_behind(words):
    """How many words are the program's own, if the last one names its input: no option, no value of one."""
    if len(words) < 2 or words[0] not in COMMANDS or not COMMANDS[words[0]].input or words[-1].startswith("-"):
        return len(words)
    before = words[-2] if len(words) > 2 and "=" not in words[-2] else ""
    takes_value = any(it.shown() == before and it.letter for it in COMMANDS[words[0]].options)
    return len(words) if takes_value else len(words) - 1

"""The words of a command that runs `ael sim`: options of sim, some of its own, and a file."""
import argparse
from typing import NamedTuple, Optional

from commands import COMMANDS, CYCLES, DUMP, ORDER
from programs import READ_FAULT, Failed

OPTIONS = COMMANDS["sim"].options
# what of them only says what is printed
SHOWN = (ORDER, CYCLES, DUMP)
MOST_BYTES = 1_048_576  # of a text that ael takes


class Request(NamedTuple):
    """A text, the options of sim that its runs have, and all options."""

    text: Optional[bytes]
    options: argparse.Namespace

    def words(self, *left_out):
        """The options of sim, but for these and those that only say what is printed."""
        words = []
        for option in OPTIONS:
            value = getattr(self.options, option.name, None)
            if value and option not in (*SHOWN, *left_out):
                words += [option.shown(), *([value] if option.letter else [])]
        return words

    def shown(self):
        """The options that only say what is printed."""
        return [it.shown() for it in SHOWN if getattr(self.options, it.name)]

    def number(self, option):
        """The number that an option has, or what holds if it isn't given."""
        return int(getattr(self.options, option.name) or option.default.replace(",", ""))


def positive(text):
    number = int(text)
    if number < 1:
        raise ValueError
    return number


def range_of(text):
    """The numbers from one to another, as `3..7`, or one number."""
    first, dots, last = text.partition("..")
    numbers = range(int(first), int(last if dots else first) + 1)
    if numbers.start < 0 or not numbers:
        raise ValueError
    return numbers


def parser(name, own_usage, description):
    """A parser of sim's options and a file, to which a command adds its own."""
    usage = f"{name} [sim] [OPTION OF sim ..] {own_usage} [FILE]"
    result = argparse.ArgumentParser(prog=name, usage=usage, description=description, allow_abbrev=False)
    result.formatter_class = argparse.RawDescriptionHelpFormatter
    return result


def add_sim_options(parser, *left_out):
    """Adds the options of sim but these, and the file."""
    for option in OPTIONS:
        how = {"metavar": option.letter} if option.letter else {"action": "store_true"}
        if option not in left_out:
            parser.add_argument(option.shown(), help=option.means, **how)
    parser.add_argument("file", nargs="?", help="the program; else standard input has it")
    return parser


def read_text(name, file):
    """The text of a file or of standard input, or as much of it as is too long."""
    try:
        with open(0 if file is None else file, "rb", closefd=file is not None) as source:
            return source.read(MOST_BYTES + 1)
    except OSError:
        raise Failed(READ_FAULT, f"{name}: read fault\n") from None


def request_of(parser, words):
    """The request that these words make."""
    options = parser.parse_args(words[1:] if words[:1] == ["sim"] else words)
    return Request(read_text(parser.prog, options.file), options)

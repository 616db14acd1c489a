"""The text of a program, read as `ael` reads it: docs/LANGUAGE.md says what it may be."""
import re
from typing import Dict, List, NamedTuple, Optional, Tuple, Union

# the instructions, each with its operands: rd, ra, rb and rc are registers, k is a number, x, xf and xr are either, L is a label
FORMS = {
    "li": "rd k",
    "mov": "rd ra",
    "add": "rd ra rb",
    "sub": "rd ra rb",
    "mul": "rd ra rb",
    "div": "rd ra rb",
    "rem": "rd ra rb",
    "lt": "rd ra rb",
    "eq": "rd ra rb",
    "jmp": "L",
    "jz": "ra L",
    "jal": "rd L",
    "jr": "ra",
    "new": "rd x",
    "raw": "rd x",
    "mix": "rd xf xr",
    "weak": "rd ra",
    "ld": "rd ra x",
    "st": "ra x rb",
    "cas": "rd ra x rb rc",
    "len": "rd ra",
    "isp": "rd ra",
    "get": "rd x",
    "put": "x ra",
    "swap": "rd x",
    "out": "ra",
    "snap": "",
    "halt": "",
}
NUMBERS = 2**62
MOST_MUTATORS = 16
MOST_INSTRUCTIONS = 65_536
MOST_ITEMS = 65_536
LAST_WORKER = 23
MOST_TIMES = 1_000_000

UNKNOWN_INSTRUCTION, BAD_OPERAND, UNKNOWN_LABEL, LABEL_TWICE, NO_MUTATOR = 1, 2, 3, 4, 5
TOO_MANY_MUTATORS, CODE_TOO_LONG, BAD_SCHEDULE, NUMBER_TOO_BIG = 6, 7, 8, 9
# what the program calls each error
ERRORS = {
    UNKNOWN_INSTRUCTION: "unknown instruction",
    BAD_OPERAND: "bad operand",
    UNKNOWN_LABEL: "unknown label",
    LABEL_TWICE: "label twice",
    NO_MUTATOR: "no mutator",
    TOO_MANY_MUTATORS: "too many mutators",
    CODE_TOO_LONG: "code too long",
    BAD_SCHEDULE: "bad schedule",
    NUMBER_TOO_BIG: "number too big",
}


class Token(NamedTuple):
    """A word of a line, and the column at which it begins, counted from 1."""

    text: str
    column: int


class Register(NamedTuple):
    number: int


class Instruction(NamedTuple):
    """An instruction with its line and its tokens joined by spaces. A label among its operands is the number of an instruction."""

    line: int
    text: str
    name: str
    operands: Tuple[Union[Register, int], ...]


class Line(NamedTuple):
    """A line that isn't blank: its label, and what else it has, whose first token is an instruction or a directive."""

    number: int
    label: Optional[Token]
    tokens: List[Token]

    def does(self, directive):
        """Whether it has this directive."""
        return self.label is None and self.tokens[0].text == directive


class Section(NamedTuple):
    """The lines of a mutator, or those before the first; its labels, each with its line and the number of its instruction."""

    lines: List[Line]
    labels: Dict[str, Tuple[int, int]]


class Program(NamedTuple):
    """The instructions of each mutator."""

    mutators: List[List[Instruction]]

    def names(self):
        """The names of all its instructions."""
        return {it.name for section in self.mutators for it in section}


def decoded(text):
    """Bytes as characters: what is no UTF-8 is kept as it is."""
    return text.decode("utf-8", "surrogateescape")


def is_name(word):
    return re.fullmatch(r"[A-Za-z_][A-Za-z0-9_]*", word) is not None


def label_in(word):
    """The name of a label, if the word is one: a name and a colon."""
    return word[:-1] if word.endswith(":") and is_name(word[:-1]) else None


def register_in(word):
    return Register(int(word[1])) if re.fullmatch("r[0-7]", word) else None


def is_number(word):
    return re.fullmatch("[0-9]+", word) is not None


def value_of(digits):
    """The number that digits write, or one that is too big, if they are so many that Python would take long."""
    digits = digits.lstrip("0") or "0"
    return int(digits) if len(digits) < 20 else NUMBERS


def item_in(word):
    """The worker and the number of steps of an item of a schedule, if the word is one."""
    worker, star, times = word.partition("*")
    if not is_number(worker) or star and not is_number(times):
        return None
    item = value_of(worker), value_of(times) if star else 1
    return item if item[0] <= LAST_WORKER and 1 <= item[1] <= MOST_TIMES else None


def tokens_of(line):
    """The tokens of a line, up to its comment."""
    return [Token(it.group(), it.start() + 1) for it in re.finditer(r"[^ \t\r]+", line.partition(";")[0])]


def lines_of(text):
    """The lines that aren't blank."""
    for number, line in enumerate(decoded(text).split("\n"), 1):
        tokens = tokens_of(line)
        if tokens and label_in(tokens[0].text) is not None:
            yield Line(number, Token(tokens[0].text[:-1], tokens[0].column), tokens[1:])
        elif tokens:
            yield Line(number, None, tokens)


def sections_of(lines):
    """The lines before the first `.mutator`, and those of each mutator, which begin with it."""
    sections = [Section([], {})]
    instructions = 0
    for line in lines:
        if line.tokens and line.does(".mutator"):
            sections.append(Section([], {}))
            instructions = 0
        section = sections[-1]
        section.lines.append(line)
        if line.label:
            section.labels.setdefault(line.label.text, (line.number, instructions))
        instructions += bool(line.tokens) and line.tokens[0].text in FORMS
    return sections


def operand(kind, word, labels):
    """The operand that a word is at a place of a form."""
    if kind == "L":
        return labels[word][1]
    return register_in(word) or value_of(word)


def instruction(line, labels):
    """The instruction of a line without mistakes."""
    name, *words = (it.text for it in line.tokens)
    operands = (operand(kind, word, labels) for kind, word in zip(FORMS[name].split(), words))
    return Instruction(line.number, " ".join([name, *words]), name, tuple(operands))


def assemble(text):
    """The program of a text that `ael` takes."""
    mutators = []
    for section in sections_of(lines_of(text))[1:]:
        has_code = (it for it in section.lines if it.tokens and it.tokens[0].text in FORMS)
        mutators.append([instruction(it, section.labels) for it in has_code])
    return Program(mutators)

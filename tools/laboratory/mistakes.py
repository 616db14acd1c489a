"""What is wrong with a text that `ael` refuses: for each mistake its place, its token, and what should stand there."""
import difflib
import re
from typing import List, NamedTuple

import assembler
from assembler import FORMS, NUMBERS, Token, is_name, is_number, label_in, register_in, value_of

# names that other machines have for something that stands here under another
OTHER_NAMES = {
    "load": "ld",
    "store": "st",
    "move": "mov",
    "print": "out",
    "call": "jal",
    "ret": "jr",
    "return": "jr",
    "jump": "jmp",
    "jnz": "jz, which goes on at its label if the register holds 0",
    "inc": "add",
    "dec": "sub",
    "cmp": "eq or lt",
    "mod": "rem",
    "alloc": "new",
    "exit": "halt",
    "stop": "halt",
    "nop": "mov r0 r0",
}
WANTED = {"r": "a register r0 to r7", "k": "a number", "x": "a number or a register r0 to r7", "L": "a label"}
DIRECTIVES = (".mutator", ".schedule")
LABEL_FORM = "a label is a letter or _, then letters, digits and _, and a colon"
LABEL_TWICE_IN_LINE = "a line has one label"
# how many characters of a token are shown
MOST_SHOWN = 40


class Mistake(NamedTuple):
    """A mistake: its line and column, its number among the errors, its token, and what is wrong with that."""

    line: int
    column: int
    number: int
    token: str
    hint: str

    def __str__(self):
        token = f"{shown(self.token)}: " if self.token else ""
        return f"line {self.line}, column {self.column}: {token}{self.hint}"

    def error(self):
        """As the program tells it."""
        return f"line {self.line}: error {self.number}: {assembler.ERRORS[self.number]}"


class Found(NamedTuple):
    """What is wrong at a token of some line."""

    number: int
    token: Token
    hint: str


class Before(NamedTuple):
    """What stands before a line: how many sections, instructions and items of the schedule."""

    sections: int = 0
    instructions: int = 0
    items: int = 0


def shown(word):
    """A token in quotes, on one line, in characters that can be seen."""
    word = word if len(word) <= MOST_SHOWN else f"{word[: MOST_SHOWN - 3]}..."
    return '"' + "".join(it if it.isprintable() else escaped(it) for it in word) + '"'


def escaped(character):
    code = ord(character)
    if 0xDC80 <= code <= 0xDCFF:  # a byte that is no UTF-8
        return f"\\x{code - 0xDC00:02x}"
    return f"\\x{code:02x}" if code < 0x100 else f"\\u{{{code:x}}}"


def begins_comment(word):
    return re.match("#|//|--", word) is not None


# ---- instructions that aren't known


def hint_at_instruction(word, behind, is_labelled):
    """Why a token is no instruction, if some tokens stand behind it."""
    following = behind[0].text if behind else ""
    bare = word.strip(",;")
    if word.startswith("\ufeff"):
        return "a byte order mark stands at the beginning: save the text without one"
    if begins_comment(word):
        return "a comment begins with ;"
    if word.lower() in (*FORMS, *DIRECTIVES):
        return f"names are in lower case: {word.lower()}"
    if is_name(word) and following.startswith(":"):
        return f"a label and its colon are one token: {word}:"
    name, colon, rest = word.partition(":")
    if colon and is_name(name) and rest:
        return f"a blank stands behind a label: {name}: {rest}"
    if colon and not rest:
        return LABEL_TWICE_IN_LINE if is_labelled and is_name(name) else LABEL_FORM
    if word in DIRECTIVES:
        return f"{word} stands on a line without a label"
    if bare in FORMS:
        return f"write {bare}"
    return nearest(word)


def nearest(word):
    """The instruction or directive that was meant, or all that there are."""
    if word in OTHER_NAMES:
        return f"here that is {OTHER_NAMES[word]}"
    near = difflib.get_close_matches(word, (*FORMS, *DIRECTIVES), 1, 0.6)
    if near:
        return f"did you mean {near[0]}?"
    if word.startswith("."):
        return f"the directives are {' and '.join(DIRECTIVES)}"
    return f"the instructions are {', '.join(FORMS)}"


# ---- operands


def cause(word, kind):
    """Why a token is no operand of a kind, so far as it can be seen; else nothing."""
    bare = word.strip(",#$%()[]")
    number = re.fullmatch("0[xX][0-9a-fA-F]+|0[bB][01]+", word)
    if "," in word.strip(","):
        return "; blanks stand between operands, no commas"
    if number and kind != "r":
        return f"; in decimal it is {int(word, 0)}"
    if re.fullmatch("-[0-9]+", word) and kind != "r":
        return f"; numbers have no sign, and 0 - {word[1:]} is {-int(word[1:20]) % NUMBERS} here"
    if begins_comment(word) and not is_number(bare):
        return "; a comment begins with ;"
    if bare != word and is_operand(bare, kind):
        return f"; write {bare}"
    if word.lower() != word and is_operand(word.lower(), kind):
        return f"; in lower case: {word.lower()}"
    if kind == "r" and is_number(word):
        return "; li puts a number into a register"
    if kind == "k" and register_in(word):
        return "; mov takes a register"
    return ""


def is_operand(word, kind):
    """Whether a token may stand at a place for a register, a number, either, or a label."""
    if kind == "L":
        return is_name(word)
    is_register = register_in(word) is not None
    return is_register if kind == "r" else is_number(word) or kind == "x" and is_register


def too_big(token):
    return Found(assembler.NUMBER_TOO_BIG, token, f"numbers are 0 to 2^62 - 1, which is {NUMBERS - 1}")


def wrong_count(name, operands, form):
    """The mistake of too few or too many operands."""
    kinds = FORMS[name.text].split()
    whole = " ".join(it.text for it in (name, *operands))
    wants = f"{form} wants {len(kinds) or 'no'} operand{'s' * (len(kinds) != 1)}"
    glued = next((it for it in operands if "," in it.text.strip(",")), None)
    if glued:
        return Found(assembler.BAD_OPERAND, glued, f"{wants}{cause(glued.text, 'x')}")
    if len(operands) > len(kinds):
        surplus = operands[len(kinds)]
        why = "; a comment begins with ;" if begins_comment(surplus.text) else ""
        return Found(assembler.BAD_OPERAND, surplus, f"{wants}, and this is one more{why}")
    last = operands[-1] if operands else name
    there = f"{len(operands)} {'is' if len(operands) == 1 else 'are'} there"
    return Found(assembler.BAD_OPERAND, Token(whole, last.column + len(last.text)), f"{wants}, {there}")


def faults_of_operands(name, operands):
    """What is wrong with the operands of an instruction."""
    form = f"{name.text} {FORMS[name.text]}".strip()
    kinds = [it[0] for it in FORMS[name.text].split()]
    if len(operands) != len(kinds):
        yield wrong_count(name, operands, form)
        return
    for kind, token in zip(kinds, operands):
        if not is_operand(token.text, kind):
            yield Found(assembler.BAD_OPERAND, token, f"{form} wants {WANTED[kind]}{cause(token.text, kind)}")
        elif kind in "kx" and is_number(token.text) and value_of(token.text) >= NUMBERS:
            yield too_big(token)


# ---- lines


def faults_of_schedule(directive, items, before):
    """What is wrong with the items of a schedule."""
    form = f"an item is w or w*k, w 0 to {assembler.LAST_WORKER}, k 1 to {assembler.MOST_TIMES}"
    if not items:
        yield Found(assembler.BAD_SCHEDULE, directive, f"items stand behind it; {form}")
    wrong = [it for it in items if assembler.item_in(it.text) is None]
    for it in wrong:
        yield Found(assembler.BAD_SCHEDULE, it, form)
    if not wrong and before + len(items) > assembler.MOST_ITEMS:
        yield Found(assembler.BAD_SCHEDULE, directive, f"a text has at most {assembler.MOST_ITEMS} items")


def unknown_label(token, section, sections):
    """The mistake of a jump to a label that its section hasn't."""
    own = sections[section].labels if section else {}
    near = difflib.get_close_matches(token.text, own, 1, 0.6)
    others = [number - 1 for number, it in enumerate(sections) if number and token.text in it.labels]
    if others:
        why = f"it is a label of mutator {others[0]}, and a jump stays in its section"
    elif near:
        why = f"did you mean {near[0]}?"
    elif own:
        why = f"the labels of the section are {', '.join([*own][:8])}{', ..' * (len(own) > 8)}"
    else:
        why = "the section has no labels"
    return Found(assembler.UNKNOWN_LABEL, token, f"no such label; {why}")


def is_whole(line, wrong):
    """Whether a line counts as an instruction, wrong being the mistakes of its own."""
    return bool(line.tokens) and line.tokens[0].text in FORMS and all(it.number == assembler.NUMBER_TOO_BIG for it in wrong)


def own_faults(line, before):
    """What is wrong with a line, whatever stands around it."""
    if not line.tokens:
        return []
    first, *others = line.tokens
    if line.does(".mutator"):
        return [Found(assembler.BAD_OPERAND, it, ".mutator stands alone on its line") for it in others[:1]]
    if line.does(".schedule"):
        return [*faults_of_schedule(first, others, before.items)]
    if first.text in FORMS:
        return [*faults_of_operands(first, others)]
    hint = hint_at_instruction(first.text, others, line.label is not None)
    return [Found(assembler.UNKNOWN_INSTRUCTION, first, hint)]


def faults_around(line, own, before, sections):
    """What is wrong with a line by what stands around it."""
    section = sections[before.sections]
    if not own and line.tokens and FORMS.get(line.tokens[0].text, "").endswith("L"):
        if not before.sections or line.tokens[-1].text not in section.labels:
            yield unknown_label(line.tokens[-1], before.sections, sections)
    if line.label and before.sections and section.labels[line.label.text][0] < line.number:
        first = section.labels[line.label.text][0]
        yield Found(assembler.LABEL_TWICE, line.label, f"the section has the label already, in line {first}")
    if not before.sections and (line.label or is_whole(line, own)):
        yield Found(assembler.NO_MUTATOR, line.label or line.tokens[0], "it stands before the first .mutator, which begins a section")
    if line.tokens and line.does(".mutator") and before.sections >= assembler.MOST_MUTATORS:
        yield Found(assembler.TOO_MANY_MUTATORS, line.tokens[0], f"a text has at most {assembler.MOST_MUTATORS} mutators")
    if is_whole(line, own) and before.instructions >= assembler.MOST_INSTRUCTIONS:
        yield Found(assembler.CODE_TOO_LONG, line.tokens[0], f"a text has at most {assembler.MOST_INSTRUCTIONS} instructions")


def behind(line, own, before):
    """What stands before the line after this one."""
    begins = bool(line.tokens) and line.does(".mutator")
    items = line.tokens[1:] if line.tokens and line.does(".schedule") and not own else []
    return Before(before.sections + begins, before.instructions + (is_whole(line, own) and not own), before.items + len(items))


def mistakes_of(text) -> List[Mistake]:
    """The mistakes of a text in the order of its lines, and of a line in the order of their numbers. The first is the program's."""
    lines = [*assembler.lines_of(text)]
    sections = assembler.sections_of(lines)
    before, mistakes = Before(), []
    for line in lines:
        own = own_faults(line, before)
        found = sorted([*own, *faults_around(line, own, before, sections)], key=lambda it: it.number)
        mistakes += [Mistake(line.number, it.token.column, it.number, it.token.text, it.hint) for it in found]
        before = behind(line, own, before)
    if not mistakes and not before.sections:
        return [Mistake(1, 1, assembler.NO_MUTATOR, "", "the text has no line .mutator, which begins a section")]
    return mistakes

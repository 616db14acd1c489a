"""A call of `ael` that helps: its words may name a file, and what the program says of a mistake is said in more words. `./ael` is this."""
import contextlib
import ctypes
import os
import signal
import subprocess
import sys
import time

import assembler
import commands
import ends
from concordances import pages_that_do
from mistakes import mistakes_of
from programs import AEL, TOP, Failed

MOST_BYTES = 1_048_576  # of an input that the program takes
MOST_MISTAKES = 20
TEXT_REFUSED, WORDS_REFUSED, NOT_HALTED, TOO_LONG = 1, 2, 3, 8
PR_SET_PDEATHSIG = 1
# the instructions by which an end can depend on the order of steps
MEET = {"get", "put", "swap", "weak"}
# the commands that read a program
OF_PROGRAMS = ("asm", "sim", "run", "audit")


def tell(*lines):
    """Writes lines to standard error, if that can be written."""
    with contextlib.suppress(OSError):
        print(*lines, sep="\n", file=sys.stderr, flush=True)


def is_open(descriptor):
    try:
        os.fstat(descriptor)
    except OSError:
        return False
    return True


class Input:
    """What the program reads: a file, or standard input. It is kept for what is said afterwards."""

    def __init__(self, file, is_wanted):
        self.is_own = file is not None
        self.descriptor = os.open(file, os.O_RDONLY) if self.is_own else 0
        self.start, self.kept = self.place(), None
        if is_wanted and self.start is None and is_open(self.descriptor):
            with contextlib.suppress(OSError):
                self.kept = read_all(self.descriptor)

    def place(self):
        """Where the file is to be read from, if it is one that can be read again."""
        with contextlib.suppress(OSError):
            return os.lseek(self.descriptor, 0, os.SEEK_CUR)
        return None

    def bytes(self):
        """All of it, once the program has read it, if it can still be had."""
        if self.kept is None and self.start is not None:
            with contextlib.suppress(OSError):
                os.lseek(self.descriptor, self.start, os.SEEK_SET)
                self.kept = read_all(self.descriptor)
        return self.kept

    def source(self):
        """How the program gets it. Standard input, which may be closed, is its own."""
        if self.kept is not None:
            return {"input": self.kept}
        return {"stdin": self.descriptor} if self.is_own else {}


def read_all(descriptor):
    """The bytes up to the end, or one more than the program takes."""
    parts, left = [], MOST_BYTES + 1
    while left and (part := os.read(descriptor, min(left, 1 << 16))):
        parts.append(part)
        left -= len(part)
    return b"".join(parts)


def end_with_parent():
    ctypes.CDLL(None).prctl(PR_SET_PDEATHSIG, signal.SIGTERM)


def run(words, source):
    """Runs the program by these words, and returns its status as a shell has it."""
    status = subprocess.run([AEL.path(), *words], preexec_fn=end_with_parent, **source).returncode
    return 128 - status if status < 0 else status


# ---- what is said behind the program's line


def about_text(_words, text):
    """Where the first mistake of a text is, and what should stand there."""
    program = text.partition(b"\n.output\n")[0]
    return [str(it) for it in mistakes_of(program)[:1]]


def ordered(words):
    """The words by which the same run tells its order alone."""
    flags = [f"--{it}" for it in ("order", "cycles", "dump")]
    return ["sim", "--order", *(it for it in words[1:] if it not in flags)]


def about_ends(words, text):
    """Where the mutators of a run by a schedule ended, and what they held."""
    how = {"input": text, "stdout": subprocess.PIPE, "stderr": subprocess.DEVNULL, "preexec_fn": end_with_parent}
    *lines, order = subprocess.run([AEL.path(), *ordered(words)], **how).stdout.decode().splitlines()
    marks = order.split()[1:]
    if len(marks) > ends.MOST_MARKS:
        return [f"the run has {len(marks):,} marks, too many to say here in which lines its mutators ended: ./trace shows it"]
    turns = commands.given_by(words).get("--turns", 1_000_000)
    machine, told = ends.ends_of(assembler.assemble(text), marks, turns)
    return told if machine.lines() == lines else []


def about_threads(words, text):
    """The same of a run on threads, if no order of steps can change the ends; else what can be said without the order."""
    if not assembler.assemble(text).names() & MEET:
        told = [it for it in about_ends(["sim", *words[1:]], text) if ": heap full: " not in it]
        if told:
            return told
    told = ["no order of a run on threads is known, so neither are the lines where mutators ended; `./ael sim` tells them of its own runs"]
    if commands.given_by(words).get("--turns", 0) < commands.TURNS.most:
        told.append(f"a loop that waits for another mutator spends turns: at `turns out` try --turns {commands.TURNS.most}")
    return told


def about_pages(_words, text):
    """How many pages a concordance needs that found its heap full."""
    pages = pages_that_do(text)
    if pages > commands.PAGES.most:
        return [f"--pages {pages} would do, but there are at most {commands.PAGES.most}: a part of the text may have its own concordance"]
    return [f"--pages {pages} would do"]


ABOUT = {
    **{(name, TEXT_REFUSED): about_text for name in OF_PROGRAMS},
    ("sim", NOT_HALTED): about_ends,
    ("run", NOT_HALTED): about_threads,
    ("concord", NOT_HALTED): about_pages,
}


# ---- words that the program doesn't know


def version():
    """What runs, and how old it is."""
    git = ["git", "-C", TOP, "describe", "--always", "--dirty"]
    told = subprocess.run(git, stdout=subprocess.PIPE, stderr=subprocess.DEVNULL, check=False).stdout.decode().strip()
    built = "not built yet"
    with contextlib.suppress(OSError):
        built = time.strftime("built %Y-%m-%d %H:%M", time.localtime(os.stat(AEL.path()).st_mtime))
    return f"ael, commit {told or 'unknown'}\nprogram: {os.path.relpath(AEL.path())}, {built}"


def check(words):
    """Tells the mistakes of a text, and returns the status of a program that found them."""
    if len(words) > 1:
        raise Failed(WORDS_REFUSED, f"usage: {commands.CHECK.usage()}\n")
    try:
        text = Input(words[0] if words else None, True).bytes()
    except OSError as why:
        raise Failed(WORDS_REFUSED, f"check: {words[0]}: {why.strerror}\n") from None
    if text is None:
        raise Failed(5, "check: read fault\n")
    if len(text) > MOST_BYTES:
        raise Failed(TOO_LONG, "check: input too long\n")
    return told_mistakes(text)


def told_mistakes(text):
    mistakes = mistakes_of(text)
    for it in mistakes[:MOST_MISTAKES]:
        print(f"{it.error()}\n    {it}")
    if not mistakes:
        sections = [len(it) for it in assembler.assemble(text).mutators]
        print(f"no mistakes: {ends.counted(len(sections), 'mutator')}, {ends.counted(sum(sections), 'instruction')}")
    if len(mistakes) > MOST_MISTAKES:
        print(f"{len(mistakes) - MOST_MISTAKES} more")
    return TEXT_REFUSED if mistakes else 0


# ---- a call


def tell_wait(command, file):
    """Says what the program waits for, if that is a terminal."""
    if file is None and os.isatty(0):
        tell(f"ael: {command} reads {commands.COMMANDS[command].input} from the terminal: end it by Ctrl-D, or name a FILE")


def own_words(words):
    """The program's own words, and the file if the last word is one that can be read."""
    own = commands.file_behind(words)
    if own < len(words) and os.path.isfile(words[own]) and os.access(words[own], os.R_OK):
        return words[:own], words[own]
    return words, None


def call(words):
    """Runs the program by these words and returns its status, having said more if it is a mistake's."""
    words, file = own_words(words)
    fault = commands.fault_of(words)
    is_read = fault is None and bool(commands.COMMANDS[words[0]].input)
    AEL.prepare()
    if is_read:
        tell_wait(words[0], file)
    given = Input(file, is_read)
    status = run(words, given.source())
    if status == WORDS_REFUSED and fault:
        tell(commands.hint(words, fault))
    about = ABOUT.get((words[0], status)) if is_read else None
    if about and given.bytes() is not None:
        tell(*about(words, given.bytes()))
    return status


def main(words):
    page = version() if words in (["--version"], ["-V"]) else commands.help_asked(words)
    try:
        if page is not None:
            print(page)
            return 0
        return check(words[1:]) if words[:1] == ["check"] else call(words)
    except Failed as failed:
        sys.stderr.buffer.write(failed.told)
        return failed.status
    except KeyboardInterrupt:
        return 130


if __name__ == "__main__":
    sys.exit(main(sys.argv[1:]))

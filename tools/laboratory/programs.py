"""The programs that the commands of this folder run: `ael` and `ael_picture`. The variables AEL_PROGRAM and AEL_PICTURE_PROGRAM name them
if they are set, as `./preview` sets them; else they are built first if a source is newer, with all their proofs."""
import os
import pathlib
import subprocess
import sys

TOP = pathlib.Path(__file__).resolve().parents[2]
STEPS_OUT = 4
RUNS = (0, 3, STEPS_OUT)  # the statuses of a run that is not refused
READ_FAULT, WRITE_FAULT = 5, 6


class Failed(Exception):
    """A command that can't go on: its status, and what it tells."""

    def __init__(self, status, told=""):
        super().__init__(told)
        self.status, self.told = status, told if isinstance(told, bytes) else told.encode()


class Program:
    """A program of the repository: its crate, and the variable that may name another file."""

    def __init__(self, crate, variable):
        self.crate, self.variable = crate, variable

    def path(self):
        return os.environ.get(self.variable) or TOP / "crates" / self.crate / "out" / self.crate

    def prepare(self):
        """Builds it, unless it is there."""
        if os.environ.get(self.variable):
            return
        built = TOP / "crates" / self.crate / "out" / self.crate
        if subprocess.run([TOP / "tools/is_current", built]).returncode == 0:
            return
        words = [TOP / "tools/build", "--statements", self.crate]
        if subprocess.run(words, stdin=subprocess.DEVNULL, stdout=sys.stderr).returncode != 0:
            raise Failed(1)

    def run(self, words, given, statuses):
        """Its status and what it printed, if the status is one of these."""
        ended = subprocess.run([self.path(), *words], input=given, stdout=subprocess.PIPE, stderr=subprocess.PIPE)
        if ended.returncode not in statuses:
            raise Failed(ended.returncode, ended.stderr)
        return ended.returncode, ended.stdout


AEL = Program("ael_cli", "AEL_PROGRAM")
PICTURE = Program("ael_picture", "AEL_PICTURE_PROGRAM")


class Progress:
    """A line on standard error that tells how far a command is: on a terminal often, else each ten seconds."""

    def __init__(self, name):
        self.name, self.told = name, None
        self.is_terminal = sys.stderr.isatty()

    def tell(self, text, now):
        """Tells it at a time in seconds, if the last time is long enough ago."""
        if self.told is None:
            self.told = now
        if now - self.told < (0.1 if self.is_terminal else 10):
            return
        self.told = now
        ends = ("\r", "\033[K") if self.is_terminal else ("", "\n")
        sys.stderr.write(f"{ends[0]}{self.name}: {text}{ends[1]}")
        sys.stderr.flush()

    def end(self):
        """Takes the line away from a terminal."""
        if self.is_terminal:
            sys.stderr.write("\r\033[K")
            sys.stderr.flush()


def leave_quietly():
    """Ends standard output without a word, if who reads it has gone."""
    try:
        sys.stdout.flush()
    except OSError:
        pass
    os.dup2(os.open(os.devnull, os.O_WRONLY), 1)


def run_command(command):
    """Runs a command's main function, and ends with its status."""
    try:
        status = command()
        sys.stdout.flush()
    except Failed as failed:
        sys.stderr.buffer.write(failed.told)
        status = failed.status
    except BrokenPipeError:
        leave_quietly()
        status = WRITE_FAULT
    except KeyboardInterrupt:
        status = 130
    sys.exit(status)

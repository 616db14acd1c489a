"""A heap as `ael sim --dump` prints it: docs/PROTOCOL.md, "The words", says what the words of the table mean."""
from typing import List, NamedTuple, Optional

PAGE_WORDS = 64
LINE = 17  # the bytes of a word that stands alone on its line
GATE, TRACED, PAGE_START = 0, 2, 16
HEADER, FORWARD, BUSY = 0b10, 0b0011, 0b0111  # the lowest bits of a record's first word
REQUEST_BIT = 1 << 56


class Page(NamedTuple):
    """What a page's word says: its state and epoch, and who scans it."""

    state: str
    epoch: int
    worker: Optional[int]


def page_of(word):
    state = ("unset", "open", "scanning", "unset")[word & 3]
    return Page(state, word >> 16, word >> 2 & 0x3FFF if state == "scanning" else None)


def name_in(header):
    """The name of the record that has this header, or None if it is none."""
    return f"{header >> 56}.{header >> 16 & 0xFFFFFFFFFF}" if header & 3 == HEADER else None


def length_in(first_word):
    """How many words follow a record's first word."""
    return first_word >> 4 & 0xFFF


class Dump:
    """A dump: its registers and what its workers keep as lines, and its table, whose words are read when they are asked for."""

    def __init__(self, text):
        head, rest = text.split(b"\n", 1)
        self.pages, self.mutators, self.workers = (int(it) for it in head.split()[1:])
        *kept, self.table = rest.split(b"\n", self.mutators + self.workers)
        self.kept = [[int(it, 16) for it in line.split()] for line in kept[self.mutators :]]
        self.heap_start = 17 + 4 * self.pages

    def shared(self, place):
        """The word at a place of the table."""
        return int(self.table[place * LINE : place * LINE + LINE], 16)

    def word(self, address):
        return self.shared(self.heap_start + address)

    def page(self, number):
        return page_of(self.shared(PAGE_START + number))

    @property
    def epoch(self):
        return self.shared(GATE) & 0xFFFFFFFF

    @property
    def is_flip_asked(self):
        return self.shared(GATE) & REQUEST_BIT != 0

    @property
    def is_traced(self):
        return self.shared(TRACED) == self.epoch + 1

    def old_space(self):
        """The addresses of the space that records are copied from."""
        start = 0 if self.epoch % 2 else PAGE_WORDS * self.pages
        return range(start, start + PAGE_WORDS * self.pages)

    def copy_of(self, address):
        """Where the record was copied that began at an address, if it was."""
        word = self.word(address)
        if word & 0b1111 != FORWARD or word >> 16 >= 2 * PAGE_WORDS * self.pages:
            return None
        return word >> 16 if length_in(self.word(word >> 16)) == length_in(word) else None

    def copier_of(self, address):
        """Who is copying the record that begins at an address, if anyone is."""
        word = self.word(address)
        worker = word >> 16
        is_taken = word & 0b1111 == BUSY and worker < self.workers
        return worker if is_taken and name_in(self.kept[worker][0]) else None

    def name_at(self, address):
        """The name of the record that begins at an address, or began there."""
        copier, copy = self.copier_of(address), self.copy_of(address)
        header = self.kept[copier][0] if copier is not None else self.word(address if copy is None else copy)
        return name_in(header) or "a record"

    def changed_since(self, other, addresses):
        """Those of the addresses, which begin and end with a page, whose words differ from another dump's."""
        for first in addresses[::PAGE_WORDS]:
            place = (self.heap_start + first) * LINE
            end = place + PAGE_WORDS * LINE
            if self.table[place:end] != other.table[place:end]:
                yield from (it for it in range(first, first + PAGE_WORDS) if self.word(it) != other.word(it))

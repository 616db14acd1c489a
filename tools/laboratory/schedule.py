"""Which worker makes each step of a run by `ael sim`: docs/LANGUAGE.md, "Schedules and seeds"."""
import itertools

from assembler import item_in, lines_of

MASK = 2**64 - 1


def drawn_words(seed):
    """The words of the generator SplitMix64."""
    state = seed
    while True:
        state = state + 0x9E3779B97F4A7C15 & MASK
        word = (state ^ state >> 30) * 0xBF58476D1CE4E5B9 & MASK
        word = (word ^ word >> 27) * 0x94D049BB133111EB & MASK
        yield word ^ word >> 31


def items_of(text):
    """The items of a text's schedule: workers, and how many steps each makes."""
    lines = (it for it in lines_of(text) if it.tokens and it.does(".schedule"))
    return [item_in(token.text) for line in lines for token in line.tokens[1:]]


def schedule_of(text, seed, workers):
    """The worker of each step, without an end."""
    if seed is not None:
        return (word % workers for word in drawn_words(int(seed)))
    items = items_of(text) or [(it, 1) for it in range(workers)]
    return (worker for worker, times in itertools.cycle(items) for _ in range(times))

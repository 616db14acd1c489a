"""What heap the concordance of a text needs: docs/LANGUAGE.md says it ("A concordance")."""
import re

# the words of a row beside its letters, and of each of its lines
ROW_WORDS = 7
LINE_WORDS = 3
SPARE_WORDS = 128
PAGE_WORDS = 64
LEAST_PAGES = 4


def words_needed(text):
    """The words of a heap that the rows of a text's concordance take."""
    lines = {}
    for number, line in enumerate(text.split(b"\n")):
        for word in re.findall(b"[a-z]+", line.lower()):
            lines.setdefault(word, set()).add(number)
    return sum(len(word) + ROW_WORDS + LINE_WORDS * len(its) for word, its in lines.items())


def pages_that_do(text):
    """As many pages as are enough for the concordance of a text."""
    return max(-(-(words_needed(text) + SPARE_WORDS) // PAGE_WORDS), LEAST_PAGES)

"""What reading a rule text answers, from docs/rule-texts.md and docs/declines.md alone: nothing here is shared with the library."""
import re

VARIABLES, CLAUSES, WIDTH, LITERALS = 200, 1000, 24, 8000


class Declined(Exception):
    """A number, a place and a layer."""

    def __init__(self, number, place, layer):
        super().__init__(number, place, layer)
        self.number, self.place, self.layer = number, place, layer


def lines_of(text):
    """The lines of a text, each with the number of bytes before it."""
    place = 0
    for line in text.split(b"\n"):
        yield place, line
        place += len(line) + 1


def words_of(line, place=0):
    return [(place + m.start(), m.group()) for m in re.finditer(rb"[^ \t\r\n]+", line)]


def number_of(word):
    """The number that a word writes, or None."""
    if re.fullmatch(rb"[0-9]{1,6}", word):
        return int(word)
    if re.fullmatch(rb"-[0-9]{1,6}", word) and int(word) != 0:
        return int(word)
    return None


def counts_of(line):
    """The two counts of a problem line, or None where it is malformed."""
    words = [w for _, w in words_of(line)]
    if len(words) != 4 or words[:2] != [b"p", b"cnf"]:
        return None
    if not all(re.fullmatch(rb"[0-9]{1,6}", w) for w in words[2:]):
        return None
    return int(words[2]), int(words[3])


def options_of(text):
    """The option count with which `fitting` starts its file."""
    for _, line in lines_of(text):
        if line[:1] == b"p":
            counts = counts_of(line)
            return counts[0] if counts else 1
    return 1


def enter(clauses, literals, n, place):
    """The clauses with one more, each a tuple of different literals."""
    if any(abs(t) > n for t in literals):
        raise Declined(4, place, "file")
    different = tuple(dict.fromkeys(literals))
    if len(different) > WIDTH:
        raise Declined(5, place, "file")
    if len(clauses) >= CLAUSES:
        raise Declined(6, place, "file")
    if sum(map(len, clauses)) + len(different) > LITERALS:
        raise Declined(7, place, "file")
    clauses.append(different)


def read(text):
    """The option count and the clauses of a text, or a Declined."""
    n = options_of(text)
    if not 1 <= n <= VARIABLES:
        raise Declined(1, 0, "file")
    said, clauses, hand = None, [], []
    for place, line in lines_of(text):
        if line[:1] == b"c":
            if said is not None:
                raise Declined(20, place, "word")
        elif line[:1] == b"p":
            counts = counts_of(line)
            if said is not None or counts is None:
                raise Declined(21, place, "text")
            if counts[0] != n:
                raise Declined(22, place, "text")
            said = counts[1]
        else:
            for at, word in words_of(line, place):
                number = number_of(word)
                if number is None:
                    raise Declined(20, at, "word")
                if said is None:
                    raise Declined(21, at, "text")
                if number != 0:
                    hand.append(number)
                else:
                    enter(clauses, hand, n, at)
                    hand = []
    if said is None:
        raise Declined(21, len(text), "text")
    if hand or said != len(clauses):
        raise Declined(23, len(text), "text")
    return n, clauses


def shown(text, place):
    """The lines for people below a decline at a place of a text: line, column, the line's bytes around the place, and a caret."""
    before = text[:place]
    start = before.rfind(b"\n") + 1
    line = text[start:].split(b"\n")[0]
    column = place - start
    first = max(0, column - 60)
    part = line[first:first + 120]
    printable = "".join(chr(b) if 32 <= b <= 126 else "?" for b in part)
    number = before.count(b"\n") + 1
    return [f"c line {number}, column {column + 1}", f"c   {printable}", "c   " + " " * (column - first) + "^"]

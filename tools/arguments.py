"""Arguments that rules cannot be obeyed: a check of a few lines, and the same argument in the forms that outside proof checkers read."""
import re

LINE = re.compile(r"([RS]\d{10}) ([RS]\d{10}) (\d{3})")


class Wrong(Exception):
    """Why something is no argument."""


def parse(closing, lines):
    """The closing reference and the steps, each a left and a right reference and a variable; a reference is a letter and a number."""
    def reference(word):
        return word[0], int(word[1:])

    steps = []
    for line in lines:
        found = LINE.fullmatch(line)
        if not found:
            raise Wrong(f"not the line of a step: {line!r}")
        steps.append((reference(found[1]), reference(found[2]), int(found[3])))
    if not re.fullmatch(r"[RS]\d{10}", closing):
        raise Wrong(f"not a reference: {closing!r}")
    return reference(closing), steps


def derive(clauses, closing, steps):
    """The clause of each step, in turn; the closing one must be empty."""
    derived = []

    def named(reference):
        letter, k = reference
        known = clauses if letter == "R" else derived
        if not 1 <= k <= len(known):
            raise Wrong(f"no clause {letter}{k} stands yet")
        return frozenset(known[k - 1])

    for left, right, v in steps:
        a, b = named(left), named(right)
        if v not in a or -v not in b:
            raise Wrong(f"variable {v} is not on in {left} and off in {right}")
        derived.append((a - {v}) | (b - {-v}))
    if named(closing):
        raise Wrong("the closing clause is not empty")
    return derived


def up_to_closing(clauses, closing, steps):
    """The steps up to the closing one, each with its clause in words."""
    last = closing[1] if closing[0] == "S" else 0
    for clause, step in zip(derive(clauses, closing, steps)[:last], steps):
        yield "".join(f"{t} " for t in sorted(clause, key=abs)) + "0", step


def lrat(clauses, closing, steps):
    """The argument for `lrat-check`: a line for each step has its clause and the two clauses that it was made from."""
    m = len(clauses)

    def name(reference):
        return reference[1] if reference[0] == "R" else m + reference[1]

    numbered = enumerate(up_to_closing(clauses, closing, steps), m + 1)
    return "".join(f"{i} {clause} {name(left)} {name(right)} 0\n" for i, (clause, (left, right, _)) in numbered)


def drat(clauses, closing, steps):
    """The argument for `drat-trim`: the clause of each step."""
    return "".join(f"{clause}\n" for clause, _ in up_to_closing(clauses, closing, steps))


def dimacs(n, clauses):
    """Clauses as a plain text that every solver reads."""
    return f"p cnf {n} {len(clauses)}\n" + "".join(" ".join(map(str, [*c, 0])) + "\n" for c in clauses)

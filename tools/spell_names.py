#!/usr/bin/env python3
"""Spells the repository's own names as today's Rattle does: words joined by underscores, types in camel case.

    tools/spell_names.py

port.py leaves the names that only this repository declares. This turns them in specs/, proofs/, the clauses of src/ and what docs/ says between backticks. A name
with an operator or a `?` keeps its dash; a lemma that would have its function's name gets `_lem`. Comments stay. Run once, at the top.
"""
import pathlib
import re

ROOT = pathlib.Path(__file__).resolve().parent.parent
NAME = r'[^\s(){}.;,@"«»`]+'
DECLARED = re.compile(r"^\s*(?:(?:abbrev|unfoldable|pub|axiom)\s+)*([^\s:(){}]+)\s+:\s")
TYPE = re.compile(r"^(?:pub\s+)?(?:record|data)\s+([^\s:(){}]+)")
OTHERS = re.compile(r"\buse (?:Rattle\.(?:std|core)|native|borrow|denote)\b[^{\n]*\{([^}]*)\}")
LEMMAS = {"few-steps", "one-course", "steps-argue"}


def files():
    for path in sorted((ROOT / "crates").rglob("*")):
        if path.suffix in (".antt", ".rt") and "out" not in path.parts:
            yield path


def declared(path):
    if path.suffix != ".antt":
        return
    for line in path.read_text().splitlines():
        found = TYPE.match(line) or DECLARED.match(line)
        if found and not re.search(r":\s+goal\.", line):
            yield found.group(1)


def spelled(name):
    if not re.fullmatch(r"[\w'-]+", name):
        return name
    if name[0].isupper():
        new = "".join(part[0].upper() + part[1:] for part in name.split("-"))
    else:
        new = name.replace("-", "_").replace("getD", "get_or")
    return new + "_lem" if name in LEMMAS else new


def turn_line(line, names):
    code, dash, comment = line.partition("--") if re.match(r"\s*--", line) else (line, "", "")

    def turn(found):
        return names.get(found.group(0), found.group(0))

    return re.sub(NAME, turn, code) + dash + comment


def main():
    all_names = {name for path in files() for name in declared(path)}
    names = {n: spelled(n) for n in all_names if "-" in n}
    names = {n: new for n, new in names.items() if n != new}
    together = [n for n, new in names.items() if new in all_names or list(names.values()).count(new) > 1]
    if together:
        raise SystemExit(f"names that fall together: {together}")
    for path in files():
        text = path.read_text()
        borrowed = set(re.findall(NAME, " ".join(OTHERS.findall(text))))
        own = {name: new for name, new in names.items() if name not in borrowed}
        new = "".join(turn_line(line, own) for line in text.splitlines(keepends=True))
        if new != text:
            path.write_text(new)
    for path in [ROOT / "README.md", *sorted((ROOT / "docs").glob("*.md"))]:
        text = path.read_text()
        path.write_text(re.sub(r"`[^`\n]+`", lambda found: turn_line(found.group(0), names), text))
    for name in sorted(names):
        print(name, names[name])


if __name__ == "__main__":
    main()

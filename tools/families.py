"""Rule texts by families, each from a seed or a size: pairs of a name and a text (bytes)."""
import itertools
import random


def text_of(n, clauses, comments=()):
    lines = [f"c {c}" for c in comments] + [f"p cnf {n} {len(clauses)}"]
    lines += [" ".join(map(str, list(c) + [0])) for c in clauses]
    return ("\n".join(lines) + "\n").encode()


def at_most_one(literals):
    return [(-a, -b) for a, b in itertools.combinations(literals, 2)]


def exactly_one(literals):
    return [tuple(literals)] + at_most_one(literals)


def random_clauses(rng, n, m, k):
    return [tuple(v if rng.random() < 0.5 else -v for v in rng.sample(range(1, n + 1), k)) for _ in range(m)]


def random_sat(rng, count):
    """Random clauses of k literals about the ratio at which half of the texts fit."""
    ratio = {2: 1.0, 3: 4.26, 4: 9.8, 5: 21.0}
    for i in range(count):
        k = rng.choice([2, 2, 3, 3, 3, 4, 5])
        n = rng.randint(k + 1, {2: 120, 3: 45, 4: 25, 5: 14}[k])
        m = max(1, round(n * ratio[k] * rng.uniform(0.8, 1.25)))
        yield f"{k} literals a rule, {n} options, {m} rules, number {i}", text_of(n, random_clauses(rng, n, m, k))


def mixed_widths(rng, count):
    """Clauses of many widths, the empty one and repeated literals too."""
    for i in range(count):
        n = rng.randint(1, 60)
        clauses = []
        for _ in range(rng.randint(0, 3 * n)):
            width = min(24, rng.choice([0] + [1] * 8 + [2] * 30 + [3] * 40 + [5, 8, 24] * 6)) if rng.random() < 0.3 else rng.choice([2, 3, 4])
            clauses.append(tuple(rng.choice([1, -1]) * rng.randint(1, n) for _ in range(width)))
        yield f"{n} options, {len(clauses)} rules, number {i}", text_of(n, clauses)


def pigeonhole(holes, pigeons):
    sits = lambda p, h: p * holes + h + 1
    clauses = [tuple(sits(p, h) for h in range(holes)) for p in range(pigeons)]
    for h in range(holes):
        clauses += at_most_one([sits(p, h) for p in range(pigeons)])
    return text_of(holes * pigeons, clauses)


def pigeonholes(rng, count):
    for holes in range(1, 8):
        yield f"{holes + 1} pigeons, {holes} holes", pigeonhole(holes, holes + 1)
        yield f"{holes} pigeons, {holes} holes", pigeonhole(holes, holes)


def parity_chain(n, odd):
    """Each option differs from the next or equals it, around a circle; it fits exactly if an even number of pairs differ."""
    clauses = []
    for i, differs in enumerate(odd):
        a, b = i + 1, (i + 1) % n + 1
        clauses += [(a, b), (-a, -b)] if differs else [(a, -b), (-a, b)]
    return text_of(n, clauses)


def parity_chains(rng, count):
    for i in range(count):
        n = rng.randint(2, 200)
        yield f"a circle of {n}, number {i}", parity_chain(n, [rng.random() < 0.5 for _ in range(n)])


def implication_chain(n, closed):
    """1, each option needs the next, and (closed) not the last."""
    return text_of(n, [(1,)] + [(-i, i + 1) for i in range(1, n)] + ([(-n,)] if closed else []))


def implication_chains(rng, count):
    for n in sorted({1, 2, 200} | {rng.randint(1, 200) for _ in range(count)}):
        for closed in (False, True):
            yield f"{n} options, {'closed' if closed else 'open'}", implication_chain(n, closed)


def cabinets(rng, count):
    """Devices that need one port each, and ports that take one device each; some pairs do not go together."""
    for i in range(count):
        devices, ports = rng.randint(2, 7), rng.randint(2, 7)
        on = lambda d, p: d * ports + p + 1
        clauses = []
        for d in range(devices):
            clauses += exactly_one([on(d, p) for p in range(ports)])
        for p in range(ports):
            clauses += at_most_one([on(d, p) for d in range(devices)])
        for d in range(devices):
            for p in range(ports):
                if rng.random() < 0.35:
                    clauses.append((-on(d, p),))
        yield f"{devices} devices, {ports} ports, number {i}", text_of(devices * ports, clauses)


def shut_out(clauses, model):
    """The clauses and one more that shuts out a model."""
    return clauses + [tuple(-t for t in model)]


def three_girls(rng, count):
    """Three sisters cross the ford one after the other, each with one thing to carry."""
    girls, things = ["Ines", "Marit", "Tove"], ["lantern", "rope", "kettle"]
    crosses = lambda g, k: girls.index(g) * 3 + k              # the k-th to cross, from 1
    carries = lambda g, t: 9 + girls.index(g) * 3 + things.index(t) + 1
    clauses = []
    for g in girls:
        clauses += exactly_one([crosses(g, k) for k in (1, 2, 3)]) + exactly_one([carries(g, t) for t in things])
    for k in (1, 2, 3):
        clauses += exactly_one([crosses(g, k) for g in girls])
    for t in things:
        clauses += exactly_one([carries(g, t) for g in girls])
    # Whoever has the lantern goes first. Tove goes right after Ines. Marit will not carry the kettle. The rope is not the last across.
    clauses += [(-carries(g, "lantern"), crosses(g, 1)) for g in girls]
    clauses += [(-crosses("Tove", 1),), (-crosses("Ines", 3),)] + [(-crosses("Ines", k), crosses("Tove", k + 1)) for k in (1, 2)]
    clauses += [(-carries("Marit", "kettle"),)] + [(-carries(g, "rope"), -crosses(g, 3)) for g in girls]
    comments = ["Three sisters cross a ford. The lantern goes first, Tove right after Ines, the rope is not last, and Marit has no kettle.",
                "1 to 9: Ines, Marit, Tove crosses first, second, third; 10 to 18: each carries the lantern, the rope, the kettle."]
    yield "who carries the kettle", text_of(18, clauses, comments)
    order = {"Marit": (1, "lantern"), "Ines": (2, "rope"), "Tove": (3, "kettle")}
    model = [t for g in girls for t in (crosses(g, order[g][0]), carries(g, order[g][1]))]
    yield "and in no other way", text_of(18, shut_out(clauses, model))


def queens_text(n):
    at = lambda r, c: r * n + c + 1
    clauses = [tuple(at(r, c) for c in range(n)) for r in range(n)]
    squares = list(itertools.product(range(n), repeat=2))
    for (r, c), (s, d) in itertools.combinations(squares, 2):
        if r == s or c == d or abs(r - s) == abs(c - d):
            clauses.append((-at(r, c), -at(s, d)))
    return text_of(n * n, clauses)


def queens(rng, count):
    for n in range(1, 9):
        yield f"{n} queens", queens_text(n)


STATIONS = {
    "keeper": ["Anders", "Birgit", "Casimir", "Dunja", "Emeric"],
    "gate": ["red", "green", "white", "yellow", "blue"],
    "gauge": ["radar", "float", "bubbler", "staff", "sonar"],
    "modem": ["satellite", "radio", "telephone", "mast", "cable"],
    "animal": ["heron", "otter", "crayfish", "swan", "beaver"],
}


def zebra_clauses():
    """Five stations in a row down the river; each has a keeper, a gate, a gauge, a modem and an animal of its own."""
    names = [(c, v) for c, values in STATIONS.items() for v in values]
    is_at = lambda value, k: next(i for i, (_, v) in enumerate(names) if v == value) * 5 + k
    rows = range(1, 6)
    clauses = []
    for _, v in names:
        clauses += exactly_one([is_at(v, k) for k in rows])
    for values in STATIONS.values():
        for k in rows:
            clauses += at_most_one([is_at(v, k) for v in values])

    def same(a, b):
        return [(-is_at(a, k), is_at(b, k)) for k in rows]

    def beside(a, b):
        return [tuple([-is_at(a, k)] + [is_at(b, j) for j in (k - 1, k + 1) if j in rows]) for k in rows]

    def just_below(a, b):
        return [(-is_at(a, 1),)] + [(-is_at(a, k), is_at(b, k - 1)) for k in range(2, 6)]

    clauses += same("Birgit", "red") + same("Dunja", "otter") + same("radar", "green") + same("Casimir", "float") + just_below("green", "white")
    clauses += same("radio", "crayfish") + same("satellite", "yellow") + [(is_at("bubbler", 3),)] + [(is_at("Anders", 1),)]
    clauses += beside("telephone", "swan") + beside("satellite", "beaver") + same("mast", "sonar") + same("Emeric", "cable") + beside("Anders", "blue")
    return clauses


def zebra(rng, count):
    clauses = zebra_clauses()
    yield "whose is the heron", text_of(125, clauses)
    # Options 101 to 105 say that the heron is at station 1 to 5; it is at the last.
    for k in range(1, 6):
        yield f"the heron is not at station {k}", text_of(125, clauses + [(-(100 + k),)])


FAMILIES = [
    ("random rules", random_sat, 150),
    ("rules of many widths", mixed_widths, 150),
    ("pigeonholes", pigeonholes, 0),
    ("parity chains", parity_chains, 40),
    ("implication chains", implication_chains, 20),
    ("cabinets with ports", cabinets, 80),
    ("three girls", three_girls, 0),
    ("queens", queens, 0),
    ("five stations", zebra, 0),
]


def all_texts(seed, times=1):
    for family, make, count in FAMILIES:
        rng = random.Random(f"{seed} {family}")
        for name, text in make(rng, count * times):
            yield family, name, text


# Texts at the edge of a limit, and one beyond it.

def edges():
    yield "200 options", text_of(200, [(200,)])
    yield "201 options", text_of(201, [(201,)])
    yield "no option", b"p cnf 0 0\n"
    yield "24 literals", text_of(30, [tuple(range(1, 25))])
    yield "25 literals", text_of(30, [tuple(range(1, 26))])
    yield "24 different literals of 48", text_of(30, [tuple(range(1, 25)) * 2])
    yield "both literals of 12 options", text_of(30, [tuple(range(1, 13)) + tuple(-k for k in range(1, 13))])
    yield "both literals of 13 options", text_of(30, [tuple(range(1, 14)) + tuple(-k for k in range(1, 14))])
    yield "1,000 rules", text_of(3, [(1, 2)] * 1000)
    yield "1,001 rules", text_of(3, [(1, 2)] * 1001)
    yield "8,000 literals", text_of(30, [tuple(range(1, 21))] * 400)
    yield "8,001 literals", text_of(30, [tuple(range(1, 21))] * 400 + [(1,)])
    yield "8,000 literals and an empty rule", text_of(30, [tuple(range(1, 21))] * 400 + [()])
    yield "a literal beyond the options", text_of(5, [(1, 6)])
    yield "beyond the options, and too wide", text_of(30, [tuple(range(1, 32))])
    for size in (59_999, 60_000, 60_001, 70_000):
        text = text_of(2, [(1, -2)])
        yield f"{size} bytes", text + b"\n" * (size - len(text))
    yield "six digits", b"p cnf 000002 000001\n000001 -00002 0\n"
    yield "seven digits", b"p cnf 2 1\n0000001 0\n"
    yield "minus nothing", b"p cnf 2 1\n1 - 0\n"
    yield "minus 0", b"p cnf 2 1\n1 -0\n"
    yield "plus 1", b"p cnf 2 1\n+1 0\n"
    yield "tabs and returns", b"p\tcnf\t2  1\r\n\t1\r-2 \t 0\r\n"
    yield "the last line without an end", b"p cnf 2 1\n1 -2 0"
    yield "a comment in front only", b"c\ncc p cnf\nc p\np cnf 2 1\n1 0\n"
    yield "a comment after the problem line", b"p cnf 2 1\nc x\n1 0\n"
    yield "two problem lines", b"p cnf 2 1\np cnf 2 1\n1 0\n"
    yield "another second problem line", b"p cnf 2 1\np cnf 3 1\n1 0\n"
    yield "a malformed problem line, then a good one", b"p cnf 2\np cnf 2 1\n1 0\n"
    yield "a problem line after a blank", b" p cnf 2 1\n1 0\n"
    yield "a number before the problem line", b"1 0\np cnf 2 1\n"
    yield "nothing", b""
    yield "a byte 0", b"p cnf 2 1\n1\x000\n"
    yield "a byte 255", b"p cnf 2 1\n1 \xff 0\n"
    yield "more rules than said", b"p cnf 2 1\n1 0 2 0\n"
    yield "fewer rules than said", b"p cnf 2 3\n1 0 2 0\n"
    yield "a rule without its 0", b"p cnf 2 1\n1 0 2\n"


INTERESTING = b" \t\r\n0123456789-+cpnf\x00\x7f\x80\xff.x"
WORDS = [b"p", b"cnf", b"c", b"0", b"-0", b"1", b"-1", b"2", b"3", b"-3", b"7", b"200", b"201", b"999999", b"1000000", b"--1", b"x", b"1-", b"p cnf 3 2",
         b"p cnf 3 1", b"\np cnf 3 2\n", b"\nc ", b"\n", b"\r\n", b"\t", b"000001"]


def spoil(rng, text):
    """A text cut, with bytes changed, or with lines moved."""
    b = bytearray(text)
    way = rng.randrange(6)
    if way == 0:
        return "cut", bytes(b[:rng.randint(0, len(b))])
    if way == 1:
        start = rng.randint(0, len(b))
        return "a part", bytes(b[start:rng.randint(start, len(b))])
    if way == 2:
        lines = text.split(b"\n")
        i, j = rng.randrange(len(lines)), rng.randrange(len(lines))
        if rng.random() < 0.5:
            lines[i], lines[j] = lines[j], lines[i]
        else:
            lines.insert(i, lines[j])
        return "lines moved", b"\n".join(lines)
    for _ in range(rng.randint(1, 4)):
        at = rng.randint(0, len(b))
        byte = rng.choice(INTERESTING) if rng.random() < 0.8 else rng.randrange(256)
        if way == 3:
            b.insert(at, byte)
        elif at < len(b) and way == 4:
            b[at] = byte
        elif at < len(b):
            del b[at]
    return "bytes changed", bytes(b)


def random_text(rng):
    way = rng.randrange(3)
    if way == 0:
        return "random bytes", bytes(rng.randrange(256) for _ in range(rng.randint(0, 300)))
    if way == 1:
        return "random likely bytes", bytes(rng.choice(INTERESTING) for _ in range(rng.randint(0, 200)))
    head = b"p cnf 3 %d\n" % rng.randint(0, 4) if rng.random() < 0.7 else b""
    return "random words", head + b" ".join(rng.choice(WORDS) for _ in range(rng.randint(0, 25)))


def spoilt_texts(seed, count, sound):
    """Spoilt texts, three of four from sound ones."""
    rng = random.Random(f"{seed} spoilt")
    sound = [t for t in sound if len(t) < 4000]
    for _ in range(count):
        yield spoil(rng, rng.choice(sound)) if rng.random() < 0.75 else random_text(rng)

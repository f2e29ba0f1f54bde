#!/usr/bin/env python3
"""Says what the program `explain` prints for an input, and writes the stored inputs and outputs of `explain` and `explain_cases`.

    explain.py          writes crates/explain/{stdin,stdout} and crates/explain_cases/{stdin,stdout}
    explain.py FILE     prints the output for the input in FILE

Every value is computed here from its definition, in plain Python integers. Nothing is taken from the Rattle code.
"""
import pathlib
import random
import sys

from products import LEVELS

KEYS = ("level", "bits", "point", "view", "batching", "challenge", "closing")
MOST_PACKED = 1 << 20
DIGITS = "0123456789abcdef"


class Unreadable(Exception):
    """A text that cannot be read, with the words for it."""


class Refused(Exception):
    """A step that is refused, with its number."""


# -- reading --


def after(word, line):
    """What follows a word on its line, or None."""
    if line == word:
        return ""
    return line[len(word) + 1 :] if line.startswith(word + " ") else None


def texts(text):
    """The texts of each key, in the order of their lines."""
    found = {key: [] for key in KEYS}
    lines = text.split("\n")
    if lines[-1] == "":
        lines.pop()
    for number, line in enumerate(lines, 1):
        given = [(key, after(key, line)) for key in KEYS if after(key, line) is not None]
        if line and not given:
            raise Unreadable(f"line {number} has no key")
        for key, rest in given:
            found[key].append(rest)
    return found


def optional(found, key):
    if len(found[key]) > 1:
        raise Unreadable(f"there are several lines of {key}")
    return found[key][0] if found[key] else None


def needed(found, key):
    text = optional(found, key)
    if text is None:
        raise Unreadable(f"there is no line of {key}")
    return text


def number(text):
    if not (text.isascii() and text.isdigit() and int(text) < 1 << 64):
        raise Unreadable("the view is no decimal number below 2^64")
    return int(text)


def check_digits(key, text, start, end):
    for at in range(start, end):
        if text[at] not in DIGITS:
            raise Unreadable(f"character {at + 1} of {key} is no lower-case hexadecimal digit")


def hex_bytes(text):
    if len(text) % 2:
        raise Unreadable("the last byte of bits has one digit alone")
    check_digits("bits", text, 0, len(text))
    return bytes.fromhex(text)


def elements(key, size, text):
    digits = 2 * size
    shape = Unreadable(f"{key} is not elements of {digits} digits with single spaces between them")
    if text == "":
        return []
    if len(text) % (digits + 1) != digits:
        raise shape
    found = []
    for start in range(0, len(text), digits + 1):
        end = start + digits
        if text[end : end + 1] not in ("", " "):
            raise shape
        check_digits(key, text, start, end)
        found.append(int.from_bytes(bytes.fromhex(text[start:end]), "little"))
    return found


class Problem:
    def __init__(self, text):
        found = texts(text)
        self.letter = needed(found, "level")
        if self.letter not in LEVELS:
            raise Unreadable("the level is none of b, w, d, q and a")
        self.size, self.times = LEVELS[self.letter]
        self.k = (8 * self.size).bit_length() - 1
        bits, point = needed(found, "bits"), needed(found, "point")
        view = optional(found, "view")
        self.view = None if view is None else number(view)
        batching, challenge = optional(found, "batching"), optional(found, "challenge")
        if challenge is not None and batching is None:
            raise Unreadable("there is a challenge without batching")
        if found["closing"] and batching is None:
            raise Unreadable("closing without batching")
        self.bits = hex_bytes(bits)
        if len(self.bits) > MOST_PACKED * self.size:
            raise Unreadable("bits are more than 2^20 packed elements")
        self.point = elements("point", self.size, point)
        self.batching = None if batching is None else elements("batching", self.size, batching)
        self.challenge = None
        if challenge is not None:
            only = elements("challenge", self.size, challenge)
            if len(only) != 1:
                raise Unreadable("challenge is not one element")
            self.challenge = only[0]
        self.closings = [elements("closing", self.size, z) for z in found["closing"]]


# -- the definitions --


def total(values):
    """The sum: the exclusive-or of the coordinates."""
    result = 0
    for value in values:
        result ^= value
    return result


def equality(times, point):
    """The equality table: a factor for each coordinate, x at bit 1 and 1 + x at bit 0, the first at the most significant bit."""
    table = [1]
    for x in point:
        table = [times(entry, factor) for entry in table for factor in (1 ^ x, x)]
    return table


def multilinear(times, table, point):
    return total(times(value, entry) for value, entry in zip(table, equality(times, point), strict=True))


def one_row_on(q, cells):
    """Each cell's successor, last rows of 2^q cells repeated."""
    return [cell if c % 2**q == 2**q - 1 else cells[c + 1] for c, cell in enumerate(cells)]


def kept_rows(p):
    """The row variables that the packing keeps, where it keeps any."""
    return p.view - p.k if p.view is not None and p.view > p.k else None


def fixed_prefix(p):
    n = len(p.point)
    limit = n - p.k if p.view is None else min(n - p.k, n - p.view)
    run = []
    for x in p.point[:limit]:
        if x not in (0, 1):
            break
        run.append(x)
    return len(run), int("0" + "".join(map(str, run)), 2)


def weights(p, slot):
    """The weight of each packed element of the slot."""
    batching = equality(p.times, p.batching)
    settled = [
        total(weight for u, weight in enumerate(batching) if entry >> u & 1) for entry in equality(p.times, slot)
    ]
    r = kept_rows(p)
    if r is None:
        return settled
    alpha = p.challenge
    stepped = []
    for i, own in enumerate(settled):
        weight = own
        if i % 2**r != 0:
            weight ^= p.times(alpha, settled[i - 1])
        if i % 2**r == 2**r - 1:
            weight ^= p.times(p.times(alpha, alpha), own)
        stepped.append(weight)
    return stepped


# -- the steps, each with its refusals --


def pack(p):
    cells = 8 * len(p.bits)
    if cells == 0 or cells & (cells - 1):
        raise Refused(10)
    if len(p.bits) < p.size:
        raise Refused(11)
    return [int.from_bytes(p.bits[at : at + p.size], "little") for at in range(0, len(p.bits), p.size)]


def check_opening(p, packed):
    n = len(p.point)
    if p.view is not None and p.view > n:
        raise Refused(13)
    if n < p.k:
        raise Refused(14)
    if len(packed) != 2 ** (n - p.k):
        raise Refused(16)


def check_batching(p):
    if (kept_rows(p) is not None) != (p.challenge is not None):
        raise Refused(17)
    if len(p.batching) != p.k:
        raise Refused(18)


def text(p, x):
    return x.to_bytes(p.size, "little").hex()


def values(p):
    """The lines of a problem, one after the other, until a step is refused."""
    packed = pack(p)
    for element in packed:
        yield f"packed {text(p, element)}"
    check_opening(p, packed)
    cells = [byte >> b & 1 for byte in p.bits for b in range(8)]
    yield f"incoming {text(p, multilinear(p.times, cells, p.point))}"
    if p.view is None:
        yield "successor none"
    else:
        yield f"successor {text(p, multilinear(p.times, one_row_on(p.view, cells), p.point))}"
    prefix, address = fixed_prefix(p)
    yield f"prefix {prefix}"
    yield f"address {address}"
    if p.batching is None:
        return
    check_batching(p)
    slot = p.point[prefix : len(p.point) - p.k]
    start = address * 2 ** len(slot)
    table = weights(p, slot)
    yield f"initial {text(p, total(p.times(packed[start + i], weight) for i, weight in enumerate(table)))}"
    for weight in table:
        yield f"weight {text(p, weight)}"
    for z in p.closings:
        if len(z) != len(slot):
            raise Refused(21)
        yield f"closing {text(p, multilinear(p.times, table, z))}"


def explain(source):
    try:
        problem = Problem(source)
    except Unreadable as why:
        return f"error: {why}\n"
    lines = []
    try:
        for line in values(problem):
            lines.append(line)
    except Refused as why:
        lines.append(f"refused {why}")
    return "".join(f"{line}\n" for line in lines)


# -- the stored inputs --


def source(**parts):
    """An input: a line for each part, and one for each closing point."""
    lines = [f"{key} {value}".rstrip() for key, value in parts.items() if key != "closing"]
    lines += [f"closing {z}".rstrip() for z in parts.get("closing", [])]
    return "".join(f"{line}\n" for line in lines)


EXAMPLE = source(level="b", bits="0001", point="00 01 01 01", view=4, batching="00 00 00", challenge="02", closing=["01", "02"])

# Each with a line that its output has.
WORKED = [
    (source(level="b", bits="10", point="02 00 00"), "incoming 02"),
    (source(level="b", bits="02", point="00 00 00", view=1), "successor 01"),
    (source(level="b", bits="02", point="00 00 00", view=0), "successor 00"),
    (source(level="b", bits="0100", point="01 01 01 01", view=4), "successor 00"),
    (source(level="b", bits="0080", point="01 01 01 01", view=4), "successor 01"),
    (
        source(level="b", bits="01020304", point="00 00 02 03 04", view=5, batching="00 00 00", challenge="02"),
        "weight 01\nweight 02\nweight 00\nweight 00",
    ),
    (
        source(level="b", bits="01020304", point="01 01 02 03 04", view=5, batching="00 00 00", challenge="02"),
        "weight 00\nweight 00\nweight 00\nweight 02",
    ),
    (source(level="b", bits="", point="00 00 00"), "refused 10"),
    (source(level="b", bits="000102", point="00 00 00"), "refused 10"),
    (source(level="d", bits="0001", point=""), "refused 11"),
    (source(level="b", bits="00", point="00 00", view=3), "refused 13"),
    (source(level="b", bits="00", point="00 00", view=2), "refused 14"),
    (source(level="b", bits="0001", point="00 00 00"), "refused 16"),
    (source(level="b", bits="0001", point="00 00 00 00", view=4, batching="00 00 00"), "refused 17"),
    (source(level="b", bits="0001", point="00 00 00 00", view=3, batching="00 00 00", challenge="02"), "refused 17"),
    (source(level="b", bits="0001", point="00 00 00 00", batching="00 00"), "refused 18"),
    (source(level="b", bits="0001", point="02 00 00 00", batching="00 00 00", closing=["03", "03 04", "05"]), "refused 21"),
]

UNREADABLE = [
    (source(level="b", bits="00") + "points 00\n", "error: line 3 has no key"),
    (source(level="b", bits="00"), "error: there is no line of point"),
    (source(level="b", bits="00", point="") + "view 1\nview 1\n", "error: there are several lines of view"),
    (source(level="x", bits="00", point=""), "error: the level is none of b, w, d, q and a"),
    (source(level="b", bits="00", point="", view="+1"), "error: the view is no decimal number below 2^64"),
    (source(level="b", bits="00", point="", challenge="00"), "error: there is a challenge without batching"),
    (source(level="b", bits="00", point="", closing=["00"]), "error: closing without batching"),
    (source(level="b", bits="000", point=""), "error: the last byte of bits has one digit alone"),
    (source(level="b", bits="000G", point=""), "error: character 4 of bits is no lower-case hexadecimal digit"),
    (source(level="b", bits="00", point="00  00"), "error: point is not elements of 2 digits with single spaces between them"),
    (source(level="w", bits="00", point="0000 0q00"), "error: character 7 of point is no lower-case hexadecimal digit"),
    (source(level="b", bits="00", point="", batching="0"), "error: batching is not elements of 2 digits with single spaces between them"),
    (source(level="b", bits="00", point="", batching="", challenge="00 00"), "error: challenge is not one element"),
    (source(level="b", bits="00", point="", batching="", closing=["00", "0x"]), "error: character 2 of closing is no lower-case hexadecimal digit"),
]


def drawn(draw, letter, high, fixed, view, closings):
    """A random table of 2^high packed elements, opened at a random point whose first `fixed` coordinates are zero or one."""
    size = LEVELS[letter][0]
    k = (8 * size).bit_length() - 1

    def element():
        return draw.randbytes(size).hex()

    def bit():
        return draw.randrange(2).to_bytes(size, "little").hex()

    point = [bit() for _ in range(fixed)] + [element() for _ in range(high + k - fixed)]
    parts = dict(level=letter, bits=draw.randbytes(size << high).hex(), point=" ".join(point))
    if view is not None:
        parts["view"] = view
    parts["batching"] = " ".join(element() for _ in range(k))
    if view is not None and view > k:
        parts["challenge"] = element()
    limit = high if view is None else min(high, high + k - view)
    slot = high - min(fixed, limit)
    parts["closing"] = [" ".join(element() for _ in range(slot)) for _ in range(closings)]
    return source(**parts)


def generated():
    draw = random.Random(20261118)
    shapes = [
        ("b", 3, 0, None, 1), ("b", 3, 2, 2, 1), ("b", 4, 1, 5, 2), ("b", 3, 3, 6, 1), ("b", 2, 2, 3, 1),
        ("w", 2, 0, None, 1), ("w", 3, 1, 6, 1), ("w", 2, 1, 4, 1),
        ("d", 1, 0, 6, 1), ("d", 2, 2, 3, 1), ("d", 0, 0, None, 1),
        ("q", 1, 1, 7, 1), ("q", 1, 0, None, 1), ("q", 0, 0, 6, 1),
        ("a", 3, 1, 5, 2), ("a", 3, 2, None, 1), ("a", 2, 0, 5, 1),
    ]  # fmt: skip
    return [drawn(draw, *shape) for shape in shapes]


def store(crate, stdin, stdout):
    folder = pathlib.Path(__file__).resolve().parent.parent / "crates" / crate
    (folder / "stdin").write_text(stdin)
    (folder / "stdout").write_text(stdout)


def main():
    if len(sys.argv) > 1:
        sys.stdout.write(explain(pathlib.Path(sys.argv[1]).read_text(encoding="latin-1")))
        return
    for problem, answer in WORKED + UNREADABLE:
        assert answer + "\n" in explain(problem), (problem, answer, explain(problem))
    problems = [EXAMPLE] + [problem for problem, _ in WORKED + UNREADABLE] + generated()
    store("explain", EXAMPLE, explain(EXAMPLE))
    store("explain_cases", "--\n".join(problems), "--\n".join(map(explain, problems)))


if __name__ == "__main__":
    main()

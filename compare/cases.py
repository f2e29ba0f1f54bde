#!/usr/bin/env python3
"""Makes the cases that the Rust files and the proved program are both run on, and counts how many are answered alike.

    cases.py write                       prints the cases, separated by lines `--`
    cases.py count CASES PROVED RUST..   compares what was printed for them, and ends with a line of counts

The cases come from a random generator with a fixed start. No answer is computed here.
"""
import itertools
import pathlib
import random
import sys

sys.dont_write_bytecode = True
sys.path.append(str(pathlib.Path(__file__).resolve().parent.parent / "reference"))

from explain import EXAMPLE, WORKED, generated, source  # noqa: E402
from products import LEVELS  # noqa: E402
from reduce import problems  # noqa: E402

SHOWN = 3  # differences that are printed whole
LINES = 12  # lines of each that are printed


class Maker:
    def __init__(self, draw, letter):
        self.draw = draw
        self.letter = letter
        self.size = LEVELS[letter][0]
        self.k = (8 * self.size).bit_length() - 1

    def element(self):
        return self.draw.randrange(1 << 8 * self.size)

    def selector(self):
        return self.draw.randrange(2)

    def mixed(self):
        return self.selector() if self.draw.randrange(2) else self.element()

    def text(self, elements):
        return " ".join(x.to_bytes(self.size, "little").hex() for x in elements)

    def bits(self, count):
        """So many bytes: mostly drawn, now and then all zero, all set or with a single bit."""
        kind = self.draw.randrange(8)
        if kind == 0:
            return bytes(count)
        if kind == 1:
            return b"\xff" * count
        if kind == 2 and count:
            return (1 << self.draw.randrange(8 * count)).to_bytes(count, "little")
        return self.draw.randbytes(count)

    def slot(self, point, view):
        """How many coordinates the slot has of an opening that is not refused."""
        kept = len(point) - self.k
        limit = kept if view is None else min(kept, len(point) - view)
        prefix = len(list(itertools.takewhile(lambda x: x in (0, 1), point[:limit])))
        return kept - prefix

    def sends(self, view):
        return view is not None and view > self.k

    def case(self, high, point, view, closings):
        """A case that no step refuses."""
        parts = dict(level=self.letter, bits=self.bits(self.size << high).hex(), point=self.text(point))
        if view is not None:
            parts["view"] = view
        parts["batching"] = self.text(self.mixed() if closings == 3 else self.element() for _ in range(self.k))
        if self.sends(view):
            parts["challenge"] = self.text([self.mixed()])
        slot = self.slot(point, view)
        parts["closing"] = [
            self.text(self.mixed() if i == 2 else self.element() for _ in range(slot)) for i in range(closings)
        ]
        return source(**parts)


def small(draw):
    """Tables of 1 to 64 packed elements: every view and none, and points whose first coordinates are zero or one, as many as there are."""
    for letter in LEVELS:
        make = Maker(draw, letter)
        for high in range(7):
            n = high + make.k
            for view in (None, *range(n + 1)):
                for fixed in range(n + 1):
                    point = [make.selector() for _ in range(fixed)] + [make.element() for _ in range(n - fixed)]
                    yield make.case(high, point, view, draw.choice((1, 1, 1, 3)))
                point = [make.mixed() for _ in range(n)]
                yield make.case(high, point, view, 3)


def large(draw):
    """Tables of several blocks of 2^14 packed elements: views shorter, as long as and longer than a block, with prefixes and without."""
    shapes = [("b", 15), ("b", 16), ("a", 15), ("w", 15), ("w", 16), ("d", 15), ("q", 15)]
    for letter, high in shapes:
        make = Maker(draw, letter)
        n = high + make.k
        for rows in (None, 0, 1, 7, 13, 14, 15, high):
            view = None if rows is None else rows + make.k if rows else draw.randrange(make.k + 1)
            for fixed in {0, 1, draw.randrange(2, high + 1)}:
                point = [make.selector() for _ in range(fixed)] + [make.element() for _ in range(n - fixed)]
                yield make.case(high, point, view, 1)


def refused(draw, count):
    """Cases in which any of the steps is refused, often several at once."""
    for _ in range(count):
        make = Maker(draw, draw.choice(list(LEVELS)))
        high = draw.randrange(4)
        often = draw.choice((0.1, 0.3, 0.6))

        def wrong():
            return draw.random() < often

        size = make.size << high
        if wrong():
            size = draw.choice((0, 1, 2, 3, 4, 5, 6, 7, 8, 9, 12, 16, 24, 32, 48))
        n = high + make.k
        if wrong():
            n = draw.choice((draw.randrange(n + 4), draw.randrange(n + 4), 63, 64, 65, 70))
        point = [make.mixed() for _ in range(n)]
        view = draw.choice((None, draw.randrange(n + 1), draw.randrange(n + 1)))
        if wrong():
            view = draw.choice((n + 1, n + 2, make.k + 1, 63, 64, 2**32, 2**63, 2**64 - 1))
        parts = dict(level=make.letter, bits=make.bits(size).hex(), point=make.text(point))
        if view is not None:
            parts["view"] = view
        if draw.random() < 0.95:
            width = draw.randrange(make.k + 4) if wrong() else make.k
            parts["batching"] = make.text(make.element() for _ in range(width))
            if make.sends(view) != wrong():
                parts["challenge"] = make.text([make.mixed()])
            slot = max(0, make.slot(point, view) if view is None or view <= n else n - make.k)
            widths = (draw.randrange(slot + 3) if wrong() else slot for _ in range(draw.randrange(4)))
            parts["closing"] = [make.text(make.element() for _ in range(width)) for width in widths]
        yield source(**parts)


def stored():
    """The cases that reduce_cases is run on, as far as they can be read."""
    return [EXAMPLE, *(case for case, _ in WORKED), *generated(), *problems()]


def write():
    draw = random.Random(20261126)
    cases = [*stored(), *small(draw), *refused(draw, 2000), *large(draw)]
    sys.stdout.write("--\n".join(cases))


def split(path):
    return pathlib.Path(path).read_text(encoding="ascii").split("--\n")


def clipped(text):
    lines = [line if len(line) < 100 else line[:97] + "..." for line in text.splitlines()]
    return "".join(f"    {line}\n" for line in lines[:LINES]) + ("    ...\n" if len(lines) > LINES else "")


def first_difference(left, right):
    lines = itertools.zip_longest(left.splitlines(), right.splitlines())
    return next((f"line {at}: {a} | {b}" for at, (a, b) in enumerate(lines, 1) if a != b), "the line ends")


def kinds(answers):
    """How many answers end with each refusal, and how many are whole."""
    counts = {}
    for text in answers:
        last = text.splitlines()[-1] if text else "empty"
        kind = last if last.startswith(("refused", "error", "panic", "empty")) else "whole"
        counts[kind] = counts.get(kind, 0) + 1
    return ", ".join(f"{kind}: {counts[kind]}" for kind in sorted(counts))


def count(cases, proved, *rust):
    cases, proved = split(cases), split(proved)
    print(f"what the proved program answers: {kinds(proved)}")
    every = len(cases) == len(proved)
    alike = []
    for path in rust:
        printed = split(path)
        every = every and len(printed) == len(cases)
        differing = [at for at, (left, right) in enumerate(zip(proved, printed)) if left != right]
        alike.append(min(len(cases), len(proved), len(printed)) - len(differing))
        for at in differing[:SHOWN]:
            print(f"{path}: case {at + 1} differs (proved | Rust), {first_difference(proved[at], printed[at])}")
            print(clipped(cases[at]), end="")
        same = pathlib.Path(path).read_bytes() == "--\n".join(proved).encode("ascii")
        every = every and same and not differing
    print(f"{len(cases)} cases, alike: " + ", ".join(f"{n} ({path})" for n, path in zip(alike, rust)))
    return 0 if every else 1


if __name__ == "__main__":
    if sys.argv[1:] == ["write"]:
        write()
    else:
        assert sys.argv[1] == "count"
        sys.exit(count(*sys.argv[2:]))

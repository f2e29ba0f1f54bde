#!/usr/bin/env python3
"""Writes crates/product/stdin and crates/product/stdout.

The products are computed here from the definitions alone, in plain Python integers: the tower product by recursion on halves
down to single bits, the polynomial product by multiplying and dividing polynomials. Nothing is taken from the Rattle code.
"""
import functools
import pathlib
import random


@functools.cache
def tower(k, x, y):
    """The product of k doublings over the bit; coordinate u is bit u."""
    if k == 0:
        return x & y
    half = 1 << (k - 1)
    mask = (1 << half) - 1
    a, b, c, e = x & mask, x >> half, y & mask, y >> half
    be = tower(k - 1, b, e)
    low = tower(k - 1, a, c) ^ be
    high = tower(k - 1, a, e) ^ tower(k - 1, b, c) ^ tower(k - 1, generator(k - 1), be)
    return high << half | low


def generator(k):
    """1 for the bit, else (0, 1): one in the high half."""
    return 1 if k == 0 else 1 << (1 << (k - 1))


@functools.cache
def polynomial(x, y):
    """FIPS 197, section 4.2: modulo x^8 + x^4 + x^3 + x + 1."""
    product = 0
    for i in range(8):
        if y >> i & 1:
            product ^= x << i
    for degree in range(14, 7, -1):
        if product >> degree & 1:
            product ^= 0x11B << (degree - 8)
    return product


LEVELS = {
    "b": (1, lambda x, y: tower(3, x, y)),
    "w": (2, lambda x, y: tower(4, x, y)),
    "d": (4, lambda x, y: tower(5, x, y)),
    "q": (8, lambda x, y: tower(6, x, y)),
    "a": (1, polynomial),
}


def text(letter, x):
    return x.to_bytes(LEVELS[letter][0], "little").hex()


def case(letter, x, y):
    return f"{letter} {text(letter, x)} {text(letter, y)}", text(letter, LEVELS[letter][1](x, y))


# The products that FIPS 197 works itself, as it prints them: {57}·{83}, {57}·{13}, and xtime from {57}.
FIPS = [(0x57, 0x83, 0xC1), (0x57, 0x13, 0xFE), (0x57, 0x02, 0xAE), (0xAE, 0x02, 0x47), (0x47, 0x02, 0x8E), (0x8E, 0x02, 0x07)]

NO_LETTER = "error: no level letter (b, w, d, q or a) at the start of the line"


def shape(digits):
    return f"error: the letter is not followed by a space and {digits} digits, twice"


def no_digit(place):
    return f"error: character {place} is no lower-case hexadecimal digit"


REFUSED = [
    ("", NO_LETTER),
    ("x 00 00", NO_LETTER),
    ("B 00 00", NO_LETTER),
    (" b 00 00", NO_LETTER),
    ("b", shape(2)),
    ("b 0 00", shape(2)),
    ("b 00 000", shape(2)),
    ("b 00  00", shape(2)),
    ("b 00 00 ", shape(2)),
    ("b00 000", shape(2)),
    ("b 00000", shape(2)),
    ("w 00 00", shape(4)),
    ("d 00000000 0000", shape(8)),
    ("q 00 00", shape(16)),
    ("a 5783", shape(2)),
    ("b 0g 00", no_digit(4)),
    ("b 00 A0", no_digit(6)),
    ("w 0000 00 0", no_digit(10)),
    ("a : 57", shape(2)),
]


def main():
    draw = random.Random(20261117)
    cases = [case("b", 0x02, 0x02), case("b", 0x02, 0x03), case("b", 0x10, 0x10)]
    for x, y, product in FIPS:
        cases.append((f"a {x:02x} {y:02x}", f"{product:02x}"))
    cases += REFUSED
    for letter, (size, _) in LEVELS.items():
        top = 1 << 8 * size
        cases += [case(letter, x, y) for x in (0, 1, 2, top - 1) for y in (1, top // 2, top - 1)]
        cases += [case(letter, draw.randrange(top), draw.randrange(top)) for _ in range(64)]
    folder = pathlib.Path(__file__).resolve().parent.parent / "crates" / "product"
    (folder / "stdin").write_text("".join(f"{line}\n" for line, _ in cases))
    (folder / "stdout").write_text("".join(f"{answer}\n" for _, answer in cases))


if __name__ == "__main__":
    main()

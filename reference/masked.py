#!/usr/bin/env python3
"""Prints the report of one opening at a level whose product is coordinate by coordinate (so that its one is ff), from the definitions.

It is the text that the test of the crate `brought_level` expects. Nothing is taken from the Rattle code.
"""
ONE = 0xFF
BITS = bytes.fromhex("0123456789abcdef")
POINT = [0xFF, 0x5A, 0x3C, 0x0F, 0x99, 0xC3]
ROWS = 4
BATCHING = [0x69, 0x35, 0xD2]
CHALLENGE = 0xB7
CLOSING = [0x1E, 0x2D]
K = 3


def total(values):
    result = 0
    for value in values:
        result ^= value
    return result


def equality(point):
    table = [ONE]
    for x in point:
        table = [entry & factor for entry in table for factor in (ONE ^ x, x)]
    return table


def multilinear(table, point):
    return total(value & entry for value, entry in zip(table, equality(point), strict=True))


cells = [ONE * (byte >> b & 1) for byte in BITS for b in range(8)]
moved = [cell if c % 2**ROWS == 2**ROWS - 1 else cells[c + 1] for c, cell in enumerate(cells)]
for byte in BITS:
    print(f"packed {byte:02x}")
print(f"incoming {multilinear(cells, POINT):02x}")
print(f"successor {multilinear(moved, POINT):02x}")
# The first coordinate is one, and 6 - 4 coordinates may select the slot; the second is neither zero nor one.
print("prefix 1\naddress 1")
slot = POINT[1 : len(POINT) - K]
batching = equality(BATCHING)
settled = [total(weight for u, weight in enumerate(batching) if entry >> u & 1) for entry in equality(slot)]
kept = 2 ** (ROWS - K)
weights = [
    own ^ (CHALLENGE & settled[i - 1] if i % kept else 0) ^ (CHALLENGE & CHALLENGE & own if i % kept == kept - 1 else 0)
    for i, own in enumerate(settled)
]
print(f"initial {total(x & w for x, w in zip(BITS[2 ** len(slot) :], weights, strict=True)):02x}")
for weight in weights:
    print(f"weight {weight:02x}")
print(f"closing {multilinear(weights, CLOSING):02x}")

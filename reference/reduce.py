#!/usr/bin/env python3
"""Writes the stored inputs and outputs of the programs `reduce` and `reduce_cases`, which print what `explain` prints.

    reduce.py           writes crates/reduce/{stdin,stdout} and crates/reduce_cases/{stdin,stdout}
    reduce.py FOLDER    writes them to FOLDER/reduce and FOLDER/reduce_cases

The cases are those of `explain`, small ones for each level and each kind of view, and large ones of several blocks of 2^14 packed
elements. The answers come from the definitions in `explain.py`, which know of no blocks.
"""
import pathlib
import random
import sys

from explain import EXAMPLE, UNREADABLE, WORKED, drawn, explain, generated
from products import LEVELS


def small_shapes(letter):
    """Tables of eight packed elements: views inside an element, across elements and none, each with prefixes of several lengths."""
    k = (8 * LEVELS[letter][0]).bit_length() - 1
    for view in (None, 0, k - 1, k, k + 1, k + 2, k + 3):
        for fixed in (0, 1, 3):
            yield letter, 3, fixed, view, 1


# A level, the variables of the packed table, the coordinates that are zero or one, the view and the closing points.
LARGE = [
    ("b", 15, 0, 3 + 5, 1),  # many views in a block
    ("b", 15, 0, 3 + 15, 1),  # a view of two blocks
    ("a", 15, 0, None, 1),
    ("w", 16, 1, 4 + 14, 1),  # a view of one block, in one half of the table
]


def problems():
    draw = random.Random(20261123)
    shapes = [shape for letter in LEVELS for shape in small_shapes(letter)] + LARGE
    return [drawn(draw, *shape) for shape in shapes]


def store(folder, stdin, stdout):
    folder.mkdir(parents=True, exist_ok=True)
    (folder / "stdin").write_text(stdin)
    (folder / "stdout").write_text(stdout)


def main():
    crates = pathlib.Path(__file__).resolve().parent.parent / "crates"
    folder = pathlib.Path(sys.argv[1]) if len(sys.argv) > 1 else crates
    new = problems()
    assert not any("refused" in explain(case) for case in new), "a drawn coordinate is zero or one"
    cases = [EXAMPLE] + [case for case, _ in WORKED + UNREADABLE] + generated() + new
    store(folder / "reduce", EXAMPLE, explain(EXAMPLE))
    store(folder / "reduce_cases", "--\n".join(cases), "--\n".join(map(explain, cases)))


if __name__ == "__main__":
    main()

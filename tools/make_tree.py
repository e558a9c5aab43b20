#!/usr/bin/env python3
"""Writes the trees by which the decoders find a word's row, src/tree.rt of a64_decode and of
sve_decode, from the rows of their tables.

    tools/make_tree.py

Run it after a change of the rows; it takes some seconds. Nothing rests on it: the proofs test the
trees against the rows.
"""
import argparse
import functools
import pathlib
import re
import textwrap

CRATES = pathlib.Path(__file__).resolve().parent.parent / "crates"
ROW = re.compile(r"^ +(0x[0-9A-F]{8}) (0x[0-9A-F]{8}) G\d+\(.*?\) \[", re.M)
MARK = "// The rest is written by tools/make_tree.py.\n"
# the lowest bit at the root and how many; the nodes on the longest way from there; the most bits at
# a fork
ROOT = (24, 8)
STEPS = 4
WIDEST = 6


class Tree:
    """The tree that leads words to the rows. A set of rows is a number with a bit for each."""

    def __init__(self, rows):
        self.rows, self.nodes, self.blocks = rows, [], {}
        self.best = functools.lru_cache(None)(self.best)
        self.having = functools.lru_cache(None)(self.having)

    def having(self, low, width):
        """For each number of these bits the rows that may have it."""
        ones = (1 << width) - 1
        may_have = lambda mask, value, number: value >> low & ones == mask >> low & number
        return [sum(1 << i for i, row in enumerate(self.rows) if may_have(*row, number))
                for number in range(1 << width)]

    def best(self, left, steps):
        """What a node costs at the least, and by which bits it leads on: their lowest and how many;
        no bits at a leaf. A fork costs its nodes, and a step for each of the rows that are left,
        which counts as much as four nodes."""
        best = (0, 0, 0) if left & left - 1 == 0 else (1 << 32, 0, 0)
        for width in range(1, WIDEST + 1):
            for low in range(33 - width if steps > 1 and 1 << width < best[0] else 0):
                parts = {left & part for part in self.having(low, width)}
                if left not in parts:
                    cost = (1
                            << width) + 4 * bin(left).count("1") + sum(self.best(part, steps - 1)[0]
                                                                       for part in parts)
                    best = min(best, (cost, low, width))
        return best

    def node(self, left, steps):
        _, low, width = self.best(left, steps)
        if width:
            return f"({low}~{(1 << width) - 1}~{self.first(left, steps - 1, low, width)})"
        return str(left.bit_length() - 1 if left else len(self.rows))

    def first(self, left, steps, low, width):
        """Where the nodes stand to which one leads by these bits, one after the other."""
        block = tuple(self.node(left & part, steps) for part in self.having(low, width))
        if block not in self.blocks:
            self.blocks[block] = len(self.nodes)
            self.nodes += block
        return self.blocks[block]

    def text(self):
        all_rows = (1 << len(self.rows)) - 1
        if any(self.best(all_rows & part, STEPS)[0] >= 1 << 32 for part in self.having(*ROOT)):
            raise SystemExit("there is no such tree")
        first = self.first(all_rows, STEPS, *ROOT)
        return f"""{MARK}
/// As many steps as the longest way from the root has nodes.
const STEPS: u32 = {STEPS};

/// By a word's top eight bits.
const ROOT: Fork = Fork {{
    low: {ROOT[0]},
    mask: {(1 << ROOT[1]) - 1},
    first: {first},
}};

/// A fork's lowest bit, the mask above it and its first node; a leaf's row, or {len(self.rows)} where no row matches.
static NODES: [Node; {len(self.nodes)}] = nodes! {{
{lines_of(self.nodes)}
}};
"""


def lines_of(items):
    """The items in lines as `rt fmt` lays them out, with a space for each `~`."""
    return textwrap.fill(" ".join(items), 99, initial_indent="    ",
                         subsequent_indent="    ").replace("~", " ")


def main():
    words = argparse.ArgumentParser(description=__doc__,
                                    formatter_class=argparse.RawDescriptionHelpFormatter)
    words.parse_args()
    for table, decoder in (("a64_table", "a64_decode"), ("sve_table", "sve_decode")):
        rows = [(int(mask, 16), int(value, 16))
                for mask, value in ROW.findall((CRATES / table / "src" / "rows.rt").read_text())]
        tree = Tree(rows)
        file = CRATES / decoder / "src" / "tree.rt"
        file.write_text(file.read_text().partition(MARK)[0] + tree.text())
        print(decoder, len(rows), "rows", len(tree.nodes), "nodes")


if __name__ == "__main__":
    main()

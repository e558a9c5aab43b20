"""Prints the source of the workload that has a number, by a program of its own that shares nothing
with the emulator.

    tools/smemu-tools workload NUMBER

`bench_line(number)` is what a run of it by four threads is to print.
"""
from __future__ import annotations

import sys
from typing import Any, Iterator

from smemu_tools import parser

FIRST = (".text", ".global _start", "_start:", "smstart", "ptrue p0.b, all", "index z0.b, #0, #1",
         "index z1.b, #1, #2", "movz x9, #32512, lsl #32", "movz x10, #1")
LAST = ("smstop", "movz x8, #93", "movz x0, #0", "svc #0")
ATOMIC = "ldadd x10, x11, [x9]"
KINDS = ("smopa za0.s, p0/m, p0/m, z0.b, z1.b", "add z0.b, z0.b, z1.b", ATOMIC, "add x12, x12, #{}")


def lines(number: Any) -> Iterator[Any]:
    """The lines of the source."""
    yield from FIRST
    current = number
    for _ in range(number):
        current = (25173 * current + 13849) % 65536
        yield KINDS[current // 16 % 4].format(current % 4096)
    yield from LAST


def text(number: Any) -> Any:
    """The text of the source."""
    return "".join(f"{line}\n" for line in lines(number))


def bench_line(number: Any, threads: Any = 4) -> Any:
    """The line of a run: each instruction is counted once in each thread, and each atomic one adds
    1 to word 0."""
    all_lines = list(lines(number))
    return (f"bench {number} threads {threads} instructions "
            f"{threads * (len(all_lines) - 3)} word0 {threads * all_lines.count(ATOMIC)}")


def main() -> Any:
    words = parser(__doc__)
    words.add_argument("number", type=int, metavar="N")
    sys.stdout.write(text(words.parse_args().number))
    return 0

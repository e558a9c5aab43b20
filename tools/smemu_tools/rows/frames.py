"""The list data/frames.txt: a handler changes one byte of its frame, at each place of the head and
at the borders of what follows it, under both kernels.

Which byte it is, and what is added to it, the handler reads from two shared words, so a report's
journal says it: a case changes the answers of these two operations in a report, and `replay` tells
where the run of the thread is another one then, or with which line its block begins to be another.
The lines are those of changed.py; what is to be written comes from
tools/smemu_tools/model/expected_replay.py.
"""
from __future__ import annotations

from typing import Any, Iterator
from smemu_tools.model.elf import elf
from smemu_tools.model.expected import report
from smemu_tools.model.expected_replay import replay
from smemu_tools.rows.changed import case
from smemu_tools.rows.instructions import laid_out, movz
from smemu_tools.rows.nested import FOR_EVER, RETURNS, posts, sets
from smemu_tools.rows.world_programs import PTRUE_P0_B, SMOPA_ZA0_Z0_Z1, SMSTART, dup, index

# ldr x10, [x3]; ldr x11, [x3, #8]; ldrb w9, [x1, x10]; add w9, w9, w11; strb w9, [x1, x10]
CHANGES_A_BYTE = [0xF940006A, 0xF940046B, 0x386A6829, 0x0B0B0129, 0x382A6829]
HANDLER = ["handler", movz(3, 0x7F00, 2), *CHANGES_A_BYTE, *RETURNS]
OPTIONS = {"slice": 40, "budget": 120, "svl": 128}
HEADS = {1: 320, 2: 336}
LENGTH, ARRAY = 16, 16
# of each program what is done before the signal comes, and whether its frame has ZA
PROGRAMS = {"frames": ([], False),
            "frames-with-za": ([SMSTART, PTRUE_P0_B, index(0, 1, 1), dup(1, 3), SMOPA_ZA0_Z0_Z1],
                               True)}


def program(modes: Any) -> Any:
    return elf(laid_out(*sets(s5="handler"), *modes, *posts(5), *FOR_EVER, *HANDLER))


def places(version: Any, with_za: Any) -> Iterator[Any]:
    """The places of bytes: all of the head, and of each part past it the first and the last
    byte."""
    head = HEADS[version]
    parts = [32 * LENGTH, 16 * LENGTH // 8, LENGTH // 8, 32 - LENGTH // 8,
             *[ARRAY * ARRAY] * with_za, 4096]
    yield from range(head)
    for size in parts:
        yield head
        yield head + size - 1
        head += size


def answer_end(text: Any, place: Any) -> Any:
    """Where the line of the operation on a shared word ends, with its answer."""
    line = f"e ld {place} {0:016x} {0:016x} {0:016x}"
    return text.index(line) + len(line)


def cases(file: Any, text: Any, with_za: Any) -> Iterator[Any]:
    """The changes of the two answers and what `replay` is to tell of each."""
    version = int(text[len("smemu-report ")])
    first, second = answer_end(text, 0), answer_end(text, 1)
    for at in places(version, with_za):
        for added in (1, 0x80):
            changes = [(first - 4, first, f"{at:04x}".encode()),
                       (second - 2, second, f"{added:02x}".encode())]
            yield case(text.encode(), changes, lambda changed: replay(file, changed.decode()))


def frames() -> Any:
    """The programs and their reports of both versions by names, and the list."""
    files, reports, lines = {}, {}, []
    for name, (modes, with_za) in PROGRAMS.items():
        files[name] = program(modes)
        for version in (1, 2):
            reported = f"{name}-version-{version}.report"
            reports[reported] = report(files[name], kernel=version, **OPTIONS)
            lines += [f"{reported} replay {name}.elf @ 0\n",
                      *cases(files[name], reports[reported], with_za)]
    return files, reports, "".join(lines)

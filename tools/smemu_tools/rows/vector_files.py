"""Files of vectors with their answers (docs/VECTORS.md): data/NAME-VL-SVL.vectors, and the same
name with `.txt` behind it.

    tools/smemu-tools vector-files NAME < STEPS
    tools/smemu-tools vector-files check

The first splits steps into files, one for each pair of lengths; a step is VL, SVL, the line of a
vector and its answer, with tabs between them. The second compares the answers of each file with
those of tools/smemu_tools/model/expected_answers.py, and says in which file and line one differs.
"""
from __future__ import annotations

import re
import sys
from typing import Any, Iterator

from smemu_tools import parser
from smemu_tools.model.expected_answers import BAD_VECTORS, DONE, answers
from smemu_tools.rows import HERE

DATA = HERE / "data"
# the numbers of workers on which each file is run
WORKERS = (1, 2, 64)


def lengths_of(name: Any) -> Any:
    """The lengths in the name of a file."""
    return tuple(map(int, re.fullmatch(r".*-([0-9]+)-([0-9]+)\.vectors", name).groups()))


def files() -> Iterator[Any]:
    """The name of each file of vectors, its content and that of its answers."""
    for path in sorted(DATA.glob("*.vectors")):
        yield path.name, path.read_bytes(), (DATA / f"{path.name}.txt").read_bytes()


def vector_rows() -> Iterator[Any]:
    """A row of each file for each number of workers; the lengths of the options need not be said
    where they are those that are taken without them."""
    for name, content, text in files():
        vl, svl = lengths_of(name)
        status = BAD_VECTORS if text.startswith(b"bad vectors: ") else DONE
        if (vl, svl) == (128, 256):
            yield name, status, content, text, "vectors @"
        for workers in WORKERS:
            yield name, status, content, text, f"vectors @ --vl {vl} --svl {svl} --cores {workers}"


def put(name: Any, lines: Any, given: Any, ends: Any = True) -> None:
    """Writes a file of lines and its answers; its last line feed may be left out."""
    (DATA / name).write_text("\n".join(lines) + "\n" * ends if lines else "")
    (DATA / f"{name}.txt").write_text("".join(line + "\n" for line in given))


def write(name: Any, steps: Any) -> None:
    """Writes the files of steps."""
    parts = {}
    for vl, svl, line, given in (step.split("\t") for step in steps):
        parts.setdefault((int(vl), int(svl)), []).append((line, given))
    for (vl, svl), lines in parts.items():
        put(f"{name}-{vl}-{svl}.vectors", *zip(*lines))


def check() -> Any:
    """Prints each line of an answer that is not the interpreter's, and how many there are; whether
    all are."""
    count = faults = 0
    for name, content, text in files():
        wanted, given = text.decode().splitlines(), answers(content,
                                                            *lengths_of(name))[1].splitlines()
        differing = [number for number in range(max(len(wanted), len(given)))
                     if wanted[number:number + 1] != given[number:number + 1]]
        print(*(f"{name}: line {number + 1} differs" for number in differing), sep="\n",
              end="\n" * bool(differing))
        count, faults = count + len(wanted), faults + len(differing)
    print(f"{count} answers, {faults} differ")
    return not faults


def main() -> Any:
    words = parser(__doc__)
    words.add_argument("name", metavar="NAME",
                       help="of a file, whose steps are read from standard input, or `check`")
    name = words.parse_args().name
    if name == "check":
        return 0 if check() else 1
    write(name, sys.stdin.read().splitlines())
    return 0

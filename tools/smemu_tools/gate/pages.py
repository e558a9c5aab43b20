"""Writes the tables of the pages that come of the sources: the rooms of docs/ARCHITECTURE.md, from
crates.txt and the first sentence of each crate, and the lines that are trusted in docs/TRUST.md,
from tools/smemu-tools sizes.

    tools/smemu-tools pages [--check]

With --check nothing is written, and the status is 1 where a page is not what would be written.
"""
from __future__ import annotations

import argparse
import re
import sys
from typing import Any, Iterator

from smemu_tools import TOP
from smemu_tools.gate import edges, sizes


def first_sentence(crate: str) -> str:
    """What the documentation of a crate begins with."""
    source = next(path
                  for path
                  in (TOP / "crates" / crate / "src" / name for name in ("lib.rt", "main.rt"))
                  if path.exists())
    lines = re.match(r"((?:#.*\n|\n)*)((?://! .*\n)+)", source.read_text())[2].splitlines()
    return re.match(r".*?[.:](?=\s|$)(?<!:)|.*",
                    " ".join(line[4:] for line in lines))[0].rstrip(".")


def below(listed: dict[str, list[str]], crate: str) -> set[str]:
    """All libraries of this repository that a crate stands on, whichever way."""
    return {name for library in listed.get(crate, ()) if library in listed
            for name in (library, *below(listed, library))}


def rooms() -> Iterator[str]:
    """A line for each crate, which names of those below it the ones that no other of these stands
    on."""
    listed = edges.edges()
    every = {crate: below(listed, crate) for crate in listed}
    yield from ("| Crate | Stands on | What it is |", "|---|---|---|")
    for crate, libraries in listed.items():
        nearest = [it for it in libraries
                   if it not in listed
                   or not any(it in every.get(other, ()) for other in libraries)]
        yield f"| {crate} | {', '.join(nearest) or 'none'} | {first_sentence(crate)} |"


def replaced(page: str, before: str, lines: Iterator[Any]) -> str:
    """The text of a page with other lines in the place of the block after some text."""
    head, found, rest = page.partition(before)
    if not found:
        sys.exit(f"pages: there is no {before!r}")
    return head + found + "\n".join(lines) + "\n\n" + rest.partition("\n\n")[2]


PARTS = (
    ("ARCHITECTURE", "and `tools/smemu-tools pages` writes this table.\n\n", rooms),
    ("TRUST",
     "`tools/smemu-tools sizes --trusted` counts them:\n\n",
     lambda: (f"      {line}" for line in sizes.trusted())),
)


def main() -> bool:
    words = argparse.ArgumentParser(description=__doc__.partition("\n\n")[0])
    words.add_argument("--check", action="store_true")
    check, faults = words.parse_args().check, 0
    for name, before, lines in PARTS:
        path = TOP / "docs" / f"{name}.md"
        now = path.read_text()
        new = replaced(now, before, lines())
        if check and new != now:
            print(f"pages: docs/{name}.md is not what tools/smemu-tools pages writes")
            faults += 1
        elif new != now:
            path.write_text(new)
    return faults != 0

"""Prints how large each crate is: the lines of its sources, definitions and proofs that are not
blank, and its wrong bodies, of must-fail/ and of wrong/. With --trusted the lines of the
definitions that a reader of the claims must trust, part by part of docs/SPECIFICATION.md.

    tools/smemu-tools sizes [--trusted]

Trusted are the lines of the files that its parts 1 to 9 list, without blank lines, comments,
imports and attributes. Of a source file that is data (rows, fields, texts) all such lines count; of
one whose types alone are cited, its types.
"""
from __future__ import annotations

import argparse
import re
from typing import Any, Iterator

from smemu_tools import TOP

NO_DEFINITION = re.compile(r"\s*($|--|//|use |ghost use |pub mod |mod |#!?\[|\}$)")


def sizes() -> Iterator[list[int | str]]:
    """A row for each crate: its name, and five numbers."""
    for crate in sorted(path for path in (TOP / "crates").iterdir() if (path / "src").is_dir()):
        parts = (("src", "*.rt"), ("specs", "*.antt"), ("proofs", "*.antt"))
        lines = [sum(bool(line.strip()) for path in (crate / part).rglob(files)
                     for line in path.read_text().splitlines()) for part, files in parts]
        yield [crate.name, *lines,
               *(len(list((crate / part).glob("*.edit"))) for part in ("must-fail", "wrong"))]


def files_of(cell: str) -> Iterator[Any]:
    """The files that a row's first cell names: a file without a folder stands in that of the one
    before it."""
    folder = crate = ""
    for name in re.findall(r"[\w/.]+\.(?:antt|rt)", cell):
        parts = name.split("/")
        if len(parts) == 3:
            crate, folder = parts[0], parts[1]
        elif len(parts) == 2:
            folder = parts[0]
        yield TOP / "crates" / crate / folder / parts[-1]


def parts() -> Iterator[tuple[str, list[Any]]]:
    """The title of each part of docs/SPECIFICATION.md, and the files that it lists."""
    for part in (TOP / "docs" / "SPECIFICATION.md").read_text().split("\n## ")[1:]:
        title, _, body = part.partition("\n")
        rows = [row for row in body.splitlines()
                if row.startswith("| ") and not row.startswith("| File")]
        yield title, [path for row in rows for path in files_of(row.split("|")[1])]


def lines_of(path: Any) -> int:
    """How many lines of a file define something."""
    is_import, count = False, 0
    for line in path.read_text().splitlines():
        is_import = is_import or re.match(r"\s*(ghost )?use ", line) is not None and "{" in line
        count += not is_import and not NO_DEFINITION.match(line)
        is_import = is_import and "}" not in line
    return count


def trusted() -> Iterator[str]:
    """The lines to print: a number and a title for each part that is trusted, and all of them."""
    total, seen = 0, set()
    for title, files in parts():
        if title.startswith("10."):
            break
        new = set(files) - seen
        seen |= new
        here = sum(map(lines_of, new))
        total += here
        yield f"{here:6} {title}"
    yield f"{total:6} in {len(seen)} files"


def main() -> None:
    words = argparse.ArgumentParser(description=__doc__.partition("\n\n")[0])
    words.add_argument("--trusted", action="store_true")
    if words.parse_args().trusted:
        print(*trusted(), sep="\n")
        return
    print("| Crate | Sources | Definitions | Proofs | Tried by the gate | "
          "Other wrong bodies |\n|---|---|---|---|---|---|")
    rows = list(sizes())
    total: list[Any] = ["all", *map(sum, zip(*(row[1:] for row in rows)))]
    for name, *numbers in [*rows, total]:
        print(f"| {name} | " + " | ".join(f"{number:,}" for number in numbers) + " |")

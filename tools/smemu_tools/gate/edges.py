"""Says which edges of crates.txt are not used, and which are missing: a crate lists the libraries
that some file of it names. Besides, of the documents, which file of definitions
docs/SPECIFICATION.md lacks or names in vain, which crate the drawings of docs/ARCHITECTURE.md do
not have, which of their arrows is no edge, which name in backticks stands in no source, and which
link leads nowhere.

    tools/smemu-tools edges

A library that no file names is read for nothing by every check of the crate and of those above it.
The status is 0 where nothing is at fault.
"""
from __future__ import annotations

import re
from typing import Any, Iterator

from smemu_tools import TOP, parser
from smemu_tools.gate import sizes

NAMED = re.compile(r"\bRattle\.([a-z]\w*)\b|\b([a-z]\w*)::|\buse ([a-z]\w*)\b")
SOURCES = (".rt", ".antt", ".py", ".sh", ".s", ".c", ".h")
# what these have in backticks is the project's, and in the other pages often what is not there
PAGES = ("README", "CONTRIBUTING",
         *(f"docs/{name}"
           for name
           in ("ARCHITECTURE", "COMMAND", "DEBUGGER", "DECISIONS", "FIND_IT", "GLOSSARY", "KERNEL",
               "PERFORMANCE", "PROOFS", "REPORT", "SPECIFICATION", "TRUST", "WORLDS")))
IN_BACKTICKS = re.compile(r"`([A-Za-z_]\w*(?:(?:::|\.)[A-Za-z_]\w*)*)(?:\(\))?`")
# names of examples that PROOFS makes up, and programs of the system
NO_SOURCE = {"LendsSo", "Survey", "survey", "_other", "setsid"}


def edges() -> dict[str, list[str]]:
    """The libraries that each crate lists."""
    rows = [line.partition("#")[0].partition(":")
            for line in (TOP / "crates.txt").read_text().splitlines()]
    return {head.split()[0]: libraries.split() for head, _, libraries in rows if head.strip()}


def names_in(crate: Any) -> Any:
    """All that the files of a crate name as one names a library."""
    parts = [path for part in ("src", "specs", "proofs")
             for path in (TOP / "crates" / crate / part).rglob("*")]
    texts = [path.read_text() for path in parts if path.suffix in (".rt", ".antt")]
    return {name for text in texts for found in NAMED.findall(text) for name in found}


def edge_faults(listed: Any) -> Iterator[Any]:
    """What is wrong with the lists of libraries."""
    known = set().union(*listed.values(), listed)
    for crate, libraries in listed.items():
        named = names_in(crate)
        yield from (f"{crate} lists {library}, which no file of it names" for library in libraries
                    if library not in named)
        yield from (f"{crate} names {library}, which it does not list"
                    for library in sorted(named & known - {crate, *libraries}))


def specification_faults() -> Iterator[Any]:
    """Files of definitions that SPECIFICATION lacks, and files that it names and that are not
    there."""
    listed = {path for _, files in sizes.parts() for path in files}
    there = {path for path in (TOP / "crates").glob("*/specs/**/*.antt")
             if path.name != "Lib.antt" and "declared" not in path.parts}
    yield from (f"docs/SPECIFICATION.md lacks {path.relative_to(TOP / 'crates')}"
                for path in sorted(there - listed))
    yield from (
        f"docs/SPECIFICATION.md names {path.relative_to(TOP / 'crates')}, which is not there"
        for path in sorted(listed) if not path.exists())


def drawing_faults(listed: Any) -> Iterator[Any]:
    """Crates that stand nowhere before the rooms of ARCHITECTURE, and arrows there that are no
    edges."""
    lines = (TOP / "docs" / "ARCHITECTURE.md").read_text().partition("\n## Rooms")[0].splitlines()
    drawn = {name for line in lines for name in re.findall(r"\w+", line)}
    yield from (f"docs/ARCHITECTURE.md neither draws {crate} nor says that it leaves it out"
                for crate in listed if crate not in drawn)
    for line in lines:
        for left, right in re.findall(r"(\w+(?:, \w+)*) ──►(?= (\w+(?:, \w+)*))", line):
            arrows = [(crate, library) for crate in left.split(", ")
                      for library in right.split(", ") if {crate, library} <= set(listed)]
            yield from (f"docs/ARCHITECTURE.md draws {it[0]} on {it[1]}, which it does not list"
                        for it in arrows if it[1] not in listed[it[0]])


def name_faults(listed: Any) -> Iterator[Any]:
    """Names in backticks that stand in no source and are no crate's and no file's."""
    files = [path for part in ("crates", "tools", "examples", "bench")
             for path in (TOP / part).rglob("*") if "out" not in path.parts and path.is_file()]
    known = NO_SOURCE | set(listed) | {word for path in files
                                       for word in re.findall(r"\w+", path.name)}
    known |= {word for path in files if path.suffix in SOURCES
              for word in re.findall(r"\w+", path.read_text(errors="replace"))}
    for page in (TOP / f"{name}.md" for name in PAGES):
        for number, line in enumerate(page.read_text().splitlines() if page.exists() else (), 1):
            names = {word for name in IN_BACKTICKS.findall(line)
                     for word in re.findall(r"\w+", name)}
            yield from (f"{page.relative_to(TOP)}:{number} names {name}, which stands in no source"
                        for name in sorted(names - known))


def anchors(page: Any) -> Any:
    """The anchors of a page's headings."""
    headings = re.findall(r"^#+ +(.*)", page.read_text(), re.M)
    return {re.sub(r"[^\w\- ]", "", heading.lower()).replace(" ", "-") for heading in headings}


def link_faults() -> Iterator[Any]:
    """Links of the pages to files and headings that are not there."""
    for page in (TOP / "README.md", TOP / "CONTRIBUTING.md", *sorted((TOP / "docs").glob("*.md"))):
        for target in re.findall(r"\]\(([^)\s]*)\)", page.read_text()):
            name, _, anchor = target.partition("#")
            path = page.parent / name if name else page
            if not target.startswith("http") and (not path.exists() or anchor
                                                  and anchor not in anchors(path)):
                yield f"{page.relative_to(TOP)} has a link to {target}, which is not there"


def main() -> Any:
    parser(__doc__).parse_args()
    listed = edges()
    faults = [*edge_faults(listed), *specification_faults(), *drawing_faults(listed),
              *name_faults(listed), *link_faults()]
    print(*(f"edges: {fault}" for fault in faults),
          f"edges: {sum(map(len, listed.values()))} read, {len(faults)} at fault", sep="\n")
    return bool(faults)

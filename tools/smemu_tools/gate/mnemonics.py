"""Writes the table of mnemonics that docs/INSTRUCTIONS.md ends with: each name that the assembler
reads, a text of it, that text's word, and the groups whose rows its words have.

    tools/smemu-tools mnemonics

The words and texts are those of crates/smemu_rows/data, nearly all of which other tools gave; the
rows are those of the two tables.
"""
from __future__ import annotations

import re
from typing import Any, Iterator

from smemu_tools import TOP, parser

DATA = TOP / "crates" / "smemu_rows" / "data"
ROW = re.compile(r"(0x\w{8}) (0x\w{8}) (G\d+)\(")


def rows() -> list[tuple[int, int, str]]:
    """Mask, value and group of each row."""
    tables = [TOP / "crates" / table / "src" / "rows.rt" for table in ("a64_table", "sve_table")]
    return [(int(mask, 16), int(value, 16), group) for table in tables
            for mask, value, group in ROW.findall(table.read_text())]


def texts() -> Iterator[tuple[int, str, bool]]:
    """Word, text and whether it is an alias, of each line of the data."""
    for name in ("words.tsv", "vector_words.tsv"):
        for line in (DATA / name).read_text().splitlines():
            word, text = line.split("\t")
            yield int(word, 16), text, False
    for line in (DATA / "texts.tsv").read_text().splitlines():
        word, kind, text = line.split("\t")
        yield int(word, 16), text, kind == "alias"


def main() -> None:
    parser(__doc__).parse_args()
    table = rows()
    found: dict[str, Any] = {}
    for word, text, is_alias in texts():
        groups = {group for mask, value, group in table if word & mask == value}
        name = text.split()[0]
        if name.startswith("b."):
            name = "b.eq .. b.nv"
        entry = found.setdefault(name, {"groups": set(), "texts": [], "printed": False})
        entry["groups"] |= groups
        entry["printed"] |= not is_alias
        entry["texts"].append((is_alias, len(text), text, word))
    print("| Mnemonic | A text | Its word | Groups |")
    print("|---|---|---|---|")
    for name, entry in sorted(found.items()):
        _, _, text, word = min(entry["texts"])
        named = ", ".join(sorted(entry["groups"], key=lambda it: int(it[1:])))
        alias = "" if entry["printed"] else " (alias)"
        print(f"| {name}{alias} | `{text}` | {word:08x} | {named} |")

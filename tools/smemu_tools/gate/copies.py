"""Says which lemmas of the crates' proofs state what one of `plain_lemmas` or of std's pages
states: such a copy is to go, and that one to be cited.

    tools/smemu-tools copies

Statements are compared as text, with the variables named by their order and their types left out,
so what means the same in other words is not seen. The status is 0 where there is no copy.
"""
from __future__ import annotations

import pathlib
import re
import shutil
from typing import Iterator

from smemu_tools import TOP, parser

KIT = pathlib.Path(shutil.which("rattle") or TOP).resolve().parent.parent
SIGNATURE = re.compile(r"^(?:pub )?([^\s:(){}]+) : (.*(?:\n    .*)*)$", re.M)
BINDERS = re.compile(
    r"\s*(?:→\s*)?([({])([^\s(){}:]+(?: [^\s(){}:]+)*) : ((?:[^(){}]|\([^()]*\))*)[)}](?!\s*×)")
WORD = re.compile(r"[^\s(){},.;]+|[(){},.;]")
# the words of clauses and those of lemmas for one thing
SAME = {"nat_le": "leb", "nat_lt": "ltb", "slice_index_or": "get_or"}
# the lowest crate, which stands on none, states its own
BELOW = "sm_types"


def plain(text: str) -> str | None:
    """A statement with its variables named by their order, or none where it binds none of an
    ordinary type."""
    text = re.sub(r"^\{ℓ\} ", "", " ".join(text.split())).replace("Type ℓ", "Type 0")
    text = re.sub(r"◌≡◌ \{A = [^{}]*\} \((\w+ \w+)\) \((\w+ \w+)\)", r"\1 ≡ \2", text)
    text = re.sub(r"\beqb (\w+) (\w+)", r"(\1 == \2)", text)
    names, premises = {}, []
    while got := BINDERS.match(text):
        text = text[got.end():]
        kind = "t" if got[3].startswith("Type") else "x" if got[1] == "(" else "i"
        for name in got[2].split():
            if re.search("[≡≢≤<⊎]", got[3]) and not re.search(rf"(?<!\S){re.escape(name)}(?!\S)",
                                                              text):
                premises.append(got[3])
            else:
                names[name] = "type" if kind == "t" else f"{kind}{len(names)}"
    order = {name: place
             for place, name
             in enumerate(dict.fromkeys(it for it in names.values() if it != "type"))}
    text = re.sub(r"^ *→ *", "", " → ".join([*premises, re.sub(r"^ *→ *", "", text)]))
    words = [names.get(word, SAME.get(word, word)) for word in WORD.findall(text)]
    return " ".join(word if word not in order else f"{word[0]}{order[word]}"
                    for word in words) if order else None


def statements(paths: list[pathlib.Path]) -> Iterator[tuple[pathlib.Path, str, str | None]]:
    """Each lemma of some files, with its file."""
    for path in paths:
        for name, text in SIGNATURE.findall(path.read_text()):
            if re.search("[≡≢≤<⊥]", text) and not re.search(r"\bgoals?\.", text):
                yield path, name, plain(text)


def main() -> bool:
    parser(__doc__).parse_args()
    ours = sorted((TOP / "crates" / "plain_lemmas" / "proofs").glob("*.antt"))
    pages = sorted((KIT / "rattle" / "std" / "lemmas").rglob("*.md"))
    known = {text: f"{path.stem}.{name}" for path, name, text in statements([*ours, *pages])
             if text}
    read = [it for it in sorted((TOP / "crates").glob("*/proofs/**/*.antt"))
            if it not in ours and BELOW not in it.parts]
    copies = [(path, name, known[text]) for path, name, text in statements(read) if text in known]
    print(*(f"copies: {path.relative_to(TOP)} has {name}, which is {one}"
            for path, name, one in copies), f"copies: {len(copies)} at fault", sep="\n")
    return bool(copies)

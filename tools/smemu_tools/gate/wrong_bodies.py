"""Tries the wrong bodies that the gate does not: those of crates/NAME/wrong/*.edit, which have the
form of a must-fail edit.

    tools/smemu-tools wrong-bodies [--only WORD] [--anew] [NAME ..]
    tools/smemu-tools wrong-bodies --read [NAME ..]

Copies the crates, with what checks kept in out/, to a folder of its own, puts the wrong bodies of
these crates (of all, with no NAME) into must-fail/ there in place of those that the gate tries, and
runs `rt must-fail`. The prover must refuse each: the status is 0 where it does. --only takes those
whose name has WORD, and --anew also tries what an earlier run on this machine tried.

--read tries none: it says in a second which wrong bodies, of must-fail/ too, cannot be applied to
the sources as they stand.

A crate that was checked here (`rt check`) is not proved again; any other is proved first, and so
are the crates below it. The folder is made where TMPDIR says: on another disk than this one what is
kept is copied and not linked.
"""
from __future__ import annotations

import argparse
import os
import pathlib
import shutil
import subprocess
import sys
import tempfile
import time
from typing import Any

from smemu_tools import TOP

CRATES = TOP / "crates"
# what the gate tries, and what this script does
IN_GATE, BESIDE = "must-fail", "wrong"
# what a check keeps in out/, from which the next one goes on
KEPT = "incremental", "rlib"


def bodies_of(crate: str, folder: str, word: str = "") -> list[pathlib.Path]:
    """The wrong bodies in a folder of a crate whose names have the word."""
    return [it for it in sorted((CRATES / crate / folder).glob("*.edit")) if word in it.stem]


class Edit:
    """A wrong body: pairs of an old and a new text, each in a file. What it may hold is what `rt
    must-fail` reads."""

    def __init__(self, path: pathlib.Path) -> None:
        self.pairs, self.fault = [], None
        file = old = None
        for line in path.read_text().splitlines():
            if line.startswith("file: "):
                file = line[len("file: "):].strip()
            elif line.startswith("old: "):
                old = line[len("old: "):]
            elif line.startswith("new:"):
                if not file or not old:
                    self.fault = "a 'new:' line has no 'file:' and 'old:' line before it"
                    return
                self.pairs.append((file, old,
                                   line[len("new: "):] if line.startswith("new: ")
                                   else line[len("new:"):]))
                old = None
        if not self.pairs:
            self.fault = "it has no 'old:' and 'new:' pair"


def fault_of(path: pathlib.Path) -> Any:
    """Why a wrong body cannot be applied to its crate, or None."""
    crate, edit, texts = path.parent.parent, Edit(path), {}
    for file, old, new in edit.pairs:
        if not file.startswith(("src/", "specs/", "proofs/")) or not (crate / file).is_file():
            return f"there is no file {file}"
        text = texts.setdefault(file, (crate / file).read_text())
        if text.count(old) != 1:
            return f"an 'old:' text is in {file} {text.count(old)} times, and not once"
        texts[file] = text.replace(old, new)
    if not edit.fault and all(text == (crate / file).read_text() for file, text in texts.items()):
        return "it changes nothing"
    return edit.fault


def read(bodies: list[pathlib.Path]) -> bool:
    """Says which of these cannot be applied, and whether all can."""
    faults = [(it, fault_of(it)) for it in bodies]
    for path, why in faults:
        if why:
            print(f"wrong_bodies: {path.relative_to(TOP)} cannot be applied: {why}")
    good = sum(why is None for _, why in faults)
    print(f"wrong_bodies: {good} of {len(faults)} can be applied")
    return good == len(faults)


def with_below(names: Any) -> Any:
    """The crates of these names and all below them, by crates.txt."""
    rows = [line.partition("#")[0].partition(":")
            for line in (TOP / "crates.txt").read_text().splitlines()]
    uses = {name.split()[0]: libraries.split() for name, _, libraries in rows if name.strip()}
    found, left = set(), list(names)
    while left:
        name = left.pop()
        if name in uses and name not in found:
            found.add(name)
            left += uses[name]
    return found


def link(source: Any, target: Any) -> Any:
    """Copies a file, what was proved by a link: rt replaces such a file, and never writes into
    it."""
    if source.endswith(".oantt") or "/rlib/" in source:
        try:
            return os.link(source, target)
        except OSError:
            pass
    return shutil.copy2(source, target)


def copy_crates(room: Any, bodies: Any) -> None:
    """Makes the scratch copy: the crates, with what is kept of those that are needed, and only
    these bodies in must-fail/."""
    needed = with_below(bodies)
    for name in ("crates.txt", "HANDLES"):
        shutil.copy2(TOP / name, room / name)
    # it is the top of a repository
    (room / ".git").mkdir()
    for crate in sorted(it for it in CRATES.iterdir() if (it / "src").is_dir()):
        kept = [f"out/{it}" for it in KEPT if crate.name in needed]
        for part in ("src", "specs", "proofs", *kept):
            if (crate / part).is_dir():
                shutil.copytree(crate / part, room / "crates" / crate.name / part,
                                copy_function=link)
        for edit in bodies.get(crate.name, ()):
            to = room / "crates" / crate.name / IN_GATE
            to.mkdir(exist_ok=True)
            shutil.copy2(edit, to / edit.name)


def try_all(bodies: Any, anew: Any) -> Any:
    """Tries these wrong bodies, by crate, and says whether each was refused."""
    count, start = sum(map(len, bodies.values())), time.monotonic()
    with tempfile.TemporaryDirectory(prefix="wrong-bodies-") as room:
        copy_crates(pathlib.Path(room), bodies)
        words = ["rt", "must-fail", *["--anew"] * anew, *bodies]
        how: dict[str, Any] = {"cwd": room, "stdin": subprocess.DEVNULL, "stdout": subprocess.PIPE,
                               "stderr": subprocess.STDOUT}
        ran = subprocess.run(words, **how, text=True, errors="replace")
    print(ran.stdout.replace(f"{room}/", ""), end="")
    refused = ran.stdout.count(": refused, as it must be")
    print(f"wrong_bodies: {refused} of {count} are refused, in {time.monotonic() - start:.0f} s")
    return ran.returncode == 0 and refused == count


def main() -> Any:
    words = argparse.ArgumentParser(description=__doc__.partition("\n\n")[0])
    words.add_argument("names", nargs="*", metavar="NAME")
    words.add_argument("--only", default="", metavar="WORD")
    words.add_argument("--anew", action="store_true")
    words.add_argument("--read", action="store_true")
    words = words.parse_args()
    known = sorted(it.name for it in CRATES.iterdir() if (it / "src").is_dir())
    lost = [it for it in words.names if it not in known]
    if lost:
        sys.exit(f"wrong_bodies: there is no crate {lost[0]}")
    names = words.names or known
    if words.read:
        return not read([it for name in names for folder in (IN_GATE, BESIDE)
                         for it in bodies_of(name, folder)])
    bodies = {name: found for name in names if (found := bodies_of(name, BESIDE, words.only))}
    if not bodies:
        sys.exit("wrong_bodies: there is no such wrong body")
    if not read([it for found in bodies.values() for it in found]):
        return 1
    return not try_all(bodies, words.anew)

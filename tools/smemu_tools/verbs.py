"""The words by which the scripts are started.

    ./smemu WORD ..              one for users: `smemu exec PROGRAM`
    tools/smemu-tools WORD ..    any of them

What follows the word are the script's own words.
"""
from __future__ import annotations

import ast
import importlib
import sys
from typing import Any

from smemu_tools import TOP
from smemu_tools.user import emulator

# the words of ./smemu, with their modules in user/
SCRIPTS = {"exec": "execute", "gdb": "gdb", "outcomes": "outcomes", "za-calls": "za_calls", "when": "when",
           "profile": "profile", "show": "show", "refused": "refused"}
# the other words, which are the names of modules
OTHERS = {
    "user": ("at-fault", "completions", "install", "manual", "vectors"),
    "model": ("expected", "expected-answers", "expected-ckpt", "expected-debug", "expected-replay", "workload", "world"),
    "rows": ("lane-steps", "make-rows", "marked-calls", "vector-edges", "vector-files", "vector-lines", "word-steps"),
    "gate": ("build", "compilers", "copies", "cores", "count", "edges", "lint", "make-table", "mnemonics", "pages", "release",
             "sizes", "times", "wrong-bodies"),
    "tests": ("beside-tests", "changed-files", "command-tests", "doc-tests", "elsewhere", "fault-tests", "from-c-tests", "host-tests",
              "install-tests", "plant-faults", "profile-tests", "random-loops", "random-vectors", "refuse-growth",
              "script-tests", "self-test", "stress", "ticket-lock"),
}
MODULES = {**{word: f"user.{name}" for word, name in SCRIPTS.items()},
           **{word: f"{group}.{word.replace('-', '_')}" for group, words in OTHERS.items() for word in words}}


def first_sentence(word: Any) -> Any:
    """What a script says that it does."""
    path = TOP / "tools" / "smemu_tools" / (MODULES[word].replace(".", "/") + ".py")
    text = ast.get_docstring(ast.parse(path.read_text())) or ""
    return " ".join(text.partition("\n\n")[0].split())


def show_words() -> None:
    """Lists the words of this installation, or of the repository."""
    print("usage: smemu-tools WORD ..", "", "The words; WORD --help says more:", sep="\n")
    for word, name in MODULES.items():
        if (TOP / "tools" / "smemu_tools" / name.split(".")[0]).is_dir():
            print(f"  {word:16} {first_sentence(word)}")


def main() -> Any:
    word = sys.argv[1] if len(sys.argv) > 1 else "--help"
    if word in ("-h", "--help"):
        return show_words()
    if word not in MODULES:
        sys.exit(f"smemu-tools: {word} is no script; tools/smemu-tools --help lists them")
    sys.argv[:2] = [f"smemu {word}" if word in SCRIPTS else f"smemu-tools {word}"]
    emulator.end_with(importlib.import_module(f"smemu_tools.{MODULES[word]}").main)

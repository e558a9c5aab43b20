"""Writes the manual page of smemu, of what `--help` says and of docs/COMMAND.md, or that of the
scripts, of what the help of each says.

    tools/smemu-tools manual [--scripts] > smemu.1; man ./smemu.1

`./smemu --install` installs both. SMEMU may name the emulator whose help it is.
"""
from __future__ import annotations

import argparse
import os
import re
import subprocess
import sys
from typing import Any, Iterator

from smemu_tools import TOOL, TOP
from smemu_tools import verbs

SMEMU = os.environ.get("SMEMU") or str(TOP / "smemu")


def plain(text: str) -> str:
    """A text as it stands in a page: what would be an escape or a request is not."""
    text = text.replace("\\", "\\e").replace("-", "\\-")
    return re.sub(r"^([.'])", r"\\&\1", text)


def formatted(text: str) -> str:
    """A line of Markdown: code is bold, and of a link its words stand, with the page that it leads
    to."""
    text = re.sub(r"\[([^]]*)\]\(#[^)]*\)", r"\1", text)
    text = re.sub(r"\[([^]]*)\]\((?:\.\./)*([^)#]*)[^)]*\)", lambda it: it[1]
                  if it[1].endswith(it[2]) else f"{it[1]} ({it[2]})", text)
    parts = re.split(r"`([^`]*)`", text)
    return "".join(rf"\fB{plain(part)}\fR" if odd % 2 else plain(part)
                   for odd, part in enumerate(parts) if part)


def cells(row: str) -> list[str]:
    return [cell.strip() for cell in row.strip().strip("|").split(" | ")]


def table(rows: list[str]) -> Iterator[str]:
    """A table of two columns is a list of tags with what they are; a wider one is laid out by
    tbl."""
    head, body = cells(rows[0]), [cells(row) for row in rows[2:]]
    if len(head) == 2:
        for tag, text in body:
            yield from (".TP", formatted(tag), formatted(text))
        return
    yield from (".TS", "box;", " ".join(["lb"] * len(head)),
                " ".join(["l"] * (len(head) - 1) + ["lx"]) + ".")
    yield "\t".join(map(formatted, head))
    yield "_"
    for row in body:
        yield "\t".join(f"T{{\n{formatted(cell)}\nT}}" for cell in row)
    yield ".TE"


def page(text: str) -> Iterator[str]:
    """The lines of a page of Markdown: headings, paragraphs, tables and what is shown as it is."""
    for block in re.split(r"\n\n+", text.strip()):
        lines = block.split("\n")
        if re.match("#+ ", block):
            yield ".SH " + plain(lines[0].lstrip("# ").upper())
        elif block.startswith("    "):
            yield from (".PP", ".EX", *(plain(line) for line in lines), ".EE")
        elif "| " in block and any(line.startswith("|--") for line in lines):
            start = next(number for number, line in enumerate(lines) if line.startswith("|"))
            yield from (".PP", *map(formatted, lines[:start]), *table(lines[start:]))
        else:
            yield ".PP"
            yield from (formatted(re.sub(r"^- ", "* ", line.strip())) for line in lines)


def head(name: str, text: str) -> list[str]:
    """What a page begins with: the program's version, its name, and what it does."""
    version = said(SMEMU, "--version").strip()
    return ["'\\\" t", f'.TH {name.upper()} 1 "" "{version}"', ".SH NAME",
            f"{name} \\- {plain(text)}"]


def said(*words: str) -> str:
    environment = {**os.environ, "COLUMNS": "80"}
    return subprocess.run(words, check=True, stdout=subprocess.PIPE, text=True,
                          env=environment).stdout


def of_command() -> str:
    """The page of the command."""
    first, _, rest = said(SMEMU, "--help").partition("\n\n")
    words = re.findall(r"^  (\S+(?: [A-Z]+)*)", rest.partition("\n\n")[0], re.M)
    lines = [*head("smemu", first[len("smemu "):].rstrip(".")), ".SH SYNOPSIS", ".nf",
             *(f"\\fBsmemu\\fR {plain(line)}" for line in words), ".fi",
             ".SH SUMMARY", ".EX", *map(plain, rest.rstrip().split("\n")), ".EE"]
    text = (TOP / "docs" / "COMMAND.md").read_text().replace("# The command\n", "# Description\n",
                                                             1)
    lines += [*page(text), ".SH SEE ALSO", r"\fBsmemu\-scripts\fR(1)"]
    return "\n".join(lines) + "\n"


def of_scripts() -> str:
    """The page of the scripts: what the help of each says."""
    lines = [*head("smemu-scripts", "the words of smemu that are scripts"), ".SH DESCRIPTION",
             "These words of", r"\fBsmemu\fR(1)",
             "are scripts, which ask its commands. No theorem covers them."]
    for verb in verbs.SCRIPTS:
        help_lines = said(sys.executable, str(TOOL), verb, "--help").rstrip().split("\n")
        lines += [f".SH {plain(verb.upper())}", ".EX", *map(plain, help_lines), ".EE"]
    lines += [".SH SEE ALSO", r"\fBsmemu\fR(1)"]
    return "\n".join(lines) + "\n"


def main() -> Any:
    words = argparse.ArgumentParser(description=__doc__.partition("\n\n")[0])
    words.add_argument("--scripts", action="store_true", help="the page of the scripts")
    print(of_scripts() if words.parse_args().scripts else of_command(), end="")
    return 0

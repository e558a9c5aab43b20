"""Prints what `debug` is to write of a program file, a report, a thread and a script; the status is
that of the process. The thread runs over its journal as in expected_replay.py, and the kinds of
faults of a report are those of report_faults.py.

    tools/smemu-tools expected-debug FILE REPORT THREAD SCRIPT

The texts of words are looked up in the tables of crates/smemu_rows/data, which another tool made or
a hand wrote.
"""
from __future__ import annotations

import itertools
import pathlib
import re
import sys
from typing import Any, Callable, Iterator

from smemu_tools import TOP, parser
from smemu_tools.model.expected import MASK, block
from smemu_tools.model.expected_replay import (Ends, Replayed, block_in, count_of, events_of,
                                               run_alone)
from smemu_tools.model.report_faults import found

DATA = TOP / "crates" / "smemu_rows" / "data"
READ, EXECUTE = 4, 1


def listed() -> dict[str, str]:
    """The text of each word in the tables; of those that mean no instruction it is `none`."""
    texts = dict.fromkeys((DATA / "no_row.tsv").read_text().split(), "none")
    for table in ("words", "vector_words", "texts", "debug_words"):
        for line in (DATA / f"{table}.tsv").read_text().splitlines():
            word, *sort, text = line.split("\t")
            if sort in ([], ["printed"]):
                texts[word] = text
    return texts


# ---- scripts


class BadScript(Exception):
    """The kind of fault of a line of a script."""


def number_up_to(most: int) -> Callable[..., Any]:
    return lambda word: int(word) if re.fullmatch("0|[1-9][0-9]*",
                                                  word) and int(word) <= most else None


# what a word says, or None, and the kind of fault then
NUMBER, LENGTH = (number_up_to(2**32 - 1), "badnumber"), (number_up_to(4096), "badnumber")
ADDRESS = lambda word: int(word, 16) if re.fullmatch("0x[0-9A-Fa-f]{1,16}",
                                                     word) else None, "badnumber"
ELEMENT, VERTICAL = ({"b": 1, "h": 2, "s": 4, "d": 8, "q": 16}.get,
                     "unknown"), ({"h": False, "v": True}.get, "unknown")
OPERANDS: dict[str, Any] = {"step": [NUMBER], "back": [NUMBER], "goto": [NUMBER],
                            "break": [ADDRESS], "regs": [], "za": [], "where": [],
                            "slice": [ELEMENT, NUMBER, VERTICAL, NUMBER], "mem": [ADDRESS, LENGTH]}


def command_of(line: str) -> tuple[int | str, ...]:
    """The command of a line: its name and its values. The words are judged from left to right, with
    one space between them."""
    name, *words = line.split(" ")
    if name not in OPERANDS:
        raise BadScript("unknown")
    values = []
    for place, (value_of, fault) in enumerate(OPERANDS[name]):
        if place == len(words):
            raise BadScript("missing")
        values.append(value_of(words[place]))
        if values[-1] is None:
            raise BadScript(fault)
    if len(words) > len(values):
        raise BadScript("extra")
    return name, *values


def read_script(script: bytes) -> list[tuple[int | str, ...]]:
    """The commands of a script; its first faulty line raises."""
    commands = []
    for number, line in enumerate(script.split(b"\n"), 1):
        try:
            if line:
                commands.append(command_of(line.decode()))
        except UnicodeDecodeError:
            raise BadScript(f"line {number}: nottext") from None
        except BadScript as fault:
            raise BadScript(f"line {number}: {fault}") from None
    return commands


# ---- what is shown of a thread


def registers(thread: Replayed) -> Any:
    lines = itertools.dropwhile(lambda line: not line.startswith("pc "), block(thread, None))
    return itertools.takewhile(lambda line: not line.startswith(("za ", "memory ")), lines)


def vector_of_slice(thread: Replayed, size: int, tile: int, vertical: bool,
                    number: int) -> list[str]:
    matrix = thread.matrix
    if not matrix.on:
        return ["off"]
    if tile >= size or number >= matrix.lengths[1] // size:
        return ["outside"]
    return ["".join(bytes(matrix.za[v][at:at + size]).hex()
                    for v, at in matrix.slice(size, tile, vertical, number))]


def memory(thread: Replayed, address: int, length: int) -> list[str]:
    for at in range(address, address + length):
        if thread.bytes_with(READ, at, 1) is None:
            return [f"fault {at & MASK:016x}"]
    return [thread.bytes_with(READ, address, length).hex()]


def place(thread: Replayed, texts: dict[str, str]) -> list[str]:
    got = None if thread.pc % 4 else thread.bytes_with(EXECUTE, thread.pc, 4)
    text = "none" if got is None else texts[f"{int.from_bytes(got, 'little'):08x}"]
    return [f"at {thread.count} {thread.pc:016x} {text}"]


SHOWS: dict[str, Any] = {"regs": registers, "za": lambda thread: thread.matrix.lines(),
                         "slice": vector_of_slice, "mem": memory}


# ---- the session


def shown(thread: Replayed) -> Iterator[Replayed]:
    """The thread at each count from 0 on: after the fewest turns by which so many instructions are
    counted."""
    count, stop = -1, None
    while True:
        if thread.count > count:
            yield thread
            count = thread.count
        if stop is not None:
            return
        stop = thread.turn()


def moved(at: int, name: str, value: int, pcs: list[int]) -> int:
    """Where a move leads from a count; past the last one where it ends there. `pcs` has the PC that
    is shown at each count."""
    if name == "break":
        return next((count for count in range(at + 1, len(pcs)) if pcs[count] == value), len(pcs))
    return {"step": at + value, "back": max(at - value, 0), "goto": value}[name]


def session(start: Any, commands: Any, texts: Any) -> Iterator[Any]:
    """The lines that the commands print, over a thread that begins anew each time it is asked
    for."""
    shows = {**SHOWS, "where": lambda thread: place(thread, texts)}
    pcs = [thread.pc for thread in shown(start())]
    at, last, answers, asked = 0, len(pcs) - 1, [[] for _ in commands], {}
    for number, command in enumerate(commands):
        name, *values = command
        if name in shows:
            asked.setdefault(at, []).append(number)
            continue
        at = moved(at, name, values[0], pcs)
        if at > last:
            at = last
            answers[number] = [f"end {last}"]
    for count, thread in enumerate(shown(start())):
        for number in asked.get(count, []):
            name, *values = commands[number]
            answers[number] = list(shows[name](thread, *values))
    return itertools.chain(*answers)


def debug(file: bytes, report: bytes, number: int, script: bytes, texts: dict[str, str]) -> Any:
    """The status and the text."""
    fault = found(report)
    if fault != "read":
        line, part = fault.split()
        return 9, f"bad report: line {line}: {part}\n"
    try:
        commands = read_script(script)
        options, _, block_lines = block_in(file, report.decode().splitlines(), number)
        start = lambda: Replayed(file, options, events_of(block_lines), number)
        run_alone(start(), count_of(block_lines))
    except BadScript as fault:
        return 11, f"bad plan: {fault}\n"
    except Ends as end:
        return end.args
    return 0, "".join(line + "\n" for line in session(start, commands, texts))


def main() -> Any:
    words = parser(__doc__)
    words.add_argument("program", type=pathlib.Path, metavar="PROGRAM")
    words.add_argument("report", type=pathlib.Path, metavar="REPORT")
    words.add_argument("thread", type=int, metavar="THREAD")
    words.add_argument("script", type=pathlib.Path, metavar="SCRIPT")
    asked = words.parse_args()
    files = (asked.program.read_bytes(), asked.report.read_bytes(), asked.thread,
             asked.script.read_bytes())
    status, text = debug(*files, listed())
    sys.stdout.write(text)
    return status

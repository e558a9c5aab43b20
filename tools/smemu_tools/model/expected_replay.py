"""Prints what `replay` is to write of a program file, a report that is in the format, and a thread;
the status is that of the process. The thread runs on the interpreter of expected.py, under the
kernel of the report's version, and each operation on a shared word is answered by the report's
journal.

    tools/smemu-tools expected-replay FILE REPORT THREAD
"""
from __future__ import annotations

import hashlib
import itertools
import pathlib
import re
import sys
from typing import Any

from smemu_tools import parser
from smemu_tools.model.expected import SHARED, Raised, Thread, block
from smemu_tools.model.report_faults import found


class Parts(Exception):
    """The thread asks what the journal does not answer."""


class Replayed(Thread):
    def __init__(self, file: bytes, options: dict[str, int], events: list[str],
                 number: Any) -> None:
        super().__init__(file, options["budget"], options["vl"], options["svl"], options["slice"],
                         number, options["threads"], options["kernel"])
        self.events = events

    def answer(self, kind: str, place: int, a: int, b: int = 0) -> int:
        self.need_room()
        used = len(self.journal)
        if used == len(self.events):
            raise Parts(f"journalshort {self.count}")
        *asked, answer = self.events[used].split()
        if asked != ["e", kind, str(place), f"{a:016x}", f"{b:016x}"]:
            raise Parts(f"journaldiffers {used}")
        return self.keep(kind, place, a, b, int(answer, 16))

    def ask(self, kind: str, address: int, base: int, a: int = 0, b: int = 0) -> int:
        if base == 31 and self.sp % 16:
            raise Raised("spalign", "")
        return self.answer(kind, (address - SHARED.start) // 8, a, b)

    def ask_signals(self, kind: str, thread: int, a: int = 0) -> int:
        return self.answer(kind, thread, a)


class Ends(Exception):
    """The status and the text with which a command ends."""


def block_in(file: bytes, lines: list[str], number: int) -> tuple[dict[str, int], int, list[str]]:
    """The options of a report, its version among them as the kernel, and where in it the block of a
    thread begins, with the block's lines."""
    options = {name: int(value) for name, value in re.findall(r"(\w+)=(\d+)", lines[1])}
    options["kernel"] = int(lines[0][len("smemu-report "):])
    if lines[2] != f"image {hashlib.sha256(file).hexdigest()}":
        raise Ends(9, "bad report: line 3: image\n")
    if number >= options["threads"]:
        raise Ends(9, "bad report: line 2: nothread\n")
    start = lines.index(f"thread {number}")
    return options, start, lines[start:lines.index("end-thread", start) + 1]


def in_format(report: bytes) -> None:
    """Refuses a report that is not in the format."""
    fault = found(report)
    if fault != "read":
        line, part = fault.split()
        raise Ends(9, f"bad report: line {line}: {part}\n")


def opened(file: bytes, report: bytes, number: Any) -> tuple[dict[str, int], int, list[str]]:
    """What `block_in` gives of a report that is yet to be looked at."""
    in_format(report)
    return block_in(file, report.decode().splitlines(), number)


def run_alone(thread: Replayed, count: int) -> str:
    """How the thread stops, which is to be at that count, with all events used."""
    stop = None
    while stop is None:
        try:
            stop = thread.turn()
        except Parts as parts:
            raise Ends(10, f"differs: {parts}\n") from None
        if thread.count > count:
            raise Ends(10, f"differs: goeson {count}\n")
    if thread.count < count:
        raise Ends(10, f"differs: endsearly {thread.count} {stop}\n")
    if len(thread.journal) < len(thread.events):
        raise Ends(10, f"differs: journallong {len(thread.events) - len(thread.journal)}\n")
    return stop


def events_of(block: list[str]) -> list[str]:
    return [line for line in block if line.startswith("e ")]


def count_of(block: list[str]) -> int:
    return int(block[2].split()[1])


def compared(ours: list[str], theirs: list[str], start: int) -> tuple[int, str]:
    """The status and the text where a block is to be that of the report, which begins at that
    line."""
    for line, (a, b) in enumerate(itertools.zip_longest(theirs, ours, fillvalue=""), start + 1):
        if a != b:
            return 10, f"differs: line {line}\n{a}\n{b}\n"
    return 0, "".join(line + "\n" for line in ours)


def replay(file: bytes, report: str, number: int = 0) -> Any:
    """The status and the text."""
    try:
        options, start, theirs = block_in(file, report.splitlines(), number)
        thread = Replayed(file, options, events_of(theirs), number)
        stop = run_alone(thread, count_of(theirs))
    except Ends as end:
        return end.args
    return compared(block(thread, stop, number), theirs, start)


def main() -> Any:
    words = parser(__doc__)
    words.add_argument("program", type=pathlib.Path, metavar="PROGRAM")
    words.add_argument("report", type=pathlib.Path, metavar="REPORT")
    words.add_argument("thread", type=int, metavar="THREAD")
    asked = words.parse_args()
    status, text = replay(asked.program.read_bytes(), asked.report.read_text(), asked.thread)
    sys.stdout.write(text)
    return status

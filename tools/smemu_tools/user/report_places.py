"""Finds what a program says of a report: functions, lines and source texts of its addresses, and
where each event was made."""
from __future__ import annotations

import hashlib
import os
import pathlib
from typing import Any

from smemu_tools.user import counted, places, progress, recorded, reports, shared_words

# of so many events of a thread the place is looked for
MOST_EVENTS = 20_000


class Other(Exception):
    """The report is one of another program."""


class Found:
    """Of the events of each thread the count and the address, None where that is not known; and of
    each address, as digits, its function, its line, its instruction and the text of the line. Where
    a thread has not stopped there is no record to go over, and so no place of an event."""

    def __init__(self, program: str, path: str, report: reports.Report) -> None:
        if hashlib.sha256(pathlib.Path(program).read_bytes()).hexdigest() != report.image:
            raise Other(f"{program} is not the program of {path}")
        self.known = places.Places(program, is_whole=True)
        self.texts, self.events, self.files = counted.listing(program), {}, {}
        if all(thread.stop.name != "none" for thread in report.threads):
            for it in report.threads:
                record = recorded.Recorded(program, path, it.number)
                self.events[it.number] = self.places(record, it.journal)
        held = {address for at in self.events.values() for _, address in at if address}
        for it in report.threads:
            addresses = (it.pc, it.x[30], *it.handlers.values())
            held.update(f"{address:x}" for address in addresses if address in self.texts)
        # after an exit PC is behind the call, which may be the last instruction
        ends = {it.pc for it in report.threads if it.stop.name == "exited"}
        ends = {it for it in ends if it - 4 in self.texts}
        self.known.learn([*(int(it, 16) for it in held), *(it - 4 for it in ends)])
        self.lines = {it: self.line(int(it, 16)) for it in held}
        for address in ends:
            function, *rest = self.line(address - 4)
            self.lines[f"{address:x}"] = [f"behind {function}".rstrip(), *rest]

    def places(self, thread: recorded.Recorded,
               journal: list[reports.Event]) -> list[list[Any]]:
        """The count of each event of a thread, and the address of the instruction that made it."""
        told, events = progress.Progress(), shared_words.Events(thread, journal)
        numbers = range(min(len(journal), MOST_EVENTS))
        before = f"thread {thread.block.number}: instruction"
        show = lambda count: told.show(f"{before} {count} of {thread.end}")
        events.learn(sorted({events.part_of(it) for it in numbers}), show)
        told.clear()
        counts = [events.count_of(it) for it in numbers]
        asked = [it for count in counts for it in (f"goto {count}", "where", "step 1", "where")]
        answers, found = thread.ask(asked), []
        for number, count, where, behind in zip(numbers, counts, answers[1::4], answers[3::4]):
            _, _, address, text = where[0].split(" ", 3)
            address, after = int(address, 16), int(behind[0].split(" ", 3)[2], 16)
            self.texts.setdefault(address, text)
            # a poll is no instruction's, and where a handler begins, the place that it interrupts
            # is not that of its first instruction
            is_there = journal[number].kind != "poll" and after == address + 4
            found.append([count, f"{address:x}" if is_there else None])
        return found

    def line(self, address: int) -> list[str]:
        """The function, the line, the instruction and the source text of an address, each of which
        may be empty."""
        file, _, number = self.known.lines[address].rpartition(":")
        function, text = self.known.function(address), self.texts.get(address, "")
        if not file:
            return [function, "", text, ""]
        source = self.source(os.path.normpath(file), int(number))
        return [function, f"{pathlib.PurePath(file).name}:{number}", text, source]

    def source(self, file: str, number: int) -> str:
        """The text of a line of a file, or an empty one where the file is not there."""
        if file not in self.files:
            try:
                self.files[file] = pathlib.Path(file).read_text(errors="replace").splitlines()
            except OSError:
                self.files[file] = []
        lines = self.files[file]
        return lines[number - 1].strip() if number <= len(lines) else ""

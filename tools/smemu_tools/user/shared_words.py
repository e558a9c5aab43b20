"""Says at which counts a thread of a report made its events, and what shared words were then.

A report says which events a thread made and in which order, not when. Polls come at multiples of
the slice, so what stands between two of them in the journal was made by as many instructions: by
those that reach a shared word, as their registers say, and by posts. docs/REPORT.md has the events.
"""
from __future__ import annotations

import bisect
import collections
import re
from typing import Any, Callable, Iterable, Iterator

from smemu_tools.user import emulator, recorded, reports, traced

FIRST, WORDS, SIZE = 0x7F0000000000, 512, 8
# instructions that can be an operation on a shared word, and a call
OPERATION = re.compile(
    r"(?:ldu?r|ldar|stu?r|stlr|(?:swp|cas|ld(?:add|clr|eor|set|umax|umin))(?:a|l|al)?) "
    r"(?:x\d+|xzr), |svc ")
CALL_POST, POSTED = 131, range(1, 63)
# the counts that one call goes over, and the bytes of registers that one is to answer at most
MOST_COUNTS, MOST_BYTES = 1 << 17, 32_000_000
# the word after each operation, of the word before it and the values a and b
AFTER = {
    "ld": lambda word, a, b: word,
    "st": lambda word, a, b: a,
    "swp": lambda word, a, b: a,
    "add": lambda word, a, b: (word + a) % 2 ** 64,
    "clr": lambda word, a, b: word & ~a,
    "eor": lambda word, a, b: word ^ a,
    "set": lambda word, a, b: word | a,
    "umax": lambda word, a, b: max(word, a),
    "umin": lambda word, a, b: min(word, a),
    "cas": lambda word, a, b: b if word == a else word,
}


def after(event: reports.Event) -> int:
    """The shared word that an event leaves."""
    return AFTER[event.kind](event.answer, event.a, event.b)


def is_shared(address: int, length: int = 1) -> bool:
    """Tells whether all these bytes are of shared words."""
    return FIRST <= address and address + length <= FIRST + WORDS * SIZE


class Registers:
    """The registers that `debug` writes, of which few are looked at."""

    def __init__(self, block: str) -> None:
        self.block = f"\n{block}\n"

    def get(self, name: str, default: str) -> str:
        start = self.block.find(f"\n{name} ")
        if start < 0:
            return default
        return self.block[start + len(name) + 2:self.block.index("\n", start + 1)]


class Events:
    """The events of a thread, with the counts at which they were made: those at which the
    instruction that makes one comes next."""

    def __init__(self, thread: recorded.Recorded, journal: list[reports.Event]) -> None:
        self.thread, self.journal, self.slice = thread, journal, thread.report.slice
        # a part is the events from a poll to the next one; the first begins without a poll
        self.starts = [0, *(at for at, event in enumerate(journal) if event.kind == "poll")]
        self.known = {}

    def part_of(self, number: int) -> int:
        """The part in which an event is."""
        return bisect.bisect_right(self.starts, number, 1) - 1

    def own(self, part: int) -> range:
        """The numbers of the events in a part, but for the poll."""
        is_last = part + 1 == len(self.starts)
        return range(self.starts[part] + (part > 0),
                     len(self.journal) if is_last else self.starts[part + 1])

    def learn(self, parts: list[int], show: Callable[[int], Any] | None = None) -> None:
        """Looks for the counts of the events of these parts."""
        new = [it for it in parts if it not in self.known and self.own(it)]
        self.known.update((it, []) for it in parts if not self.own(it))
        size = max(1, MOST_COUNTS // self.slice)
        for at in range(0, len(new), size):
            self.learn_some(new[at:at + size])
            if show:
                show(min(self.thread.end, (new[at] + size) * self.slice))

    def learn_some(self, parts: list[int]) -> None:
        spans = [(it * self.slice, min(self.thread.end, (it + 1) * self.slice)) for it in parts]
        found = collections.defaultdict(list)
        for count, text, registers in self.operations(spans):
            # what stands at a poll may be what a signal interrupts: it is found by what is missing
            if (count % self.slice or not count) and self.makes_event(text, registers):
                found[count // self.slice].append(count)
        for part in parts:
            missing = len(self.own(part)) - len(found[part])
            if missing not in (0, 1 if part else 0):
                raise emulator.Refused(f"thread {self.thread.block.number}: the events from count "
                                       f"{part * self.slice} on are not those of the journal", 1)
            self.known[part] = [part * self.slice] * missing + found[part]

    def operations(self, spans: list[tuple[int, int]]) -> Iterator[tuple[int, str, Registers]]:
        """The instructions that can make an event, from counts to below others: count, text and
        registers."""
        script = "".join(f"goto {low}\nwhere\n" + "step 1\nwhere\n" * (high - low - 1)
                         for low, high in spans if low < high)
        found, texts = [], {}
        for line in self.thread.written(script).decode().splitlines():
            end = line.index(" ", 3)
            here = line[end + 1:]
            text = texts.get(here)
            if text is None:
                text = here.partition(" ")[2]
                text = texts[here] = text if OPERATION.match(text) else ""
            if text:
                found.append((int(line[3:end]), text))
        size = max(1, MOST_BYTES // (4 * self.thread.longest * 17 + 2048))
        for at in range(0, len(found), size):
            part = found[at:at + size]
            script = "".join(f"goto {count}\nregs\n{recorded.EMPTY}\n" for count, _ in part)
            blocks = self.thread.written(script).decode().split("\n\n")
            for (count, text), block in zip(part, blocks):
                yield count, text, Registers(block)

    def makes_event(self, text: str, registers: Registers) -> bool:
        """Tells whether an instruction is an operation on what threads share."""
        value = lambda name: int(registers.get(name, "0"), 16)
        if text.startswith("svc"):
            threads = len(self.thread.report.threads)
            return value("x 8") == CALL_POST and value("x 0") < threads and value("x 1") in POSTED
        address = traced.address_of(text, registers)
        return address is not None and is_shared(address)

    def count_of(self, number: int) -> int:
        """The count at which an event was made."""
        part = self.part_of(number)
        if part and number == self.starts[part]:
            return part * self.slice
        self.learn([part])
        return self.known[part][number - self.own(part).start]

    def made(self, count: int) -> int:
        """How many events were made before a count; at the thread's end all."""
        if count >= self.thread.end or not self.journal:
            return len(self.journal)
        part = min(max(count - 1, 0) // self.slice, len(self.starts) - 1)
        own = self.own(part)
        if not own or count >= (part + 1) * self.slice:
            return own.stop
        self.learn([part])
        return own.start + bisect.bisect_left(self.known[part], count)


class Track:
    """The values of words, by how many events were made."""

    def __init__(self, events: Iterable[reports.Event]) -> None:
        self.changes = collections.defaultdict(lambda: ([], []))
        for at, event in enumerate(events, 1):
            if event.kind in AFTER:
                places, values = self.changes[event.place]
                places.append(at)
                values.append(after(event))

    def last(self, word: int, made: int) -> int | None:
        """A word after the last event on it among so many, or None where there is none."""
        places, values = self.changes.get(word, ((), ()))
        at = bisect.bisect_right(places, made)
        return values[at - 1] if at else None


class Shared:
    """The words of a report. What `sim` writes has a history, an order of all events; else each
    thread knows of its own events alone."""

    def __init__(self, report: reports.Report) -> None:
        self.history = report.history
        self.own = {thread.number: [] for thread in report.threads}
        for at, entry in enumerate(report.history or (), 1):
            self.own[entry.thread].append(at)
        self.whole, self.tracks = None, {}
        # the threads that have changed each word, or could have
        self.changed = collections.defaultdict(set)
        if report.history is not None:
            self.whole = Track(entry.event for entry in report.history)
            return
        for thread in report.threads:
            self.tracks[thread.number] = Track(thread.journal)
            for event in thread.journal:
                if event.kind in AFTER and event.kind != "ld":
                    self.changed[event.place].add(thread.number)

    def moment(self, thread: int, made: int) -> int:
        """How many events of the history were made when a thread had made so many."""
        return self.own[thread][made - 1] if made else 0

    def word(self, thread: int, number: int, made: int, moment: int | None = None) -> int | None:
        """A word after so many events of a thread, or of the history; None where it is not known,
        since another thread may have changed it."""
        if self.whole:
            moment = self.moment(thread, made) if moment is None else moment
            return self.whole.last(number, moment) or 0
        found = self.tracks[thread].last(number, made)
        if found is None and not self.changed.get(number, set()) - {thread}:
            return 0
        return found

    def bytes(self, address: int, length: int, thread: int, made: int,
              moment: int | None = None) -> bytes:
        """Bytes of shared words, up to the first that is not known."""
        found, number = b"", (address - FIRST) // SIZE
        start = address - FIRST - number * SIZE
        while len(found) < start + length and number < WORDS:
            word = self.word(thread, number, made, moment)
            if word is None:
                break
            found += word.to_bytes(SIZE, "little")
            number += 1
        return found[start:start + length]

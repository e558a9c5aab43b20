"""Says of a recorded run whether each marked call had a lawful callee, as `abi-check` is to tell
it.

    tools/smemu-tools marked-calls FILE REPORT THREAD

The thread runs on the interpreters of tools/smemu_tools/model/expected.py and expected_replay.py;
the words of the routines and of the tail are those of lazy.py. A call is marked where the tail
stands behind it, whose BL names the words of __arm_tpidr2_restore, before which those of
__arm_za_disable stand.
"""
from __future__ import annotations

import pathlib
import sys
from typing import Any

from smemu_tools import parser
from smemu_tools.model.expected import SHARED, signed
from smemu_tools.model.expected_replay import Ends, Parts, Replayed, count_of, events_of, opened
from smemu_tools.rows.lazy import DISABLE, RESTORE, TAIL

DIFFERS, UNLAWFUL = 10, 13
MASK = (1 << 64) - 1
OPEN_LIMIT = 256
ANY, EXECUTE, WRITE, READ = 0, 1, 2, 4


class Unlawful(Exception):
    """The kind of the first fault."""


# ---- memory


def mapped(thread: Any, need: Any, address: Any, count: Any) -> Any:
    """Tells whether each byte is in a page that has the permission."""
    pages = (thread.pages.get((address + k & MASK) // 4096) for k in range(count))
    return all(page is not None and page[0] & need == need for page in pages)


def content(thread: Any, address: Any, count: Any) -> Any:
    return bytes(thread.pages[(address + k & MASK) // 4096][1][(address + k) % 4096]
                 for k in range(count))


def word(thread: Any, address: Any, need: Any = ANY) -> Any:
    """The word there; None where a byte of it is in no page of that permission."""
    if not mapped(thread, need, address, 4):
        return None
    return int.from_bytes(content(thread, address, 4), "little")


def are_words(thread: Any, address: Any, words: Any) -> Any:
    return all(word(thread, address + 4 * k & MASK) == wanted for k, wanted in enumerate(words))


def is_private(thread: Any, need: Any, address: Any, count: Any) -> Any:
    return not any((address + k & MASK) in SHARED for k in range(count)) and mapped(thread, need,
                                                                                    address, count)


def has_words(thread: Any, address: Any, count: Any) -> Any:
    """The words that stand there can be executed and read."""
    return address % 4 == 0 and mapped(thread, EXECUTE, address, count) and mapped(thread, READ,
                                                                                   address, count)


def apart(a: Any, n: Any, b: Any, k: Any) -> Any:
    return not any(((a + i) - b) & MASK < k for i in range(n))


# ---- calls


def is_call(code: Any) -> Any:
    return code is not None and (code >> 26 == 0x25 or code & 0xFFFFFC1F == 0xD63F0000)


class Call:
    """A marked call, in the state after it."""

    def __init__(self, thread: Any, tail: Any, restore: Any) -> None:
        self.tail, self.restore, self.disable = tail, restore, restore - 80 & MASK
        self.sp, self.depth, self.block, self.size = (thread.sp, thread.depth, thread.x[19],
                                                      thread.matrix.lengths[1])
        self.za = [bytes(vector) for vector in thread.matrix.za]
        self.dormant = self.is_dormant(thread)
        if self.dormant:
            self.kept = self.watched(thread)

    def is_dormant(self, thread: Any) -> Any:
        b = self.block
        if not thread.matrix.on or thread.tpidr2 != b or b == 0 or b % 16 or not is_private(thread,
                                                                                            READ, b,
                                                                                            16):
            return False
        block = content(thread, b, 16)
        self.buffer, slices = int.from_bytes(block[:8], "little"), int.from_bytes(block[8:10],
                                                                                  "little")
        self.saved = slices if self.buffer else 0
        count = self.saved * self.size
        if any(block[10:]) or slices > self.size or self.buffer + count > 1 << 64:
            return False
        if not (is_private(thread, READ, self.buffer, count)
                and is_private(thread, WRITE, self.buffer, count)):
            return False
        return (all(has_words(thread, at, size) for at, size in self.words())
                and all(apart(self.buffer, count, at, size)
                        for at, size in [(b, 16), *self.words()]))

    def words(self) -> Any:
        return (self.disable, 80), (self.restore, 72), (self.tail, 24)

    def watched(self, thread: Any) -> Any:
        """What is to stay as it is."""
        return [content(thread, at, size) for at, size in [(self.block, 16), *self.words()]]

    def is_back(self, thread: Any) -> Any:
        return thread.pc == self.tail and thread.sp == self.sp and thread.depth == self.depth

    def is_lawful(self, thread: Any) -> Any:
        if not self.dormant or self.watched(thread) != self.kept or thread.x[19] != self.block:
            return False
        if thread.matrix.on:
            return thread.tpidr2 == self.block and [bytes(vector)
                                                    for vector in thread.matrix.za] == self.za
        return thread.tpidr2 == 0 and all(content(thread, self.buffer + i * self.size, self.size)
                                          == self.za[i] for i in range(self.saved))


def marked(thread: Any, tail: Any) -> Any:
    """The marked call before a tail, if one stands there."""
    bl = word(thread, tail + 16 & MASK)
    if bl is None or bl >> 26 != 0x25:
        return None
    restore = tail + 16 + 4 * signed(bl, 26) & MASK
    if are_words(thread, tail, [*TAIL[:4], bl, TAIL[5]]) and are_words(thread, restore,
                                                                       RESTORE) and are_words(
            thread, restore - 80 & MASK, DISABLE):
        return Call(thread, tail, restore)
    return None


class Watch:
    """The marked calls of a run, state by state."""

    def __init__(self) -> None:
        self.open, self.returned = [], 0

    def sees(self, thread: Any, past: Any) -> None:
        """A state; it is one after a call where there is an address past it. A fault raises."""
        back = [call for call in self.open if call.is_back(thread)]
        if not all(call.is_lawful(thread) for call in back):
            raise Unlawful("notlawful")
        self.open = [call for call in self.open if call not in back]
        self.returned += len(back)
        call = marked(thread, past) if past is not None else None
        if call is not None:
            if not call.dormant:
                raise Unlawful("notdormant")
            if len(self.open) >= OPEN_LIMIT:
                raise Unlawful("toodeep")
            self.open.append(call)


def watched_run(thread: Any, count: Any) -> Any:
    """The line that is told of the run, which is to stop at that count with all events used, and
    the status."""
    watch, told, stop = Watch(), None, None
    while stop is None:
        before, past = thread.count, thread.pc + 4 & MASK if is_call(word(thread, thread.pc,
                                                                          EXECUTE)) else None
        try:
            stop = thread.turn()
        except Parts as parts:
            raise Ends(DIFFERS, f"differs: {parts}\n") from None
        if thread.count > count:
            raise Ends(DIFFERS, f"differs: goeson {count}\n")
        try:
            if told is None:
                watch.sees(thread, past if thread.count == before + 1 else None)
        except Unlawful as kind:
            told = f"unlawful: count {thread.count} pc {thread.pc:016x} {kind}\n"
    if thread.count < count:
        raise Ends(DIFFERS, f"differs: endsearly {thread.count} {stop}\n")
    if len(thread.journal) < len(thread.events):
        raise Ends(DIFFERS, f"differs: journallong {len(thread.events) - len(thread.journal)}\n")
    return ((UNLAWFUL, told) if told
            else (0, f"abi yes calls {watch.returned} open {len(watch.open)}\n"))


def abi_check(file: Any, report: Any, number: Any) -> Any:
    """The status and the text."""
    try:
        options, _, theirs = opened(file, report, number)
        return watched_run(Replayed(file, options, events_of(theirs), number), count_of(theirs))
    except Ends as end:
        return end.args


def main() -> Any:
    words = parser(__doc__)
    words.add_argument("program", type=pathlib.Path, metavar="PROGRAM")
    words.add_argument("report", type=pathlib.Path, metavar="REPORT")
    words.add_argument("thread", type=int, metavar="THREAD")
    asked = words.parse_args()
    status, text = abi_check(asked.program.read_bytes(), asked.report.read_bytes(), asked.thread)
    sys.stdout.write(text)
    return status

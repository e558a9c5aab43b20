"""Counts the instructions that a thread of a report executed: by address, and by the calls that led
to them.

`debug` says at each count which instruction comes next. The counts are asked for in parts, several
at once, by processes of their own, which send back runs of addresses up to the next call or return;
the calls are followed in one pass over these.
"""
from __future__ import annotations

import array
import collections
import concurrent.futures
import multiprocessing
import os
import re
import struct
import subprocess
import tempfile
from typing import Any, Callable, Iterator

from smemu_tools.user import emulator, recorded, reports

# the counts that one call of `debug` goes over, the bytes of it that are read at once, and the
# processes
LEAST_PART, MOST_PART = 20_000, 4_000_000
BLOCK = 1 << 16
PROCESSES = min(4, os.cpu_count() or 1)
# a run of addresses that is longer is not looked for among those that were there before
MOST_KEPT = 64
# deeper calls are counted at this depth
DEPTH = 127
LISTED = re.compile(r"^([0-9a-f]{16}) ([0-9a-f]{8}) (.*)", re.MULTILINE)
CALL, RETURN, KERNEL = range(3)
KINDS = {"bl": CALL, "blr": CALL, "ret": RETURN, "br": RETURN}
# numbers of calls of the kernel, and the parts of a signal's frame
SET_HANDLER, HANDLER_RETURN = 134, 139
FRAME, FRAME_BYTES = struct.Struct("<8sII31QQQ"), 280


def texts_of(listing: str) -> dict[int, str]:
    """The text of the instruction at each address of a listing."""
    return {int(at, 16): text for at, _, text in LISTED.findall(listing)}


def listing(program: str) -> dict[int, str]:
    """The text of the instruction at each address of a program with a section table."""
    return texts_of(emulator.call([emulator.find(), "dis", program]).decode())


def kind_of(text: str, has_signals: bool) -> int:
    """What an instruction is to the calls: CALL, RETURN, KERNEL, or None."""
    name = text.partition(" ")[0]
    return KERNEL if name == "svc" and has_signals else KINDS.get(name)


def key(address: int) -> bytes:
    """An address as `debug` writes it."""
    return b"%016x" % address


def addresses(words: Any, low: Any, high: Any,
              show: Any = None) -> Iterator[tuple[int, list[bytes]]]:
    """What `debug` says from a count to below another, in lists of lines without the count: the
    address and the text of each instruction."""
    with tempfile.TemporaryFile() as script:
        script.write(b"goto %d\nwhere\n" % low + b"step 1\nwhere\n" * (high - low - 1))
        script.seek(0)
        process = subprocess.Popen([str(word) for word in words], stdin=script,
                                   stdout=subprocess.PIPE)
    rest, count, written = b"", low, b""
    try:
        while block := process.stdout.read(BLOCK):
            written = written or block
            lines = (rest + block).split(b"\n")
            rest = lines.pop()
            while lines:
                # counts with the same number of digits
                here = lines[:10 ** len(str(count)) - count]
                lines = lines[len(here):]
                start = len(b"at %d " % count)
                yield count, [line[start:] for line in here]
                count += len(here)
            if show:
                show(count)
    finally:
        process.stdout.close()
        if count < high:
            process.kill()
        status = process.wait()
    if status or count != high:
        raise emulator.Refused(written.decode(errors="replace").strip()
                               or f"the emulator ended with status {status}", status or 1)


class Part:
    """The instructions from a count to below another: runs of addresses, in order, and what each
    run has."""

    def __init__(self) -> None:
        self.order, self.runs, self.known = array.array("I"), [], {}

    def add(self, run: Any) -> Any:
        """Adds a run of addresses."""
        if len(run) <= MOST_KEPT:
            run = tuple(run)
            number = self.known.get(run)
            if number is None:
                number = self.known[run] = self.new(run)
        else:
            number = self.new(run)
        self.order.append(number)

    def new(self, run: Any) -> Any:
        self.runs.append((run[0], run[-1], len(run), dict(collections.Counter(run))))
        return len(self.runs) - 1


def read_part(words: Any, low: Any, high: Any, ends: Any, handled: Any, done: Any = None) -> Any:
    """The part from a count to below another. `ends` are the addresses after which a run ends, and
    `handled` the counts at which a handler begins, with the address of its first instruction;
    `done` takes the number of instructions that were read since it was called last."""
    part, before = Part(), low

    def show(count: Any) -> None:
        nonlocal before
        done(count - before)
        before = count

    for first, lines in addresses(words, low, high, show if done else None):
        run = [line[:16] for line in lines]
        cuts = []
        for count in handled:
            if first <= count < first + len(run):
                run[count - first] = key(handled[count])
                cuts.append(count - first)
        cuts += [at + 1 for at, address in enumerate(run) if address in ends]
        start = 0
        for end in sorted({*cuts, len(run)} - {0}):
            part.add(run[start:end])
            start = end
    return part.order, part.runs


# in a process of its own

COUNTER = None


def begin(counter: Any) -> None:
    global COUNTER
    COUNTER = counter


def tell(number: Any) -> Any:
    with COUNTER.get_lock():
        COUNTER.value += number


def read_told(words: Any, low: Any, high: Any, ends: Any, handled: Any) -> Any:
    try:
        return read_part(words, low, high, ends, handled, tell)
    except emulator.Refused as fault:
        return str(fault), fault.status


def parts(words: Any, end: Any, ends: Any, handled: Any,
          show: Any = None) -> Iterator[tuple[Any, list[tuple[bytes, bytes, int, dict[Any, Any]]]]]:
    """The parts of a thread, in order."""
    size = max(LEAST_PART, min(MOST_PART, -(-end // PROCESSES)))
    spans = [(low, min(end, low + size)) for low in range(0, end, size)]
    counter: Any = multiprocessing.Value("Q", 0)
    with concurrent.futures.ProcessPoolExecutor(min(PROCESSES, len(spans) or 1), initializer=begin,
                                                initargs=(counter,)) as pool:
        told = [pool.submit(read_told, words, low, high, ends,
                            {it: handled[it] for it in handled if low <= it < high})
                for low, high in spans]
        try:
            for it in told:
                while show and not it.done():
                    concurrent.futures.wait([it], timeout=0.3)
                    show(counter.value)
                order, runs = it.result()
                if isinstance(order, str):
                    raise emulator.Refused(order, runs)
                yield order, runs
        finally:
            for it in told:
                it.cancel()


# signals


class Delivery:
    """Handlers that begin at a count, the last of which is executed first: each with its address
    and its frame's."""

    def __init__(self, count: int, address: int) -> None:
        self.count, self.interrupted = count, address
        self.handlers: list[Any] = []
        self.signals: list[int] = []

    @property
    def first(self) -> int:
        """The address of the instruction that is executed next."""
        return self.handlers[-1][0]


class Signals:
    """The signals of a thread: its deliveries by count, and the returns from handlers by count,
    each with its frame's address."""

    def __init__(self, thread: recorded.Recorded, block: reports.Thread,
                 texts: dict[int, str]) -> None:
        self.thread, self.vl, self.svl = thread, thread.report.vl // 8, thread.report.svl // 8
        self.deliveries, self.returns, self.handlers = {}, {}, []
        polls = [event.answer for event in block.journal if event.kind == "poll"]
        self.are_there = any(polls)
        if self.are_there:
            self.read_calls(texts)
            self.read_deliveries(polls)

    def read_calls(self, texts: dict[int, str]) -> None:
        """Finds the calls that set handlers, and those that return from them."""
        hits = sorted(count for address, text in texts.items() if text.startswith("svc")
                      for count in self.thread.all_hits(address))
        for count, registers in zip(hits, self.registers(hits)):
            if registers["x 8"] == SET_HANDLER:
                self.handlers.append((count, registers["x 0"], registers["x 1"]))
            elif registers["x 8"] == HANDLER_RETURN:
                self.returns[count] = registers["sp"]

    def registers(self, counts: list[int]) -> Iterator[dict[str, int]]:
        """The registers at counts, as numbers."""
        for lines in self.thread.ask([it for count in counts
                                      for it in (f"goto {count}", "regs")])[1::2]:
            held = collections.defaultdict(int)
            held.update((name, int(value, 16))
                        for name, value in (line.rsplit(" ", 1) for line in lines)
                        if name[0] in "xsp" and not name.startswith("p "))
            yield held

    def read_deliveries(self, polls: list[int]) -> None:
        """Finds the polls after which handlers begin."""
        held = 0
        for number, answer in enumerate(polls, 1):
            held |= answer
            count = number * self.thread.report.slice
            if not held or count >= self.thread.end:
                continue
            before, after = self.registers([count, count + 1])
            found = self.delivery(count, before, after, held)
            if found:
                self.deliveries[count] = found
                for signal in found.signals:
                    held &= ~(1 << signal)

    def frame(self, count: int, sp: int, size: int) -> Any:
        """The frame below an SP at a count: its address, its signal, and the SP and PC that it
        saved; or None."""
        address = (sp - size) % 2 ** 64 & ~15
        data = self.thread.memory(count, address, FRAME_BYTES)
        if len(data) < FRAME_BYTES or data[:8] not in (b"SMEFRAM1", b"SMEFRAM2"):
            return None
        _, held, signal, *registers = FRAME.unpack(data)
        return (address, signal, *registers[31:33]) if held == size else None

    def delivery(self, count: int, before: dict[str, int], after: dict[str, int],
                 held: int) -> Delivery | None:
        """The handlers that begin at a count, or None."""
        found, sp, pc, svcr = Delivery(count,
                                       before["pc"]), before["sp"], before["pc"], before["svcr"]
        found.signals = []
        while True:
            length = self.svl if svcr & 1 else self.vl
            frame = self.frame(count + 1, sp,
                               368 + 34 * length + (self.svl ** 2 if svcr & 2 else 0))
            if (frame is None or frame[2:] != (sp, pc) or not held >> frame[1] & 1
                    or frame[1] in found.signals):
                break
            # one that stood there before, of a delivery at the same place, is none where the next
            # instruction follows
            if frame == self.frame(count, sp,
                                   368 + 34 * length
                                   + (self.svl ** 2 if svcr & 2 else 0)) and after["sp"] == sp:
                break
            address, signal = frame[:2]
            pc, sp, svcr = self.handler(signal, count), address, 0
            found.handlers.append((pc, address))
            found.signals.append(signal)
        return found if found.handlers else None

    def handler(self, signal: int, count: int) -> int:
        """The address of a signal's handler at a count."""
        return next((address for at, number, address in reversed(self.handlers)
                     if at < count and number == signal), 0)


# calls


class Calls:
    """The instructions that a thread executed, by the calls that led to them. A node is a call at a
    place within another one; node 0 is the start."""

    def __init__(self, entry: int) -> None:
        self.parents, self.entries, self.numbers, self.depths = [0], [entry], [1], [0]
        self.sites: list[Any] = [None]
        self.own = [collections.Counter()]
        self.known = {}

    def child(self, node: int, site: int, entry: int) -> int:
        """The node of a call from a place within a node."""
        if self.depths[node] == DEPTH:
            node = self.parents[node]
        found = self.known.get((node, site, entry))
        if found is None:
            found = self.known[node, site, entry] = len(self.parents)
            self.parents.append(node)
            self.sites.append(site)
            self.entries.append(entry)
            self.numbers.append(0)
            self.depths.append(self.depths[node] + 1)
            self.own.append(collections.Counter())
        self.numbers[found] += 1
        return found

    @property
    def total(self) -> int:
        """The number of instructions."""
        return sum(sum(own.values()) for own in self.own)

    def by_address(self) -> dict[int, int]:
        """The count of each address."""
        found = collections.Counter()
        for own in self.own:
            found.update(own)
        return found

    def path(self, node: int) -> list[int]:
        """The nodes from the start to this one."""
        found = [node]
        while found[-1]:
            found.append(self.parents[found[-1]])
        return found[::-1]

    def whole(self) -> list[int]:
        """Of each node the instructions in it and in all below it."""
        found = [sum(own.values()) for own in self.own]
        # a node comes after the one that it is in
        for node in range(len(found) - 1, 0, -1):
            found[self.parents[node]] += found[node]
        return found


class Walk:
    """Follows the calls of a thread over its parts."""

    def __init__(self, entry: int, kinds: dict[bytes, int], signals: Signals) -> None:
        self.calls, self.node, self.kinds, self.signals = Calls(entry), 0, kinds, signals
        self.stack, self.open = [], collections.Counter()
        self.saved = {}
        self.count, self.last = 0, None

    def add(self, order: Any, runs: list[tuple[bytes, bytes, int, dict[bytes, int]]]) -> Any:
        """Goes over a part."""
        held, has_signals = collections.Counter(), self.signals.are_there
        kinds, last = self.kinds, self.last
        for number in order:
            first, end, length, _ = runs[number]
            delivery = self.signals.deliveries.get(self.count) if has_signals else None
            kind = kinds.get(last)
            if kind is not None:
                self.follow(kind, last, key(delivery.interrupted) if delivery else first)
            if delivery:
                self.deliver(delivery)
            self.count += length
            held[self.node, number] += 1
            last = end
        self.last = last
        for (node, number), times in held.items():
            own = self.calls.own[node]
            for address, each in runs[number][3].items():
                own[int(address, 16)] += each * times

    def follow(self, kind: int, last: bytes, first: bytes) -> None:
        """Follows an instruction at one address that led to another."""
        if kind == CALL:
            site = int(last, 16)
            back = key(site + 4)
            self.stack.append((back, self.node))
            self.open[back] += 1
            self.node = self.calls.child(self.node, site, int(first, 16))
        elif kind == RETURN:
            if self.open[first]:
                # a return, or a jump out of several calls
                while True:
                    back, self.node = self.stack.pop()
                    self.open[back] -= 1
                    if back == first:
                        break
        else:
            frame = self.signals.returns.get(self.count - 1)
            if frame in self.saved:
                self.stack, self.open, self.node = self.saved.pop(frame)

    def deliver(self, delivery: Delivery) -> None:
        """Begins the handlers of a delivery."""
        site = delivery.interrupted
        for address, frame in delivery.handlers:
            self.saved[frame] = self.stack, self.open, self.node
            self.stack, self.open = [], collections.Counter()
            self.node, site = self.calls.child(self.node, site, address), address


def texts_of_run(words: list[str], end: int) -> dict[int, str]:
    """The text of each instruction that a thread executed, for a program that has no listing."""
    lines = set()
    for low in range(0, end, MOST_PART):
        for _, here in addresses(words, low, min(end, low + MOST_PART)):
            lines.update(here)
    return {int(line[:16], 16): line[17:].decode() for line in lines}


def follow(program: str, report: str, number: int, texts: dict[int, str],
           show: Callable[..., Any] | None = None) -> tuple[recorded.Recorded, Calls, Signals]:
    """The calls of a thread of a report, and its signals. Refused where `debug` refuses it."""
    thread = recorded.Recorded(program, report, number)
    block = reports.read(report).threads[number]
    words = thread.words
    if not texts and thread.end:
        texts.update(texts_of_run(words, thread.end))
    signals = Signals(thread, block, texts)
    kinds = {key(address): kind for address, text in texts.items()
             if (kind := kind_of(text, signals.are_there)) is not None}
    walk = Walk(thread.state(0).pc, kinds, signals)
    handled = {count: it.first for count, it in signals.deliveries.items()}
    for order, runs in parts(words, thread.end, frozenset(kinds), handled, show):
        walk.add(order, runs)
    counted = sum(sum(own.values()) for own in walk.calls.own)
    if counted != thread.end:
        raise emulator.Refused(
            f"thread {number}: {counted} instructions were found of {thread.end}", 1)
    return thread, walk.calls, signals

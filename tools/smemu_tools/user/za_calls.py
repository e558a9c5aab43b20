"""Says of each call that is made with ZA on whether ZA is after its return as before it, or is
saved lazily, or is lost; and which calls leave a save that is not restored, or registers, PSTATE.SM
or SP otherwise than AAPCS64 has it.

    smemu za-calls PROGRAM REPORT [THREAD] [--all] [--shares FUNCTION].. [--vectors FUNCTION]..
    [--partial] [--most N]

All threads of the report are looked at, or the one that is named.

A call is a BL or BLR, and its return the next count with the address after it and the same SP. What
became of ZA over it:

    kept       it is on, with the same vectors, and TPIDR2_EL0 is as it was saved      TPIDR2_EL0
    named a block before the call, is null after it, and the block's buffer has the vectors, as
    AAPCS64 has it restored   X0 was a block to which ZA had been saved, and ZA is now what its
    buffer has changed    it is on, with other vectors shared     the same, of a function that
    --shares names: it is to change its caller's ZA lost       it is off or another, and no buffer
    has it

A line for each place of calls that has one which is changed or lost, with --all for each place, and
below them a line for each place and kind of call that leaves something else at fault, with ZA on or
off, which call_faults.py finds; the status is 1 where there is one. --vectors names a function that
follows the vector convention, and so keeps Z8 to Z23 and P4 to P15, or all; --partial allows blocks
of fewer slices than ZA has. --most N looks at the first N calls of a thread with ZA on. What
abi-check says of the thread stands below. Where some call was not looked at, the last line says
which, and the status is 3, if it is not 1. SMEMU may name the emulator.
"""
from __future__ import annotations

import argparse
import collections
import re
from typing import Any, Callable, Iterator

from smemu_tools.user import call_faults, counted, emulator, places, recorded, reports

CALL = re.compile(r"^([0-9a-f]{16}) [0-9a-f]{8} (blr? .*)", re.MULTILINE)
KINDS = ("kept", "saved", "restored", "shared", "changed", "lost")
FAULTS = ("changed", "lost")
# what abi-check says where it had nothing to judge
NONE_MARKED = "abi yes calls 0 open 0"


class Side:
    """A thread before a call, or after its return."""

    def __init__(self, registers: list[str], za: list[str]) -> None:
        self.registers = dict(line.rsplit(" ", 1) for line in registers)
        self.za = recorded.read_za(za)

    def number(self, name: str) -> int:
        return int(self.registers.get(name, "0"), 16)

    @property
    def is_on(self) -> bool:
        return self.registers["svcr"] in ("2", "3")


class Call:
    """A call with ZA on: its count, its address, where it goes, and its sides."""

    def __init__(self, count: int, address: int, text: str) -> None:
        self.count, self.address, self.text = count, address, text
        self.before: Any = None
        self.after: Any = None
        self.returned: Any = None
        self.kind: Any = None
        self.saved = {}

    def target(self) -> int:
        """The address of the function that is called."""
        name, operand = self.text.split()
        return self.address + int(operand[1:]) if name == "bl" else self.before.number(
            f"x {operand[1:]}")

    def block(self) -> int:
        """The address of the block that may name a buffer for ZA: TPIDR2_EL0, or the first argument
        where that is null."""
        return self.before.number("tpidr2") or self.before.number("x 0")


def in_parts(thread: recorded.Recorded, items: list[Call], size: int) -> Iterator[Any]:
    """Items in lists, of which each is asked for in one call: so many vectors of ZA each."""
    most = max(8, recorded.MOST_BYTES // (size * 2 * thread.rows * thread.rows))
    return (items[at:at + most] for at in range(0, len(items), most))


def calls_with_za(thread: recorded.Recorded, listing: str, most: int) -> Any:
    """The calls that are made with ZA on, in order, as many as are to be looked at; how many calls
    there are; and the count of the first that is not."""
    found = []
    for address, text in CALL.findall(listing):
        found += [(count, int(address, 16), text) for count in thread.all_hits(int(address, 16))]
    found.sort()
    answers = thread.ask([it for count, _, _ in found
                          for it in (f"goto {count}", "slice b 0 h 0")])[1::2]
    on = [Call(*it) for it, answer in zip(found, answers) if answer != ["off"]]
    return on[:most], len(found), on[most].count if len(on) > most else None


def find_returns(thread: recorded.Recorded, calls: list[Call]) -> None:
    """Finds the return of each call, and reads both sides of it."""
    for part in in_parts(thread, calls, 1):
        answers = thread.ask([it for call in part for it in (f"goto {call.count}", "regs", "za")])
        for at, call in enumerate(part):
            call.before = Side(answers[3 * at + 1], answers[3 * at + 2])
    places_after = {address: thread.all_hits(address + 4)
                    for address in {call.address for call in calls}}
    left = [(call, after_of(call, places_after)) for call in calls]
    while left:
        left = [(call, counts) for call, counts in left if counts]
        left.sort(key=lambda it: it[1][0])
        answers = thread.ask([it for _, counts in left
                              for it in (f"goto {counts[0]}", "regs")])[1::2]
        for (call, counts), registers in zip(left, answers):
            after = Side(registers, [])
            if after.number("sp") == call.before.number("sp"):
                call.returned = counts[0]
        left = [(call, counts[1:]) for call, counts in left if call.returned is None]


def after_of(call: Call, places_after: dict[int, list[int]]) -> list[int]:
    """The counts after a call at which it may have returned."""
    return [count for count in places_after[call.address] if count > call.count]


def read_returns(thread: recorded.Recorded, calls: list[Call]) -> None:
    """Reads each call's other side, with what its block and its buffer have there."""
    returned = sorted((call for call in calls if call.returned is not None),
                      key=lambda it: it.returned)
    for part in in_parts(thread, returned, 2):
        answers = thread.ask([it for call in part
                              for it
                              in (f"goto {call.returned}", "regs", "za",
                                  f"mem {call.block():#x} 16")])
        for at, call in enumerate(part):
            call.after = Side(answers[4 * at + 1], answers[4 * at + 2])
            call.saved = answers[4 * at + 3][0]
        buffers = [(call, *buffer_of(call.saved, thread.rows)) for call in part]
        asked = [it for call, start, length in buffers
                 for it in (f"goto {call.returned}", *mem_lines(start, length))]
        answers = iter(thread.ask(asked))
        for call, start, length in buffers:
            next(answers)
            data = "".join(next(answers)[0] for _ in mem_lines(start, length))
            call.saved = None if "fault" in data or not length else bytes.fromhex(data)


def buffer_of(block: str, rows: int) -> tuple[int, int]:
    """The start and the length of the buffer that a block names, 0 bytes where it is no block that
    can be read."""
    if block.startswith("fault"):
        return 0, 0
    data = bytes.fromhex(block)
    slices = int.from_bytes(data[8:10], "little")
    return int.from_bytes(data[:8], "little"), min(slices, rows) * rows


def mem_lines(start: int, length: int) -> list[str]:
    """The commands that ask for so many bytes."""
    return [f"mem {start + at:#x} {min(4096, length - at)}" for at in range(0, length, 4096)]


def is_in_buffer(call: Call, side: Side, rows: int) -> bool:
    """Tells whether the buffer has the vectors of ZA of a side, as many as it is to hold."""
    if call.saved is None:
        return False
    return all(call.saved[at:at + rows] == side.za.get(at // rows, bytes(rows))
               for at in range(0, len(call.saved), rows))


def judge(calls: list[Call], rows: int, is_shared: Callable[..., Any]) -> None:
    """Says of each call that has returned what became of ZA over it."""
    blocks = set()
    for call in calls:
        dormant, after = call.before.number("tpidr2"), call.after
        if dormant:
            blocks.add(dormant)
        if after is None:
            continue
        is_same = after.is_on and after.za == call.before.za
        if is_same and after.number("tpidr2") == dormant:
            call.kind = "kept"
        elif dormant:
            call.kind = "saved" if not after.number("tpidr2") and is_in_buffer(call, call.before,
                                                                               rows) else "lost"
        elif after.is_on and call.before.number("x 0") in blocks and is_in_buffer(call, after,
                                                                                  rows):
            call.kind = "restored"
        else:
            call.kind = ("lost" if not after.is_on else "shared" if is_shared(call.target())
                         else "changed")


def lines_of(calls: Any, known: Any, show_all: Any) -> Iterator[str]:
    """A line for each place of calls."""
    by_place = collections.defaultdict(list)
    for call in calls:
        by_place[call.address, call.target()].append(call)
    known.learn(address for address, _ in by_place)
    for (address, target), here in sorted(by_place.items()):
        counts = collections.Counter(call.kind or "not returned" for call in here)
        worst = next((call for call in here if call.kind in FAULTS), None)
        if not worst and not show_all:
            continue
        to = known.function(target) or f"{target:016x}"
        span = f": counts {worst.count} to {worst.returned}" if worst else ""
        yield f"{known.text(address)} calls {to}: " + ", ".join(f"{kind} {counts[kind]}"
                                                                for kind in (*KINDS, "not returned")
                                                                if counts[kind]) + span


def abi_check(words: argparse.Namespace, number: int) -> str:
    """What abi-check says of a thread."""
    try:
        said = emulator.call([emulator.find(), "abi-check", words.program, words.report,
                              number]).decode().strip()
    except emulator.Refused as fault:
        return str(fault)
    return "no call of this run is marked" if said == NONE_MARKED else said


def look_at(words: argparse.Namespace, number: int, listing: str,
            known: places.Places) -> tuple[bool, None]:
    """Says what became of ZA over the calls of a thread; the answer is whether one is at fault, and
    the count of the first that was not looked at."""
    thread = recorded.Recorded(words.program, words.report, number)
    calls, calls_made, left = calls_with_za(thread, listing, words.most)
    find_returns(thread, calls)
    read_returns(thread, calls)
    judge(calls, thread.rows, lambda address: known.function(address) in words.shares)
    others = call_faults.Checker(thread, reports.read(words.report).threads[number],
                                 counted.texts_of(listing),
                                 known.function, lambda address: "all" in words.vectors
                                 or known.function(address) in words.vectors)
    faults = [it for it in others.check() if it.kind != "few slices" or not words.partial]
    for line in (*lines_of(calls, known, words.all), *call_faults.lines_of(faults, known)):
        print(line)
    counts: Any = collections.Counter(call.kind for call in calls)
    texts = [f"{kind} {counts[kind]}" for kind in KINDS] + [f"not returned {counts[None]}"]
    print(f"calls {calls_made}, with ZA on {len(calls)}" + (" and more" if left is not None else "")
          + ": " + ", ".join(texts))
    print(f"abi-check: {abi_check(words, number)}")
    return bool(faults) or any(counts[kind]
                               for kind
                               in FAULTS), min((it for it in (left, others.left) if it is not None),
                                               default=None)


def arguments() -> tuple[argparse.ArgumentParser, argparse.Namespace]:
    parser = argparse.ArgumentParser(description=__doc__.partition("\n\n")[0])
    parser.add_argument("program", metavar="PROGRAM")
    parser.add_argument("report", metavar="REPORT")
    parser.add_argument("thread", metavar="THREAD", type=int, nargs="?", help="this thread alone")
    parser.add_argument("--all", action="store_true", help="a line for each place of calls")
    parser.add_argument("--shares", action="append", default=[], metavar="FUNCTION",
                        help="a function that is to change its caller's ZA")
    parser.add_argument("--vectors", action="append", default=[], metavar="FUNCTION",
                        help="a function that keeps Z8 to Z23 and P4 to P15; all for each")
    parser.add_argument("--partial", action="store_true",
                        help="a block may name fewer slices than ZA has")
    parser.add_argument("--most", type=int, default=10000, metavar="N",
                        help="look at the first N calls with ZA on (10000)")
    return parser, parser.parse_args()


def main() -> int:
    parser, words = arguments()
    listing = emulator.call([emulator.find(), "dis", words.program]).decode()
    known = places.Places(words.program)
    for option, names in (("--shares", words.shares),
                          ("--vectors", [name for name in words.vectors if name != "all"])):
        for name in names:
            if name not in (it for _, it in known.functions):
                parser.error(f"{option} {name}: the program has no function of that name")
    threads = [words.thread] if words.thread is not None else recorded.threads_of(words.program,
                                                                                  words.report)
    is_wrong, unseen = False, [] if listing else [
        "all calls, since the program has no section table"]
    for number in threads:
        if len(threads) > 1:
            print(f"thread {number}")
        has_fault, left = look_at(words, number, listing, known)
        is_wrong |= has_fault
        unseen += ([f"the calls of thread {number} from count {left} on (--most {words.most})"]
                   if left is not None else [])
    if unseen:
        print(f"not looked at: {', '.join(unseen)}")
    return 1 if is_wrong else emulator.NOT_ALL if unseen else 0

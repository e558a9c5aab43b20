"""Writes the checkpoint of a thread of a run at a count, or prints what `resume` is to write of a
checkpoint; the status is that of the process.

    tools/smemu-tools expected-ckpt ckpt FILE REPORT THREAD COUNT
    tools/smemu-tools expected-ckpt resume FILE REPORT CKPT

The thread runs on the interpreters of expected.py and expected_replay.py. The file is a walk over
the fields of docs/CHECKPOINT.md: the place of the first one that is not whole, or not as its row
says, is the answer.
"""
from __future__ import annotations

import re
import struct
import sys
from typing import Any, Callable

from smemu_tools import parser
from smemu_tools.model.expected import block
from smemu_tools.model.expected_replay import (Ends, Parts, Replayed, compared, count_of, events_of,
                                               in_format, opened, run_alone)
from smemu_tools.model.expected_signals import DEPTHS, SIGNALS, bits, truths
from smemu_tools.model.expected_vectors import Vectors

DIFFERS, BAD_CHECKPOINT = 10, 12
FILE_LIMIT, OUTPUT_LIMIT, JOURNAL_LIMIT, PAGE, PAGE_LIMIT = (67_108_864, 1_048_576, 262_144, 4096,
                                                             4096)
SHARED_PAGE = 0x7F0000000000
TAG = b"SMECKPT1"
OPTIONS = ("vl", "svl", "slice", "budget", "threads", "kernel")


class BadField(Exception):
    """The place of the first field that is not as it must be."""


def number(value: int, size: int) -> bytes:
    return value.to_bytes(size, "little")


# ---- writing


def checkpoint(thread: Replayed, digest: str, options: dict[str, int]) -> bytes:
    """The file of a thread's state."""
    fields = [TAG, bytes.fromhex(digest), *(number(options[name], 4) for name in OPTIONS)]
    fields += [number(value, 4)
               for value in (thread.number, thread.count, len(thread.journal), thread.depth)]
    flags = sum(flag << 31 - k for k, flag in enumerate(thread.flags))
    fields += [number(value, 8)
               for value
               in (thread.turns, thread.pc, thread.sp, *thread.x, flags, thread.matrix.svcr(),
                   thread.tpidr, thread.tpidr2, thread.held, thread.mask, int(thread.polled))]
    fields += [*map(bytes, thread.vectors.z), *map(bits, thread.vectors.p),
               bits(thread.vectors.ffr),
               *(map(bytes, thread.matrix.za) if thread.matrix.on else ())]
    handlers = [(signal, address) for signal, address in sorted(thread.handlers.items()) if address]
    fields += [number(len(handlers), 4), *(struct.pack("<IQ", *handler) for handler in handlers)]
    fields += [number(len(thread.output), 4), thread.output, number(len(thread.pages), 4)]
    fields += [struct.pack("<QB", page * PAGE, flags) + content
               for page, (flags, content) in sorted(thread.pages.items())]
    return b"".join(fields)


def run_to(thread: Replayed, count: int) -> None:
    """The thread after the fewest turns by which so many instructions are counted."""
    stop = None
    while thread.count < count:
        if stop is not None:
            raise Ends(DIFFERS, f"differs: endsearly {thread.count} {stop}\n")
        try:
            stop = thread.turn()
        except Parts as parts:
            raise Ends(DIFFERS, f"differs: {parts}\n") from None
    if stop is not None:
        raise Ends(DIFFERS, f"differs: endsearly {thread.count} {stop}\n")


def ckpt(file: bytes, report: bytes, of: int, count: int) -> tuple[int, bytes]:
    """The status and the bytes."""
    try:
        options, _, theirs = opened(file, report, of)
        if count >= count_of(theirs):
            raise Ends(BAD_CHECKPOINT, f"bad checkpoint: count {count_of(theirs)}\n")
        thread = Replayed(file, options, events_of(theirs), of)
        run_to(thread, count)
    except Ends as end:
        status, text = end.args
        return status, text.encode()
    return 0, checkpoint(thread, report.decode().splitlines()[2].split()[1], options)


# ---- reading


class Reader:
    """A walk over the fields of a file, with their places."""

    def __init__(self, file: bytes) -> None:
        self.file, self.at, self.places, self.parts = file, 0, [], {}

    def part(self, name: str) -> None:
        """The part of that name begins with the next field."""
        self.parts[name] = len(self.places)

    def field(self, size: int, test: Callable[..., Any] = lambda value: True) -> bytes:
        """The bytes of the next field."""
        value = self.file[self.at:self.at + size]
        if len(value) < size or not test(value):
            raise BadField(self.at)
        self.places.append((self.at, size))
        self.at += size
        return value

    def number(self, size: int, test: Callable[..., Any] = lambda value: True) -> int:
        return int.from_bytes(self.field(size, lambda value: test(int.from_bytes(value, "little"))),
                              "little")


def read(content: bytes, digest: str, options: Any, blocks: Any) -> Any:
    """The values of a checkpoint's fields, for a report with that digest and those options, and the
    journal and the count of each thread's block."""
    reader, state = Reader(content), {}
    reader.field(8, lambda tag: tag == TAG)
    reader.field(32, lambda value: value == bytes.fromhex(digest))
    for name in OPTIONS:
        reader.number(4, lambda value: value == options[name])
    state["number"] = reader.number(4, lambda value: value < options["threads"])
    count, events = blocks[state["number"]]
    state["count"] = reader.number(4, lambda value: value < count and value < options["budget"])
    state["events"] = reader.number(4, lambda value: value <= events and value <= JOURNAL_LIMIT)
    state["depth"] = reader.number(4, lambda value: value <= DEPTHS[options["kernel"]])
    state["turns"] = reader.number(8, lambda value: value <= 64 * options["budget"])
    state["pc"], state["sp"] = reader.number(8), reader.number(8)
    state["x"] = [reader.number(8) for _ in range(31)]
    state["flags"] = reader.number(8, lambda value: value & ~0xF0000000 == 0)
    state["svcr"] = reader.number(8, lambda value: value < 4)
    state["tpidr"], state["tpidr2"], state["held"] = (reader.number(8), reader.number(8),
                                                      reader.number(8))
    state["mask"] = reader.number(8, lambda value: value & ~SIGNALS == 0
                                  and (options["kernel"] == 2 or value == 0))
    state["polled"] = reader.number(8, lambda value: value < 2)
    length, array = options["svl" if state["svcr"] & 1 else "vl"] // 8, options["svl"] // 8
    reader.part("vectors")
    state["z"] = [reader.field(length) for _ in range(32)]
    state["p"] = [reader.field(length // 8) for _ in range(17)]
    state["za"] = [reader.field(array) for _ in range(array if state["svcr"] & 2 else 0)]
    reader.part("handlers")
    state["handlers"], last = {}, 0
    for _ in range(reader.number(4, lambda value: value <= 62)):
        last = reader.number(4, lambda value: last < value <= 62)
        state["handlers"][last] = reader.number(8, lambda value: value != 0)
    reader.part("output")
    state["output"] = reader.field(reader.number(4, lambda value: value <= OUTPUT_LIMIT))
    reader.part("pages")
    state["pages"], last = {}, -1
    for _ in range(reader.number(4, lambda value: value <= PAGE_LIMIT)):
        last = reader.number(8, lambda value: value % PAGE == 0 and value > last
                             and value != SHARED_PAGE)
        flags = reader.number(1, lambda value: value < 8)
        state["pages"][last // PAGE] = [flags, bytearray(reader.field(PAGE))]
    if reader.at < len(content):
        raise BadField(reader.at)
    return state, reader


# a file without program headers
NOTHING = bytes(64)


def thread_of(state: Any, options: Any, events: Any) -> Replayed:
    """The thread that a state is of, whose next operations are answered by the events that it has
    not used."""
    thread = Replayed(NOTHING, options, events, state["number"])
    for name in ("count", "depth", "turns", "pc", "sp", "x", "tpidr", "tpidr2", "held", "mask",
                 "handlers", "output", "pages"):
        setattr(thread, name, state[name])
    thread.polled, thread.flags = bool(state["polled"]), [state["flags"] >> 31 - k & 1
                                                          for k in range(4)]
    thread.journal = list(events[:state["events"]])
    thread.vectors = Vectors(len(state["z"][0]))
    thread.vectors.z, (*thread.vectors.p,
                       thread.vectors.ffr) = [list(vector) for vector in state["z"]], map(
        truths, state["p"])
    thread.matrix.streaming, thread.matrix.on = bool(state["svcr"] & 1), bool(state["svcr"] & 2)
    if thread.matrix.on:
        thread.matrix.za = [list(vector) for vector in state["za"]]
    return thread


def read_for(content: bytes, report: bytes) -> tuple[dict[str, int | list[int]], Reader]:
    """The values of the fields of a checkpoint and the walk over them, for a report that is in the
    format."""
    lines = report.decode().splitlines()
    options = {name: int(value) for name, value in re.findall(r"(\w+)=(\d+)", lines[1])}
    options["kernel"] = int(lines[0].split()[1])
    blocks = [(int(count), int(events))
              for count, events
              in zip(re.findall(r"^count (\d+)$", report.decode(), re.MULTILINE),
                     re.findall(r"^journal (\d+)$", report.decode(), re.MULTILINE))]
    return read(content, lines[2].split()[1], options, blocks)


def resume(file: bytes, report: bytes, content: bytes) -> Any:
    """The status and the text: each file is looked at in its turn, and then whether the report is
    that of the program."""
    try:
        in_format(report)
        if len(content) > FILE_LIMIT:
            raise Ends(BAD_CHECKPOINT, "bad checkpoint: toolong\n")
        state, _ = read_for(content, report)
        options, start, theirs = opened(file, report, state["number"])
        thread = thread_of(state, options, events_of(theirs))
        stop = run_alone(thread, count_of(theirs))
    except BadField as field:
        return BAD_CHECKPOINT, f"bad checkpoint: field {field}\n"
    except Ends as end:
        return end.args
    return compared(block(thread, stop, state["number"]), theirs, start)


def main() -> Any:
    words = parser(__doc__)
    words.add_argument("command", choices=("ckpt", "resume"))
    words.add_argument("names", nargs="+", metavar="WORD", help="the words of that command")
    command, names = vars(words.parse_args()).values()
    file, report = (open(name, "rb").read() for name in names[:2])
    if command == "ckpt":
        status, text = ckpt(file, report, *map(int, names[2:]))
        sys.stdout.buffer.write(text)
        return status
    status, said = resume(file, report, open(names[2], "rb").read())
    sys.stdout.write(said)
    return status

"""Says of a report which line is the first at fault, and which part of docs/REPORT.md it should
belong to, and which changes of a report to try; tools/smemu_tools/rows/altered.py asks it.

It shares nothing with the emulator: each kind of line is a regular expression, and a report is a
walk through the kinds that may follow. A change is a range of bytes of the report, and the bytes
that take its place; what is found then is a line and a part, or `read`.
"""
from __future__ import annotations

import re
from typing import Any, Callable, Iterator

D = r"(?:0|[1-9][0-9]*)"
H = r"[0-9a-f]{16}"
BYTES = r"(?:[0-9a-f]{2})+"
DIGEST = r"[0-9a-f]{64}"
RAISED = {
    "undefined": " [0-9a-f]{8}", "pcalign": "", "fetch": "", "data": f" {H} (?:read|write)",
    "spalign": "", "align": f" {H}",
    "illegalstreaming": "", "notstreaming": "", "zainactive": "", "breakpoint": f" ({D})",
    "shared": f" {H}",
}
STOPS = [f"exited ({D})", f"killed ({D})", f"badframe {H}", "budget", "tracefull", "outputfull",
         *(f"raised {name} {H}{values}" for name, values in RAISED.items())]
# a kind of line: its form, and the least number that is too large for each number in it
LINES: dict[str, Any] = {
    "header": ("smemu-report ([12])", ()),
    "options": (f"options vl=({D}) svl=({D}) slice=({D}) budget=({D}) threads=({D})",
                (2049, 2049, 1000001, 2**32, 33)),
    "image": (f"image {DIGEST}", ()),
    "thread": (f"thread ({D})", (2**32,)),
    "count": (f"count ({D})", (2**32,)),
    "turns": (f"turns ({D})", (2**64,)),
    "pc": (f"pc {H}", ()),
    "x": (f"x ({D}) {H}", (2**32,)),
    "sp": (f"sp {H}", ()),
    "nzcv": ("nzcv [01]{4}", ()),
    "tpidr": (f"tpidr {H}", ()),
    "tpidr2": (f"tpidr2 {H}", ()),
    "svcr": (f"svcr ({D})", (2**32,)),
    "z": (f"z ({D}) {BYTES}", (2**32,)),
    "p": (f"p ({D}) {BYTES}", (2**32,)),
    "ffr": (f"ffr {BYTES}", ()),
    "za": (f"za ({D}) {BYTES}", (2**32,)),
    "memory": (f"memory ({D}) {DIGEST}", (2**32,)),
    "held": (f"held {H}", ()),
    "inside": ("inside [01]", ()),
    "mask": (f"mask {H}", ()),
    "depth": (f"depth ({D})", (2**32,)),
    "polled": ("polled [01]", ()),
    "handler": (f"handler ({D}) {H}", (2**32,)),
    "output": (f"output ({D})", (2**32,)),
    "out": (f"out ({BYTES})", ()),
    "journal": (f"journal ({D})", (2**32,)),
    "e": (f"e (?:ld|st|swp|add|clr|eor|set|umax|umin|cas|post|poll) ({D}) {H} {H} {H}", (2**32,)),
    "end-thread": ("end-thread", ()),
    "shared": ("shared", ()),
    "w": (f"w ({D}) {H}", (512,)),
    "pending": (f"pending ({D}) {H}", (32,)),
    "end": ("end", ()),
}
# the kinds of a block up to its output, in each version: one of each, or `*` any number, or `?` at
# most one
BLOCKS = {version: f"stop count turns pc x* sp nzcv tpidr tpidr2 svcr z* p* ffr? "
          f"za* memory held {masking} polled handler* output".split()
          for version, masking in ((1, "inside"), (2, "mask depth"))}


class Faulty(Exception):
    pass


def numbers(kind: str, line: bytes) -> list[int] | None:
    """The numbers of a line of the kind, or None."""
    if kind == "stop":
        for form in STOPS:
            found = re.fullmatch(("stop " + form + "\n").encode(), line)
            if found:
                bounds = {"exited": 2**8, "killed": 2**32, "raised": 2**16}
                values = [int(n) for n in found.groups()]
                return values if all(n < bounds[form.split()[0]] for n in values) else None
        return None
    form, bounds = LINES[kind]
    found = re.fullmatch((form + "\n").encode(), line)
    if not found:
        return None
    if kind == "out":
        return [len(found.group(1)) // 2]
    values = [int(n) for n in found.groups()]
    if any(n >= bound for n, bound in zip(values, bounds)):
        return None
    if kind == "options":
        lengths = (128, 256, 512, 1024, 2048)
        if values[0] not in lengths or values[1] not in lengths or 0 in values:
            return None
    return values


def read(report: bytes) -> None:
    """Walks through a report; raises Faulty at the first line at fault."""
    lines = report.split(b"\n")
    lines = [line + b"\n" for line in lines[:-1]] + ([lines[-1]] if lines[-1] else [])
    at = 0

    def next_line() -> bytes:
        return lines[at] if at < len(lines) else b""

    def fault(part: str) -> None:
        try:
            next_line().decode()
        except UnicodeDecodeError:
            part = "nottext"
        raise Faulty(f"{at + 1} {part}")

    def one(kind: str, part: str, test: Callable[..., Any] = lambda values: True) -> list[int]:
        nonlocal at
        values = numbers(kind, next_line())
        if values is None or not test(values):
            fault(part)
        at += 1
        return values

    def begins(*names: Any) -> Any:
        return re.split(rb"[ \n]", next_line(), maxsplit=1)[0] in names

    version, = one("header", "header")
    threads = one("options", "options")[4]
    one("image", "image")
    for thread in range(threads):
        one("thread", "block", lambda values: values == [thread])
        for kind in BLOCKS[version]:
            name = kind.rstrip("*?")
            if kind == name:
                values = one(name, "block")
                continue
            while numbers(name, next_line()) is not None:
                at += 1
                if kind.endswith("?"):
                    break
        left = values[0]
        while left:
            one("out", "block", lambda values: values == [min(left, 32)])
            left -= min(left, 32)
        for _ in range(one("journal", "journal")[0]):
            one("e", "journal")
        if numbers("end-thread", next_line()) is None:
            fault("journal" if begins(b"e") else "block")
        at += 1
    one("shared", "shared")
    for kind in ("w", "pending"):
        while numbers(kind, next_line()) is not None:
            at += 1
    if numbers("end", next_line()) is None:
        fault("shared" if begins(b"w", b"pending") else "end")
    at += 1
    if at < len(lines):
        fault("end")


def found(report: bytes) -> str:
    try:
        read(report)
    except Faulty as fault:
        return str(fault)
    return "read"


def h(n: int) -> str:
    return f"{n:016x}"


ZERO = h(0)


# what a report of two threads has of the first thread's mask, in each version
MASKING = {1: ["inside 0"], 2: [f"mask {h(0x28)}", "depth 2"]}


def of_two_threads(digest: Any, second: Any, version: Any) -> Any:
    """A report of two threads, the first with each kind of line; the block of the second is given,
    as the digest of the program."""
    return "\n".join([
        f"smemu-report {version}",
        "options vl=128 svl=256 slice=1000 budget=10000000 threads=2",
        f"image {digest}",
        "thread 0",
        f"stop raised data {h(0x400010)} {h(0x411000)} write",
        "count 70", "turns 72", f"pc {h(0x400010)}", f"x 0 {h(0x2A)}", f"x 30 {h(2**64 - 1)}", f"sp {h(0x7E0000000000)}", "nzcv 0110",
        f"tpidr {ZERO}", f"tpidr2 {h(0x4000)}", "svcr 3",
        "z 0 " + bytes(range(1, 17)).hex(), "z 31 " + "ff" * 16, "p 15 0100", "ffr ffff", "za 2 " + "a0" * 32,
        "memory 65 " + bytes(range(32)).hex(), f"held {h(0x20)}", *MASKING[version], "polled 1", f"handler 3 {h(0x400100)}", f"handler 62 {h(8)}",
        "output 33", "out " + b"Hello, world. Hello, world. 1234".hex(), "out 0a",
        "journal 2", f"e cas 511 {h(1)} {h(2)} {h(3)}", f"e poll 0 {ZERO} {ZERO} {h(0x28)}", "end-thread",
        *second, "shared", f"w 0 {h(2000)}", f"w 511 {h(5)}", f"pending 1 {h(8)}", "end", "",
    ]).encode()


# what may stand after `stop`, and what may not
STOP_WORDS = [
    b"exited 255", b"exited 256", b"none", b"killed 4294967295", b"killed 4294967296",
    b"badframe " + ZERO.encode(), b"budget", b"budget 1",
    b"tracefull", b"outputfull",
    *(f"raised {name} {h(4)}{value}".encode()
      for name, values
      in {"undefined": ["", " 00000000", " 0000000", " 1e604000 "], "pcalign": ["", " 0"],
          "fetch": ["", f" {ZERO}"], "data": ["", f" {ZERO}", f" {ZERO} read", f" {ZERO} none"],
          "spalign": [""], "align": ["", f" {ZERO}"], "illegalstreaming": [""],
          "notstreaming": [""], "zainactive": [""], "breakpoint": ["", " 65535", " 65536"],
          "shared": ["", f" {ZERO}"], "unaligned": [""]}.items() for value in values),
]

def version_changes(report: Any, version: Any) -> Iterator[Any]:
    """Lines of the other version, and of both, in the place of those of the first block that say
    which signals wait."""
    own = "".join(line + "\n" for line in MASKING[version]).encode()
    start = report.index(own)
    inside, mask, depth = (line + b"\n"
                           for line in (b"inside 1", b"mask " + ZERO.encode(), b"depth 1"))
    for lines in (inside, mask + depth, mask, depth, depth + mask, inside + mask + depth,
                  mask + depth + inside, mask + inside, inside + depth, mask + depth + depth, b""):
        yield start, start + len(own), lines
    for number in (b"0", b"1", b"2", b"3", b"02", b"12", b" 2", b"", b"two"):
        yield len(b"smemu-report "), len(b"smemu-report 1"), number


def line_moves(report: Any, spans: Any, k: Any) -> Iterator[Any]:
    """The line removed, doubled and swapped with the next."""
    start, end = spans[k]
    yield start, end, b""
    yield start, start, report[start:end]
    if k + 1 < len(spans):
        yield start, spans[k + 1][1], report[end:spans[k + 1][1]] + report[start:end]


def line_ends(report: Any, start: Any, end: Any) -> Iterator[Any]:
    """The report cut after the line, its line feed taken away, and bytes put into it."""
    yield end, len(report), b""
    yield end - 1, len(report), b""
    yield start, start, b"\xff"
    yield end - 1, end - 1, b" "
    yield end - 1, end - 1, b"\xc3\xa9"


def byte_changes(line: Any, start: Any) -> Iterator[Any]:
    """The bytes of the line at which something begins, and its last one, each changed."""
    for i, byte in enumerate(line[:-1]):
        if i == 0 or line[i - 1:i] in b" =-" or line[i:i + 1] in b" =" or i + 2 == len(line):
            yield start + i, start + i + 1, {32: b"  ", 61: b":"}.get(byte,
                                                                      b"0" if byte not in b"0"
                                                                      else b"7")
            if byte in b"0123456789abcdef":
                yield start + i, start + i + 1, bytes([byte]).upper() if byte > 57 else b"g"
                yield start + i, start + i, b"0"


def spans_of(report: Any) -> Any:
    """Where the lines of a report begin and end."""
    starts = [0] + [i + 1 for i, byte in enumerate(report) if byte == 10]
    return list(zip(starts, starts[1:]))


def changes(report: Any, kept: Any = range(0)) -> Iterator[Any]:
    """Of each line of a report its changes; no byte is changed of those that begin in `kept`."""
    spans = spans_of(report)
    yield 0, 0, b""
    yield 0, len(report), b""
    for k, (start, end) in enumerate(spans):
        yield from line_moves(report, spans, k)
        yield from line_ends(report, start, end)
        if start not in kept:
            yield from byte_changes(report[start:end], start)


def changes_of_two_threads(report: Any, version: Any) -> Iterator[Any]:
    """The changes of such a report, of whose second block no byte is changed, lines of the other
    version, and fields that are just inside or outside of what they may be."""
    yield from changes(report, range(report.index(b"thread 1"), report.index(b"shared")))
    yield from version_changes(report, version)
    fields = [
        (b"vl=128", b"vl=384"), (b"svl=256", b"svl=2048"), (b"slice=1000", b"slice=1000000"),
        (b"slice=1000", b"slice=1000001"),
        (b"budget=10000000", b"budget=4294967295"), (b"budget=10000000", b"budget=4294967296"),
        (b"budget=10000000", b"budget=0"),
        (b"threads=2", b"threads=32"), (b"threads=2", b"threads=33"), (b"threads=2", b"threads=1"),
        (b"threads=2", b"threads=3"),
        (b"count 70", b"count 4294967295"), (b"count 70", b"count 4294967296"),
        (b"turns 72", b"turns 18446744073709551615"),
        (b"turns 72", b"turns 18446744073709551616"),
        (b"turns 72", b"turns 99999999999999999999999"), (b"x 30", b"x 4294967295"),
        (b"x 30", b"x 4294967296"), (b"svcr 3", b"svcr 4294967296"), (b"z 31", b"z 99"),
        (b"z 31 ff", b"z 31 f"), (b"p 15 0100", b"p 15 "),
        (b"ffr ffff", b"ffr f"), (b"za 2", b"za 4294967296"), (b"memory 65", b"memory 4294967295"),
        (b"memory 65", b"memory 4294967296"),
        (b"handler 62", b"handler 4294967296"), (b"output 33", b"output 32"),
        (b"output 33", b"output 34"), (b"output 33", b"output 65"),
        (b"output 33", b"output 4294967296"), (b"out 0a", b"out 0a0a"),
        (b"journal 2", b"journal 1"), (b"journal 2", b"journal 3"),
        (b"journal 2", b"journal 4294967295"), (b"journal 2", b"journal 4294967296"),
        (b"e cas 511", b"e cas 4294967295"), (b"e cas 511", b"e cas 4294967296"),
        (b"e cas", b"e mul"), (b"w 511", b"w 512"), (b"w 511", b"w 0"),
        (b"pending 1", b"pending 31"), (b"pending 1", b"pending 32"),
        (b"end-thread", b"end"), (b"end-thread", b"event"), (b"w 0", b"wx 0"),
        (b"pending 1", b"pendings 1"),
        (b"count 70\nturns 72", b"count 070\nturns \xff"),
        (b"count 70\nturns 72", b"count \xff\nturns 072"),
        *((b"exited 42", stop) for stop in STOP_WORDS),
        *((b"depth 2", b"depth " + depth)
          for depth in (b"64", b"65", b"4294967295", b"4294967296", b"02", b"-1", b"2 ", b"")
          if version == 2),
        *((b"mask 0000", b"mask " + digits)
          for digits in (b"000", b"00000", b"000A", b"ffff", b"0x00", b"") if version == 2),
    ]
    for old, new in fields:
        at = report.index(old)
        yield at, at + len(old), new

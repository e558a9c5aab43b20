"""A source whose lines are moved about, and what `asm` answers to it then.

The words of its instructions are written out, as LLVM gives them, and those with a label are put
together by their encodings in DDI 0487; directives, labels, the order of the faults and the layout
of the file are those of docs/ASSEMBLY.md. A line that is not known makes the answer unknown.
"""
from __future__ import annotations

import re
from typing import Any, Iterator

from smemu_tools.model.elf import assembled
from smemu_tools.rows.changed import Unknown

TEXT, LIMIT = 0x400000, 4096
SOURCE = b"""\
// A source whose lines are moved about.
    .text
    .global _start
_start:
    movz x0, #3
    adr x1, table
next:
    ldr x2, [x1]
    add x3, x3, x2
    subs x0, x0, #1
    b.ne next               // a label behind it
    cbz x3, end
    bl leaf

    b end
leaf:
    movz x4, #7
    ret
words:
    .word 1, 0xffffffff
    .quad leaf
end:
    movz x8, #93
    svc #0
    .data
    .align 3
table:
    .quad 41, table
bytes: .byte 1, 2, 255
    .zero 5
    .quad end, 18446744073709551615
"""
WORDS = {"movz x0, #3": 0xD2800060, "ldr x2, [x1]": 0xF9400022, "add x3, x3, x2": 0x8B020063,
         "subs x0, x0, #1": 0xF1000400, "movz x4, #7": 0xD28000E4, "ret": 0xD65F03C0,
         "movz x8, #93": 0xD2800BA8, "svc #0": 0xD4000001}
# the word of an instruction with a label, from the number of instructions, or of bytes of ADR, to
# it
TO_LABEL = {"adr x1": lambda d: 0x10000001 | (d & 3) << 29 | (d >> 2 & 0x7FFFF) << 5,
            "b.ne": lambda d: 0x54000001 | (d >> 2 & 0x7FFFF) << 5,
            "cbz x3": lambda d: 0xB4000003 | (d >> 2 & 0x7FFFF) << 5,
            "bl": lambda d: 0x94000000 | d >> 2 & 0x3FFFFFF,
            "b": lambda d: 0x14000000 | d >> 2 & 0x3FFFFFF}
NAME = "[a-z_]+"
SIZES = {".quad": 8, ".word": 4, ".byte": 1}


class Fault(Exception):
    """The line that is told after `bad source: `."""


def number(text: Any, line: Any, column: Any, top: Any) -> Any:
    """The number of a directive, which is below one past the greatest."""
    value = int(text, 0) if re.fullmatch("0|[1-9][0-9]*|0x[0-9a-f]+", text) else None
    if value is None and not re.fullmatch("[0-9]+", text):
        raise Unknown
    if value is None or value >= top:
        raise Fault(f"line {line}: line badnumber {column}")
    return value


class Assembler:
    """What the lines so far come to: in each part bytes, and places that labels say; in the text
    the places of instructions."""

    def __init__(self) -> None:
        self.parts, self.part = {"text": bytearray(), "data": bytearray()}, "text"
        self.labels, self.places, self.code = {}, [], set()

    def put(self, content: Any, is_code: Any) -> None:
        here = self.parts[self.part]
        if self.part == "text" and is_code:
            self.code.add(len(here))
        here += content

    def later(self, size: Any, name: Any, line: Any, word_of: Any, is_code: Any) -> None:
        """Room for what a label says."""
        self.places.append((self.part, len(self.parts[self.part]), size, name, line, word_of))
        self.put(bytes(size), is_code)

    def take(self, line: Any, text: Any) -> None:
        """A line of the source."""
        code = text.partition("//")[0]
        label = re.match(f"[ \t]*({NAME}):", code)
        if label:
            if label.group(1) in self.labels:
                self.check_rest(line, code, label.end())
                raise Fault(f"line {line}: doubled")
            self.labels[label.group(1)] = self.part, len(self.parts[self.part])
        self.statement(line, code, label.end() if label else 0)

    def check_rest(self, line: Any, code: Any, start: Any) -> None:
        """A fault within a line comes before that of its label."""
        if code[start:].strip(" \t"):
            raise Unknown

    def statement(self, line: Any, code: Any, start: Any) -> None:
        words = code[start:].strip(" \t")
        name, _, rest = words.partition(" ")
        if not words or name == ".global" and re.fullmatch(NAME, rest):
            return
        if words in (".text", ".data"):
            self.part = words[1:]
        elif words in WORDS:
            self.check_place()
            self.put(WORDS[words].to_bytes(4, "little"), True)
        elif name in SIZES and rest:
            self.values(line, name, code, start)
        elif name == ".zero" and re.fullmatch("[0-9]{1,3}", rest):
            self.put(bytes(number(rest, line, code.rindex(rest) + 1, 1000)), False)
        elif name == ".align" and re.fullmatch("[0-9]", rest):
            self.put(bytes(-len(self.parts[self.part]) % (1 << int(rest))), False)
        else:
            self.branch(line, words)

    def check_place(self) -> None:
        if len(self.parts[self.part]) % 4:
            raise Unknown

    def branch(self, line: Any, words: Any) -> None:
        found = re.fullmatch(f"(.*[a-z0-9]),? ({NAME})", words)
        if (not found or found.group(1) not in TO_LABEL
                or ("," in words) != (found.group(1) in ("adr x1", "cbz x3"))
                or found.group(2) in ("x0", "sp")):
            raise Unknown
        self.check_place()
        self.later(4, found.group(2), line, TO_LABEL[found.group(1)], True)

    def values(self, line: Any, name: Any, code: Any, start: Any) -> None:
        at = code.index(name, start) + len(name)
        for value in code[at:].split(","):
            word, column = value.strip(" \t"), at + len(value) - len(value.lstrip(" \t")) + 1
            at += len(value) + 1
            if name == ".quad" and re.fullmatch(NAME, word):
                self.later(8, word, line, None, False)
            else:
                self.put(number(word, line, column, 1 << 8 * SIZES[name]).to_bytes(SIZES[name],
                                                                                   "little"), False)

    def marks(self) -> Any:
        """Where words of code and of data begin in the text; what is no whole word has no mark."""
        kinds = [at in self.code for at in range(0, len(self.parts["text"]) // 4 * 4, 4)]
        return [(TEXT + 4 * k, kind) for k, kind in enumerate(kinds)
                if k == 0 or kinds[k - 1] != kind]

    def address(self, part: Any, at: Any) -> Any:
        return TEXT + at + (0 if part == "text" else -(-len(self.parts["text"]) // LIMIT) * LIMIT)

    def file(self) -> Any:
        """The program, when all lines are taken."""
        for part, at, size, name, line, word_of in self.places:
            if name not in self.labels:
                raise Fault(f"line {line}: undefined")
            target = self.address(*self.labels[name])
            distance = target - self.address(part, at)
            if word_of not in (None, TO_LABEL["adr x1"]) and distance % 4:
                raise Fault(f"line {line}: toofar {distance}")
            value = word_of(distance) if word_of else target
            self.parts[part][at:at + size] = value.to_bytes(size, "little")
        part, start = self.labels.get("_start", ("data", 0))
        if part != "text" or start % 4 or start >= len(self.parts["text"]):
            raise Fault("line 0: nostart")
        return assembled(bytes(self.parts["text"]), bytes(self.parts["data"]), TEXT + start,
                         self.marks())


def asm(source: Any) -> Any:
    """The status and the text, or the file."""
    try:
        text = source.decode()
    except UnicodeDecodeError as fault:
        return 7, f"bad source: line 0: nottext {fault.start}\n"
    assembler = Assembler()
    try:
        for line, words in enumerate(text.split("\n"), 1):
            assembler.take(line, words)
        return 0, assembler.file()
    except Fault as fault:
        return 7, f"bad source: {fault}\n"


def changes() -> Iterator[Any]:
    """Lines removed, doubled, moved and swapped, the source cut after each and doubled, bytes that
    are no text, and numbers of directives."""
    starts = [0] + [i + 1 for i, byte in enumerate(SOURCE) if byte == 10]
    spans = list(zip(starts, starts[1:]))
    yield len(SOURCE), len(SOURCE), SOURCE
    for i, (start, end) in enumerate(spans):
        yield start, end, b""
        yield start, end, SOURCE[start:end] * 2
        yield end, len(SOURCE), b""
        yield end - 1, len(SOURCE), b""
        yield start, start, b"\n"
        yield start, end, SOURCE[start:end - 1] + b" // more\n"
        yield start, end, SOURCE[start:end - 1] + b"\t\n"
        for other, its_end in spans[i + 1:]:
            first, second = SOURCE[start:end], SOURCE[other:its_end]
            yield (other, its_end, first), (start, end, second)
            yield (its_end, its_end, first), (start, end, b"")
            yield (other, its_end, b""), (start, start, second)
    for at in range(0, len(SOURCE) + 1, 3):
        for byte in (b"\xff", b"\xc3", b"\xed\xa0\x80"):
            yield at, at, byte
    for found in re.finditer(rb"(?<=[ ,])(?:0x[0-9a-f]+|[0-9]+)(?=[,\n])", SOURCE):
        yield from ((*found.span(), new)
                    for new
                    in (b"0", b"00", b"01", b"255", b"256", b"0xff", b"0x100", b"4294967295",
                        b"4294967296", b"18446744073709551615", b"18446744073709551616",
                        b"0xffffffffffffffff", b"0x10000000000000000", b"99999999999999999999999"))
    for found in re.finditer(rb"[a-z_]+(?=\n|:| )", SOURCE):
        if found.group() in (b"next", b"end", b"leaf", b"words", b"table", b"_start"):
            yield from ((*found.span(), new)
                        for new in (b"next", b"end", b"leaf", b"others", b"_start", b"_"))

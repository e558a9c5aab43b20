"""Prints what `vectors` is to answer to a file of instruction vectors (docs/VECTORS.md), by an
interpreter of its own that shares nothing with the emulator; the status is that of the process.

    tools/smemu-tools expected-answers FILE [VL [SVL]]

A vector is a word with the state before it. It is executed by the thread of expected.py, which has
no memory here but two pages, and by expected_others.py. A word that these do not know is undefined.
"""
from __future__ import annotations

import pathlib
import re
import sys
from typing import Any

from smemu_tools import parser
from smemu_tools.model.expected import Thread
from smemu_tools.model.expected_others import KnowsAll

DONE, BAD_VECTORS = 0, 14
MOST_BYTES, MOST_LINES = 67_108_864, 2_048
CODE, DATA, PAGE = 0x20000, 0x10000, 4096
READ_AND_EXECUTE, READ_AND_WRITE = 5, 6


# ---- the grammar

NUMBERED = {"x": 31, "z": 32, "p": 16, "za": 256}
ORDER = ["x", "sp", "nzcv", "tpidr", "tpidr2", "svcr", "z", "p", "ffr", "za", "m"]
KEY = re.compile(r"(x|za|z|p)(0|[1-9][0-9]*)|sp|nzcv|tpidr2|tpidr|svcr|ffr|m")


class BadLine(Exception):
    """The line is not in the grammar."""


def place_of(key: str) -> tuple[int, int]:
    """The place of a field in the order of a line."""
    said = KEY.fullmatch(key)
    if not said or said[1] and int(said[2]) >= NUMBERED[said[1]]:
        raise BadLine
    return ORDER.index(said[1] or key), int(said[2] or 0)


def digits_of(kind: str, modes: int, vl: int, svl: int) -> str:
    """The digits of a value of that kind; those of `m` are any number of bytes up to a page."""
    length = (svl if modes & 1 else vl) // 8
    if kind == "m":
        return f"([0-9a-f]{{2}}){{1,{PAGE}}}"
    if kind in ("nzcv", "svcr"):
        return {"nzcv": "[01]{4}", "svcr": "[0-3]"}[kind]
    count = {"z": 2 * length, "p": length // 4, "ffr": length // 4, "za": svl // 4}.get(kind, 16)
    return f"[0-9a-f]{{{count}}}"


def read_line(line: str, vl: int, svl: int) -> tuple[int, list[tuple[str, str]]]:
    """The word, and the fields as (key, value)."""
    word, *words = line.split(" ")
    if not re.fullmatch("[0-9a-f]{8}", word):
        raise BadLine
    fields, before, modes = [], (-1, 0), 0
    for said in words:
        key, sign, value = said.partition("=")
        place = place_of(key)
        kind = ORDER[place[0]]
        if not sign or place <= before or kind == "za" and (not modes & 2
                                                            or place[1]
                                                            >= svl // 8) or not re.fullmatch(
                digits_of(kind, modes, vl, svl), value):
            raise BadLine
        modes = int(value) if kind == "svcr" else modes
        before = place
        fields.append((key, value))
    return int(word, 16), fields


def read_vectors(content: bytes, vl: int, svl: int) -> tuple[list[tuple[int, list[Any]]],
                                                             int | None]:
    """The words with their fields; the number of the first line at fault where there is one, 0
    where the file is too long."""
    if len(content) > MOST_BYTES:
        return [], 0
    lines = content.decode("latin-1").split("\n")
    lines = lines[:-1] if lines[-1] == "" else lines
    vectors = []
    for number, line in enumerate(lines, 1):
        try:
            if number > MOST_LINES:
                raise BadLine
            vectors.append(read_line(line, vl, svl))
        except BadLine:
            return vectors, number
    return vectors, None


# ---- the step


class Asks(Exception):
    """The instruction asks for an access to a shared word."""


class Calls(Exception):
    """The instruction calls the kernel."""


def truths(digits: str) -> list[bool]:
    return [bool(byte >> k & 1) for byte in bytes.fromhex(digits) for k in range(8)]


class Alone(KnowsAll, Thread):
    """The state of a vector."""

    def __init__(self, word: int, fields: list[tuple[str, str]], vl: int, svl: int) -> None:
        no_program = bytes(64)
        super().__init__(no_program, 1, vl, svl, 1)
        code = word.to_bytes(4, "little").ljust(PAGE, b"\0")
        self.pages = {CODE // PAGE: [READ_AND_EXECUTE, bytearray(code)],
                      DATA // PAGE: [READ_AND_WRITE, bytearray(PAGE)]}
        self.x, self.sp, self.pc = [0] * 31, 0, CODE
        for key, value in fields:
            self.set(ORDER[place_of(key)[0]], place_of(key)[1], value)

    def set(self, kind: str, number: int, value: str) -> None:
        if kind == "x":
            self.x[number] = int(value, 16)
        elif kind in ("sp", "tpidr", "tpidr2"):
            setattr(self, kind, int(value, 16))
        elif kind == "nzcv":
            self.flags = [int(digit) for digit in value]
        elif kind == "svcr":
            self.matrix.change(self, bool(int(value) & 1), bool(int(value) & 2))
        elif kind == "z":
            self.vectors.z[number] = list(bytes.fromhex(value))
        elif kind == "p":
            self.vectors.p[number] = truths(value)
        elif kind == "ffr":
            self.vectors.ffr = truths(value)
        elif kind == "za":
            self.matrix.za[number] = list(bytes.fromhex(value))
        else:
            self.pages[DATA // PAGE][1][:len(value) // 2] = bytes.fromhex(value)

    def need_room(self) -> None:
        raise Asks

    def call(self) -> None:
        raise Calls

    def told(self) -> list[str]:
        """The fields that are not zero."""
        fields = [f"x{n}={value:016x}" for n, value in enumerate(self.x) if value]
        fields += [f"sp={self.sp:016x}"] * bool(self.sp) + ["nzcv="
                                                            + "".join(str(int(flag))
                                                                      for flag
                                                                      in self.flags)] * any(
            self.flags)
        fields += [f"{name}={getattr(self, name):016x}" for name in ("tpidr", "tpidr2")
                   if getattr(self, name)]
        fields += [f"svcr={self.matrix.svcr()}"] * bool(self.matrix.svcr())
        for line in [*self.vectors.lines(), *self.matrix.lines()]:
            *key, value = line.split(" ")
            fields.append("".join(key) + "=" + value)
        data = bytes(self.pages[DATA // PAGE][1]).rstrip(b"\0")
        return fields + [f"m={data.hex()}"] * bool(data)


def answer(vector: tuple[int, list[tuple[str, str]]], vl: int, svl: int) -> str:
    """The line of a vector's answer."""
    word, fields = vector
    thread = Alone(word, fields, vl, svl)
    try:
        stop = thread.instruction()
    except Asks:
        return "shared"
    except Calls:
        return f"call {word >> 5 & 0xFFFF}"
    if stop:
        _, name, _, *values = stop.split(" ")
        return " ".join(["raise", name, *values])
    return " ".join([f"next pc={thread.pc:016x}", *thread.told()])


def answers(content: bytes, vl: int = 128, svl: int = 256) -> tuple[int, str]:
    """The status and the text."""
    vectors, fault = read_vectors(content, vl, svl)
    if fault is not None:
        return BAD_VECTORS, f"bad vectors: line {fault}\n" if fault else "bad vectors: toolong\n"
    return DONE, "".join(answer(vector, vl, svl) + "\n" for vector in vectors)


def main() -> Any:
    words = parser(__doc__)
    words.add_argument("file", type=pathlib.Path, metavar="FILE")
    words.add_argument("lengths", type=int, nargs="*", metavar="BITS",
                       help="the lengths, --vl and --svl")
    asked = words.parse_args()
    status, text = answers(asked.file.read_bytes(), *asked.lengths)
    sys.stdout.write(text)
    return status

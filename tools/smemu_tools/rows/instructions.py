"""Words of the instructions that the programs of the rows are made of, put together by hand."""
from __future__ import annotations

from typing import Any
MOVZ, ADD, SUBS, B, SVC = 0xD2800000, 0x91000000, 0xF1000000, 0x54000000, 0xD4000001
WIDE = 1 << 31
ADR, BL, ALWAYS = 0x10000000, 0x94000000, 14


def movz(rd: int, imm: int, hw: int = 0, wide: bool = True) -> int:
    return (MOVZ if wide else MOVZ & ~WIDE) | hw << 21 | imm << 5 | rd


def add(rd: int, rn: int, imm: int, shifted: bool = False, wide: bool = True) -> Any:
    return (ADD if wide else ADD & ~WIDE) | shifted << 22 | imm << 10 | rn << 5 | rd


def subs(rd: int, rn: int, imm: int, shifted: bool = False, wide: bool = True) -> int:
    return (SUBS if wide else SUBS & ~WIDE) | shifted << 22 | imm << 10 | rn << 5 | rd


def branch(condition: int, words: int) -> int:
    return B | (words & 0x7FFFF) << 5 | condition


def call(number: int, *arguments: tuple[int, int]) -> list[int]:
    return [movz(i, value, hw) for i, (value, hw) in enumerate(arguments)] + [movz(8, number), SVC]


EXIT = call(93, (0, 0))


def to(place: str, condition: int = ALWAYS) -> tuple[int, str]:
    """A branch to a named place."""
    return B | condition, place


def unless(register: int, place: str) -> tuple[int, str]:
    """CBZ, a branch to a named place where the register is zero."""
    return 0xB4000000 | register, place


def address(rd: int, place: str) -> tuple[int, str]:
    """ADR of a named place."""
    return ADR | rd, place


def calls(place: str) -> tuple[int, str]:
    """BL of a named place."""
    return BL, place


def laid_out(*parts: Any) -> list[int]:
    """The words of parts in a row: a name is that of the place where it stands, and a pair is a
    word that has the distance to a named place."""
    places, count = {}, 0
    for part in parts:
        if isinstance(part, str):
            places[part] = count
        else:
            count += 1
    words = []
    for part in parts:
        if isinstance(part, tuple):
            word, distance = part[0], places[part[1]] - len(words)
            words.append(word | (distance & 0x3FFFFFF if word == BL else (distance & 0x7FFFF) << 5))
        elif not isinstance(part, str):
            words.append(part)
    return words

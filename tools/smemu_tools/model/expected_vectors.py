"""Vectors and predicates for expected.py: those instructions that the programs of this repository
use.

A vector is a list of its bytes, a predicate a list of truth values, one for each byte of a vector.
"""
from __future__ import annotations

from typing import Any

MASK = (1 << 64) - 1
# of each number 24:21 of a load: log2 of the bytes in memory and of an element, and whether it
# extends the sign
LOADS = [(0, 0, 0), (0, 1, 0), (0, 2, 0), (0, 3, 0), (2, 3, 1), (1, 1, 0), (1, 2, 0), (1, 3, 0),
         (1, 3, 1), (1, 2, 1), (2, 2, 0), (2, 3, 0), (0, 3, 1), (0, 2, 1), (0, 1, 1), (3, 3, 0)]
PATTERNS = {**{n: n for n in range(1, 9)}, 9: 16, 10: 32, 11: 64, 12: 128, 13: 256}


def signed(value: int, bits: int) -> int:
    value &= (1 << bits) - 1
    return value - (1 << bits) if value >> (bits - 1) else value


def named(pattern: int, count: int) -> int:
    """How many of that number of elements a pattern names."""
    if pattern == 0:
        return 1 << count.bit_length() - 1
    if pattern in (29, 30, 31):
        return count - count % {29: 4, 30: 3, 31: 1}[pattern]
    return PATTERNS[pattern] if PATTERNS.get(pattern, count + 1) <= count else 0


class Vectors:
    def __init__(self, length: int) -> None:
        self.length = length
        self.z = [[0] * length for _ in range(32)]
        self.p = [[False] * length for _ in range(16)]
        self.ffr = [False] * length

    def elements(self, number: int, size: int) -> list[int]:
        z = self.z[number]
        return [int.from_bytes(bytes(z[at:at + size]), "little")
                for at in range(0, self.length, size)]

    def put(self, number: int, size: int, values: list[int]) -> None:
        self.z[number] = [byte for value in values
                          for byte in (value % (1 << 8 * size)).to_bytes(size, "little")]

    def active(self, number: int, size: int) -> list[bool]:
        return self.p[number][::size]

    def mask(self, number: int, size: int, truths: list[bool]) -> None:
        self.p[number] = [truth and k == 0 for truth in truths for k in range(size)]

    def lines(self) -> list[str]:
        bits = lambda p: bytes(sum(p[at + k] << k for k in range(8))
                               for at in range(0, self.length, 8))
        return ([f"z {i} {bytes(z).hex()}" for i, z in enumerate(self.z) if any(z)]
                + [f"p {i} {bits(p).hex()}" for i, p in enumerate(self.p) if any(p)]
                + [f"ffr {bits(self.ffr).hex()}"] * any(self.ffr))

    def execute(self, word: int, thread: Any) -> bool:
        """Whether the word is known; it is executed then."""
        size, rd, rn, rm = 1 << (word >> 22 & 3), word & 31, word >> 5 & 31, word >> 16 & 31
        for mask, value, what in (
                (0xFF20E410, 0x25200400, self.compare_and_count),
                (0xFE00E000, 0xA4004000, self.load),
                (0xFE00E000, 0xE4004000, self.store), (0xFF20E000, 0x04200000, self.arithmetic),
                (0xFF20E000, 0x25008000, self.compare), (0xFF3FC200, 0x25208000, self.count_active),
                (0xFF30F800, 0x0430E000, self.increment), (0xFF20FC00, 0x04204000, self.index),
                (0xFF3CE000, 0x04082000, self.reduce), (0xFFFFFFF0, 0x2518E400, self.clear),
                (0xFF3FFC10, 0x2518E000, self.set_pattern), (0xFF3EE000, 0x0520A000, self.last),
                (0xFF3FC000, 0x2538C000, self.copy), (0xFF30F800, 0x0420E000, self.count),
                (0xFFFFFFFF, 0x252C9000, self.set_first_fault),
                (0xFFFFFFF0, 0x2519F000, self.read_first_fault),
                (0xFFFFFE1F, 0x25289000, self.write_first_fault)):
            if word & mask == value:
                return what(word, thread, size, rd, rn, rm) is not False
        return False

    def flags(self, thread: Any, governing: list[bool], truths: list[bool]) -> None:
        places = [e for e, active in enumerate(governing) if active]
        thread.flags = ([int(truths[places[0]]), int(not any(truths[e] for e in places)),
                         int(not truths[places[-1]]), 0] if places else [0, 1, 1, 0])

    def compare_and_count(self, word: int, thread: Any, size: int, rd: int, rn: int,
                          rm: int) -> None:
        width, unsigned = 64 if word >> 12 & 1 else 32, word >> 11 & 1
        number = lambda value: value % (1 << width) if unsigned else signed(value, width)
        first, bound = number(thread.read(rn)), number(thread.read(rm))
        truths = [first + e < bound for e in range(self.length // size)]
        self.mask(rd & 15, size, truths)
        self.flags(thread, [True] * len(truths), truths)

    def places(self, word: int, thread: Any, memory: int, size: int, rn: int,
               rm: int) -> list[tuple[int, int]]:
        base = thread.sp if rn == 31 else thread.x[rn]
        start = base + thread.read(rm) * memory
        return [(e, (start + e * memory) & MASK)
                for e, on in enumerate(self.active(word >> 10 & 7, size)) if on]

    def load(self, word: int, thread: Any, _: int, rd: int, rn: int, rm: int) -> None:
        memory, size, extends = LOADS[word >> 21 & 15]
        memory, size = 1 << memory, 1 << size
        places, values = self.places(word, thread, memory, size, rn,
                                     rm), [0] * (self.length // size)
        thread.check_all([at for _, at in places], memory, "read", rn)
        for e, at in places:
            value = thread.load(at, memory)
            values[e] = signed(value, 8 * memory) if extends else value
        self.put(rd, size, values)

    def store(self, word: int, thread: Any, _: int, rd: int, rn: int, rm: int) -> Any:
        memory, size = 1 << (word >> 23 & 3), 1 << (word >> 21 & 3)
        if memory > size:
            return False
        places, values = self.places(word, thread, memory, size, rn, rm), self.elements(rd, size)
        thread.check_all([at for _, at in places], memory, "write", rn)
        for e, at in places:
            thread.store(at, memory, values[e])

    def arithmetic(self, word: int, thread: Any, size: int, rd: int, rn: int, rm: int) -> Any:
        operation, bits = word >> 10 & 7, 8 * size
        if operation in (2, 3):
            return False
        number = (lambda value: signed(value, bits)) if operation in (4,
                                                                      6) else (lambda value: value)
        least, greatest = (-(1 << bits - 1), (1 << bits - 1) - 1) if operation in (4, 6) else (
            0, (1 << bits) - 1)
        results = []
        for a, b in zip(self.elements(rn, size), self.elements(rm, size)):
            result = number(a) + number(b) if operation in (0, 4, 5) else number(a) - number(b)
            results.append(min(max(result, least), greatest) if operation > 3 else result)
        self.put(rd, size, results)

    def compare(self, word: int, thread: Any, size: int, rd: int, rn: int, rm: int) -> None:
        governing, bound = self.active(word >> 10 & 7, size), signed(rm, 5)
        truths = [on and (signed(value, 8 * size) == bound) != bool(word >> 4 & 1)
                  for on, value in zip(governing, self.elements(rn, size))]
        self.mask(rd & 15, size, truths)
        self.flags(thread, governing, truths)

    def count_active(self, word: Any, thread: Any, size: Any, rd: Any, rn: Any, rm: Any) -> None:
        both = zip(self.active(word >> 10 & 15, size), self.active(rn & 15, size))
        thread.write(rd, sum(a and b for a, b in both), False)

    def increment(self, word: int, thread: Any, size: int, rd: int, rn: int, rm: int) -> None:
        number = named(rn, self.length // size) * ((word >> 16 & 15) + 1)
        thread.write(rd, (thread.read(rd) + (-number if word >> 10 & 1 else number)) & MASK, False)

    def count(self, word: int, thread: Any, size: int, rd: int, rn: int, rm: int) -> None:
        thread.write(rd, named(rn, self.length // size) * ((word >> 16 & 15) + 1), False)

    def copy(self, word: int, thread: Any, size: int, rd: int, rn: int, rm: int) -> Any:
        if size == 1 and word >> 13 & 1:
            return False
        self.put(rd, size,
                 [signed(word >> 5, 8) << (8 if word >> 13 & 1 else 0)] * (self.length // size))

    def set_first_fault(self, word: int, thread: Any, size: int, rd: int, rn: int, rm: int) -> None:
        thread.need(streaming=False)
        self.ffr = [True] * self.length

    def read_first_fault(self, word: Any, thread: Any, size: Any, rd: Any, rn: Any,
                         rm: Any) -> None:
        thread.need(streaming=False)
        self.p[rd & 15] = list(self.ffr)

    def write_first_fault(self, word: Any, thread: Any, size: Any, rd: Any, rn: Any,
                          rm: Any) -> None:
        thread.need(streaming=False)
        self.ffr = list(self.p[rn & 15])

    def index(self, word: int, thread: Any, size: int, rd: int, rn: int, rm: int) -> None:
        self.put(rd, size, [signed(rn, 5) + e * signed(rm, 5) for e in range(self.length // size)])

    def reduce(self, word: int, thread: Any, size: int, rd: int, rn: int, rm: int) -> None:
        bits, unsigned = 8 * size, rm & 1
        number = (lambda value: value) if unsigned else (lambda value: signed(value, bits))
        least, greatest = (0, (1 << bits) - 1) if unsigned else (-(1 << bits - 1),
                                                                 (1 << bits - 1) - 1)
        values = [number(v)
                  for on, v in zip(self.active(word >> 10 & 7, size), self.elements(rn, size))
                  if on]
        result = min([greatest, *values]) if rm & 2 else max([least, *values])
        self.put(rd, size, [result] + [0] * (self.length // size - 1))

    def clear(self, word: int, thread: Any, size: int, rd: int, rn: int, rm: int) -> None:
        self.mask(rd & 15, 1, [False] * self.length)

    def set_pattern(self, word: int, thread: Any, size: int, rd: int, rn: int, rm: int) -> None:
        count = self.length // size
        self.mask(rd & 15, size, [e < named(rn, count) for e in range(count)])

    def last(self, word: int, thread: Any, size: int, rd: int, rn: int, rm: int) -> None:
        values = self.elements(rn, size)
        places = [e for e, on in enumerate(self.active(word >> 10 & 7, size)) if on]
        place = (places[-1] if places else -1) + (0 if word >> 16 & 1 else 1)
        thread.write(rd, values[place % len(values)], False)

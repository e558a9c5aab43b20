"""Streaming mode and ZA for expected.py, as DDI 0487 describes PSTATE.SM, PSTATE.ZA and the
instructions of SME.

ZA is a list of as many vectors as a vector of streaming mode has bytes, each a list of that many
bytes. Its elements of some bytes are the same number of tiles: vector v holds a row of tile v
modulo that number. A predicate is as in expected_vectors.py.
"""
from __future__ import annotations

from typing import Any
from smemu_tools.model.expected_vectors import MASK, Vectors, signed


class Matrix:
    def __init__(self, length: int, streaming_length: int) -> None:
        """The two vector lengths in bytes; PSTATE.SM and PSTATE.ZA are off."""
        self.lengths = length, streaming_length
        self.streaming, self.on = False, False
        self.clear()

    def clear(self) -> None:
        length = self.lengths[1]
        self.za = [[0] * length for _ in range(length)]

    def change(self, thread: Any, streaming: bool, on: bool) -> None:
        """Sets PSTATE.SM and PSTATE.ZA: what changes leaves zeros, what does not change leaves all
        as it was."""
        if streaming != self.streaming:
            thread.vectors = Vectors(self.lengths[streaming])
        if on != self.on:
            self.clear()
        self.streaming, self.on = streaming, on

    def leave_streaming(self, thread: Any) -> None:
        self.change(thread, False, self.on)

    def svcr(self) -> int:
        return int(self.streaming) + 2 * int(self.on)

    def lines(self) -> list[str]:
        return [f"za {v} {bytes(vector).hex()}" for v, vector in enumerate(self.za)
                if self.on and any(vector)]

    def slice(self, size: int, tile: int, vertical: int, number: int) -> list[tuple[int, int]]:
        """The places of a slice's elements in their order: the vector and the first byte of
        each."""
        count = self.lengths[1] // size
        if vertical:
            return [(row * size + tile, number * size) for row in range(count)]
        return [(number * size + tile, column * size) for column in range(count)]

    def element(self, size: int, place: tuple[int, int]) -> int:
        vector, at = place
        return int.from_bytes(bytes(self.za[vector][at:at + size]), "little")

    def put(self, size: int, place: tuple[int, int], value: int) -> None:
        vector, at = place
        self.za[vector][at:at + size] = (value % (1 << 8 * size)).to_bytes(size, "little")

    def named_slice(self, word: int, thread: Any, size: int, field: int) -> list[tuple[int, int]]:
        """The slice of a tile that an instruction names: the four bits of the field are the tile
        above the offset."""
        offset_bits = 5 - size.bit_length()
        tile, offset = field >> offset_bits, field & (1 << offset_bits) - 1
        number = (self.selected(word, thread) + offset) % (self.lengths[1] // size)
        return self.slice(size, tile, word >> 15 & 1, number)

    def selected(self, word: int, thread: Any) -> int:
        """W12 to W15, which bits 14:13 choose."""
        return thread.x[12 + (word >> 13 & 3)] % (1 << 32)

    def execute(self, word: int, thread: Any) -> bool:
        """Whether the word is known; it is executed then."""
        for mask, value, what in (
                (0xFFFFF8FF, 0xD503407F, self.start_or_stop),
                (0xFFDFFFE0, 0xD51B4240, self.move_svcr),
                (0xFFFFFF00, 0xC0080000, self.zero), (0xFFDF9C10, 0xE1000000, self.vector_access),
                (0xFE000010, 0xE0000000, self.slice_access),
                (0xFF3E0010, 0xC0000000, self.to_slice),
                (0xFF3E0200, 0xC0020000, self.from_slice),
                (0xFFBE0010, 0xC0900000, self.add_to_all),
                (0xFE800000, 0xA0800000, self.outer_product),
                (0xFFFFF800, 0x04BF5800, self.read_length),
                (0xFFE0F800, 0x04205800, self.add_length),
                (0xFFE0F800, 0x04605800, self.add_length)):
            if word & mask == value:
                return what(word, thread) is not False
        return False

    def start_or_stop(self, word: int, thread: Any) -> Any:
        on, which = bool(word >> 8 & 1), word >> 9 & 3
        if not which:
            return False
        self.change(thread, on if which & 1 else self.streaming, on if which & 2 else self.on)

    def move_svcr(self, word: int, thread: Any) -> None:
        if word >> 21 & 1:
            thread.write(word & 31, self.svcr(), False)
        else:
            value = thread.read(word & 31)
            self.change(thread, bool(value & 1), bool(value & 2))

    def zero(self, word: int, thread: Any) -> None:
        """Each bit names a tile of 8-byte elements."""
        thread.need(za=True)
        for v in range(len(self.za)):
            if word >> v % 8 & 1:
                self.za[v] = [0] * len(self.za)

    def vector_access(self, word: int, thread: Any) -> None:
        """LDR and STR of a vector of ZA: the offset counts vectors in ZA and in memory."""
        thread.need(za=True)
        length, rn, offset = self.lengths[1], word >> 5 & 31, word & 15
        number = (self.selected(word, thread) + offset) % length
        address = ((thread.sp if rn == 31 else thread.x[rn]) + offset * length) & MASK
        loads = not word >> 21 & 1
        thread.check_all([(address + k) & MASK for k in range(length)], 1,
                         "read" if loads else "write", rn)
        for k in range(length):
            if loads:
                self.za[number][k] = thread.load((address + k) & MASK, 1)
            else:
                thread.store((address + k) & MASK, 1, self.za[number][k])

    def slice_access(self, word: int, thread: Any) -> Any:
        """LD1 and ST1 of a slice of a tile, under a predicate: inactive elements are not accessed,
        and are loaded as zero."""
        size = self.size(word, word >> 24 & 1)
        if size is None:
            return False
        thread.need(streaming=True, za=True)
        rn, loads = word >> 5 & 31, not word >> 21 & 1
        start = (thread.sp if rn == 31 else thread.x[rn]) + thread.read(word >> 16 & 31) * size
        places = self.named_slice(word, thread, size, word & 15)
        elements = list(zip(places, thread.vectors.active(word >> 10 & 7, size)))
        address = lambda e: (start + e * size) & MASK
        active = [address(e) for e, (_, on) in enumerate(elements) if on]
        thread.check_all(active, size, "read" if loads else "write", rn)
        for e, (place, on) in enumerate(elements):
            if loads:
                self.put(size, place, thread.load(address(e), size) if on else 0)
            elif on:
                thread.store(address(e), size, self.element(size, place))

    def size(self, word: int, is_16: int) -> int | None:
        """The bytes of an element: the bit makes 16 of the size 3, and there are no others with
        it."""
        size = 1 << (word >> 22 & 3)
        if is_16:
            return 16 if size == 8 else None
        return size

    def to_slice(self, word: int, thread: Any) -> Any:
        size = self.size(word, word >> 16 & 1)
        if size is None:
            return False
        thread.need(streaming=True, za=True)
        places = self.named_slice(word, thread, size, word & 15)
        values = thread.vectors.elements(word >> 5 & 31, size)
        for place, on, value in zip(places, thread.vectors.active(word >> 10 & 7, size), values):
            if on:
                self.put(size, place, value)

    def from_slice(self, word: Any, thread: Any) -> Any:
        size = self.size(word, word >> 16 & 1)
        if size is None:
            return False
        thread.need(streaming=True, za=True)
        places = self.named_slice(word, thread, size, word >> 5 & 15)
        values = thread.vectors.elements(word & 31, size)
        for e, on in enumerate(thread.vectors.active(word >> 10 & 7, size)):
            if on:
                values[e] = self.element(size, places[e])
        thread.vectors.put(word & 31, size, values)

    def tile(self, word: int, size: int) -> int | None:
        """The number of the tile of sums in the low bits; None where there is none of that
        number."""
        return word & 15 if word & 15 < size else None

    def add_to_all(self, word: int, thread: Any) -> Any:
        """ADDHA adds to each row the vector, ADDVA to each column, where both predicates hold: of
        the row and of the column."""
        size = 8 if word >> 22 & 1 else 4
        tile = self.tile(word, size)
        if tile is None:
            return False
        thread.need(streaming=True, za=True)
        rows = thread.vectors.active(word >> 10 & 7, size)
        columns = thread.vectors.active(word >> 13 & 7, size)
        values = thread.vectors.elements(word >> 5 & 31, size)
        for r in range(len(rows)):
            for c, place in enumerate(self.slice(size, tile, False, r)):
                if rows[r] and columns[c]:
                    self.put(size, place,
                             self.element(size, place) + values[r if word >> 16 & 1 else c])

    def outer_product(self, word: int, thread: Any) -> Any:
        """Each element of the tile changes by a sum of four products of source elements, of those
        where both predicates hold."""
        size = 8 if word >> 22 & 1 else 4
        tile = self.tile(word, size)
        if tile is None:
            return False
        thread.need(streaming=True, za=True)
        first = self.sources(thread, size // 4, word >> 5 & 31, word >> 10 & 7, word >> 24 & 1)
        second = self.sources(thread, size // 4, word >> 16 & 31, word >> 13 & 7, word >> 21 & 1)
        for r in range(self.lengths[1] // size):
            for c, place in enumerate(self.slice(size, tile, False, r)):
                products = sum(first[4 * r + k] * second[4 * c + k] for k in range(4))
                self.put(size, place,
                         self.element(size, place) + (-products if word >> 4 & 1 else products))

    def sources(self, thread: Any, size: int, vector: int, predicate: int,
                unsigned: int) -> list[int]:
        """The source elements as whole numbers; zero, which adds nothing, for inactive ones."""
        values = zip(thread.vectors.elements(vector, size), thread.vectors.active(predicate, size))
        return [0 if not on else value if unsigned else signed(value, 8 * size)
                for value, on in values]

    def read_length(self, word: int, thread: Any) -> None:
        thread.write(word & 31, signed(word >> 5, 6) * self.lengths[1] & MASK, False)

    def add_length(self, word: int, thread: Any) -> None:
        """ADDSVL counts in bytes of a vector, ADDSPL in those of a predicate."""
        rn, unit = word >> 16 & 31, self.lengths[1] // (8 if word >> 22 & 1 else 1)
        base = thread.sp if rn == 31 else thread.x[rn]
        thread.write(word & 31, base + signed(word >> 5, 6) * unit & MASK, True)

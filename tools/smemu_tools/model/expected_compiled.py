"""What compilers make besides, for expected.py: forms of scalar instructions, and of vectors and
predicates, as DDI 0487 describes them.

`execute` gives the address of the next instruction, and None where the word is none of these.
"""
from __future__ import annotations

from typing import Any
from smemu_tools.model.expected_vectors import LOADS, MASK, signed


def ones(count: int) -> int:
    return (1 << count) - 1


def turned(value: int, amount: int, width: int) -> int:
    """The value of that width, turned right."""
    return (value >> amount | value << width - amount) & ones(width)


def shifted(value: int, kind: int, amount: int, width: int) -> int:
    """LSL, LSR, ASR and ROR, by their numbers."""
    value &= ones(width)
    if kind == 0:
        return value << amount & ones(width)
    if kind == 1:
        return value >> amount
    if kind == 2:
        return signed(value, width) >> amount & ones(width)
    return turned(value, amount, width)


def extended(value: int, option: int, amount: int) -> int:
    """UXTB to UXTX and SXTB to SXTX, by their numbers, and shifted left."""
    width = 8 << (option & 3)
    value = signed(value, width) if option & 4 else value & ones(width)
    return value << amount


def mask_of(word: int, width: int) -> int | None:
    """The bit mask of a logical immediate; None where there is none."""
    n, immr, imms = word >> 22 & 1, word >> 16 & 63, word >> 10 & 63
    length = (n << 6 | imms ^ 63).bit_length() - 1
    size = 1 << length if length > 0 else 0
    if not size or size > width or imms & size - 1 == size - 1:
        return None
    element = turned(ones((imms & size - 1) + 1), immr & size - 1, size)
    return sum(element << at for at in range(0, width, size))


def logic(word: int, thread: Any, a: int, b: int, width: int) -> int:
    """AND, ORR, EOR and ANDS, by their numbers, of two values."""
    kind = word >> 29 & 3
    result = (a & b, a | b, a ^ b, a & b)[kind] & ones(width)
    if kind == 3:
        thread.flags = [result >> width - 1, int(result == 0), 0, 0]
    return result


def logical_immediate(word: int, thread: Any, width: int) -> int | None:
    mask = mask_of(word, width)
    if mask is None:
        return None
    result = logic(word, thread, thread.read(word >> 5 & 31), mask, width)
    thread.write(word & 31, result, word >> 29 & 3 != 3)
    return thread.pc + 4


def logical_register(word: int, thread: Any, width: int) -> int | None:
    amount = word >> 10 & 63
    if amount >= width:
        return None
    second = shifted(thread.read(word >> 16 & 31), word >> 22 & 3, amount, width)
    if word >> 21 & 1:
        second ^= ones(width)
    thread.write(word & 31, logic(word, thread, thread.read(word >> 5 & 31), second, width), False)
    return thread.pc + 4


def add_shifted(word: int, thread: Any, width: int) -> int | None:
    amount, kind = word >> 10 & 63, word >> 22 & 3
    if amount >= width or kind == 3:
        return None
    second = shifted(thread.read(word >> 16 & 31), kind, amount, width)
    thread.add(word, word >> 31, word & 31, thread.read(word >> 5 & 31), second, False)
    return thread.pc + 4


def add_extended(word: int, thread: Any, width: int) -> int | None:
    amount, rn = word >> 10 & 7, word >> 5 & 31
    if amount > 4:
        return None
    second = extended(thread.read(word >> 16 & 31), word >> 13 & 7, amount)
    thread.add(word, word >> 31, word & 31, thread.sp if rn == 31 else thread.x[rn], second, True)
    return thread.pc + 4


def bit_field(word: int, thread: Any, width: int) -> int | None:
    """SBFM, BFM and UBFM, by their numbers."""
    kind, immr, imms = word >> 29 & 3, word >> 16 & 63, word >> 10 & 63
    if kind == 3 or word >> 22 & 1 != word >> 31 or max(immr, imms) >= width:
        return None
    count, at = (imms - immr + 1, 0) if imms >= immr else (imms + 1, width - immr)
    field = thread.read(word >> 5 & 31) >> (immr if imms >= immr else 0) & ones(count)
    if kind == 1:
        result = thread.read(word & 31) & ~(ones(count) << at) | field << at
    else:
        result = (signed(field, count) if kind == 0 else field) << at
    thread.write(word & 31, result & ones(width), False)
    return thread.pc + 4


def select(word: int, thread: Any, width: int) -> int:
    """CSEL, CSINC, CSINV and CSNEG."""
    value = thread.read(word >> 5 & 31)
    if not thread.holds(word >> 12 & 15):
        value = thread.read(word >> 16 & 31)
        value = ~value if word >> 30 & 1 else value
        value += word >> 10 & 1
    thread.write(word & 31, value & ones(width), False)
    return thread.pc + 4


def compare(word: int, thread: Any, width: int) -> int:
    """CCMN and CCMP, with a register or a number."""
    flags = [word >> k & 1 for k in (3, 2, 1, 0)]
    if thread.holds(word >> 12 & 15):
        second = word >> 16 & 31 if word >> 11 & 1 else thread.read(word >> 16 & 31)
        thread.add(word, word >> 31, 31, thread.read(word >> 5 & 31), second, False)
    else:
        thread.flags = flags
    return thread.pc + 4


def products(word: int, thread: Any, width: int) -> int | None:
    """MADD, MSUB, those of W registers to X, SMULH and UMULH."""
    kind, a, b = word >> 21 & 7, thread.read(word >> 5 & 31), thread.read(word >> 16 & 31)
    if kind and not word >> 31 or kind in (3, 4, 7):
        return None
    if kind in (2, 6):
        number = (lambda value: value) if kind == 6 else (lambda value: signed(value, 64))
        result = number(a) * number(b) >> 64
    else:
        number = {0: lambda value: value, 1: lambda value: signed(value, 32),
                  5: lambda value: value & ones(32)}[kind]
        product = number(a) * number(b)
        result = thread.read(word >> 10 & 31) + (-product if word >> 15 & 1 else product)
    thread.write(word & 31, result & ones(width), False)
    return thread.pc + 4


def test_and_branch(word: int, thread: Any, width: int) -> int:
    """TBZ and TBNZ."""
    bit = thread.read(word & 31) >> (word >> 31 << 5 | word >> 19 & 31) & 1
    return thread.pc + 4 * signed(word >> 5, 14) if bit == word >> 24 & 1 else thread.pc + 4


def indexed_access(word: int, thread: Any, width: int) -> int | None:
    """A load or a store whose index is extended."""
    size, rn, option = 1 << (word >> 30), word >> 5 & 31, word >> 13 & 7
    if option not in (2, 6, 7):
        return None
    index = extended(thread.read(word >> 16 & 31), option, (word >> 30) if word >> 12 & 1 else 0)
    base = thread.sp if rn == 31 else thread.x[rn]
    return thread.transfer(word, size, base + index & MASK, word & 31, rn, thread.pc + 4)


def length_in_register(word: int, thread: Any, width: int) -> int:
    """RDVL."""
    thread.write(word & 31, signed(word >> 5, 6) * thread.vectors.length & MASK, False)
    return thread.pc + 4


def length_added(word: int, thread: Any, width: int) -> int:
    """ADDVL counts in bytes of a vector, ADDPL in those of a predicate."""
    rn, unit = word >> 16 & 31, thread.vectors.length // (8 if word >> 22 & 1 else 1)
    base = thread.sp if rn == 31 else thread.x[rn]
    thread.write(word & 31, base + signed(word >> 5, 6) * unit & MASK, True)
    return thread.pc + 4


def sum_of_vector(word: int, thread: Any, width: int) -> int | None:
    """SADDV and UADDV."""
    size, unsigned = 1 << (word >> 22 & 3), word >> 16 & 1
    if size == 8 and not unsigned:
        return None
    number = (lambda value: value) if unsigned else (lambda value: signed(value, 8 * size))
    values = zip(thread.vectors.active(word >> 10 & 7, size),
                 thread.vectors.elements(word >> 5 & 31, size))
    total = sum(number(value) for on, value in values if on)
    thread.vectors.put(word & 31, 8, [total] + [0] * (thread.vectors.length // 8 - 1))
    return thread.pc + 4


def long_products(word: int, thread: Any, width: int) -> int | None:
    """SMULLB, SMULLT, UMULLB and UMULLT, and SMLALB and so on, which add."""
    size, adds = 1 << (word >> 22 & 3), not word >> 24 & 1
    if size == 1:
        return None
    number = (lambda value: value) if word >> 11 & 1 else (lambda value: signed(value, 4 * size))
    first, second = (thread.vectors.elements(word >> at & 31, size // 2)[word >> 10 & 1::2]
                     for at in (5, 16))
    before = thread.vectors.elements(word & 31, size) if adds else [0] * len(first)
    thread.vectors.put(word & 31, size,
                       [old + number(a) * number(b) for old, a, b in zip(before, first, second)])
    return thread.pc + 4


def copied_register(word: int, thread: Any, width: int) -> int:
    """DUP of a general register, or SP."""
    size, rn = 1 << (word >> 22 & 3), word >> 5 & 31
    value = thread.sp if rn == 31 else thread.x[rn]
    thread.vectors.put(word & 31, size, [value & ones(8 * size)] * (thread.vectors.length // size))
    return thread.pc + 4


def spilled(word: int, thread: Any, width: int) -> int | None:
    """LDR and STR of a vector or a predicate."""
    vectors, rn, loads = thread.vectors, word >> 5 & 31, word >> 29 == 4
    is_vector = word >> 14 & 1
    if not is_vector and word & 16:
        return None
    count = vectors.length if is_vector else vectors.length // 8
    offset = signed((word >> 16 & 63) << 3 | word >> 10 & 7, 9) * count
    start = (thread.sp if rn == 31 else thread.x[rn]) + offset
    thread.check_all([start & MASK], count, "read" if loads else "write", rn)
    if loads:
        value = thread.load(start & MASK, count)
        if is_vector:
            vectors.z[word & 31] = list(value.to_bytes(count, "little"))
        else:
            vectors.p[word & 15] = [bool(value >> k & 1) for k in range(vectors.length)]
    else:
        value = (int.from_bytes(bytes(vectors.z[word & 31]), "little") if is_vector
                 else sum(on << k for k, on in enumerate(vectors.p[word & 15])))
        thread.store(start & MASK, count, value)
    return thread.pc + 4


def vector_at_number(word: int, thread: Any, width: int) -> int | None:
    """Contiguous loads and stores at a multiple of what they transfer."""
    vectors, rn, loads = thread.vectors, word >> 5 & 31, word >> 29 == 5
    if loads:
        memory, size, extends = LOADS[word >> 21 & 15]
    else:
        memory, size, extends = word >> 23 & 3, word >> 21 & 3, 0
    if memory > size:
        return None
    memory, size = 1 << memory, 1 << size
    count = vectors.length // size
    start = (thread.sp if rn == 31 else thread.x[rn]) + signed(word >> 16, 4) * count * memory
    places = [(e, start + e * memory & MASK)
              for e, on in enumerate(vectors.active(word >> 10 & 7, size)) if on]
    thread.check_all([at for _, at in places], memory, "read" if loads else "write", rn)
    if loads:
        values = [0] * count
        for e, at in places:
            value = thread.load(at, memory)
            values[e] = signed(value, 8 * memory) if extends else value
        vectors.put(word & 31, size, values)
    else:
        values = vectors.elements(word & 31, size)
        for e, at in places:
            thread.store(at, memory, values[e])
    return thread.pc + 4


ROWS = (
    (0x1F800000, 0x12000000, logical_immediate), (0x1F000000, 0x0A000000, logical_register),
    (0x1F200000, 0x0B000000, add_shifted),
    (0x1FE00000, 0x0B200000, add_extended), (0x1F800000, 0x13000000, bit_field),
    (0x3FE00800, 0x1A800000, select),
    (0x3FE00410, 0x3A400000, compare), (0x7F000000, 0x1B000000, products),
    (0x7E000000, 0x36000000, test_and_branch),
    (0x3F200C00, 0x38200800, indexed_access), (0xFFFFF800, 0x04BF5000, length_in_register),
    (0xFFE0F800, 0x04205000, length_added),
    (0xFFE0F800, 0x04605000, length_added), (0xFF3EE000, 0x04002000, sum_of_vector),
    (0xFF20F000, 0x45007000, long_products),
    (0xFF20F000, 0x44004000, long_products), (0xFF3FFC00, 0x05203800, copied_register),
    (0xFFC0A000, 0x85800000, spilled),
    (0xFFC0A000, 0xE5800000, spilled), (0xFE10E000, 0xA400A000, vector_at_number),
    (0xFE10E000, 0xE400E000, vector_at_number))


def execute(word: int, thread: Any) -> int | None:
    for mask, value, what in ROWS:
        if word & mask == value:
            return what(word, thread, 64 if word >> 31 else 32)
    return None

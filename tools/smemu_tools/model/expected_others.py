"""Instructions that no program of this repository uses, for expected_answers.py: the other scalar
ones, and those of SVE and SVE2, as DDI 0487 describes them.

`execute` gives the address of the next instruction, and None where the word is none of these. With
those of expected.py and of the modules beside it these are all instructions that the emulator has;
`has_no_row` tells which words the interpreters would take and the tables have not.
"""
from __future__ import annotations

from typing import Any
from smemu_tools.model.expected_compiled import mask_of, ones, shifted
from smemu_tools.model.expected_vectors import signed


def bits(word: int, high: int, low: int) -> int:
    return word >> low & ones(high - low + 1)


def leading(value: int, width: int) -> int:
    """How many bits from the top on are zero."""
    return width - value.bit_length()


def leading_signs(value: Any, width: Any) -> Any:
    """How many bits below the top one equal it without a break."""
    return leading(value ^ (ones(width) if value >> width - 1 else 0), width) - 1


def quotient(a: int, b: int) -> int:
    """Rounded towards zero; 0 where the divisor is."""
    return 0 if b == 0 else abs(a) // abs(b) * (1 if (a < 0) == (b < 0) else -1)


def parts(value: int, size: int, width: int) -> int:
    """The bytes of each part of so many bits in reverse."""
    return sum(int.from_bytes((value >> at & ones(size)).to_bytes(size // 8, "little"), "big") << at
               for at in range(0, width, size))


# ---- scalar instructions


def extract(word: int, thread: Any, width: int) -> Any:
    """EXTR."""
    amount = bits(word, 15, 10)
    if bits(word, 22, 22) != word >> 31 or amount >= width:
        return False
    low, high = thread.read(bits(word, 20, 16)) & ones(width), thread.read(bits(word, 9,
                                                                                5)) & ones(width)
    thread.write(bits(word, 4, 0), (high << width | low) >> amount & ones(width), False)


def with_carry(word: int, thread: Any, width: int) -> None:
    """ADC, ADCS, SBC and SBCS."""
    a, b, carry = (thread.read(bits(word, 9, 5)) & ones(width),
                   thread.read(bits(word, 20, 16)) & ones(width), int(thread.flags[2]))
    b ^= ones(width) if word >> 30 & 1 else 0
    result = a + b + carry & ones(width)
    if word >> 29 & 1:
        whole = signed(a, width) + signed(b, width) + carry
        thread.flags = [result >> width - 1, int(result == 0), int(a + b + carry > ones(width)),
                        int(whole != signed(result, width))]
    thread.write(bits(word, 4, 0), result, False)


def one_source(word: int, thread: Any, width: int) -> Any:
    """RBIT, REV16, REV32 (and REV of W registers), REV, CLZ and CLS, by their numbers."""
    value, kind = thread.read(bits(word, 9, 5)) & ones(width), bits(word, 15, 10)
    if kind > 5 or kind == 3 and width == 32:
        return False
    result = (lambda: int(f"{value:0{width}b}"[::-1], 2), lambda: parts(value, 16, width),
              lambda: parts(value, 32, width), lambda: parts(value, 64, width),
              lambda: leading(value, width), lambda: leading_signs(value, width))[kind]()
    thread.write(bits(word, 4, 0), result, False)


def two_sources(word: int, thread: Any, width: int) -> Any:
    """UDIV, SDIV, and the shifts by a register."""
    a, b, kind = (thread.read(bits(word, 9, 5)) & ones(width),
                  thread.read(bits(word, 20, 16)) & ones(width), bits(word, 15, 10))
    if kind == 2:
        result = quotient(a, b)
    elif kind == 3:
        result = quotient(signed(a, width), signed(b, width)) & ones(width)
    elif 8 <= kind < 12:
        result = shifted(a, kind - 8, b % width, width)
    else:
        return False
    thread.write(bits(word, 4, 0), result, False)


def barrier(word: int, thread: Any, width: int) -> bool:
    """DSB, DMB and ISB."""
    return bits(word, 7, 5) in (4, 5, 6)


def move_flags(word: int, thread: Any, width: int) -> None:
    """MRS and MSR of NZCV."""
    if word >> 21 & 1:
        thread.write(bits(word, 4, 0),
                     sum(int(flag) << 31 - k for k, flag in enumerate(thread.flags)), False)
    else:
        value = thread.read(bits(word, 4, 0))
        thread.flags = [value >> at & 1 for at in (31, 30, 29, 28)]


# ---- vectors


class Operands:
    """The fields of an instruction on vectors, and elements of their registers."""

    def __init__(self, word: int, thread: Any, size: int | None = None) -> None:
        self.word, self.vectors = word, thread.vectors
        self.size = size or 1 << bits(word, 23, 22)
        self.width, self.count = 8 * self.size, self.vectors.length // self.size
        self.rd, self.rn, self.rm, self.governing = (bits(word, 4, 0), bits(word, 9, 5),
                                                     bits(word, 20, 16), bits(word, 12, 10))

    def elements(self, number: int, is_signed: int = False, size: int | None = None) -> list[int]:
        size = size or self.size
        return [signed(value, 8 * size) if is_signed else value
                for value in self.vectors.elements(number, size)]

    def active(self, number: int | None = None, size: Any = None) -> list[bool]:
        return self.vectors.active(self.governing if number is None else number, size or self.size)

    def put(self, values: list[int]) -> None:
        self.vectors.put(self.rd, self.size, values)

    def merge(self, values: list[int], number: Any = None) -> None:
        """The values where the elements are active; others stay."""
        self.put([value if on else old
                  for on, value, old in zip(self.active(number), values, self.elements(self.rd))])


def logical(word: Any, thread: Any, width: Any) -> None:
    it = Operands(word, thread, 8)
    act = (lambda a, b: a & b, lambda a, b: a | b, lambda a, b: a ^ b, lambda a, b: a
           & ~b)[bits(word, 23, 22)]
    it.put([act(a, b) for a, b in zip(it.elements(it.rn), it.elements(it.rm))])


# of each number 20:16 whether the elements have signs, and the result
PREDICATED: dict[int, Any] = {0: (0, lambda a, b: a + b), 1: (0, lambda a, b: a - b),
                              3: (0, lambda a, b: b - a), 8: (1, max), 9: (0, max), 10: (1, min),
                              11: (0, min), 12: (1, lambda a, b: abs(a - b)),
                              13: (0, lambda a, b: abs(a - b)), 16: (0, lambda a, b: a * b),
                              20: (1, quotient), 21: (0, quotient), 24: (0, lambda a, b: a | b),
                              25: (0, lambda a, b: a ^ b), 26: (0, lambda a, b: a & b),
                              27: (0, lambda a, b: a & ~b)}


def predicated(word: int, thread: Any, width: int) -> Any:
    it = Operands(word, thread)
    high = lambda a, b: a * b >> it.width
    known = {**PREDICATED, 18: (1, high), 19: (0, high)}
    if it.rm not in known or it.rm in (20, 21) and it.size < 4:
        return False
    is_signed, act = known[it.rm]
    it.merge([act(a, b)
              for a, b in zip(it.elements(it.rd, is_signed), it.elements(it.rn, is_signed))])


def predicated_shift(word: int, thread: Any, width: int) -> Any:
    """ASR, LSR and LSL by the elements of a vector."""
    it = Operands(word, thread)
    if it.rm not in (16, 17, 19):
        return False
    act = {16: lambda a, n: a >> n, 17: lambda a, n: a >> n, 19: lambda a, n: a << n}[it.rm]
    it.merge([act(a, min(n, it.width))
              for a, n in zip(it.elements(it.rd, it.rm == 16), it.elements(it.rn))])


def multiply_add(word: int, thread: Any, width: int) -> None:
    it = Operands(word, thread)
    products = [a * b for a, b in zip(it.elements(it.rn), it.elements(it.rm))]
    it.merge([old - product if word >> 13 & 1 else old + product
              for old, product in zip(it.elements(it.rd), products)])


def unary(word: int, thread: Any, width: int) -> Any:
    it = Operands(word, thread)
    extend = lambda size, is_signed: lambda a: signed(a, size) if is_signed else a & ones(size)
    # the least size of an element, and the result
    known = {22: (1, lambda a: abs(signed(a, it.width))), 23: (1, lambda a: -a),
             24: (1, lambda a: leading_signs(a, it.width)), 25: (1, lambda a: leading(a, it.width)),
             26: (1, lambda a: bin(a).count("1")), 27: (1, lambda a: int(a == 0)),
             30: (1, lambda a: ~a), 16: (2, extend(8, True)), 17: (2, extend(8, False)),
             18: (4, extend(16, True)), 19: (4, extend(16, False)), 20: (8, extend(32, True)),
             21: (8, extend(32, False))}
    if it.rm not in known or it.size < known[it.rm][0]:
        return False
    it.merge([known[it.rm][1](a) for a in it.elements(it.rn)])


def shift(word: int, thread: Any, width: int) -> Any:
    """ASR, LSR and LSL by a number, which says the size too."""
    amount, kind = bits(word, 23, 22) << 5 | bits(word, 20, 16), bits(word, 11, 10)
    if amount < 8 or kind == 2:
        return False
    it = Operands(word, thread, 1 << (amount >> 3).bit_length() - 1)
    by = amount - it.width if kind == 3 else 2 * it.width - amount
    it.put([a << by if kind == 3 else a >> by for a in it.elements(it.rn, kind == 0)])


def copy_of_register(word: Any, thread: Any, width: Any) -> None:
    """CPY of a general register, or SP."""
    it = Operands(word, thread)
    it.merge([thread.sp if it.rn == 31 else thread.x[it.rn]] * it.count)


def immediate(word: Any, is_signed: Any) -> Any:
    """Eight bits, shifted by eight where bit 13 is set; there is no such byte."""
    value = signed(word >> 5, 8) if is_signed else bits(word, 12, 5)
    return None if bits(word, 23, 22) == 0 and word >> 13 & 1 else value << 8 * bits(word, 13, 13)


def copy_of_number(word: Any, thread: Any, width: Any) -> Any:
    it, value = Operands(word, thread), immediate(word, True)
    if value is None:
        return False
    merging, mask = word >> 14 & 1, bits(word, 19, 16)
    it.put([value if on else old * merging for on, old in zip(it.active(mask), it.elements(it.rd))])


def index(word: int, thread: Any, width: int) -> None:
    """INDEX with a start or a step in a general register."""
    it = Operands(word, thread)
    start = thread.read(it.rn) if word >> 10 & 1 else signed(it.rn, 5)
    step = thread.read(it.rm) if word >> 11 & 1 else signed(it.rm, 5)
    it.put([start + e * step for e in range(it.count)])


def add_number(word: Any, thread: Any, width: Any) -> Any:
    """ADD, SUB and SUBR."""
    it, value, kind = Operands(word, thread), immediate(word, False), bits(word, 17, 16)
    if value is None or kind == 2:
        return False
    act = {0: lambda a: a + value, 1: lambda a: a - value, 3: lambda a: value - a}[kind]
    it.put([act(a) for a in it.elements(it.rd)])


def multiply_number(word: Any, thread: Any, width: Any) -> None:
    it, value = Operands(word, thread), signed(word >> 5, 8)
    it.put([a * value for a in it.elements(it.rd)])


def select(word: int, thread: Any, width: int) -> None:
    it = Operands(word, thread)
    it.put([a if on else b
            for on, a, b
            in zip(it.active(bits(word, 13, 10)), it.elements(it.rn), it.elements(it.rm))])


def prefix(word: Any, thread: Any, width: Any) -> None:
    """MOVPRFX."""
    it = Operands(word, thread, 1)
    it.put(it.elements(it.rn))


# ---- permutes and reductions


def interleave(word: int, thread: Any, width: int) -> Any:
    """ZIP1, ZIP2, UZP1, UZP2, TRN1 and TRN2, by their numbers."""
    it, kind = Operands(word, thread), bits(word, 12, 10)
    if kind > 5:
        return False
    first, second, half = it.elements(it.rn), it.elements(it.rm), it.count // 2
    if kind < 2:
        pairs = list(zip(first, second))[kind * half:(kind + 1) * half]
    elif kind < 4:
        it.put((first + second)[kind - 2::2])
        return True
    else:
        pairs = list(zip(first[kind - 4::2], second[kind - 4::2]))
    it.put([value for pair in pairs for value in pair])


def reverse(word: Any, thread: Any, width: Any) -> None:
    it = Operands(word, thread)
    it.put(it.elements(it.rn)[::-1])


def table(word: int, thread: Any, width: int) -> None:
    it = Operands(word, thread)
    values = it.elements(it.rn)
    it.put([values[place] if place < it.count else 0 for place in it.elements(it.rm)])


def extract_bytes(word: int, thread: Any, width: int) -> None:
    it = Operands(word, thread, 1)
    start = it.rm << 3 | bits(word, 12, 10)
    start = start if start < it.count else 0
    it.put((it.elements(it.rd) + it.elements(it.rn))[start:start + it.count])


def unpack(word: Any, thread: Any, width: Any) -> Any:
    """SUNPKLO, SUNPKHI, UUNPKLO and UUNPKHI."""
    it = Operands(word, thread)
    if it.size == 1:
        return False
    values = it.elements(it.rn, not word >> 17 & 1, it.size // 2)
    it.put(values[it.count:] if word >> 16 & 1 else values[:it.count])


def reduce(word: int, thread: Any, width: int) -> Any:
    """ORV, EORV and ANDV."""
    it, kind = Operands(word, thread), bits(word, 17, 16)
    if kind == 3:
        return False
    result = ones(it.width) if kind == 2 else 0
    for on, value in zip(it.active(), it.elements(it.rn)):
        if on:
            result = (result | value, result ^ value, result & value)[kind]
    it.put([result] + [0] * (it.count - 1))


# ---- predicates


def put_compared(it: Operands, thread: Any, truths: list[bool]) -> None:
    """The result of a comparison of active elements, and its flags."""
    governing = it.active()
    truths = [on and truth for on, truth in zip(governing, truths)]
    it.vectors.mask(bits(it.word, 3, 0), it.size, truths)
    it.vectors.flags(thread, governing, truths)


def compare(word: int, thread: Any, width: int) -> Any:
    """CMPHS, CMPHI, CMPGE, CMPGT, CMPEQ and CMPNE of two vectors."""
    it = Operands(word, thread)
    known = {(0, 0): (0, lambda a, b: a >= b), (0, 1): (0, lambda a, b: a > b),
             (4, 0): (1, lambda a, b: a >= b), (4, 1): (1, lambda a, b: a > b),
             (5, 0): (0, lambda a, b: a == b),
             (5, 1): (0, lambda a, b: a != b)}.get((bits(word, 15, 13), bits(word, 4, 4)))
    if known is None:
        return False
    is_signed, holds = known
    put_compared(it, thread,
                 [holds(a, b)
                  for a, b in zip(it.elements(it.rn, is_signed), it.elements(it.rm, is_signed))])


def compare_number(word: int, thread: Any, width: int) -> Any:
    """CMPGE, CMPGT, CMPLT and CMPLE with a number."""
    it, bound = Operands(word, thread), signed(bits(word, 20, 16), 5)
    known = {(0, 0): lambda a: a >= bound, (0, 1): lambda a: a > bound, (1, 0): lambda a: a < bound,
             (1, 1): lambda a: a <= bound}
    holds = known.get((bits(word, 15, 13), bits(word, 4, 4)))
    if holds is None:
        return False
    put_compared(it, thread, [holds(a) for a in it.elements(it.rn, True)])


def test(word: Any, thread: Any, width: Any) -> None:
    """PTEST."""
    vectors = thread.vectors
    vectors.flags(thread, vectors.p[bits(word, 13, 10)], vectors.p[bits(word, 8, 5)])


def logical_predicates(word: int, thread: Any, width: int) -> Any:
    """AND, BIC, EOR, SEL, ORR, ORN, NOR and NAND, and those that set the flags."""
    vectors, kind, sets = (thread.vectors, word >> 21 & 4 | word >> 8 & 2 | word >> 4 & 1,
                           word >> 22 & 1)
    if kind == 3 and sets:
        return False
    act = (lambda a, b: a and b, lambda a, b: a and not b, lambda a, b: a != b,
           None, lambda a, b: a or b, lambda a, b: a
           or not b, lambda a, b: not (a or b), lambda a, b: not (a and b))[kind]
    governing, first, second = (list(vectors.p[bits(word, low + 3, low)]) for low in (10, 5, 16))
    if kind == 3:
        result = [a if on else b for on, a, b in zip(governing, first, second)]
    else:
        result = [on and act(a, b) for on, a, b in zip(governing, first, second)]
    vectors.p[bits(word, 3, 0)] = result
    if sets:
        vectors.flags(thread, governing, result)


# ---- SVE2


def multiply(word: int, thread: Any, width: int) -> Any:
    """MUL, SMULH and UMULH."""
    it, kind = Operands(word, thread), bits(word, 11, 10)
    if kind == 1:
        return False
    products = [a * b for a, b in zip(it.elements(it.rn, kind == 2), it.elements(it.rm, kind == 2))]
    it.put([product >> it.width if kind else product for product in products])


def ternary(word: int, thread: Any, width: int) -> Any:
    """EOR3, BCAX and BSL; the first source is the destination, and the third one stands in 9:5."""
    it, kind = Operands(word, thread, 8), (bits(word, 23, 22), bits(word, 10, 10))
    known = {(0, 0): lambda a, m, k: a ^ m ^ k, (1, 0): lambda a, m, k: a ^ m & ~k,
             (0, 1): lambda a, m, k: a & k | m & ~k}
    if kind not in known:
        return False
    it.put([known[kind](a, m, k)
            for a, m, k in zip(it.elements(it.rd), it.elements(it.rm), it.elements(it.rn))])


def long_sum(word: int, thread: Any, width: int) -> Any:
    """SADDLB, SADDLT, UADDLB and UADDLT."""
    it = Operands(word, thread)
    if it.size == 1:
        return False
    first, second = (it.elements(number, not word >> 11 & 1, it.size // 2)[word >> 10 & 1::2]
                     for number in (it.rn, it.rm))
    it.put([a + b for a, b in zip(first, second)])


ROWS = (
    (0x7FA00000, 0x13800000, extract), (0x1FE0FC00, 0x1A000000, with_carry),
    (0x7FFF0000, 0x5AC00000, one_source), (0x7FE00000, 0x1AC00000, two_sources),
    (0xFFFFF01F, 0xD503301F, barrier), (0xFFDFFFE0, 0xD51B4200, move_flags),
    (0xFF20FC00, 0x04203000, logical), (0xFF20E000, 0x04000000, predicated),
    (0xFF20E000, 0x04008000, predicated_shift), (0xFF20C000, 0x04004000, multiply_add),
    (0xFF20E000, 0x0400A000, unary), (0xFF20F000, 0x04209000, shift),
    (0xFF3FE000, 0x0528A000, copy_of_register), (0xFF308000, 0x05100000, copy_of_number),
    (0xFF20F400, 0x04204400, index), (0xFF20FC00, 0x04204800, index),
    (0xFF3CC000, 0x2520C000, add_number), (0xFF3FE000, 0x2530C000, multiply_number),
    (0xFF20C000, 0x0520C000, select), (0xFFFFFC00, 0x0420BC00, prefix),
    (0xFF20E000, 0x05206000, interleave), (0xFF3FFC00, 0x05383800, reverse),
    (0xFF20FC00, 0x05203000, table), (0xFFE0E000, 0x05200000, extract_bytes),
    (0xFF3CFC00, 0x05303800, unpack), (0xFF3CE000, 0x04182000, reduce),
    (0xFF200000, 0x24000000, compare), (0xFF20C000, 0x25000000, compare_number),
    (0xFFFFC21F, 0x2550C000, test), (0xFF30C000, 0x25004000, logical_predicates),
    (0xFF20F000, 0x04206000, multiply), (0xFF20F800, 0x04203800, ternary),
    (0xFF20F000, 0x45000000, long_sum))


# ---- words without a row


def turns_further(word: int) -> bool:
    """A logical immediate that is turned by more than its element has bits."""
    low = bits(word, 22, 22) << 6 | bits(word, 15, 10) ^ 63
    return (mask_of(word, 64 if word >> 31 else 32) is not None
            and bits(word, 21, 16) >> low.bit_length() - 1 != 0)


def pair_of_one(word: int) -> int:
    """A load of a pair into one register, or a pair whose base is written and is one of them."""
    rt, rn, second = bits(word, 4, 0), bits(word, 9, 5), bits(word, 14, 10)
    return bits(word, 22, 22) and rt == second or bits(word, 23, 23) and rn != 31 and rn in (rt,
                                                                                             second)


NO_ROWS = (
    (0x1F800000, 0x12000000, turns_further),
    (0xFF600000, 0x9B400000, lambda word: bits(word, 15, 10) != 31),
    (0x7E000000, 0x28000000, pair_of_one),
    (0x3F200400, 0x38000400, lambda word: bits(word, 4, 0) == bits(word, 9, 5) != 31),
    (0xFE00E000, 0xA4004000, lambda word: bits(word, 20, 16) == 31),
    (0xFE00E000,
     0xE4004000, lambda word: bits(word, 20, 16) == 31
     and bits(word, 24, 23) <= bits(word, 22, 21)), (0xFF30FC00, 0x0420E400, lambda word: True))


def has_no_row(word: int) -> bool:
    """The conditions on fields that the interpreters do not look at; some are those of this
    emulator's tables alone."""
    return any(word & mask == value and condition(word) for mask, value, condition in NO_ROWS)


def execute(word: int, thread: Any) -> int | None:
    for mask, value, what in ROWS:
        if word & mask == value and what(word, thread, 64 if word >> 31 else 32) is not False:
            return thread.pc + 4
    return None


class KnowsAll:
    """Before a thread's class: the thread knows every instruction."""

    def execute(self, word: int) -> int | None:
        if has_no_row(word):
            return None
        target = super().execute(word)  # type: ignore[misc]
        return execute(word, self) if target is None else target

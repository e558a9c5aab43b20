"""Writes data/lane-steps-VL-SVL.vectors with their answers: steps of outer products and of
unpredicated operations on two vectors, at each vector length.

    tools/smemu-tools lane-steps

These are the instructions that the emulator makes many lanes at a time. What each gives is reckoned
here, element by element, over whole numbers; nothing is shared with the emulator. A step has the
vector length in bits, that of Streaming SVE mode, the word with the state before it, and the state
after it, in which all else is zero.
"""
from __future__ import annotations

import random
from typing import Any, Iterator

from smemu_tools import parser
from smemu_tools.rows.vector_files import write

LENGTHS = (128, 256, 512, 1024, 2048)
PC = "next pc=0000000000020004"
# the sums of an outer product by the signs of Zn and Zm: 1 is without a sign
OUTER = {(0, 0): 0xA0800000, (0, 1): 0xA0A00000, (1, 0): 0xA1800000, (1, 1): 0xA1A00000}
ARITHMETIC = {"add": 0x04200000, "sub": 0x04200400, "sqadd": 0x04201000, "uqadd": 0x04201400,
              "sqsub": 0x04201800, "uqsub": 0x04201C00}
LOGICAL = {"and": 0x04203000, "orr": 0x04603000, "eor": 0x04A03000, "bic": 0x04E03000}


def elements(data: Any, size: Any, is_signed: Any) -> Any:
    return [int.from_bytes(data[at:at + size], "little", signed=is_signed)
            for at in range(0, len(data), size)]


def joined(values: Any, size: Any) -> Any:
    return b"".join((value % (1 << 8 * size)).to_bytes(size, "little") for value in values)


def least(size: Any) -> Any:
    """The least signed element."""
    return (1 << 8 * size - 1).to_bytes(size, "little")


def source(rng: Any, length: Any, size: Any) -> Any:
    """Elements of which one in two is the least, the greatest, zero or one from either side."""
    ends = [1 << 8 * size - 1, (1 << 8 * size - 1) - 1, (1 << 8 * size) - 1, 0, 1]
    return joined([rng.choice(ends) if rng.random() < 0.5 else rng.getrandbits(8 * size)
                   for _ in range(length // size)], size)


def line(vl: Any, svl: Any, word: Any, svcr: Any, before: Any, after: Any) -> Any:
    """A line of the registers before and after, by name; those that are zero are left out after
    it."""
    mode = f" svcr={svcr}" * bool(svcr)
    fields = lambda state: "".join(f" {key}={value.hex()}" for key, value in state.items()
                                   if any(value))
    return f"{vl}\t{svl}\t{word:08x}{mode}{fields(before)}\t{PC}{mode}{fields(after)}"


def bits(truths: Any) -> Any:
    return bytes(sum(truths[at + k] << k for k in range(8)) for at in range(0, len(truths), 8))


def outer_product(rng: Any, svl: Any, kind: Any, halves: Any, subtract: Any, whole: Any) -> Any:
    """An outer product; `whole` with the least element in each place of both sources, else under
    predicates of some elements."""
    length = svl // 8
    size = 2 if halves else 1
    wide = 4 * size
    count = length // wide
    tile = rng.randrange(wide)
    (zn, zm), (pn, pm) = rng.sample(range(32), 2), rng.sample(range(8), 2)
    if whole:
        first = second = least(size) * (length // size)
        rows = columns = [True] * length
    else:
        first, second = source(rng, length, size), source(rng, length, size)
        # few rows of the tile, so that a line is short
        chosen = set(rng.sample(range(count), min(count, 4)))
        rows = [at // wide in chosen and rng.random() < 0.7 for at in range(length)]
        columns = [rng.random() < 0.7 for _ in range(length)]
    n = [value if rows[size * i] else 0
         for i, value in enumerate(elements(first, size, not kind[0]))]
    m = [value if columns[size * i] else 0
         for i, value in enumerate(elements(second, size, not kind[1]))]
    touched = [r for r in range(count) if any(n[4 * r:4 * r + 4])][:4]
    array = {r * wide + tile: source(rng, length, wide) for r in touched}
    array[(tile + 1) % wide] = source(rng, length, wide)
    after = dict(array)
    for r in range(count):
        row = elements(array.get(r * wide + tile, bytes(length)), wide, False)
        sums = [sum(n[4 * r + k] * m[4 * c + k] for k in range(4)) for c in range(count)]
        after[r * wide + tile] = joined([a - b if subtract else a + b for a, b in zip(row, sums)],
                                        wide)
    if whole and kind == (0, 0) and not halves:
        assert set(sums) == {65536}
    word = (OUTER[kind] | halves << 22 | zm << 16 | pm << 13 | pn << 10 | zn << 5 | subtract << 4
            | tile)
    registers = {f"z{i}": data for i, data in sorted({zn: first, zm: second}.items())}
    registers.update((f"p{i}", bits(truths))
                     for i, truths in sorted({pn: rows, pm: columns}.items()))
    named = lambda vectors: {**registers, **{f"za{v}": data for v, data in sorted(vectors.items())}}
    return line(128, svl, word, 3, named(array), named(after))


def saturated(value: Any, size: Any, is_signed: Any) -> Any:
    low, high = (-(1 << 8 * size - 1), (1 << 8 * size - 1) - 1) if is_signed else (0,
                                                                                   (1 << 8 * size)
                                                                                   - 1)
    return min(max(value, low), high)


def value_of(name: Any, a: Any, b: Any, size: Any) -> Any:
    """What an operation gives of two elements, which are numbers with a sign where its name begins
    with sq."""
    if name in ("sqadd", "uqadd", "sqsub", "uqsub"):
        return saturated(a + b if name.endswith("add") else a - b, size, name[0] == "s")
    return {"add": a + b, "sub": a - b, "and": a & b, "orr": a | b, "eor": a ^ b,
            "bic": a & ~b}[name]


def operation(rng: Any, vl: Any, name: Any, word: Any, size: Any, is_logical: Any) -> Any:
    """An operation on two vectors, now and then on one of them or into one of them."""
    length = vl // 8
    zd, zn, zm = rng.choice([rng.sample(range(32), 3), [5, 5, 6], [7, 8, 7], [9, 10, 10]])
    before = {zn: source(rng, length, size), zm: source(rng, length, size)}
    a, b = (elements(before[z], size, name.startswith("sq")) for z in (zn, zm))
    after = {**before, zd: joined([value_of(name, x, y, size) for x, y in zip(a, b)], size)}
    word |= zm << 16 | zn << 5 | zd | (0 if is_logical else (size.bit_length() - 1) << 22)
    named = lambda vectors: {f"z{i}": data for i, data in sorted(vectors.items())}
    return line(vl, 128, word, 0, named(before), named(after))


def lines() -> Iterator[Any]:
    rng = random.Random(41)
    for length in LENGTHS:
        for halves in (0, 1):
            for kind in OUTER:
                for subtract in (0, 1):
                    yield outer_product(rng, length, kind, halves, subtract,
                                        kind == (0, 0) and not subtract)
        for size in (1, 2, 4, 8):
            for name, word in ARITHMETIC.items():
                yield operation(rng, length, name, word, size, False)
        for name, word in LOGICAL.items():
            yield operation(rng, length, name, word, 8, True)


def main() -> Any:
    parser(__doc__).parse_args()
    write("lane-steps", lines())
    return 0

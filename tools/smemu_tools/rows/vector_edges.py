"""Writes data/border-steps-, first-steps- and reduced-steps-VL-SVL.vectors with their answers,
which are what tools/smemu_tools/model/expected_answers.py gives.

    tools/smemu-tools vector-edges

Those of borders are accesses of vectors from the last elements of a page on, from those below one,
and about the region of shared words and address 0, under full predicates, others and none. Those of
first elements are PTRUE with each pattern and WHILELO and WHILELT with counts about the multiples
of 8, and the last are reductions under full predicates, all elements but one, and with bits between
those of the elements.
"""
from __future__ import annotations

import random
import re
from typing import Any, Iterator

from smemu_tools import parser
from smemu_tools.rows import random_bytes
from smemu_tools.rows.vector_files import write
from smemu_tools.rows.word_steps import SHARED, START, elements, line_of, words

from smemu_tools.model.expected_answers import PAGE, answer, place_of

LENGTHS = (128, 256, 512, 1024, 2048)
ZERO, LIMIT = 31, 1 << 64
# an answer is not to be longer, since one of a store has all bytes of the page up to the last that
# is not zero
LONGEST = 1_200
PTRUE, WHILE = 0x2518E000, 0x25200400
REDUCTIONS = {"saddv": 0x04002000, "uaddv": 0x04012000, "smaxv": 0x04082000, "umaxv": 0x04092000,
              "sminv": 0x040A2000, "uminv": 0x040B2000, "orv": 0x04182000, "eorv": 0x04192000,
              "andv": 0x041A2000}


def step(word: Any, state: Any, vl: Any, svl: Any = 128) -> Any:
    """A step of a word, by the fields of the state before it."""
    fields = sorted(state.items(), key=lambda field: place_of(field[0]))
    return f"{vl}\t{svl}\t{line_of(word, state)}\t{answer((word, fields), vl, svl)}"


def bits(truths: Any) -> Any:
    """The bytes of a predicate."""
    return bytes(sum(truths[at + k] << k for k in range(8)) for at in range(0, len(truths), 8))


def of_elements(size: Any, truths: Any, between: Any = lambda: False) -> Any:
    """The predicate of elements of so many bytes, and what its other bits are."""
    return bits([truth if k == 0 else between() for truth in truths for k in range(size)])


# ---- borders


def accesses() -> Iterator[Any]:
    """The words of accesses of a vector or a predicate at X1, and of vectors under P1, with their
    texts."""
    for word, text in words().items():
        found = re.match(r"(ld1|st1)[a-z]+ \{z[0-9]+\.[bhsd]\}.*\[(x[0-9]+|sp)(, x)?", text)
        if found:
            # the index is X2, which is zero, or the number is
            word = word & ~(7 << 10 | 31 << 5) | 1 << 10 | 1 << 5
            yield (word & ~(31 << 16) | 2 << 16 if found[3] else word & ~(15 << 16)), text
        elif re.match("(ldr|str) [zp][0-9]", text):
            yield word & ~(63 << 16 | 7 << 10 | 31 << 5) | 1 << 5, text


def sizes_of(text: Any, length: Any) -> Any:
    """The bytes of an element in memory and in the register; those of a whole vector or a predicate
    are each an element."""
    found = re.match(r"(?:ld1s?|st1)([bhwd]) \{z[0-9]+\.([bhsd])", text)
    return (dict(zip("bhwd", (1, 2, 4, 8)))[found[1]],
            dict(zip("bhsd", (1, 2, 4, 8)))[found[2]]) if found else (1, 1 if " z" in text else 8)


def borders() -> Iterator[Any]:
    chance = random.Random(61)
    for number, (word,
                 text) in enumerate(sorted({word & ~31: (word & ~31 | 3, text)
                                            for word, text in accesses()}.values())):
        for vl in (LENGTHS[number % 5], LENGTHS[(number + 2) % 5]):
            length = vl // 8
            narrow, wide = sizes_of(text, length)
            count = length // wide
            total = narrow * count
            whole = [True] * count
            predicates = [whole] if text.startswith(("ldr", "str")) else [
                whole, [False] * count, [True] * (count - 1) + [False],
                [False] + [True] * (count - 1), [k == count - 1 for k in range(count)],
                [k == 0 for k in range(count)],
                [chance.random() < 0.5 for _ in range(count)]]
            end = START + PAGE
            bases = [end - total, end - total + narrow, end - total + 1, end - narrow, end,
                     START - narrow, START - total, SHARED - narrow, SHARED - total,
                     SHARED + PAGE - narrow, -narrow % LIMIT]
            for truths in predicates:
                for base in bases:
                    state = {"x1": f"{base:016x}", "z3": elements(chance, length, wide).hex(),
                             "m": random_bytes(chance, 40).hex()}
                    if len(predicates) > 1:
                        state["p1"] = of_elements(wide, truths, lambda: chance.random() < 0.3).hex()
                    found = step(word, state, vl)
                    if len(found.split("\t")[3]) < LONGEST:
                        yield found


# ---- first elements


def firsts() -> Iterator[Any]:
    chance = random.Random(62)
    for vl in LENGTHS:
        for size in range(4):
            for pattern in range(32):
                yield step(PTRUE | size << 22 | pattern << 5 | chance.randrange(16),
                           {"p15": bits([True] * (vl // 8)).hex()}, vl)
            count = vl // 8 >> size
            near = {k + more for k in range(0, count + 1, 8) for more in (-1, 0, 1)} | {count - 1,
                                                                                        count,
                                                                                        count + 1,
                                                                                        2 * count,
                                                                                        1 << 31,
                                                                                        1 << 32,
                                                                                        1 << 63}
            for distance in sorted(near):
                for is_unsigned in (0, 1):
                    is_wide = chance.randrange(2)
                    least, width = (0 if is_unsigned
                                    else -(1 << 63 if is_wide else 1 << 31)), 64 if is_wide else 32
                    first = chance.choice((0, 0, least, 5,
                                           (1 << (width if is_unsigned else width - 1)) - 1
                                           - count // 2, -3))
                    second = first + distance
                    state = {"x1": f"{first % LIMIT:016x}", "x2": f"{second % LIMIT:016x}",
                             "nzcv": "1111", "p3": bits([True] * (vl // 8)).hex()}
                    yield step(WHILE | size << 22 | is_wide << 12 | is_unsigned << 11 | 2 << 16 | 1
                               << 5 | 3, state, vl)


# ---- reductions


def reductions() -> Iterator[Any]:
    chance = random.Random(63)
    for name, word in REDUCTIONS.items():
        for size in range(4):
            if name == "saddv" and size == 3:
                continue
            for vl in LENGTHS:
                length, wide = vl // 8, 1 << size
                count = length // wide
                gap = chance.randrange(count)
                for truths, between in (([True] * count, lambda: False),
                                        ([True] * count, lambda: True),
                                        ([k != gap for k in range(count)], lambda: chance.random()
                                         < 0.5), ([k == gap for k in range(count)], lambda: False),
                                        ([chance.random() < 0.5 for _ in range(count)],
                                         lambda: chance.random() < 0.5)):
                    state = {"z7": elements(chance, length, wide).hex(),
                             "z3": random_bytes(chance, length).hex(),
                             "p5": of_elements(wide, truths, between).hex()}
                    yield step(word | size << 22 | 5 << 10 | 7 << 5 | 3, state, vl)
        # no element is active
        yield step(word | 5 << 10 | 7 << 5 | 3, {"z7": elements(chance, 16, 1).hex()}, 128)


def main() -> Any:
    parser(__doc__).parse_args()
    for name, steps in ("border-steps", borders()), ("first-steps", firsts()), ("reduced-steps",
                                                                                reductions()):
        write(name, steps)
    return 0

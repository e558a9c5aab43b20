"""Writes data/word-steps-VL-SVL.vectors with their answers: each word of data/words.tsv,
vector_words.tsv and texts.tsv, which other tools gave, in a state that it does something with.

    tools/smemu-tools word-steps

The words of a name take the five vector lengths in turn, so that each name comes at each of them.
The state has the registers that the word's text names, at the ends of their ranges and between, and
data where the instruction accesses memory, mostly where it succeeds. What each gives is what
tools/smemu_tools/model/expected_answers.py gives.
"""
from __future__ import annotations

import itertools
import random
import re
from typing import Any, Iterator

from smemu_tools import parser
from smemu_tools.rows import random_bytes
from smemu_tools.rows.vector_files import DATA, write

from smemu_tools.model.expected_answers import PAGE, answer, place_of

# VL and SVL; each length comes once as either
PAIRS = ((128, 256), (256, 512), (512, 1024), (1024, 2048), (2048, 128))
ENDS = [0, 1, 2, 31, 63, 64, 0x7F, 0x80, 0x7FFFFFFF, 0x80000000, 0xFFFFFFFF, 0x100000000,
        (1 << 63) - 1, 1 << 63, (1 << 64) - 2, (1 << 64) - 1]
START, SHARED = 0x10000, 0x7F0000000000
# accesses of vectors, and what ZA takes part in, come in two states
MORE = re.compile(r"z[0-9]+.*\[|\bza")
SIZES = {"b": 1, "h": 2, "s": 4, "d": 8, "q": 16}


# words of forms that the tables lack, put together by hand
OTHERS = {0x042D9041: "asr z1.b, z2.b, #3", 0x04289483: "lsr z3.b, z4.b, #8",
          0x043F9CC5: "lsl z5.h, z6.h, #15", 0xE5444467: "st1w {z7.s}, p1, [x3, x4, lsl #2]",
          0xC0C1A865: "mova za5v.q[w13, 0], p2/m, z3.q",
          0xC0824D24: "mova z4.s, p3/m, za2h.s[w14, 1]"}


def words() -> dict[int, str]:
    """The words with their texts."""
    known = {}
    for name in ("words", "vector_words", "texts"):
        for line in (DATA / f"{name}.tsv").read_text().splitlines():
            word, *_, text = line.split("\t")
            known.setdefault(int(word, 16), text)
    return {**known, **OTHERS}


def number(chance: random.Random) -> int:
    return chance.choice(ENDS) if chance.random() < 0.4 else chance.getrandbits(chance.choice((8,
                                                                                               16,
                                                                                               32,
                                                                                               64,
                                                                                               64,
                                                                                               64)))


def elements(chance: random.Random, length: int, size: int) -> bytes:
    """Bytes of elements, of which some are at an end of their range."""
    ends = [value % (1 << 8 * size)
            for value in (0, 1, 2, -1, -2, 1 << 8 * size - 1, (1 << 8 * size - 1) - 1)]
    values = [chance.choice(ends) if chance.random() < 0.3 else chance.getrandbits(8 * size)
              for _ in range(length // size)]
    return b"".join(value.to_bytes(size, "little") for value in values)


def predicate(chance: random.Random, length: int) -> bytes:
    """All elements, none, one, or some."""
    count = length // 8
    return chance.choice((b"\xff" * count, bytes(count),
                          (1 << chance.randrange(length)).to_bytes(count, "little"),
                          random_bytes(chance, count), random_bytes(chance, count),
                          random_bytes(chance, count)))


def modes(chance: random.Random, text: str) -> int:
    """PSTATE.SM and PSTATE.ZA: mostly those in which the instruction is executed."""
    if re.search(r"\bza", text) and not text.startswith(("smst", "zero", "ldr", "str")):
        return chance.choice((3, 3, 3, 3, 3, 3, 0, 1, 2))
    if re.search(r"\bza\b|^zero", text):
        return chance.choice((2, 3, 2, 3, 0, 1))
    if re.match("setffr|rdffr|wrffr", text):
        return chance.choice((0, 0, 2, 2, 1, 3))
    return chance.choice((0, 0, 0, 1, 2, 3))


def registers(chance: random.Random, text: str, length: int, streaming_length: int,
              svcr: int) -> dict[str, str]:
    """The fields of the registers that a text names, and now and then of others."""
    state = {}
    for n in re.findall(r"\b[xw]([0-9]+)", text):
        state[f"x{n}"] = f"{number(chance):016x}"
    for n, suffix in re.findall(r"\bz([0-9]+)(?:\.([bhsdq]))?", text):
        state[f"z{n}"] = elements(chance, length, min(SIZES.get(suffix, 1), 8)).hex()
    for n in re.findall(r"\b[bhsd]([0-9]+)",
                        text) + [str(chance.randrange(32))] * (length <= 64
                                                               and chance.random() < 0.2):
        state[f"z{n}"] = random_bytes(chance, length).hex()
    for n in re.findall(r"\bp([0-9]+)",
                        text) + [str(chance.randrange(16))] * (chance.random() < 0.1):
        state[f"p{n}"] = predicate(chance, length).hex()
    if "ffr" in text or chance.random() < 0.05:
        state["ffr"] = predicate(chance, length).hex()
    if svcr & 2 and ("za" in text or chance.random() < 0.2):
        for n in chance.sample(range(streaming_length), min(streaming_length, 5)):
            state[f"za{n}"] = elements(chance, streaming_length, chance.choice((1, 2, 4, 8))).hex()
    for name in ("tpidr2_el0", "tpidr_el0"):
        if name in text or chance.random() < 0.1:
            state[name.split("_")[0]] = f"{number(chance):016x}"
    return state


def state_of(chance: random.Random, text: str, vl: int, svl: int) -> dict[str, str]:
    """A state for a word of that text, whose accesses are anywhere."""
    svcr = modes(chance, text)
    length = (svl if svcr & 1 else vl) // 8
    state = registers(chance, text, length, svl // 8, svcr)
    if re.search(r"\bw?sp\b", text) or chance.random() < 0.1:
        state["sp"] = f"{number(chance) & (-16 if chance.random() < 0.9 else -1):016x}"
    if svcr or chance.random() < 0.1:
        state["svcr"] = str(svcr)
    if chance.random() < 0.6:
        state["nzcv"] = f"{chance.randrange(16):04b}"
    if chance.random() < 0.1:
        state[f"x{chance.randrange(31)}"] = f"{number(chance):016x}"
    if "[" in text:
        state["m"] = random_bytes(chance, chance.choice((1, 40, 120, 2 * length))).hex()
    return state


def fields_of(state: dict[str, str]) -> list[tuple[str, str]]:
    """The fields in the order of a line."""
    return sorted(state.items(), key=lambda field: place_of(field[0]))


def line_of(word: int, state: dict[str, str]) -> str:
    return " ".join([f"{word:08x}", *(f"{key}={value}" for key, value in fields_of(state))])


def moved(chance: Any, state: Any, base: Any, given: Any, size: Any) -> Any:
    """The base of an access moved, so that its first byte at fault is among the data, or now and
    then in the shared region; None where it stays."""
    fault = re.fullmatch("raise (?:data|shared|align) ([0-9a-f]{16})( .*)?", given)
    if not fault or chance.random() < 0.1:
        return None
    at = int(fault[1], 16)
    if given.startswith("raise align"):
        distance = -(at % 16)
    else:
        distance = (SHARED if chance.random() < 0.15
                    else START
                    + chance.randrange(size)) + chance.choice((0, 0, 0, 0, 0, PAGE - 8)) - at
        distance &= -16 if chance.random() < 0.8 else -1
    return {**state, base: f"{int(state.get(base, '0'), 16) + distance & (1 << 64) - 1:016x}"}


def step(chance: Any, word: Any, text: Any, vl: Any, svl: Any) -> Any:
    """The line of a word and its answer."""
    state = state_of(chance, text, vl, svl)
    base = re.search(r"\[(x[0-9]+|sp)", text)
    for _ in range(4):
        given = answer((word, fields_of(state)), vl, svl)
        other = moved(chance, state, base[1], given, len(state["m"]) // 2) if base else None
        if other is None:
            break
        state = other
    given = answer((word, fields_of(state)), vl, svl)
    assert not given.startswith("raise undefined") or text.startswith("udf"), (text, given)
    return f"{vl}\t{svl}\t{line_of(word, state)}\t{given}"


def steps() -> Iterator[Any]:
    chance, names = random.Random(20), {}
    for word, text in words().items():
        names.setdefault(text.split(" ")[0],
                         []).extend([(word, text)] * (2 if MORE.search(text) else 1))
    for known in names.values():
        several = itertools.islice(itertools.cycle(known), max(len(known), len(PAIRS)))
        for (word, text), (vl, svl) in zip(several, itertools.cycle(PAIRS)):
            yield step(chance, word, text, vl, svl)


def main() -> Any:
    parser(__doc__).parse_args()
    write("word-steps", steps())
    return 0

"""Makes programs of one random loop of scalar instructions, loads, stores and now and then vectors,
and compares the reports of their runs with those that an interpreter makes which shares nothing
with the emulator.

    tools/smemu-tools random-loops [PROGRAM] [--beside OTHER] [--loops N] [--seed S]

PROGRAM is the emulator; where it is not given it is what ./smemu runs. There are N loops, 2,000
where it is not said; the same seed makes the same ones. --beside compares with another emulator in
place of the interpreter, which is tools/smemu_tools/model/expected.py with all instructions that it
knows: there a loop makes more turns. Each loop whose reports differ is printed with the lines that
do; the status is 1 where one does, and the last such program and its reports are kept beside each
other in a folder that is named.
"""
from __future__ import annotations

import argparse
import concurrent.futures
import difflib
import os
import pathlib
import random
import re
import subprocess
import tempfile
from typing import Any


from smemu_tools.model.elf import Segment, build, text_of
from smemu_tools.model.expected import report
from smemu_tools.rows import random_bytes
from smemu_tools.rows.loop_rows import KnowsAllWords
from smemu_tools.rows.word_steps import number, words
from smemu_tools.user import emulator

SECONDS = 60
CODE, DATA, SHARED, PAGE = 0x400000, 0x410000, 0x7F0000000000, 4096
# the registers of a loop: those that instructions write, the bases of accesses, indices, addresses
# in the code, and the counter
WRITTEN, BASES, INDICES, TARGETS, COUNTER, LINK = (range(0, 16), (16, 17, 18, 19, 20), (21, 22),
                                                   (23, 24), 25, 30)
ZERO = 31
MOST_TURNS = 400
EXIT = [0xD2800BA8, 0xD4000001]  # movz x8, #93; svc #0

# the place of the words of vectors among those of the names
VECTORS = "vectors"
# ptrue p0.b to p7.b, and index z0.b, #n, #n to z7.b
PREDICATES, NUMBERS = [0x2518E3E0 | k for k in range(8)], [0x04204000 | k << 16 | k << 5 | k
                                                           for k in range(8)]

# Names by where the registers stand in their words: written at bit 0, and read at the bits that
# follow.
SUMS = {name: (5, 16)
        for name
        in ("add", "adds", "sub", "subs", "and", "ands", "orr", "eor", "bic", "bics", "orn", "eon",
            "adc", "adcs", "sbc", "sbcs", "csel", "csinc", "csinv", "csneg", "lslv", "lsrv", "asrv",
            "rorv", "udiv", "sdiv", "extr", "smulh", "umulh")}
PRODUCTS = {name: (5, 16, 10) for name in ("madd", "msub", "smaddl", "smsubl", "umaddl", "umsubl")}
ONES = {name: (5,)
        for name in ("rbit", "rev16", "rev32", "rev", "clz", "cls", "sbfm", "bfm", "ubfm")}
NONE = {name: () for name in ("movz", "movn", "movk", "adr", "adrp")}
READS: dict[str, tuple[int, ...]] = {**SUMS, **PRODUCTS, **ONES, **NONE}
COMPARES = {"ccmp": (5, 16), "ccmn": (5, 16)}
ACCESSES = ("ldr", "ldrb", "ldrh", "ldrsb", "ldrsh", "ldrsw", "str", "strb", "strh", "ldur",
            "ldurb", "ldurh", "ldursb", "ldursh", "ldursw", "stur", "sturb", "sturh")


def with_field(word: int, low: int, width: int, value: int) -> int:
    return word & ~((1 << width) - 1 << low) | value << low


def known_words() -> dict[str, list[tuple[int, str]]]:
    """The words of the tables by their names, and those of vectors and predicates together."""
    known = {VECTORS: []}
    for word, text in words().items():
        known[VECTORS].append((word, text)) if re.search(r"\b[zp][0-9]+\.",
                                                         text) else known.setdefault(
            text.split(" ")[0], []).append((word, text))
    return known


def loaded(register: int, value: int) -> list[int]:
    """MOVZ and MOVK that give a register a value."""
    parts = [(0xF2800000 if k else 0xD2800000) | k << 21 | (value >> 16 * k & 0xFFFF) << 5
             | register for k in range(4)]
    return [parts[0], *(part for k, part in enumerate(parts) if k and value >> 16 * k & 0xFFFF)]


def register(chance: random.Random, several: Any) -> int:
    return ZERO if chance.random() < 0.12 else chance.choice(several)


def computation(chance: random.Random, known: dict[str, list[tuple[int, str]]]) -> int:
    """An instruction of registers alone, with other registers and now and then another bit."""
    name = chance.choice([*READS, *COMPARES])
    # those whose last operand is a register and those with a number have one name
    word, text = chance.choice(known[name])
    has_number = "#" in text and not any(shift in text
                                         for shift in ("lsl #", "lsr #", "asr #", "ror #", "xt"))
    if name in READS:
        word = with_field(word, 0, 5, register(chance, WRITTEN))
    for low in (COMPARES.get(name) or READS[name]):
        if low != 16 or not (has_number and name not in ("extr", "adc", "sbc")):
            word = with_field(word, low, 5, register(chance, (*WRITTEN, COUNTER)))
    if name in ("movz", "movn", "movk"):
        word = with_field(word, 5, 16, chance.choice((0, 1, 0xFFFF, chance.getrandbits(16))))
    elif name in ("add", "adds", "sub", "subs") and word >> 24 & 31 == 0x11:
        word = with_field(word, 10, 12, chance.choice((0, 1, 4095, chance.getrandbits(12))))
    if chance.random() < 0.12:
        word ^= 1 << chance.choice((10, 11, 12, 13, 14, 15, 22, 29, 31))
    return word


def access(chance: random.Random) -> int:
    """A load or a store of one register or two, by an address that is mostly there."""
    size, operation = chance.randrange(4), chance.choice((0, 0, 1, 1, 1, 2, 3))
    base, other, target = chance.choice((*BASES, *BASES,
                                         ZERO)), chance.choice(INDICES), register(chance, WRITTEN)
    head = size << 30 | operation << 22 | base << 5 | target
    form = chance.randrange(7)
    if form == 0:
        return 0x39000000 | head | chance.choice((0, 1, 2, chance.randrange(64))) << 10
    if form == 1:
        return 0x38000000 | head | (chance.randrange(-64, 64) & 0x1FF) << 12
    if form in (2, 3):
        return 0x38000400 | head | (0x800 if form == 3
                                    else 0) | (chance.choice((-16, -8, -4, -1, 0, 1, 2, 4, 8, 16))
                                               & 0x1FF) << 12
    if form == 4:
        return (0x38200800 | head | other << 16 | chance.choice((2, 3, 6, 7)) << 13
                | chance.randrange(2) << 12)
    if form == 5:
        mode, second = chance.choice((1, 2, 3)), chance.choice(WRITTEN)
        return 0x28000000 | chance.randrange(2) << 31 | mode << 23 | operation % 2 << 22 | (
            chance.choice((-2, -1, 0, 1, 2)) & 0x7F) << 15 | second << 10 | base << 5 | target
    return 0x18000000 | chance.randrange(3) << 30 | (chance.randrange(-6, 6)
                                                     & 0x7FFFF) << 5 | target


def shared_access(chance: random.Random) -> int:
    """An ordered or atomic access, or a plain one, at X20, which is the shared region's."""
    target, source = register(chance, WRITTEN), register(chance, WRITTEN)
    kind = chance.choice((0xF9400000, 0xF9000000, 0xC8DFFC00, 0xC89FFC00, 0xC8A07C00, 0xF8208000,
                          0xF8200000, 0xF8201000, 0xF8202000, 0xF8203000))
    return kind | (source << 16 if kind & 0x3F200000 in (0x38200000, 0x08A00000)
                   else 0) | 20 << 5 | target


def vector(chance: Any, known: Any) -> Any:
    """An instruction of vectors or predicates; the base of an access is one of ours."""
    word, text = chance.choice(known[VECTORS])
    if re.search(r"\[(x|sp)", text):
        word = with_field(word, 5, 5, chance.choice((*BASES, ZERO)))
        if re.search(r", x[0-9]+(, lsl|\])", text):
            word = with_field(word, 16, 5, chance.choice(INDICES))
    return word


def branch(chance: Any, left: Any) -> Any:
    """A branch forwards, at most behind the loop's last instruction, of which so many are left."""
    distance, target = chance.randrange(1, left + 1), register(chance, (*WRITTEN, COUNTER))
    return chance.choice((0x54000000 | distance << 5 | chance.randrange(16),
                          0x34000000 | chance.randrange(2) << 31 | chance.randrange(2) << 24
                          | distance << 5 | target,
                          0x36000000 | chance.randrange(2) << 31 | chance.randrange(2) << 24
                          | chance.randrange(32) << 19 | distance << 5 | target,
                          0x14000000 | distance, 0x94000000 | distance))


def far(chance: random.Random, place: int, function: int) -> int:
    """An instruction that leaves the page or comes back: BL to the function of the next page, BLR
    and BR by a register."""
    return chance.choice((0x94000000 | function - place, 0xD63F0000 | TARGETS[0] << 5,
                          0xD63F0000 | TARGETS[1] << 5))


def body_of(chance: random.Random, known: dict[str, list[tuple[int, str]]], at: int, count: int,
            function: int) -> list[int]:
    """So many words of the loop, whose first stands at a place of the code."""
    found = []
    while len(found) < count:
        place, left = at + len(found), count - len(found)
        kind = chance.random()
        if kind < 0.38:
            found.append(computation(chance, known))
        elif kind < 0.45:
            found.append(vector(chance, known))
        elif kind < 0.8:
            found.append(access(chance))
        elif kind < 0.84:
            found.append(shared_access(chance))
        elif kind < 0.93:
            found.append(branch(chance, left))
        elif kind < 0.97:
            found.append(far(chance, place, function))
        elif kind < 0.99 and left > 1:
            # one of the loop's words is written over by another one, where that may be
            found += [0x10000000 | (chance.randrange(-4, 5) & 0x7FFFF) << 5 | 15,
                      0xB9000000 | 15 << 5 | 14]
        else:
            found.append(chance.getrandbits(32) if chance.random() < 0.3
                         else chance.choice(chance.choice(list(known.values())))[0])
    return found[:count]


def program(chance: random.Random, known: dict[str, list[tuple[int, str]]],
            most: int) -> tuple[bytes, dict[str, int]]:
    """A file of a loop with what stands before and behind it, and the options of its run."""
    # the loop begins anywhere in a page, so that it goes over its end now and then
    start, count, turns = (chance.choice((0, 40, 900, 1010, 1016, 1020)), chance.randrange(2, 13),
                           chance.choice((1, 2, 3, most // 4, most)))
    function = 2048 + chance.choice((0, start + 40, 1020))
    code = [0xD503201F] * start
    for written in WRITTEN:
        code += loaded(written, number(chance)) if chance.random() < 0.7 else []
    # X14 is a word of an instruction, for a store into the code
    code += loaded(14,
                   chance.choice(chance.choice([known["add"], known["eor"], known["ldr"],
                                                known["hint"]]))[0])
    # the middle of a page of data, near its end, near the border of the next one, near the end of
    # both, and a shared word
    places = (DATA + 2048, DATA + PAGE - 24 + chance.randrange(24), DATA + PAGE - 8,
              DATA + 2 * PAGE - chance.randrange(256), SHARED + 8 * chance.choice((0, 1, 511)))
    for base, place in zip(BASES, places):
        code += loaded(base, place)
    for index in INDICES:
        code += loaded(index, chance.choice((0, 1, 8, 16, (1 << 64) - 8, 0xFFFFFFF8, 0x100000008)))
    for target, place in zip(TARGETS, (function, 2049 if chance.random() < 0.9 else 2048.5)):
        code += loaded(target, int(CODE + 4 * place))
    code += [*PREDICATES, *NUMBERS, *loaded(COUNTER, turns), 0xD10803FF]  # sub sp, sp, #512
    body = body_of(chance, known, len(code), count, function)
    # subs x25, x25, #1; b.ne to the loop's first instruction
    code += [*body, 0xF1000400 | COUNTER << 5 | COUNTER, 0x54000001 | (-(count + 1) & 0x7FFFF) << 5,
             *EXIT]
    code += [0xD503201F] * (3200 - len(code))
    # two functions of another page: one returns at once, one after a sum
    for place in (2048, 2049, function, function + 1):
        code[place] = 0xD65F03C0
    code[function] = chance.choice((0x91000400 | 3 << 5 | 3, 0xD65F03C0, 0x8B0000A5))
    flags = 7 if chance.random() < 0.3 else 5
    file = build([Segment(CODE, text_of(code), flags=flags),
                  Segment(DATA, random_bytes(chance, 2 * PAGE), flags=6)])[0]
    return file, {"vl": chance.choice((128, 128, 256, 512, 1024, 2048)), "svl": 256,
                  "budget": chance.choice((40 * most, 40 * most, 700, 1001)),
                  "slice": chance.choice((1000, 1000, 7, 1))}


def run(smemu: str, path: pathlib.Path, options: dict[str, int]) -> str:
    words = [word for key, value in options.items() for word in (f"--{key}", str(value))]
    return subprocess.run([smemu, "run", path, *words], stdin=subprocess.DEVNULL,
                          stdout=subprocess.PIPE, timeout=SECONDS, text=True).stdout


def compared(smemu: str, beside: Any, seed: str, folder: pathlib.Path) -> tuple[str, list[Any]]:
    """The lines that differ of the reports of a loop."""
    chance = random.Random(seed)
    file, options = program(chance, known_words(), MOST_TURNS if beside else MOST_TURNS // 8)
    path = folder / f"loop-{seed.replace(' ', '-')}.elf"
    path.write_bytes(file)
    given = run(smemu, path, options)
    wanted = run(beside, path, options) if beside else report(file, **options, thread=KnowsAllWords)
    stop = next((line for line in wanted.splitlines() if line.startswith("stop ")), "no report")
    if given == wanted:
        path.unlink()
        return stop, []
    for end, text in ("given", given), ("wanted", wanted):
        path.with_suffix(f".{end}").write_text(text)
    lines = [line
             for line
             in difflib.unified_diff(wanted.splitlines(), given.splitlines(), "wanted", "given",
                                     lineterm="", n=0)]
    return stop, [f"{path}, {options}:", *lines[2:14]]


def main() -> int:
    asked = argparse.ArgumentParser(description=__doc__.partition("\n\n")[0])
    asked.add_argument("program", nargs="?")
    asked.add_argument("--beside", metavar="OTHER")
    asked.add_argument("--loops", type=int, default=2_000)
    asked.add_argument("--seed", type=int, default=1)
    given = asked.parse_args()
    smemu = str(pathlib.Path(given.program or emulator.find()).resolve())
    beside = given.beside and str(pathlib.Path(given.beside).resolve())
    folder = pathlib.Path(tempfile.mkdtemp(prefix="random_loops."))
    seeds = [f"{given.seed} {number}" for number in range(given.loops)]
    with concurrent.futures.ProcessPoolExecutor(len(os.sched_getaffinity(0))) as pool:
        found = [*pool.map(compared, *zip(*((smemu, beside, seed, folder) for seed in seeds)),
                           chunksize=20)]
    stops = {}
    for stop, _ in found:
        name = " ".join(stop.split()[1:2 if "exited" in stop else 3])
        stops[name] = stops.get(name, 0) + 1
    differing = [lines for _, lines in found if lines]
    for lines in differing:
        print(*lines, sep="\n")
    print(", ".join(f"{count} {name}" for name, count in sorted(stops.items())))
    print(f"{given.loops} loops, {len(differing)} differ")
    if not differing:
        folder.rmdir()
    return 1 if differing else 0

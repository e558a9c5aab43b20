"""Times the emulator on one core: instructions a second of three loops, words a second of the
decoder, the time to load a file of 64 MiB and to refuse one at its last check, and the time from
start to report of a short program; loops of vector instructions at 128, 256 and 2048 bits, beside
qemu-aarch64 where it is installed, and of outer products at 128, 512 and 2048; then the assembler
and the listing on sources of 200,000 and 400,000 lines, beside those assemblers and disassemblers
that are installed.

    tools/smemu-tools times [PROGRAM]

PROGRAM is the emulator, by default the one that ./smemu runs. Each is run five times, and the best
is printed. The decoder is timed by the loader, which decodes each word of a load: a file whose last
word is unlisted against the same file with the first word unlisted too.
"""
from __future__ import annotations

import argparse
import pathlib
import shutil
import subprocess
import sys
import tempfile
import time
from typing import Any

from smemu_tools import TOP
from smemu_tools.model.elf import (ALLOC, EXECINSTR, STRTAB, SYMTAB, Section, Segment, build, elf,
                                   text_of)

RUNS = 5

# the loop of examples/countdown.s from 4,999,997: 9,999,999 instructions
GROWN = [
    0xD2A00983,  # movz x3, #76, lsl #16
    0x912CF463,  # add x3, x3, #2877
    0x91401063,  # add x3, x3, #4, lsl #12
    0xF1000463,  # subs x3, x3, #1
    0x54FFFFE1,  # b.ne .-4
    0xD2800BA8,  # movz x8, #93
    0xD4000001,  # svc #0
]

# 1,999,998 times five instructions
MIXED = [
    0xD2A003C3,  # movz x3, #30, lsl #16
    0x9111F863,  # add x3, x3, #1150
    0x91402063,  # add x3, x3, #8, lsl #12
    0x8B010000,  # add x0, x0, x1
    0xCA000042,  # eor x2, x2, x0
    0x9B021004,  # madd x4, x0, x2, x4
    0xF1000463,  # subs x3, x3, #1
    0x54FFFF81,  # b.ne .-16
    0xD2800BA8,  # movz x8, #93
    0xD4000001,  # svc #0
]
# 3,900 times over the 512 doublewords of a page: five instructions each
ACCESSES = [
    0xD281E783,  # movz x3, #3900
    0xD2A00821,  # movz x1, #65, lsl #16
    0xD2804002,  # movz x2, #512
    0xF9400024,  # ldr x4, [x1]
    0x8B050084,  # add x4, x4, x5
    0xF8008424,  # str x4, [x1], #8
    0xF1000442,  # subs x2, x2, #1
    0x54FFFF81,  # b.ne .-16
    0xF1000463,  # subs x3, x3, #1
    0x54FFFF01,  # b.ne .-32
    0xD2800BA8,  # movz x8, #93
    0xD4000001,  # svc #0
]
# the lines of loops of vectors: X1 is the address of a page, P1 has all words
TWELVE = """ld1w {z0.s}, p1/z, [x1]
    add z1.s, z0.s, z2.s
    mul z1.s, p1/m, z1.s, z0.s
    sqadd z2.s, z2.s, z1.s
    smax z2.s, p1/m, z2.s, z0.s
    eor z3.d, z1.d, z2.d
    asr z3.s, z3.s, #3
    zip1 z4.s, z0.s, z3.s
    cmpgt p2.s, p1/z, z4.s, z0.s
    sel z5.s, p2, z4.s, z3.s
    mla z6.s, p1/m, z5.s, z1.s
    st1w {z6.s}, p1, [x1]"""
VECTOR_LOOPS = {
    "ld1w, 10 others, st1w": TWELVE,
    "12 add": "\n    ".join(["add z1.s, z1.s, z2.s"] * 12),
    "12 add under a full predicate": "\n    ".join(["add z1.s, p1/m, z1.s, z2.s"] * 12),
}
VECTOR_TURNS = 400_000
# in Streaming SVE mode with ZA on: loads, sums and a branch, and one kind of product alone
PRODUCTS = """ld1b {z0.b}, p0/z, [x1]
    ld1b {z1.b}, p0/z, [x1]
    smopa za0.s, p0/m, p0/m, z0.b, z1.b
    umopa za1.s, p0/m, p0/m, z0.b, z1.b
    usmopa za2.s, p0/m, p0/m, z0.b, z1.b
    smops za3.s, p0/m, p0/m, z1.b, z0.b"""
MATRIX_LOOPS = {
    "2 ld1b, 4 outer products of bytes": PRODUCTS,
    "8 smopa of bytes": "\n    ".join(f"smopa za{n % 4}.s, p0/m, p0/m, z0.b, z1.b"
                                      for n in range(8)),
    "8 smopa of halfwords": "\n    ".join(f"smopa za{n}.d, p0/m, p0/m, z0.h, z1.h"
                                          for n in range(8)),
}
MATRIX_TURNS = {128: 200_000, 512: 100_000, 2048: 20_000}
UNLISTED = 0x1E604000
FILE_SIZE = 67_108_864
WORDS = 4_000_000
LINES = 400_000


def emulator(named: pathlib.Path | None = None) -> Any:
    """The emulator of this name, or the one that ./smemu runs."""
    if named is None:
        return pathlib.Path(subprocess.run([TOP / "smemu", "--which"], check=True,
                                           stdout=subprocess.PIPE, text=True).stdout.rstrip("\n"))
    if not named.is_file():
        sys.exit(f"there is no {named}")
    return named.resolve()


def best_of(command: Any, output: Any) -> Any:
    """The least time of a command whose output goes to a file."""
    times = []
    for _ in range(RUNS):
        with open(output, "wb") as out:
            start = time.perf_counter()
            subprocess.run(command, stdout=out, check=True)
            times.append(time.perf_counter() - start)
    return min(times)


def best(program: Any, path: Any, *options: Any) -> Any:
    """The least time of a run, and its report."""
    times = []
    for _ in range(RUNS):
        start = time.perf_counter()
        text = subprocess.run([program, "run", path, *options], capture_output=True,
                              text=True).stdout
        times.append(time.perf_counter() - start)
    return min(times), text


def count_of(report: Any) -> Any:
    return next(int(line.split()[1]) for line in report.splitlines() if line.startswith("count "))


def listed_words() -> Any:
    """The words of the rows, over and over."""
    lines = (TOP / "crates" / "smemu_rows" / "data" / "words.tsv").read_text().splitlines()
    words = [int(line.split("\t")[0], 16) for line in lines]
    return [words[i % len(words)] for i in range(WORDS)]


def paged(words: Any) -> Any:
    """The words, and a page of data at 0x410000."""
    text = text_of(words)
    return build([Segment(0x400000, text), Segment(0x410000, bytes(4096), flags=6)])[0]


def large(words: Any) -> Any:
    """A file of 64 MiB: the words as text, and else a symbol table, of which every fourth symbol
    says where code begins."""
    text = text_of(words)
    symbol = lambda name, value: name.to_bytes(4, "little") + bytes([0, 0, 1, 0]) + value.to_bytes(
        8, "little") + bytes(8)
    four = lambda i: symbol(1, 0x400000 + 16 * i) + symbol(4, 0) * 3
    count = (FILE_SIZE - len(text) - 4096) // 96
    table = bytes(24) + b"".join(four(i) for i in range(count))
    sections = [Section(flags=ALLOC | EXECINSTR, address=0x400000, size=len(text)),
                Section(SYMTAB, data=table, link=3, entry_size=24),
                Section(STRTAB, data=b"\0$x\0name\0")]
    file = build([Segment(0x400000, text)], sections)[0]
    return file + bytes(FILE_SIZE - len(file))


def source_of(count: Any) -> Any:
    """So many lines of mixed instructions, every eighth with a label and a branch to it or to an
    earlier one."""
    texts = [line.split("\t")[1]
             for line
             in (TOP / "crates" / "smemu_rows" / "data" / "words.tsv").read_text().splitlines()]
    lines = ["    .text", "_start:"]
    for i in range(count - 2):
        lines.append(f"label{i}: b.ne label{max(i - 64, 0) // 8 * 8}" if i % 8 == 0
                     else f"    {texts[i % len(texts)]}")
    return "\n".join(lines) + "\n"


def vector_source(lines: Any, turns: Any = VECTOR_TURNS, first: Any = "ptrue p1.s, all") -> Any:
    """So many turns of a loop of these lines, `subs` and `b.ne`, after the first lines."""
    return f"""    .text
_start:
    movz x3, #{turns & 0xFFFF}
    movk x3, #{turns >> 16}, lsl #16
    adr x1, page
    {first}
next:
    {lines}
    subs x3, x3, #1
    b.ne next
    mov x0, #0
    mov x8, #93
    svc #0
    .data
page:
    .zero 4096
"""


def matrix_source(lines: Any, turns: Any) -> Any:
    """So many turns of a loop of these lines in Streaming SVE mode with ZA on, with numbers in Z0
    and Z1."""
    return vector_source(
        lines, turns,
        "smstart\n    ptrue p0.b, all\n    index z0.b, #1, #3\n    index z1.b, #-5, #7")


def time_vectors(smemu: Any, folder: Any, start: Any) -> None:
    source, program = folder / "vectors.s", folder / "vectors.elf"
    for name, lines in VECTOR_LOOPS.items():
        source.write_text(vector_source(lines))
        program.write_bytes(subprocess.run([smemu, "asm", source], check=True,
                                           stdout=subprocess.PIPE).stdout)
        program.chmod(0o755)
        for vl in (128, 256, 2048):
            total, report = best(smemu, program, "--vl", str(vl))
            assert "stop exited 0" in report, report[:200]
            count = count_of(report)
            print(f"{name}, {vl} bits: {count} instructions in {total:.3f} "
                  f"s, {count / (total - start) / 1e6:.1f} million a second")
            if shutil.which("qemu-aarch64"):
                taken = best_of(["qemu-aarch64", "-cpu",
                                 f"max,sve-max-vq={vl // 128},sve-default-vector-length={vl // 8}",
                                 program], folder / "qemu")
                print(f"qemu-aarch64, {vl} bits: {taken:.3f} s, {count / taken / 1e6:.1f} "
                      f"million a second")


def time_matrices(smemu: Any, folder: Any, start: Any) -> None:
    source, program = folder / "matrices.s", folder / "matrices.elf"
    for name, lines in MATRIX_LOOPS.items():
        for svl, turns in MATRIX_TURNS.items():
            source.write_text(matrix_source(lines, turns))
            program.write_bytes(subprocess.run([smemu, "asm", source], check=True,
                                               stdout=subprocess.PIPE).stdout)
            total, report = best(smemu, program, "--svl", str(svl))
            assert "stop exited 0" in report, report[:200]
            count = count_of(report)
            products = turns * lines.count("mop")
            print(f"{name}, {svl} bits: {count} instructions in {total:.3f} "
                  f"s, {count / (total - start) / 1e6:.2f} million a second, "
                  f"{1e6 * (total - start) / products:.2f} us a product with its share "
                  f"of the rest")


def time_sources(smemu: Any, folder: Any) -> None:
    source, program, other, listing = (folder / name
                                       for name
                                       in ("source.s", "program.elf", "other.o", "listing"))
    assemblers = [[tool, "-march=armv9-a+sme", "-o", other, source]
                  for tool in ("aarch64-linux-gnu-as",) if shutil.which(tool)]
    disassemblers = [[tool, "-d", program] for tool in ("llvm-objdump", "aarch64-linux-gnu-objdump")
                     if shutil.which(tool)]
    for count in (LINES // 2, LINES):
        source.write_text(source_of(count))
        taken = best_of([smemu, "asm", source], program)
        print(f"smemu asm: {count} lines in {taken:.3f} s, {count / taken / 1e6:.2f} "
              f"million a second")
        for command in assemblers:
            taken = best_of(command, listing)
            print(f"{command[0]}: {count} lines in {taken:.3f} "
                  f"s, {count / taken / 1e6:.2f} million a second")
        for command in [[smemu, "dis", program], *disassemblers]:
            taken = best_of(command, listing)
            name = "smemu dis" if command[0] == smemu else command[0]
            print(f"{name}: {count} words in {taken:.3f} s, {count / taken / 1e6:.2f} "
                  f"million a second")


def main() -> None:
    asked = argparse.ArgumentParser(description=__doc__.partition("\n\n")[0])
    asked.add_argument("program", nargs="?", type=pathlib.Path, metavar="PROGRAM")
    smemu = emulator(asked.parse_args().program)
    answer = subprocess.run([smemu, "asm", TOP / "examples" / "answer.s"], check=True,
                            stdout=subprocess.PIPE).stdout
    with tempfile.TemporaryDirectory() as folder:
        path = pathlib.Path(folder) / "program.elf"
        path.write_bytes(answer)
        start, _ = best(smemu, path)
        print(f"start to report: {1000 * start:.1f} ms")
        for name, file in (("subs, b.ne", elf(GROWN)), ("add, eor, madd, subs, b.ne", elf(MIXED)),
                           ("ldr, add, str, subs, b.ne", paged(ACCESSES))):
            path.write_bytes(file)
            total, report = best(smemu, path)
            count = count_of(report)
            print(f"{name}: {count} instructions in {total:.3f} "
                  f"s, {count / (total - start) / 1e6:.1f} million a second")
        time_vectors(smemu, pathlib.Path(folder), start)
        time_matrices(smemu, pathlib.Path(folder), start)
        words = listed_words()
        path.write_bytes(elf(words + [UNLISTED]))
        whole, text = best(smemu, path)
        assert text.startswith("bad file: unlisted")
        path.write_bytes(elf([UNLISTED] + words))
        none, text = best(smemu, path)
        assert text.startswith("bad file: unlisted")
        first = [0xD2800BA8, 0xD4000001]  # movz x8, #93; svc #0
        path.write_bytes(large(first + words))
        time_loaded, text = best(smemu, path)
        assert "stop exited 0" in text, text[:80]
        path.write_bytes(large(first + words + [UNLISTED]))
        refused, text = best(smemu, path)
        assert text.startswith("bad file: unlisted")
        print(f"64 MiB: {time_loaded:.3f} s from start to report, of "
              f"which {time_loaded - start:.3f} s are the file's; {refused:.3f} "
              f"s to the last check that fails")
        print(f"decoder: {WORDS} words in {whole - none:.3f} "
              f"s, {WORDS / (whole - none) / 1e6:.1f} million a second")
        time_sources(smemu, pathlib.Path(folder))

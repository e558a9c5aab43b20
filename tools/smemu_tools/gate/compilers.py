"""Tells which options of compilers make programs that smemu runs: the table of docs/FROM_C.md.

    tools/smemu-tools compilers [--qemu QEMU] [--smemu SMEMU] [--kind scalar|vector|stream]
    [--compiler NAME] [--words] [--jobs N]

Compiles each routine of bench/c by each compiler that is installed and each set of options, and
links it alone. A program counts as loaded where `smemu dis` takes it; one that is loaded runs at
128, 512 and 2048 bits, and its output and its exit status are compared with those of QEMU (10 for
streaming code). With --words the mnemonics of the words that were refused follow, with the number
of programs.
"""
from __future__ import annotations

import argparse
import collections
import concurrent.futures
import os
import pathlib
import re
import shutil
import subprocess
import sys
import tempfile
from typing import Any

from smemu_tools import TOOL, TOP

SOURCES = TOP / "bench" / "c"
CLANG, GCC = ("clang-19", "--target=aarch64-linux-gnu"), ("aarch64-linux-gnu-gcc",)
GCC_14 = ("aarch64-linux-gnu-gcc-14",)
LINKERS = {CLANG: "ld.lld-19", GCC: "aarch64-linux-gnu-ld", GCC_14: "aarch64-linux-gnu-ld"}
ALWAYS = "-ffreestanding -fno-pic -w"
GCCS = (GCC, GCC_14)
ALL = (CLANG, *GCCS)
SETS = [
    ("scalar", ALL, "-O2"),
    ("scalar", ALL, "-O3 -march=armv8.1-a+sve2"),
    *(("scalar", ALL, f"-{level} -march=armv8.1-a -mgeneral-regs-only")
      for level in ("O0", "O1", "O2", "O3", "Os")),
    ("scalar", (CLANG,), "-O2 -march=armv8.1-a+sve2 -mno-implicit-float"),
    ("scalar", GCCS, "-O2 -march=armv8.1-a+sve2 -fno-tree-vectorize"),
    ("scalar", ALL, "-O2 -march=armv8-a -mgeneral-regs-only"),
    ("scalar", ALL, "-O2 -march=armv9-a -mgeneral-regs-only"),
    ("scalar", (CLANG, GCC_14), "-O2 -march=armv9.4-a -mgeneral-regs-only"),
    ("vector", ALL, "-O2 -march=armv8.1-a+sve2"),
    ("vector", (CLANG,), "-O2 -march=armv8.1-a+sve2 -mno-implicit-float"),
    ("vector", GCCS, "-O2 -march=armv8.1-a+sve2 -fno-tree-vectorize"),
    ("vector", (CLANG,), "-O2 -march=armv8.1-a+sve2 -mno-implicit-float -DINSTEAD"),
    ("vector", GCCS, "-O2 -march=armv8.1-a+sve2 -fno-tree-vectorize -DINSTEAD"),
    ("stream", (CLANG,), "-O2 -march=armv9-a+sme -DCALLED=0"),
    ("stream", (CLANG,), "-O2 -march=armv9-a+sme -DCALLED=1 -mno-implicit-float"),
    ("stream", (CLANG,), "-O2 -march=armv8.1-a+sme+sme-i16i64 -DCALLED=1"),
    *(("stream", (compiler,), f"-{level} -march=armv8.1-a+sve2+sme+sme-i16i64 {own} {form}")
      for compiler, own in ((CLANG, "-mno-implicit-float"), (GCC_14, "-fno-tree-vectorize"))
      for form in ("-DCALLED=0", "-DCALLED=1", "-DCALLED=1 -DINSTEAD", "-DCALLED=0 -DINSTEAD -DFILTERED")
      for level in ("O0", "O1", "O2", "O3", "Os")),
]


def said(*words: Any) -> Any:
    return subprocess.run(words, capture_output=True, text=True)


def refused_words(smemu: Any, program: Any) -> Any:
    """The mnemonics of the words that are refused."""
    lines = said(sys.executable, str(TOOL), "refused", program, "--smemu",
                 smemu).stdout.splitlines()
    return [line.split(": ", 1)[1].split()[0] for line in lines if line.startswith("0x")]


def compiled(name: Any, compiler: Any, options: Any, source: Any, number: Any) -> Any:
    """Makes NAME.o of a routine, with FILTERED without the saves of d8 to d15."""
    command = [*compiler, *ALWAYS.split(), *options.split(), f"-DROUTINE={number}"]
    if "FILTERED" not in options:
        return not said(*command, "-c", str(source), "-o", f"{name}.o").returncode
    made = said(*command, "-S", str(source), "-o", "-")
    filtered = subprocess.run([str(TOP / "examples/c/mode_saves.py")], input=made.stdout,
                              capture_output=True, text=True)
    pathlib.Path(f"{name}.s").write_text(filtered.stdout)
    march = re.search(r"-march=\S+", options)[0]
    return not made.returncode and not said(*compiler, march, "-c", f"{name}.s", "-o",
                                            f"{name}.o").returncode


def trial(asked: Any, folder: Any, kind: Any, compiler: Any, options: Any, number: Any) -> Any:
    """What became of a routine: a word, and the mnemonics that were refused."""
    name = f"{folder}/{kind}-{number}-{abs(hash((compiler, options)))}"
    if not compiled(name, compiler, options, SOURCES / f"{kind}.c", number):
        return "not compiled", []
    objects = [f"{folder}/start.o", f"{name}.o",
               *[f"{folder}/{it}.o" for it in ("za", "sc") if kind == "stream"]]
    if said(LINKERS[compiler], "-static", "--gc-sections", "-z", "max-page-size=4096", "-o", name,
            *objects).returncode:
        return "not linked", []
    if said(asked.smemu, "dis", name).returncode:
        return "refused", refused_words(asked.smemu, name) if asked.words else []
    for bits in (128, 512, 2048):
        ran = said(asked.smemu, "run", name, "--vl", str(bits), "--svl", str(bits)).stdout
        output = bytes.fromhex("".join(re.findall(r"^out (\w+)$", ran, re.M)))
        stop = re.search(r"^stop (.*)$", ran, re.M)[1]
        machine = f"max,sve-default-vector-length={bits // 8},sme-default-vector-length={bits // 8}"
        beside = subprocess.run([asked.qemu, "-cpu", machine, name], capture_output=True)
        if (stop, output) != (f"exited {beside.returncode}", beside.stdout):
            return (f"differs at {bits}: {stop} {output.hex()} and {beside.returncode} "
                    f"{beside.stdout.hex()}", [])
    return "as QEMU", []


def main() -> None:
    parser = argparse.ArgumentParser(description=__doc__.partition("\n\n")[0])
    parser.add_argument("--qemu", default="qemu-aarch64")
    parser.add_argument("--smemu", default=str(TOP / "smemu"))
    parser.add_argument("--kind", choices=("scalar", "vector", "stream"))
    parser.add_argument("--compiler", choices=[it[0] for it in ALL])
    parser.add_argument("--words", action="store_true")
    parser.add_argument("--jobs", type=int, default=os.cpu_count())
    asked = parser.parse_args()
    compilers = [it for it in ALL if shutil.which(it[0]) and asked.compiler in (None, it[0])]
    for words in [(it[0], "--version") for it in compilers] + [(asked.qemu, "--version"),
                                                               (asked.smemu, "--version")]:
        print(said(*words).stdout.splitlines()[0])
    counts = {kind: len(re.findall(r"ROUTINE == ", (SOURCES / f"{kind}.c").read_text()))
              for kind in ("scalar", "vector", "stream")}
    refused = collections.defaultdict(set)
    with tempfile.TemporaryDirectory() as folder, concurrent.futures.ThreadPoolExecutor(asked.jobs) as pool:
        for name in ("start", "za", "sc"):
            said(*compilers[0], "-c", str(TOP / f"examples/c/{name}.s"), "-o", f"{folder}/{name}.o")
        for kind, having, options in (it for it in SETS if asked.kind in (None, it[0])):
            for compiler in (it for it in having if it in compilers):
                numbers = range(1, counts[kind] + 1)
                found = list(pool.map(lambda number: trial(asked, folder, kind, compiler, options,
                                                           number), numbers))
                linked = [it for it in found if not it[0].startswith("not")]
                runs = [it for it in found if it[0] == "as QEMU"]
                print(f"| {kind} | {compiler[0]} | `{options}` | {len(runs)} of {len(linked)} |",
                      flush=True)
                for number, (word, mnemonics) in zip(numbers, found):
                    if word not in ("as QEMU", "refused"):
                        print(f"  {kind} {number}: {word}")
                    for mnemonic in mnemonics:
                        refused[mnemonic].add((kind, compiler, options, number))
    for mnemonic, programs in sorted(refused.items(), key=lambda it: (-len(it[1]), it[0])):
        print(f"{mnemonic} {len(programs)}")

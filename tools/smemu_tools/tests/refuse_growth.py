"""Refuses the emulator each growth of its memory in turn, and looks at how each run ends: with
status 8 or as without refusals.

    tools/smemu-tools refuse-growth [--seconds N] [--sample N] [PROGRAM [NAME ..]]

PROGRAM is the emulator, as ./smemu --which names it where it is not given. NAME is a command of
CASES, below; all where none is given. A growth is a call of malloc or realloc that the program
itself makes. Of each command the first is refused, then the second, and so on until a run makes no
more of them; and so again, where each growth after the refused one is refused too. A run that is
refused a growth writes nothing and ends with status 8, `debug` perhaps after answers of earlier
commands; or it ends and writes as it does otherwise. One that takes more than N seconds, 60 if not
given, hangs. `--sample` is for the gate: it tries N growths of each command, from the first to the
last, and none where there is no compiler.

A library of some lines of C, which gcc or clang makes in a temporary folder, is preloaded to
refuse. The last line says how many runs there were; the status is 1 where one of them was wrong.
"""
from __future__ import annotations

import argparse
import mmap
import os
import pathlib
import shutil
import struct
import subprocess
import sys
import tempfile
from typing import Any

from smemu_tools.user import emulator

LIBRARY = r"""
#define _GNU_SOURCE
#include <errno.h>
#include <fcntl.h>
#include <link.h>
#include <stdatomic.h>
#include <stdint.h>
#include <stdlib.h>
#include <sys/mman.h>

extern void *__libc_malloc(size_t);
extern void *__libc_realloc(void *, size_t);

static _Atomic uint64_t *asked;          /* how many growths the program has asked for, in a file that the script reads */
static uint64_t first, last;             /* those that are refused, counted from 1 */
static uintptr_t low, high;              /* where the program lies, whose calls are counted: those of its libraries are not */

static int see(struct dl_phdr_info *info, size_t size, void *data) {
    (void)size, (void)data;
    low = UINTPTR_MAX;
    for (int at = 0; at < info->dlpi_phnum; at++) {
        if (info->dlpi_phdr[at].p_type == PT_LOAD) {
            uintptr_t start = info->dlpi_addr + info->dlpi_phdr[at].p_vaddr;
            uintptr_t end = start + info->dlpi_phdr[at].p_memsz;
            low = start < low ? start : low;
            high = end > high ? end : high;
        }
    }
    return 1;                            /* the program is the first that is told */
}

__attribute__((constructor)) static void begin(void) {
    int file = open(getenv("REFUSE_COUNT"), O_RDWR);
    asked = mmap(0, 8, PROT_READ | PROT_WRITE, MAP_SHARED, file, 0);
    first = strtoull(getenv("REFUSE_FIRST"), 0, 10);
    last = strtoull(getenv("REFUSE_LAST"), 0, 10);
    dl_iterate_phdr(see, 0);
}

static int is_refused(void *caller) {
    uintptr_t at = (uintptr_t)caller;
    if (at < low || at >= high) return 0;
    uint64_t number = 1 + atomic_fetch_add(asked, 1);
    if (number < first || number > last) return 0;
    errno = ENOMEM;
    return 1;
}

void *malloc(size_t size) { return is_refused(__builtin_return_address(0)) ? 0 : __libc_malloc(size); }
void *realloc(void *old, size_t size) { return is_refused(__builtin_return_address(0)) ? 0 : __libc_realloc(old, size); }
"""

# Each thread handles a signal that it posts to itself, adds to a shared word of its own, writes to
# pages of its data and of its stack, uses
# vectors and ZA, and writes some output; so its block is the same on any number of cores.
SOURCE = """\
.text
.global _start
_start:
    mov x20, x0
    mov x0, #5
    adr x1, handler
    mov x8, #134
    svc #0
    mov x0, x20
    mov x1, #5
    mov x8, #131
    svc #0
    mov x2, #0x7f0000000000
    mov x3, #1
    mov x4, x20
    add x2, x2, x4, lsl #3
    mov x5, #40
again:
    ldadd x3, x4, [x2]
    subs x5, x5, #1
    b.ne again
    smstart
    ptrue p0.b, all
    index z0.b, #1, #1
    smopa za0.s, p0/m, p0/m, z0.b, z0.b
    adr x6, data
    ldr x6, [x6]
    str x3, [x6]
    str x3, [sp, #-16]!
    mov x0, #1
    mov x1, x6
    mov x2, #32
    mov x8, #64
    svc #0
    mov x8, #124
    svc #0
    mov x0, #0
    mov x8, #93
    svc #0
handler:
    mov x8, #139
    svc #0
.align 3
data: .quad values
.data
values: .zero 64
"""
PLAN = """\
fetch 0
fetch 1
run 0 30
run 1 40
offer 0
fetch 1
next 1
run 1 500
run 1 500
run 1 500
fetch 0
"""
SCRIPT = """\
where
step 20
regs
mem 0x7dfffffff000 64
break 0x400020
goto 90
za
slice s 0 h 0
back 3
where
"""

THREE = ("--threads", "3", "--slice", "1")
# of each command a name, and its words; those of files in the folder are their names
CASES = {
    "help": ("--help",),
    "asm": ("asm", "source"),
    "dis": ("dis", "program"),
    "run": ("run", "program", *THREE),
    "run, two cores": ("run", "program", *THREE, "--cores", "2"),
    "run, four cores": ("run", "program", "--threads", "6", "--slice", "7", "--cores", "4"),
    "sim": ("sim", "program", "plan", *THREE, "--cores", "2"),
    "replay": ("replay", "program", "report", "2"),
    "replay, another block": ("replay", "program", "other", "2"),
    "debug": ("debug", "program", "report", "1", "script"),
    "gen": ("gen", "7"),
    "bench": ("bench", "40"),
    "bench, two cores": ("bench", "40", "--cores", "2"),
    "no such file": ("run", "nothing"),
    "no program": ("run", "source"),
    "wrong words": ("run", "program", "--vl", "129"),
    "ckpt": ("ckpt", "program", "report", "1", "20"),
    "resume": ("resume", "program", "report", "checkpoint"),
    "abi-check": ("abi-check", "program", "report", "1"),
    "vectors": ("vectors", "vectors"),
    "vectors, two cores": ("vectors", "vectors", "--cores", "2"),
}
VECTORS = "ab010020 x1=8000000000000000\n1e604000\nd4000001\n" * 20
# a status of words that the program does not know
USAGE = 2


class Run:
    """How a run ended, what it wrote, and how many growths it asked for; the status is None where
    it hangs."""

    def __init__(self, status: int, written: bytes, growths: int) -> None:
        self.status, self.written, self.growths = status, written, growths


def compiler() -> str:
    return shutil.which("gcc") or shutil.which("clang")


class Refuser:
    """Runs the emulator in a folder, and refuses it growths."""

    def __init__(self, program: str, folder: pathlib.Path, seconds: int) -> None:
        self.program, self.folder, self.seconds = program, folder, seconds
        source = folder / "refuse.c"
        source.write_text(LIBRARY)
        subprocess.run([compiler(), "-O1", "-shared", "-fPIC", "-o", folder / "refuse.so", source],
                       check=True)
        self.count = folder / "count"
        self.count.write_bytes(bytes(8))

    def run(self, words: tuple[str, ...], first: int = 0, last: int = 0) -> Run:
        """A run that is refused the growths from the first to the last of these, counted from 1."""
        environment = {"LD_PRELOAD": str(self.folder / "refuse.so"),
                       "REFUSE_COUNT": str(self.count), "REFUSE_FIRST": str(first),
                       "REFUSE_LAST": str(last)}
        with open(self.count, "r+b") as file, mmap.mmap(file.fileno(), 8) as count:
            count[:] = bytes(8)
            try:
                ended = subprocess.run([self.program, *words], stdin=subprocess.DEVNULL,
                                       stdout=subprocess.PIPE, env=environment, cwd=self.folder,
                                       timeout=self.seconds)
                status, written = ended.returncode, ended.stdout
            except subprocess.TimeoutExpired as expired:
                status, written = None, expired.stdout or b""
            return Run(status, written, struct.unpack("<Q", count[:])[0])

    def make(self, name: str, words: tuple[str, str] | tuple[str, ...]) -> None:
        """Puts what a command writes into a file."""
        made = self.run(words)
        if made.status != 0 or not made.growths:
            sys.exit(f"{name}: the emulator ends with {made.status}, after {made.growths} "
                     f"growths that are seen")
        (self.folder / name).write_bytes(made.written)

    def make_files(self) -> None:
        for name, text in ("source", SOURCE), ("plan", PLAN), ("script", SCRIPT), ("vectors",
                                                                                   VECTORS):
            (self.folder / name).write_text(text)
        self.make("program", CASES["asm"])
        self.make("report", CASES["run"])
        # one whose block is another than the replay's
        report = (self.folder / "report").read_text()
        at = report.rindex("\noutput 32\nout 01")
        (self.folder / "other").write_text(report[:at] + "\noutput 32\nout 02" + report[at + 17:])
        (self.folder / "checkpoint").write_bytes(self.run(CASES["ckpt"]).written)


def fault(name: str, usual: Run, run: Run) -> Any:
    """What is wrong with a run that was refused a growth, or None."""
    if run.status is None:
        return "hangs"
    if (run.status, run.written) == (usual.status, usual.written):
        return None
    if run.status != 8:
        return f"ends with status {run.status} and {len(run.written)} bytes"
    if run.written and not (name == "debug" and usual.written.startswith(run.written)
                            and run.written.endswith(b"\n")):
        return f"has written {len(run.written)} bytes before it ends with status 8"
    return None


def numbers(most: int, sample: int) -> Any:
    """The growths that are refused in turn, of so many: all, or a sample."""
    if not sample or most <= sample:
        return range(1, most + 1)
    return sorted({1 + at * (most - 1) // max(1, sample - 1) for at in range(sample)})


def try_all(refuser: Refuser, name: str, words: tuple[str, ...], sample: int) -> tuple[int, int]:
    """Refuses each growth of a command, and prints what is wrong. Gives the number of runs, and of
    those that are wrong."""
    usual = refuser.run(words)
    if usual.status is None:
        print(f"{name}: hangs where nothing is refused")
        return 1, 1
    if usual.status == USAGE and name != "wrong words":
        print(f"{name}: the program does not know it")
        return 0, 0
    runs, wrong, ends = 0, 0, {}
    # threads of the system ask in another order each time, and so perhaps for a few more
    most = usual.growths + (8 if "cores" in name else 0)
    for further, said in (0, "alone"), (1 << 62, "and all after it"):
        for number in numbers(most, sample):
            run = refuser.run(words, number, max(number, further))
            runs += 1
            ends[run.status] = ends.get(run.status, 0) + 1
            found = fault(name, usual, run)
            if found:
                wrong += 1
                print(f"{name}: growth {number} of {usual.growths} refused, {said}: {found}")
    told = ", ".join(f"{count} with status {status}"
                     for status, count in sorted(ends.items(), key=str))
    print(
        f"{name}: status {usual.status} after {usual.growths} growths; of {runs} runs ended {told}",
        flush=True)
    return runs, wrong


def main() -> int:
    parser = argparse.ArgumentParser(description=__doc__,
                                     formatter_class=argparse.RawDescriptionHelpFormatter)
    parser.add_argument("--seconds", type=float, default=60)
    parser.add_argument("--sample", type=int, default=0)
    parser.add_argument("program", nargs="?")
    parser.add_argument("names", nargs="*", metavar="NAME")
    given = parser.parse_args()
    unknown = [name for name in given.names if name not in CASES]
    if unknown:
        parser.error(f"{', '.join(unknown)}: not among {', '.join(CASES)}")
    if not compiler():
        print("refuse_growth: neither gcc nor clang is there, so nothing was tried",
              file=sys.stderr)
        return 0 if given.sample else 1
    program = os.path.abspath(given.program or emulator.find())
    with tempfile.TemporaryDirectory() as folder:
        refuser = Refuser(program, pathlib.Path(folder), given.seconds)
        refuser.make_files()
        tried = [try_all(refuser, name, CASES[name], given.sample) for name in given.names or CASES]
    runs, wrong = (sum(each) for each in zip(*tried))
    print(f"{wrong} of {runs} runs are wrong")
    return 1 if wrong else 0

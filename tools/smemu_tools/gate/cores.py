"""Times runs of several guest threads on one core and on several: by the clock, the best of some
runs, and by the processor's time.

    tools/smemu-tools cores [PROGRAM]

PROGRAM is the emulator, by default the one that ./smemu runs. Four threads of a loop of scalar
instructions and of one of 12 mixed vector instructions at 512 bits, on one core and on four; two
threads on one and on two, thirty times; eight threads that add to one shared word; four threads
that end at once, which is what it costs to start workers. What else the machine does shows in the
load.
"""
from __future__ import annotations

import argparse
import os
import pathlib
import resource
import subprocess
import tempfile
import time
from typing import Any

from smemu_tools.gate.times import GROWN, TWELVE, emulator, vector_source
from smemu_tools.model.elf import elf

ENDS = """    .text
_start:
    movz x0, #0
    movz x8, #93
    svc #0
"""
ADDS = """    .text
_start:
    movz x9, #32512, lsl #32
    movz x1, #1
    movz x3, #34464
    movk x3, #1, lsl #16
next:
    ldadd x1, x2, [x9]
    subs x3, x3, #1
    b.ne next
    movz x0, #0
    movz x8, #93
    svc #0
"""
RUNS = 7


def times(program: Any, path: Any, *options: Any) -> Any:
    """By the clock and by the processor's time, of one run whose report is thrown away."""
    before = resource.getrusage(resource.RUSAGE_CHILDREN)
    start = time.perf_counter()
    subprocess.run([program, "run", path, *map(str, options)], check=True,
                   stdout=subprocess.DEVNULL)
    wall = time.perf_counter() - start
    after = resource.getrusage(resource.RUSAGE_CHILDREN)
    return wall, after.ru_utime + after.ru_stime - before.ru_utime - before.ru_stime


def best(program: Any, path: Any, *options: Any, runs: Any = RUNS) -> Any:
    """The least of each, over some runs."""
    walls, used = zip(*(times(program, path, *options) for _ in range(runs)))
    return min(walls), min(used)


def compare(program: Any, name: Any, path: Any, threads: Any, cores: Any, *options: Any) -> None:
    one, one_used = best(program, path, "--threads", threads, *options)
    more, more_used = best(program, path, "--threads", threads, "--cores", cores, *options)
    print(f"{name}: {threads} threads on one core {one:.3f} s ({one_used:.3f} "
          f"s of the processor), on {cores} {more:.3f} s " f"({more_used:.3f} "
          f"s): {one / more:.2f} times as fast")


def assembled(program: Any, folder: Any, name: Any, source: Any) -> Any:
    path = folder / f"{name}.s"
    path.write_text(source)
    made = folder / f"{name}.elf"
    made.write_bytes(subprocess.run([program, "asm", path], check=True,
                                    stdout=subprocess.PIPE).stdout)
    return made


def main() -> None:
    words = argparse.ArgumentParser(description=__doc__.partition("\n\n")[0])
    words.add_argument("program", nargs="?", type=pathlib.Path, metavar="PROGRAM")
    program = emulator(words.parse_args().program)
    print("load", *os.getloadavg())
    with tempfile.TemporaryDirectory() as name:
        folder = pathlib.Path(name)
        scalar = folder / "scalar.elf"
        scalar.write_bytes(elf(GROWN))
        vectors = assembled(program, folder, "vectors", vector_source(TWELVE))
        adds = assembled(program, folder, "adds", ADDS)
        ends = assembled(program, folder, "ends", ENDS)
        quiet = ("--slice", 100_000)
        compare(program, "subs, b.ne", scalar, 4, 4, *quiet)
        compare(program, "12 mixed vector instructions at 512 bits", vectors, 4, 4, "--vl", 512,
                *quiet)
        one = best(program, scalar, "--threads", 2, *quiet)[0]
        shares = sorted(times(program, scalar, "--threads", 2, "--cores", 2, *quiet)[0] / one
                        for _ in range(30))
        print(f"subs, b.ne: 2 threads on 2 cores take {shares[0]:.2f} "
              f"to {shares[-1]:.2f} of the {one:.3f} s on one, in 30 runs; "
              f"{sum(it < 0.6 for it in shares)} less than 0.6")
        for cores in (1, 4):
            wall, used = best(program, adds, "--threads", 8, "--cores", cores, *quiet)
            print(f"8 threads add 100,000 times to one word on {cores}: {wall:.3f} "
                  f"s ({used:.3f} s of the processor), with the report, "
                  f"{0.8 / wall:.1f} million a second")
        alone = best(program, ends, "--threads", 4, runs=30)[0]
        started = best(program, ends, "--threads", 4, "--cores", 4, runs=30)[0]
        print(f"4 threads that end at once: {1000 * alone:.2f} ms on one core, "
              f"{1000 * started:.2f} ms on four")
    print("load", *os.getloadavg())

"""Runs examples/ticket_lock.s with four threads on four cores on one processor, and looks at each
report: every thread ends with 0, and the shared words are what the rounds add up to.

    tools/smemu-tools ticket-lock [RUNS [PROGRAM]]

RUNS is 50 if not given; PROGRAM is the emulator, by default that which ./smemu --build makes. A
thread that waits for its ticket makes an event with each look, and has at most 262,144 of them:
where its core kept the processor, it would have none left before the others ran.
"""
from __future__ import annotations

import os
import pathlib
import subprocess
import tempfile
from typing import Any

from smemu_tools import TOP, parser

THREADS = 4
# as examples/ticket_lock.s has it
ROUNDS = 1_000


def report_of(program: pathlib.Path, elf: str, cores: int) -> str:
    """The report of a run, all of it on the first processor that this process may use."""
    processor = min(os.sched_getaffinity(0))
    words = [str(program), "run", elf, "--threads", str(THREADS), "--cores", str(cores)]
    done = subprocess.run(words, capture_output=True, text=True, timeout=600,
                          preexec_fn=lambda: os.sched_setaffinity(0, {processor}))
    return done.stdout


def faults(report: str) -> list[Any]:
    """What is wrong with a report."""
    lines = report.splitlines()
    stops = [line for line in lines if line.startswith("stop ")]
    words = [line for line in lines if line.startswith("w ")]
    found = [] if stops == ["stop exited 0"] * THREADS else [", ".join(stops) or report[:100]]
    if words != [f"w {word} {THREADS * ROUNDS:016x}" for word in range(3)]:
        found.append(f"the shared words are {words}")
    return found


def main() -> int:
    words = parser(__doc__)
    words.add_argument("runs", type=int, nargs="?", default=50, metavar="RUNS")
    words.add_argument("program", type=pathlib.Path, nargs="?",
                       default=TOP / "crates/smemu_cli/out/smemu_cli", metavar="PROGRAM")
    runs, program = vars(words.parse_args()).values()
    bad, most = 0, 0
    with tempfile.TemporaryDirectory() as folder:
        elf = f"{folder}/ticket_lock.elf"
        done = subprocess.run([str(program), "asm", str(TOP / "examples" / "ticket_lock.s")],
                              capture_output=True, timeout=600)
        pathlib.Path(elf).write_bytes(done.stdout)
        for cores in [1, *[THREADS] * runs]:
            report = report_of(program, elf, cores)
            wrong = faults(report)
            for it in wrong:
                print(f"{cores} cores: {it}")
            bad += bool(wrong)
            most = max(most, report.count("\ne "))
    print(f"{bad} of {runs + 1} runs are wrong; a run has at most {most} events")
    return 1 if bad else 0

"""Counts the processor's instructions for one guest instruction of some loops, by valgrind, beside
those of the released program.

    tools/smemu-tools count [--more] [--only TEXT] [PROGRAM]
    tools/smemu-tools count --check [PROGRAM]
    tools/smemu-tools count --store [PROGRAM]

PROGRAM is the emulator, by default the one that ./smemu --build makes, and where there is none the
released one. --only takes the loops of tools/smemu_tools/gate/loops.py whose names have a text, and
--more those of one vector instruction too. Each loop is run up to two budgets; the figure is the
difference of what the processor needed, for one guest instruction of the difference. So polls are
in it, and start and report are not. Other than a time it is the same whatever else the machine
does; it says nothing of waiting for memory.

--check compares the figures with those of bench/counts.txt: more than a tenth above is a fault. So
is an abi-check of more than 1.3 times what the replay of the same loop needs, where that makes no
calls; and a `break` at an address that is not met that needs, after the run that the debugger
begins with, more than 1.5 times what `run` needs. Where valgrind is not installed nothing is
compared. --store writes that file.
"""
from __future__ import annotations

import argparse
import concurrent.futures
import os
import pathlib
import re
import shutil
import subprocess
import tempfile
from typing import Any, Iterator

from smemu_tools import TOP
from smemu_tools.gate.loops import (ABI_CHECKED, ANSWERED, CHECKED, LOOPS, MORE, REPLAYED, SEARCHED,
                                    UNMET)
from smemu_tools.gate.release import BUILT, released, stated

STORED = TOP / "bench" / "counts.txt"
HEAD = ("# The processor's instructions for one guest instruction of "
        "each loop. `tools/smemu-tools count --store` writes them.\n")
# a figure may be so many times the stored one
ROOM = 1.1
# a check of marked calls may need so many times what a replay of the same loop needs, where it
# makes no calls
MOST_OF_REPLAY = 1.3
WITH_CALLS = {"bl, add, ret, subs, b.ne", "bl, ret, subs, b.ne", "adr, blr, ret, subs, b.ne",
              "a call in each 18"}
# the way to an address that is not met may need so many times what a run needs
MOST_OF_RUN = 1.5
VALGRIND = ["valgrind", "--tool=callgrind", "--callgrind-out-file=/dev/null"]


def count(*words: Any) -> Any:
    """The processor's instructions from the start of a command to its end."""
    done = subprocess.run([*VALGRIND, *map(str, words)], stdin=subprocess.DEVNULL,
                          capture_output=True, text=True, errors="replace")
    counted = re.search(r"Collected : (\d+)", done.stderr)
    if done.returncode or not counted:
        raise ValueError(f"{' '.join(map(str, words))} ended with status "
                         f"{done.returncode}: {(done.stderr or done.stdout)[-300:]}")
    return int(counted[1])


def said(program: Any, *words: Any) -> Any:
    """What the emulator writes."""
    return subprocess.run([program, *map(str, words)], check=True, stdout=subprocess.PIPE).stdout


def over_report(command: Any, budget: Any, script: Any, path: Any, report: Any) -> Any:
    """The words of a command over a report; of the debugger those of a script that stays at the
    start, or goes to an address of no instruction."""
    if command in ("debug", "break"):
        script.write_text("where\n" if command == "debug" else "break 0x0\n")
        return "debug", path, report, 0, script
    return (command, path, report, 0, *([budget - 1] if command == "ckpt" else []))


def figure(program: Any, name: Any) -> Any:
    """How many instructions of the processor a program needs for one of a loop."""
    loop, counts = {**LOOPS, **MORE}[name], []
    with tempfile.TemporaryDirectory() as folder:
        path, source, report = (pathlib.Path(folder) / part
                                for part in ("loop.elf", "loop.s", "loop.report"))
        code: Any = loop.code
        if isinstance(code, str):
            source.write_text(code)
            code = said(program, "asm", source)
        path.write_bytes(code)
        for budget in loop.budgets:
            words = ("run", path, *loop.options, "--budget", budget)
            if loop.command != "run":
                report.write_bytes(said(program, *words))
                words = over_report(loop.command, budget, source, path, report)
            counts.append(count(program, *words))
    return (counts[1] - counts[0]) / (loop.budgets[1] - loop.budgets[0])


def figures(program: Any, text: Any = "", more: Any = False) -> Any:
    """The figures of a program by the names of the loops that have a text."""
    names = [name for name in (*LOOPS, *(MORE if more else ())) if text in name]
    with concurrent.futures.ThreadPoolExecutor(len(os.sched_getaffinity(0))) as pool:
        return dict(zip(names, pool.map(lambda name: figure(program, name), names)))


def put_released(folder: Any) -> Any:
    """Puts the released program into a folder."""
    program, packed_file, _ = stated()
    path = folder / "released"
    path.write_bytes(released(program, packed_file))
    path.chmod(0o755)
    return path


def show(words: Any, program: Any, folder: Any) -> Any:
    """Prints the figures of a program beside those of the release."""
    now, before = figures(program, words.only, words.more), figures(put_released(folder),
                                                                    words.only, words.more)
    print(f"{'instructions of the processor for one of':55}{'now':>10}{'released':>10}{'ratio':>8}")
    for name in now:
        print(f"{name:55}{now[name]:10.1f}{before[name]:10.1f}{now[name] / before[name]:8.2f}")
    return 0


def limits_of(now: Any) -> Iterator[Any]:
    """What figures may be beside each other: what is measured, what it needs, and how much it may
    need."""
    for name in CHECKED:
        if name not in WITH_CALLS:
            yield name + ABI_CHECKED, now[name + ABI_CHECKED], MOST_OF_REPLAY * now[name + REPLAYED]
    yield SEARCHED + UNMET, now[SEARCHED + UNMET] - now[SEARCHED
                                                        + ANSWERED], MOST_OF_RUN * now[SEARCHED]


def check(_words: Any, program: Any, _folder: Any) -> Any:
    """Compares the figures of a program with the stored ones."""
    lines = [line.split(None, 1) for line in STORED.read_text().splitlines()
             if not line.startswith("#")]
    limits, now = {name: float(limit) for limit, name in lines}, figures(program)
    faults = [f"{name}: {'not stored' if name in now else 'no loop'}"
              for name in sorted(limits.keys() ^ now.keys())]
    for name in filter(limits.get, LOOPS):
        text = (f"{name}: {now[name]:.1f} instructions of the processor for one, and "
                f"{limits[name]:.1f} are stored")
        if now[name] > ROOM * limits[name]:
            faults.append(text)
        elif now[name] * ROOM < limits[name]:
            print(f"count: {text}; tools/smemu-tools count --store keeps that")
    for what, needed, most in limits_of(now):
        if needed > most:
            faults.append(f"{what}: {needed:.1f}, and {most:.1f} are allowed")
    for fault in faults:
        print(f"count: {fault}")
    print(f"count: {len(now)} loops, {len(faults)} at fault")
    return 1 if faults else 0


def store(_words: Any, program: Any, _folder: Any) -> Any:
    STORED.write_text(HEAD
                      + "".join(f"{found:.1f} {name}\n"
                                for name, found in figures(program).items()))
    return 0


def main() -> Any:
    words = argparse.ArgumentParser(description=__doc__.partition("\n\n")[0])
    what = words.add_mutually_exclusive_group()
    what.add_argument("--check", dest="act", action="store_const", const=check, default=show)
    what.add_argument("--store", dest="act", action="store_const", const=store)
    words.add_argument("--more", action="store_true")
    words.add_argument("--only", default="", metavar="TEXT")
    words.add_argument("program", nargs="?", type=pathlib.Path, metavar="PROGRAM")
    words = words.parse_args()
    if not shutil.which("valgrind"):
        print("count: valgrind is not there, so nothing is counted")
        return 0 if words.act is check else 1
    with tempfile.TemporaryDirectory() as name:
        folder = pathlib.Path(name)
        try:
            program = words.program or (BUILT if BUILT.is_file() else put_released(folder))
            return words.act(words, program.resolve(), folder)
        except (ValueError, OSError, subprocess.SubprocessError) as fault:
            print(f"count: {fault}")
            return 1

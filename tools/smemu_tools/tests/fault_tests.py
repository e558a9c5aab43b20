"""Tries which calls smemu za-calls tells as faults.

    tools/smemu-tools fault-tests [PROGRAM] [--all]

PROGRAM is the emulator; where it is not given it is what ./smemu runs. Of the programs of
samples/faults.tar.xz, each with one fault that plant_faults.py planted in what clang made, the
call, the function that is called and the kind are to be told, at 128, 512 and 2048 bits, and of the
unchanged one nothing; of short programs each kind, and its absence. Where clang-19 is there the
programs of samples/calls are compiled, each at one level and length or with --all at each of five
levels and three lengths, and no call of them is told.
"""
from __future__ import annotations

import argparse
import itertools
import os
import pathlib
import re
import shutil
import tarfile
import tempfile
from typing import Any

from smemu_tools import TOOL
from smemu_tools.tests import beside_tests, plant_faults
from smemu_tools.user import call_faults, counted, emulator, places, recorded, reports

LENGTHS, LEVELS = (128, 512, 2048), ("O0", "O1", "O2", "O3", "Os")
SHARING = [it for name in ("addone", "deep", "body") for it in ("--shares", name)]
# of each planted fault who calls, who is called, and what is told
TOLD = {
    "pointer-not-set": ("deep", "priv", "lost"),
    "callee-does-not-save": ("body", "priv", "lost"),
    "caller-does-not-restore": ("deep", "priv", "not restored"),
    "half-the-slices": ("deep", "priv", "few slices"),
    "za-not-turned-on": ("deep", "__arm_tpidr2_restore", "restored with ZA off"),
    "half-the-buffer": ("deep", "priv", "bad block"),
    "callee-leaves-streaming-mode": ("body", "priv", "mode"),
    "callee-changes-x19": ("body", "plain", "registers"),
    "callee-leaves-za-on": ("deep", "priv", "left on"),
    "pointer-not-cleared": ("deep", "priv", "not cleared"),
    "callee-clears-the-pointer": ("body", "plain", "left on"),
    "callee-changes-z8": ("body", "plain", "vectors"),
}
FAULT = re.compile(r"^[0-9a-f]{16} (\w+) calls (\w+): (?:saved \d+, )?([a-zA-Z ]+?) \d+",
                   re.MULTILINE)
# a change of the source of beside_tests, the words, and the kinds that are told
USED_AGAIN = ("    mov x0, #0\n    mov x8, #93",
              "    smopa za0.s, p0/m, p0/m, z0.b, z1.b\n    mov x0, #0\n    mov x8, #93")
QUIET = lambda text: [("quiet:\n", f"quiet:\n    {text}\n")]
NO_RESTORE = ("    bl restore\n", "    nop\n")
SHORT = (
    ([], [], []),
    ([USED_AGAIN], [], []),
    ([USED_AGAIN, NO_RESTORE], [], ["not restored"]),
    # nobody uses ZA again, or it is written anew
    ([NO_RESTORE], [], []),
    ([USED_AGAIN, NO_RESTORE, ("still:\n", "still:\n    zero #255\n")], [], []),
    ([USED_AGAIN, ("still:\n    msr tpidr2_el0, xzr\n", "still:\n    nop\n")], [], ["not cleared"]),
    ([("    bl private\n    smstart za\n", "    bl private\n")], [], ["not finished"]),
    (QUIET("mov x21, #7"), [], ["registers"]),
    (QUIET("mov x18, #7"), [], []),
    (QUIET("smstop sm"), [], ["mode"]),
    (QUIET("sub sp, sp, #16"), [], ["stack"]),
    (QUIET("dup z8.b, #5"), [], ["vectors"]),
    (QUIET("dup z16.b, #5"), [], []),
    (QUIET("dup z16.b, #5"), ["--vectors", "all"], ["vectors"]),
    (QUIET("ptrue p4.b, all"), [], []),
    (QUIET("ptrue p4.b, all"), ["--vectors", "all"], ["vectors"]),
    (QUIET("dup z24.b, #5\n    ptrue p3.b, all"), ["--vectors", "all"], []),
    ([("    msr tpidr2_el0, xzr\n    smstop za\n    ret\n", "    msr tpidr2_el0, xzr\n    ret\n")],
     [], ["left on"]),
    ([("    .quad 16\n", "    .quad 8\n")], [], ["few slices"]),
    ([("    .quad 16\n", "    .quad 8\n")], ["--partial"], []),
    ([("    .quad 16\n", "    .quad 0x10010\n")], [], ["bad block"]),
    ([("    .quad buffer\n", "    .quad block\n")], [], ["bad block", "not finished"]),
)


def short_kinds(tests: Any, at: Any, changes: Any, words: Any) -> Any:
    """The kinds that are told of a short program, besides what becomes of ZA."""
    source = beside_tests.CALLS
    for old, new in changes:
        assert source.count(old) >= 1, old
        source = source.replace(old, new, 1)
    program = tests.assemble(f"short{at}", source)
    said = tests.run(TOOL, "za-calls", program, tests.report(program, f"short{at}", "--svl", 128),
                     *words)
    kinds = sorted(
        set(
            re.findall(
                rf"(?m)^[0-9a-f]{{16}} calls [0-9a-f]{{16}}: ({'|'.join(call_faults.KINDS)}) \d+",
                said[1])))
    return kinds, said[0]


def try_short(tests: Any) -> None:
    """Each kind, and what is near it and no fault."""
    for at, (changes, words, wanted) in enumerate(SHORT):
        kinds, status = short_kinds(tests, at, changes, words)
        tests.check(f"{changes} {words}", [kinds, status],
                    [wanted, int(bool(wanted)) if not wanted or status in (0, 1) else 0])


def try_planted(tests: Any) -> None:
    """Each planted fault is told, and of the unchanged program nothing."""
    with tarfile.open(plant_faults.STORED) as stored:
        stored.extractall(tests.folder)
    for fault, bits in itertools.product(["unchanged", *TOLD], LENGTHS):
        program = tests.path(f"{fault}.elf")
        report = tests.report(program, fault, "--svl", bits)
        status, said = tests.run(TOOL, "za-calls", program, report, *SHARING)
        if fault == "unchanged":
            tests.check(f"unchanged at {bits}", [status, len(said.splitlines())], [0, 2])
        else:
            tests.check(f"{fault} at {bits}", [status, TOLD[fault] in FAULT.findall(said)],
                        [1, True])
    report = tests.report(tests.path("half-the-slices.elf"), "partial")
    tests.check("--partial",
                tests.run(TOOL, "za-calls", tests.path("half-the-slices.elf"), report, *SHARING,
                          "--partial")[0], 0)


def told(program: Any, report: Any) -> Any:
    """The faults of all threads that call_faults.py finds."""
    known, found = places.Places(program), []
    for block in reports.read(report).threads:
        thread = recorded.Recorded(program, report, block.number)
        found += call_faults.Checker(thread, block, counted.listing(program),
                                     known.function, lambda address: False).check()
    return list(call_faults.lines_of(found, known))


def try_compiled(tests: Any, is_all: Any) -> None:
    """No call of a program of clang is told."""
    if not shutil.which("clang-19") or not shutil.which("ld.lld-19"):
        print("fault_tests: clang-19 or ld.lld-19 is not there, so its programs "
              "are those that are stored")
        return
    for at, name in enumerate(plant_faults.PROGRAMS):
        for level in LEVELS if is_all else [LEVELS[at % len(LEVELS)]]:
            program = tests.path(f"{name}.elf")
            plant_faults.linked(name, level, plant_faults.assembly(name, level, tests.folder),
                                program, tests.folder)
            for bits in LENGTHS if is_all else [LENGTHS[at % len(LENGTHS)]]:
                options = ["--threads", 2, "--slice", 97] if name == "signals" else []
                report = tests.report(program, name, "--svl", bits, *options)
                tests.check(f"{name} of clang -{level} at {bits}", told(program, report), [])


def main() -> Any:
    parser = argparse.ArgumentParser(description=__doc__.partition("\n\n")[0])
    parser.add_argument("emulator", nargs="?", metavar="PROGRAM")
    parser.add_argument("--all", action="store_true",
                        help="each program of clang at each level and length")
    words = parser.parse_args()
    os.environ["SMEMU"] = smemu = str(pathlib.Path(words.emulator or emulator.find()).resolve())
    with tempfile.TemporaryDirectory() as folder:
        tests = beside_tests.Tests(smemu, folder)
        try_short(tests)
        try_planted(tests)
        try_compiled(tests, words.all)
    print(f"fault_tests: {tests.number} checks, {tests.faults} failed")
    return 1 if tests.faults else 0

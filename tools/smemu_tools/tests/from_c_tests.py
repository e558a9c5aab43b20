"""Tries what docs/FROM_C.md says of programs of C: the library and the routines of examples/c.

    tools/smemu-tools from-c-tests [PROGRAM]

PROGRAM is the emulator; where it is not given it is what ./smemu runs. Each function of the library
is compared with a plain one of samples/library at five lengths and in both modes, with each
compiler that is there, and what printf writes with Python's. Of the routines of AAPCS64 all
registers are looked at, of ours and of LLVM's where ROUTINES names its library. Faults that are
planted have to be told. A compiler that is not on the PATH is passed over with a line.
"""
from __future__ import annotations

import os
import pathlib
import random
import re
import shutil
import tempfile
from typing import Any

from smemu_tools import TOOL, TOP, parser
from smemu_tools.tests import beside_tests
from smemu_tools.user import emulator

LIBRARY = TOP / "examples/c/library"
SAMPLES = pathlib.Path(__file__).resolve().parent / "samples" / "library"
COMPILERS = (("clang-19", "ld.lld-19"), ("aarch64-linux-gnu-gcc", "aarch64-linux-gnu-ld"),
             ("aarch64-linux-gnu-gcc-14", "aarch64-linux-gnu-ld"))
LENGTHS = (128, 256, 512, 1024, 2048)
LONG = ("--slice", 1000000, "--budget", 100000000)
# of the library a file, a text in it and a wrong one
WRONG = (
    ("memory.c", "if ((uintptr_t)to - (uintptr_t)from >= size) return", "return"),
    ("memory.c", "part_of_page(in + at)", "svcntb()"),
    ("strings.c", "from_on(place.before)", "svptrue_b8()"),
    ("strings.c", "if (part > other) part = other", "other++"),
    ("strings.c", "if (part > most - at) part = most - at", ""),
)
# the table of samples/library/kept.s: a case, that with which its registers are compared, and the
# general registers that it may change
CASES = (
    ("nothing", 0, ()), ("nothing", 1, ()), ("nothing", 2, ()),
    ("__arm_tpidr2_save without a block", 0, range(14, 18)),
    ("__arm_tpidr2_save", 1, range(14, 18)),
    ("saved and restored", 1, (0, *range(14, 18))),
    ("__arm_za_disable with ZA off", 2, range(14, 18)),
    ("__arm_za_disable without a block", 2, range(14, 18)),
    ("__arm_za_disable", 2, range(14, 18)),
    ("__arm_sme_state with ZA off", 2, (0, 1, 16, 17, 18)),
    ("__arm_sme_state", 1, (0, 1, 16, 17, 18)),
    ("__arm_get_current_vg", 0, (0, 16, 17, 18)),
    *((f"__arm_sc_{name}", 0, range(18)) for name in ("memcpy", "memmove", "memset", "memchr")),
)
# of these the vectors and predicates too may change, but not the low halves of Z8 to Z15
CHANGE_VECTORS = range(12, 16)
# a file of the routines, a text in it, a wrong one, and the number of the case that tells it
WRONG_ROUTINES = (
    ("za.s", "ldr za[w15, 0], [x14]\n", "ldr za[w15, 0], [x14]\n        sub w16, w16, #1\n", 5),
    ("za.s", "restore:\n        cmp w15, w16\n",
     "restore:\n        add w14, w15, #1\n        cmp w14, w16\n", 5),
    ("za.s", "#0xc000000000000000", "#0x8000000000000000", 10),
    ("za.s", "cntd x0", "cntw x0", 11),
    ("za.s", "        smstop za\n", "        smstop\n", 8),
    ("sc.s", "whilelo p0.b, xzr, x3", "whilelo p0.b, xzr, x3\n        dup z9.b, w1", 15),
    ("sc.s", "mov x3, #0\n", "mov x3, #0\n        mov x19, #0\n", 12),
)


def there() -> list[tuple[str, str]]:
    """The compilers that are installed, each with its linker."""
    for pair in COMPILERS:
        if not all(shutil.which(it) for it in pair):
            print(f"not there, so nothing is compiled by it: {pair[0]}")
    return [pair for pair in COMPILERS if all(shutil.which(it) for it in pair)]


def build(tests: Any, pair: tuple[str, str], name: str, sources: list[Any], *options: str,
          library: Any = LIBRARY) -> Any:
    program = tests.path(f"{name}-{pair[0]}.elf")
    said = tests.run(library / "build.sh", *pair, program, *sources, *options)
    tests.check(f"{name} by {pair[0]}", said, (0, ""))
    return program


def outcome(tests: Any, program: Any, *options: Any) -> tuple[str, str]:
    """How the threads of a run end, and their output."""
    said = tests.run(tests.smemu, "run", program, *options)[1]
    output = bytes.fromhex("".join(re.findall(r"^out (\w+)$", said, re.M)))
    stops = re.findall(r"^stop (\w+ ?\w*)", said, re.M)
    return ", ".join(stops), output.decode(errors="replace")


def try_beside(tests: Any, pair: tuple[str, str]) -> None:
    """Each function of memory and texts beside a plain one."""
    program = build(tests, pair, "beside", [SAMPLES / "beside.c"], "-fno-builtin", "-DSTACK=65536")
    for bits in LENGTHS:
        stop, output = outcome(tests, program, "--vl", bits, "--svl", bits, "--threads", 2, *LONG)
        rounds = re.findall(r"^(\w+) (\d+) of (\d+)$", output, re.M)
        wrong = [name for name, right, of in rounds if right != of or int(of) < 100]
        tests.check(f"beside plain ones, by {pair[0]} at {bits}", (stop, len(rounds), wrong),
                    ("exited 0, exited 0", 38, []))


def try_faults(tests: Any, pair: tuple[str, str]) -> None:
    """A fault in the library is told."""
    for number, (file, text, wrong) in enumerate(WRONG):
        library = tests.path(f"wrong-{number}") / "library"
        shutil.copytree(LIBRARY.parent, library.parent)
        source = (library / file).read_text()
        tests.check(f"there in {file}: {text}", text in source, True)
        (library / file).write_text(source.replace(text, wrong))
        program = build(tests, pair, f"wrong-{number}", [SAMPLES / "beside.c"], "-fno-builtin",
                        "-DSTACK=65536", "-w", library=library)
        # it exits with how many functions differ
        tests.check(f"told: {wrong!r} for {text}",
                    outcome(tests, program, "--vl", 256, *LONG)[0] != "exited 0", True)


def conversions() -> Any:
    """Calls of printf, each with what Python says that it writes."""
    rng = random.Random(63)
    for _ in range(150):
        width = rng.choice(("", "", "1", "7", "12"))
        precision = rng.choice(("", "", ".0", ".3", ".9"))
        kind = rng.choice("dduxXos")
        if kind == "s":
            text = rng.choice(("", "a", "abc", "a longer text"))
            form = f"{rng.choice(('', '-'))}{width}{precision}s"
            yield f'"[%{form}]\\n", "{text}"', f"[%{form}]" % text
            continue
        flags = "".join(it for it in "-+ 0#" if not rng.randrange(4))
        if kind not in "d":
            flags = flags.replace("+", "").replace(" ", "")
        if kind not in "xX":
            flags = flags.replace("#", "")
        if "-" in flags or precision:
            flags = flags.replace("0", "")
        if precision == ".0" or "#" in flags:
            precision = ""
        size, bits = rng.choice((("hh", 8), ("h", 16), ("", 32), ("l", 64), ("ll", 64), ("z", 64)))
        number = rng.getrandbits(64) >> rng.randrange(64)
        held = number & (1 << bits) - 1
        shown = held - (held >> bits - 1 << bits) if kind == "d" else held
        if "#" in flags and not shown:
            continue
        argument = f"(int){number & 0xFFFFFFFF}u" if bits < 64 else f"{number}ul"
        form = f"{flags}{width}{precision}"
        yield f'"[%{form}{size}{kind}]\\n", {argument}', f"[%{form}{kind}]" % shown


def try_print(tests: Any, pair: tuple[str, str]) -> None:
    """What printf writes, and snprintf cut to each size."""
    calls = [*conversions(),
             ('"%c%c%%%5c|%-3c|\\n", 65, 66, 67, 68', "AB%    C|D  |"),
             ('"%*d|%-*d|%.*s\\n", 5, 42, 4, 7, 2, "xyz"', "   42|7   |xy"),
             ('"%d %d\\n", (int)0x80000000, 0x7fffffff', f"{-2**31} {2**31 - 1}"),
             ('"%ld\\n", (long)(1ul << 63)', f"{-2**63}"),
             ('"%#o %.0d %p\\n", 8, 0, (void *)4096', "010  0x1000")]
    long = "a text of more than two hundred and fifty-six bytes " * 11
    lines = [f"    printf({call});" for call, _ in calls]
    source = tests.path("print.c")
    source.write_text("\n".join((
        "#include <stdio.h>", "int main(void) {", *lines, f'    printf("%s\\n", "{long}");',
        "    char part[8];", "    for (unsigned size = 0; size < 8; size++) {",
        "        part[0] = 0;",
        '        printf("%d ", snprintf(part, size, "%d", 12345));', "        puts(part);",
        "    }", "    return 0;", "}", "")))
    program = build(tests, pair, "print", [source], "-Wno-format")
    cut = [f"5 {'12345'[:max(0, size - 1)]}" for size in range(8)]
    tests.check(f"printf by {pair[0]}",
                outcome(tests, program, *LONG)[1].split("\n"),
                [*(text for _, text in calls), long, *cut, ""])


def try_heap(tests: Any, pair: tuple[str, str]) -> None:
    program = build(tests, pair, "heap", [SAMPLES / "heap.c"], "-fno-builtin", "-DHEAP=65536")
    for bits in LENGTHS:
        tests.check(f"heap and sorts by {pair[0]} at {bits}",
                    outcome(tests, program, "--vl", bits, *LONG)[0], "exited 0")


def try_threads(tests: Any, pair: tuple[str, str]) -> None:
    """Without the lock or the barrier a count is lost in one of five orders at least."""
    lost = {"0", "1"}
    for option, wanted in (("-DLOCK", {"0"}), ("-DNOLOCK", lost), ("-DNOMEETING", lost)):
        program = build(tests, pair, "threads", [SAMPLES / "threads.c"], option)
        stops = set()
        for slice_ in (1, 3, 7, 50, 1000):
            said = tests.run(tests.smemu, "run", program, "--threads", 4, "--slice", slice_)[1]
            stops |= set(re.findall(r"^stop exited (\d+)$", said, re.M))
        tests.check(f"threads by {pair[0]}, {option}", stops, wanted)


def link_routines(tests: Any, pair: tuple[str, str], folder: Any) -> Any:
    """The program of kept.s and the routines of this folder, or nothing where it does not link."""
    compiler = [pair[0], *["--target=aarch64-linux-gnu"] * ("clang" in pair[0])]
    work = tests.path("routines")
    work.mkdir(exist_ok=True)
    tests.run(*compiler, "-c", SAMPLES / "kept.s", "-o", work / "kept.o")
    status, names = tests.run(folder / "routines.sh", pair[0], work)
    program = tests.path("kept.elf")
    said = tests.run(pair[1], "-static", "-z", "max-page-size=4096", "-o", program,
                     work / "kept.o", *names.split())
    tests.check(f"the routines of {folder.name}", (status, *said), (0, 0, ""))
    return program


def registers(tests: Any, program: Any, bits: int) -> Any:
    """Of each thread the lines of its report by their first words, as `x 3` and `za 12`."""
    said = tests.run(tests.smemu, "run", program, "--threads", 2 * len(CASES), "--vl", bits,
                     "--svl", bits, "--slice", 1000000)[1]
    blocks = []
    for block in re.findall(r"^thread \d+\n(.*?)^end-thread", said, re.M | re.S):
        lines = [line.split() for line in block.splitlines()]
        blocks.append({" ".join(line[:-1]) if line[0] in ("x", "z", "p", "za") else line[0]:
                       line[-1] for line in lines})
    return blocks


def low_halves(held: Any) -> Any:
    """What the base rules keep of vectors, whose first digits are those of the first elements."""
    return {name: text[:16] for name, text in held.items()
            if name in {f"z {number}" for number in range(8, 16)}}


def kept_faults(tests: Any, program: Any, bits: int) -> Any:
    """The cases whose routine changes what it is to keep, or does not answer what it is to."""
    blocks = registers(tests, program, bits)
    faults = set()
    for number, (_, beside, changed) in enumerate(CASES):
        for mode in (0, 1):
            here, there = dict(blocks[2 * number + mode]), dict(blocks[2 * beside + mode])
            if number in (6, 7, 8) and here["svcr"] != str(mode):
                faults.add(number)
            wanted = {9: (3 << 62 | mode, 0), 10: (3 << 62 | 2 | mode, int(here["tpidr2"], 16)),
                      11: (bits // 64,)}.get(number, ())
            if wanted != tuple(int(here.get(f"x {at}", "0"), 16) for at in range(len(wanted))):
                faults.add(number)
            if here["stop"] != there["stop"]:
                faults.add(number)
            if number in CHANGE_VECTORS and low_halves(here) != low_halves(there):
                faults.add(number)
            ignored = {"count", "turns", "nzcv", "memory", *(f"x {at}" for at in changed)}
            if number == 5:
                ignored.add("tpidr2")
            if number in CHANGE_VECTORS:
                ignored |= {f"{kind} {at}" for kind in "zp" for at in range(32)}
            if any(here.get(it) != there.get(it) for it in {*here, *there} - ignored):
                faults.add(number)
    return sorted(faults)


def try_routines(tests: Any, pair: tuple[str, str]) -> None:
    """The routines keep what they are to keep, in both modes, ours and LLVM's."""
    named = os.environ.get("ROUTINES", "")
    for library in ["", *[named] * bool(named)]:
        tests.environment["ROUTINES"] = library
        program = link_routines(tests, pair, TOP / "examples/c")
        for bits in LENGTHS:
            tests.check(f"registers at {bits}, by {library or 'za.s'}",
                        kept_faults(tests, program, bits), [])
    tests.environment["ROUTINES"] = ""
    for number, (file, text, wrong, case) in enumerate(WRONG_ROUTINES):
        folder = tests.path(f"routines-{number}")
        shutil.copytree(TOP / "examples/c", folder, ignore=shutil.ignore_patterns("library"))
        source = (folder / file).read_text()
        tests.check(f"there in {file}: {text}", text in source, True)
        (folder / file).write_text(source.replace(text, wrong))
        tests.check(f"told: {wrong!r} in {file}",
                    case in kept_faults(tests, link_routines(tests, pair, folder), 256), True)


def try_rows(tests: Any, pair: tuple[str, str]) -> None:
    """What is to be written for instructions that are not listed is right at each length, and
    `refused` names it for each of them."""
    source = TOP / "bench/c/rows.c"
    program = build(tests, pair, "rows", [source], "-DINSTEAD", "-w")
    for bits in LENGTHS:
        tests.check(f"rows by {pair[0]} at {bits}", outcome(tests, program, "--vl", bits)[0],
                    "exited 0")
    said = tests.run(TOOL, "refused", build(tests, pair, "unlisted", [source], "-w"))[1]
    told = dict(re.findall(r"^([a-z]\w*) \d+: (.*)$", said, re.M))
    tests.check(f"told of each mnemonic by {pair[0]}",
                (sorted(set(re.findall(r"^0x\w+ 0x\w+ \w+: (\w+)", said, re.M)) - {*told}),
                 len(told) > 10), ([], True))


# a function of float that nobody calls, and one that main calls where CALLED is there
FLOATS = """float twice(float x) { return x + x; }
int main(void) {
#ifdef CALLED
    volatile float x = 2;
    return (int)twice(x);
#endif
    return 5;
}
"""


def try_floats(tests: Any, pair: tuple[str, str]) -> None:
    """A function of float does no harm where it is not called, by the options of the page."""
    source = tests.path("floats.c")
    source.write_text(FLOATS)
    options = ("-mabi=aapcs-soft", "-march=armv8.1-a+nofp+nosimd", "-ffunction-sections")
    command = (pair[0], "--target=aarch64-linux-gnu", "-O2", "-ffreestanding", "-fno-pic")
    for called, wanted in ((), (0, "exited 5")), (("-DCALLED",), (1, "")):
        tests.run(*command, *options, *called, "-c", source, "-o", tests.path("floats.o"))
        tests.run(*command, "-c", TOP / "examples/c/start.s", "-o", tests.path("start.o"))
        program = tests.path("floats.elf")
        status, _ = tests.run(pair[1], "-static", "--gc-sections", "-o", program,
                              tests.path("start.o"), tests.path("floats.o"))
        stop = "" if status else outcome(tests, program)[0]
        tests.check(f"float by {pair[0]} {called}", (status, stop), wanted)


# what samples/library/modes.c writes, by hand
MODES = "21 10\n22\n34\n7 13\n13\n108 10 9\n"


def try_modes(tests: Any, pair: tuple[str, str], levels: Any = ("O2",)) -> None:
    """Functions that change the mode by the compiler's own code; without the filter they are
    refused."""
    for level in levels:
        program = build(tests, pair, "modes", [SAMPLES / "modes.c"], f"-{level}")
        for bits, other in ((128, 128), (256, 512), (2048, 128), (128, 2048)):
            tests.check(f"modes by {pair[0]} -{level} at {bits} and {other}",
                        outcome(tests, program, "--vl", bits, "--svl", other), ("exited 0", MODES))
    folder = tests.path("unfiltered")
    shutil.copytree(TOP / "examples/c", folder)
    (folder / "mode_saves.py").write_text("#!/bin/sh\nexec cat\n")
    program = build(tests, pair, "unfiltered", [SAMPLES / "modes.c"], library=folder / "library")
    tests.check(f"refused without the filter, of {pair[0]}",
                tests.run(tests.smemu, "run", program)[1].startswith("bad file: unlisted"), True)
    shutil.rmtree(folder)


def main() -> int:
    words = parser(__doc__)
    words.add_argument("program", nargs="?", metavar="PROGRAM")
    smemu = words.parse_args().program or emulator.find()
    os.environ["SMEMU"] = smemu = str(pathlib.Path(smemu).resolve())
    with tempfile.TemporaryDirectory() as folder:
        tests = beside_tests.Tests(smemu, folder)
        for number, pair in enumerate(there()):
            try_beside(tests, pair)
            try_print(tests, pair)
            try_heap(tests, pair)
            try_rows(tests, pair)
            if pair[0] != "aarch64-linux-gnu-gcc":  # version 12, which knows no streaming code
                try_modes(tests, pair)
            if not number:
                try_routines(tests, pair)
                if "clang" in pair[0]:
                    try_floats(tests, pair)
                try_threads(tests, pair)
                try_faults(tests, pair)
    print(f"from_c_tests: {tests.number} checks, {tests.faults} failed")
    return 1 if tests.faults else 0

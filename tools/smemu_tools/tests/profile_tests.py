"""Tries smemu profile.

    tools/smemu-tools profile-tests [PROGRAM]

PROGRAM is the emulator; where it is not given it is what ./smemu runs. How often each instruction
is executed follows from the sources, and is compared with QEMU's log of execution where
qemu-aarch64 and clang-19 are on the PATH; what the trace says is made good on the first registers
and memory, which then have to be those of the report. callgrind_annotate and Chromium read what is
written for them, where they are there.
"""
from __future__ import annotations

import collections
import json
import os
import pathlib
import re
import shutil
import subprocess
import tempfile
from typing import Any

from smemu_tools import TOOL, TOP, parser
from smemu_tools.tests import beside_tests
from smemu_tools.user import emulator, profile_page, reports

PROFILE = TOOL, "profile"
BASE = 0x400000

# a function of a loop that is called from two places, one that is reached by a jump, one that calls
# itself, and one that is never called
NEST = """
    .text
    .global _start
_start:
    mov x19, #3
again:
    mov x0, #4
    bl loop
    subs x19, x19, #1
    b.ne again
    mov x0, #5
    bl hop
    mov x0, #6
    bl deep
    mov x0, #0
    mov x8, #93
    svc #0
loop:
    sub x0, x0, #1
    cbnz x0, loop
    ret
hop:
    b loop
deep:
    cbz x0, out
    sub sp, sp, #16
    str x30, [sp]
    sub x0, x0, #1
    bl deep
    ldr x30, [sp]
    add sp, sp, #16
out:
    ret
idle:
    add x0, x0, #1
    bl loop
    ret
"""
# how often each instruction of it is executed, in order
NEST_COUNTS = [1, *[3] * 4, *[1] * 7, *[3 * 4 + 5] * 2, 3 + 1, 1, 7, *[6] * 6, 7, 0, 0, 0]
PLACES = {"_start": 0, "loop": 12, "hop": 15, "deep": 16, "idle": 24}
# of each stack its instructions: a jump to another function is in the place of the one that jumped
NEST_STACKS = {"_start": 1 + 3 * 4 + 7, "_start;loop": 3 * (2 * 4 + 1) + 2 * 5 + 1, "_start;hop": 1,
               **{";".join(["_start", *["deep"] * depth]): 8 if depth < 7 else 2
                  for depth in range(1, 8)}}
LINES = re.compile(r"^ +(\d+) +[\d.]+%  (.*)", re.MULTILINE)


def name_of(text: str) -> str:
    """A stack of a program without names, where a function is its address."""
    return ";".join(f"{BASE + 4 * PLACES[it]:016x}" for it in text.split(";"))


class Profile:
    """What the script says of a program and its report."""

    def __init__(self, tests: Tests, program: pathlib.Path, report: pathlib.Path,
                 *words: int) -> None:
        self.tests, self.words = tests, (*PROFILE, program, report, *words)

    def said(self, *words: int | str) -> str:
        status, text = self.tests.run(*self.words, *words)
        self.tests.check(f"the status of {words}", (status, text if status else ""), (0, ""))
        return text

    def rows(self, by: str) -> dict[str, int]:
        """The names of a table and their counts."""
        return {name: int(count)
                for count, name in LINES.findall(self.said("--by", by, "--most", 0))}

    def addresses(self) -> dict[int, int]:
        return {int(name[:16], 16): count for name, count in self.rows("address").items()}


def sums(tests: Tests, program: pathlib.Path, report: pathlib.Path, *threads: list[int]) -> None:
    """Each table and each file has as many instructions as the report, of one thread and of all."""
    there = [it.count for it in reports.read(report).threads]
    for thread in threads or [[]]:
        wanted, told = sum(there) if not thread else there[thread[0]], Profile(tests, program,
                                                                               report, *thread)
        for by in ("function", "line", "address"):
            tests.check(f"the sum by {by} of {program.name} {thread}", sum(told.rows(by).values()),
                        wanted)
        tests.check(f"the sum of stacks of {program.name}",
                    sum(int(it.rsplit(" ", 1)[1]) for it in told.said("--folded").splitlines()),
                    wanted)
        text = told.said("--callgrind")
        tests.check(f"the sum for callgrind of {program.name}",
                    [own_cost(text), int(re.search(r"(?m)^summary: (\d+)$", text)[1])],
                    [wanted, wanted])
        page = re.search(r'id="data">(.*?)</script>', told.said("--page"))[1]
        tests.check(f"the sum of the page of {program.name}", json.loads(page)[2], wanted)


def own_cost(text: str) -> int:
    """The cost of all functions in a file of callgrind: of its lines with a cost all but those
    after a line `calls`."""
    lines = text.splitlines()
    return sum(int(line.split()[2]) for before, line in zip(lines, lines[1:])
               if line.startswith("0x") and not before.startswith("calls="))


def try_counts(tests: Tests) -> None:
    """What follows from the source, and what was not executed."""
    program = tests.assemble("nest", NEST)
    report = tests.report(program, "nest")
    told = Profile(tests, program, report)
    wanted = {BASE + 4 * at: count for at, count in enumerate(NEST_COUNTS) if count}
    tests.check("by address", told.addresses(), wanted)
    tests.check("in all", [reports.read(report).threads[0].count, told.said().splitlines()[0]],
                [sum(NEST_COUNTS), f"instructions {sum(NEST_COUNTS)}, of thread 0"])
    tests.check("stacks", dict(it.rsplit(" ", 1) for it in told.said("--folded").splitlines()),
                {name_of(name): str(count) for name, count in NEST_STACKS.items()})
    by_function = collections.Counter()
    for name, count in NEST_STACKS.items():
        by_function[name_of(name.rpartition(";")[2])] += count
    tests.check("by function", told.rows("function"), dict(by_function))
    said = told.said("--never").splitlines()
    # nothing calls it, so without names it is a part of the function before it
    tests.check("never", said,
                ["functions that were not executed: 0 of 4",
                 "lines that were not executed: 0 of 0"])
    said = told.said("--by", "address", "--most", 2).splitlines()
    tests.check("the first two", [len(said), said[-1]],
                [5,
                 f"  {sum(NEST_COUNTS) - 34:>12} "
                 f"{100 * (sum(NEST_COUNTS) - 34) / sum(NEST_COUNTS):5.1f}%  22 more"])
    text = told.said("--callgrind")
    calls = {(int(to, 16), int(site, 16)): (int(times), int(cost))
             for times, to, site, cost
             in re.findall(r"(?m)^calls=(\d+) (\w+) \d+\n(\w+) \d+ (\d+)$", text)}
    place = lambda at: BASE + 4 * at
    loop, deep = place(PLACES["loop"]), place(PLACES["deep"])
    inner = sum(count for name, count in NEST_STACKS.items() if "deep" in name)
    tests.check("calls", calls,
                {(loop, place(2)): (3, 27), (place(15), place(6)): (1, 12),
                 (deep, place(8)): (1, inner),
                 (deep, place(20)): (6, sum(inner - 8 * depth for depth in range(1, 7)))})
    if shutil.which("callgrind_annotate"):
        tests.path("nest.callgrind").write_text(text)
        printed = tests.run("callgrind_annotate", tests.path("nest.callgrind"))[1]
        tests.check("callgrind_annotate", re.findall(r"([\d,]+) .*PROGRAM TOTALS", printed),
                    [f"{sum(NEST_COUNTS)}"])
    sums(tests, program, report)
    # without a section table there is no listing, and what is executed is all that is known
    stripped = tests.path("bare.elf")
    image = bytearray(program.read_bytes())
    image[40:48], image[60:62] = bytes(8), bytes(2)
    stripped.write_bytes(image)
    bare = tests.report(stripped, "bare")
    tests.check("without a listing", Profile(tests, stripped, bare).addresses(), wanted)
    tests.check("never, without a listing", tests.run(*PROFILE, stripped, bare, "--never"),
                (2,
                 "the program has no section table, so its instructions are not known "
                 "before they are executed\n"))


def try_signals(tests: Tests) -> None:
    """The first instruction of a handler is counted at its place, and a handler is on the stack of
    what it interrupts."""
    source = (TOP / "examples/nested.s").read_text()
    for name, text in (("nested", source),
                       ("unmasked", source.replace("    bl mask_second\n", ""))):
        program = tests.assemble(name, text)
        for slice_ in (1000, 13):
            report = tests.report(program, name, "--svl", 128, "--slice", slice_)
            sums(tests, program, report)
            listed = tests.run(tests.smemu, "dis", program)[1].splitlines()
            at = Profile(tests, program, report).addresses()
            # each handler ends with the call 139, and each of the two begins and ends once
            ends = [int(before[:16], 16) for before, line in zip(listed, listed[1:])
                    if before.endswith("movz x8, #139") and " svc" in line]
            firsts = [end + 8 for end in ends[:-1]]
            tests.check(f"handlers of {name}", [at.get(it) for it in [*ends, *firsts]],
                        [1] * (2 * len(ends) - 1))
    stacks = Profile(tests, program, report).said("--folded")
    tests.check("one handler within the other",
                any(line.count(f"{it:016x}") for it in firsts for line in stacks.splitlines()
                    if line.count(";") > 1), True)


def try_threads(tests: Tests) -> None:
    program = tests.assemble("threads", (TOP / "examples/threads.s").read_text())
    report = tests.report(program, "threads", "--threads", 2, "--slice", 9, "--svl", 128)
    sums(tests, program, report, [0], [1], [])
    tests.check("stacks of threads",
                {it.partition(";")[0]
                 for it in Profile(tests, program, report).said("--folded").splitlines()},
                {"thread 0", "thread 1"})
    for words, wanted in ((["2"], "there is no thread 2: these are 0 to 1"),
                          (["--trace", "0-3"],
                           "--trace goes over one thread: name it after the report"),
                          (["0", "--trace", "14-20"],
                           "thread 0 executed 14 instructions: 0 to 13")):
        tests.check(f"refused: {words}", tests.run(*PROFILE, program, report, *words),
                    (2, f"{wanted}\n"))
    tests.check("no report", tests.run(*PROFILE, program, program)[0], 1)
    other = tests.assemble("other", "    .global _start\n_start:\n    svc #0\n")
    tests.check("another program", tests.run(*PROFILE, other, report),
                (9, "bad report: line 3: image\n"))


def try_trace(tests: Tests) -> None:
    """The changes of a trace, made good on the state before it, give the state after it."""
    for name, options in (("lost", ()), ("matmul", ()), ("nested", ("--slice", 13)), ("lazy", ()),
                          ("transpose", ())):
        program = tests.assemble(name, (TOP / f"examples/{name}.s").read_text())
        report = tests.report(program, f"{name}.trace", "--svl", 128, "--vl", 256, *options)
        thread = reports.read(report).threads[0]
        low, high = max(0, thread.count - 700), thread.count
        ask = lambda count, *more: tests.debug(program, report,
                                               [f"goto {count}", "regs", "za", *more])
        state = dict(line.rsplit(" ", 1) for line in ask(low))
        memory = {}
        said = tests.run(*PROFILE, program, report, 0, "--trace",
                         f"{low}-{high - 1}")[1].splitlines()
        for line in said:
            change = re.fullmatch(r"  (?!signal)(.*) (\w+) -> (\w+)", line)
            if change and change[1].startswith("mem "):
                start = int(change[1][4:], 16)
                memory.update((start + at, byte)
                              for at, byte in enumerate(bytes.fromhex(change[3])))
            elif change:
                held = state.get(change[1], "0")
                tests.check(f"{name}: {line}, before", held.rjust(len(change[2]), "0"), change[2])
                state[change[1]] = change[3]
        wanted = dict(line.rsplit(" ", 1) for line in ask(high))
        clean = lambda held: {key: value.lstrip("0") for key, value in held.items()
                              if key != "pc" and value.strip("0")}
        tests.check(f"{name}: the last state", clean(state), clean(wanted))
        tests.check(f"{name}: its instructions and its stop",
                    [sum(line.startswith("at ") and not line.endswith(": interrupted")
                         for line in said), said[-1]], [high - low, f"stop {thread.stop}"])
        pages = sorted({at & ~4095 for at in memory})
        now = tests.debug(program, report,
                          [f"goto {high}", *(f"mem {page:#x} 4096" for page in pages)])
        then = tests.debug(program, report,
                           [f"goto {low}", *(f"mem {page:#x} 4096" for page in pages)])
        for page, one, other in zip(pages, then, now):
            content = bytearray.fromhex(one)
            for at, byte in memory.items():
                if page <= at < page + 4096:
                    content[at - page] = byte
            # a frame of a signal is told by its address alone
            if name != "nested":
                tests.check(f"{name}: memory from {page:#x}", content.hex(), other)


def try_lines(tests: Tests) -> None:
    """Lines of a program of C, where clang is there: in the tables, in lcov's file and on the
    page."""
    if not shutil.which("clang-19") or not shutil.which("ld.lld-19"):
        return
    program = tests.path("debug.elf")
    tests.run(TOP / "examples/c/build.sh", "clang-19", "ld.lld-19", program, "-g")
    report = tests.report(program, "debug")
    sums(tests, program, report)
    told, source = Profile(tests, program,
                           report), (TOP / "examples/c/main.c").read_text().splitlines()
    # of each of nine characters each of eight bits is looked at, by as many instructions of one
    # line
    line = next(at for at, text in enumerate(source, 1) if "0xEDB88320" in text)
    count = sum(it for name, it in told.rows("line").items() if name.startswith(f"main.c:{line} "))
    tests.check("the inner loop's line", count % (9 + 90 + 0), 0)
    records = told.said("--lcov").split("end_of_record\n")[:-1]
    held = {re.search(r"(?m)^SF:.*/(.*)$", it)[1]: it for it in records}
    tests.check("files of lcov", sorted(held), ["main.c", "matrix.c", "vectors.c"])
    for name, text in held.items():
        lines = {int(number): int(it) for number, it in re.findall(r"(?m)^DA:(\d+),(\d+)$", text)}
        tests.check(f"lines of lcov of {name}",
                    [[int(it) for it in re.findall(r"(?m)^L[FH]:(\d+)$", text)],
                     max(lines) <= len((TOP / "examples/c" / name).read_text().splitlines())],
                    [[len(lines), sum(it > 0 for it in lines.values())], True])
    tests.check("calls of functions in lcov",
                sorted(re.findall(r"(?m)^FNDA:(.*)$", "".join(records))),
                ["1,brighten", "1,dot", "1,main", "1,multiply", "3,pack"])
    short = tests.path("short.c")
    short.write_text("static int twice(int x) { return 2 * x; }\nint idle(int "
                     "x) {\n    return x + 1;\n}\nint main(int x) {\n    if (x == 77)\n "
                     "       return 5;\n    return twice(x);\n}\n")
    clang = ["clang-19", "--target=aarch64-linux-gnu", "-O0", "-g", "-ffreestanding",
             "-march=armv8.1-a", "-mgeneral-regs-only"]
    tests.run(*clang, "-c", short, "-o", tests.path("short.o"))
    tests.run(*clang, "-c", TOP / "examples/c/start.s", "-o", tests.path("start.o"))
    program = tests.path("short.elf")
    tests.run("ld.lld-19", "-static", "-z", "max-page-size=4096", "-o", program,
              tests.path("start.o"), tests.path("short.o"))
    said = Profile(tests, program, tests.report(program, "short")).said("--never")
    tests.check("a function and lines that are never reached",
                [re.findall(r"(?m)^  \w{16} (.*)$", said),
                 re.findall(r"(?m)^  short.c: (.*)$", said)], [["idle short.c:2"], ["2-3, 7"]])


def try_page(tests: Tests) -> None:
    """The page has each function and its own parts, and Chromium draws each stack as wide as it
    is."""
    program, report = tests.path("nest.elf"), tests.path("nest.report")
    text = Profile(tests, program, report).said("--page")
    total = sum(NEST_COUNTS)
    loop = f"{BASE + 4 * PLACES['loop']:016x}"
    row = (f'<td class="number">38</td><td class="number">{100 * 38 / total:.1f}%</td><td '
           f'class="number">38</td>')
    tests.check("a row of the page", [row in text, text.count(loop) > 1], [True, True])
    tests.check("nothing from elsewhere", re.findall(r"(?:src|href)=|https?://", text), [])
    tests.check("no name ends the element",
                "<b>" in json.dumps(profile_page.tree({("<b>",): 1})).replace("<", "\\u003c"),
                False)
    chromium = shutil.which("chromium")
    if not chromium:
        return
    path = tests.path("nest.html")
    path.write_text(text)
    words = (chromium, "--headless", "--no-sandbox", "--disable-gpu",
             f"--user-data-dir={tests.path('data')}", "--window-size=1440,900",
             "--virtual-time-budget=2000", "--dump-dom")
    drawn = subprocess.run([*words, path.as_uri()], stdout=subprocess.PIPE,
                           stderr=subprocess.DEVNULL, text=True, timeout=60).stdout
    frames = re.findall(r'<button [^>]*style="left: ?[\d.]+px; ?width: ?([\d.]+)px;[^>]*aria-label="([^",]*), ([\d.]+)%"', drawn)
    shares = [(name, float(it)) for _, name, it in frames]
    whole = {name: sum(count for stack, count in NEST_STACKS.items() if stack.startswith(name))
             for name in ("_start;loop", "_start;deep")}
    for name, count in whole.items():
        tests.check(f"the frame of {name}",
                    (name_of(name).rpartition(";")[2], round(100 * count / total, 1)) in shares,
                    True)
    tests.check("the widths of frames",
                all(abs(float(width) / float(frames[0][0]) * 100 - float(it)) < 0.2
                    for width, _, it in frames), True)


# five routines, three with scalar instructions and two with vectors
BESIDE = (("scalar", 1), ("scalar", 6), ("scalar", 12), ("vector", 1), ("vector", 3))
OPTIONS = {"scalar": ["-march=armv8.1-a", "-mgeneral-regs-only"],
           "vector": ["-march=armv8.1-a+sve2", "-mno-implicit-float", "-DINSTEAD"]}


def try_beside_qemu(tests: Tests) -> None:
    """The count of each address is that of QEMU's log, where QEMU and clang are there."""
    qemu = os.environ.get("QEMU") or shutil.which("qemu-aarch64")
    if not qemu or not shutil.which("clang-19") or not shutil.which("ld.lld-19"):
        return
    clang = ["clang-19", "--target=aarch64-linux-gnu", "-O2", "-ffreestanding", "-fno-pic", "-w"]
    tests.run(*clang, "-c", TOP / "examples/c/start.s", "-o", tests.path("start.o"))
    for kind, number in BESIDE:
        name = tests.path(f"{kind}{number}.elf")
        tests.run(*clang, *OPTIONS[kind], f"-DROUTINE={number}", "-c", TOP / f"bench/c/{kind}.c",
                  "-o", tests.path("routine.o"))
        tests.run("ld.lld-19", "-static", "-z", "max-page-size=4096", "-o", name,
                  tests.path("start.o"), tests.path("routine.o"))
        for bits in (128, 2048):
            log = tests.path("qemu.log")
            # what a routine writes is no text
            subprocess.run([qemu, "-cpu", f"max,sve-default-vector-length={bits // 8}",
                            "-singlestep", "-d", "exec,nochain", "-D", log, name],
                           stdout=subprocess.DEVNULL)
            wanted = collections.Counter(
                int(it, 16)
                for it
                in re.findall(r"(?m)^Trace \d+: \S+ \[[0-9a-f]+/([0-9a-f]+)/", log.read_text()))
            found = Profile(tests, name, tests.report(name, "beside", "--vl", bits)).addresses()
            tests.check(f"{kind} {number} at {bits} bits, beside QEMU",
                        [found == dict(wanted), len(found) > 20], [True, True])


class Tests(beside_tests.Tests):
    """Tests that ask `debug` too."""

    def debug(self, program: pathlib.Path, report: pathlib.Path, lines: list[str]) -> list[str]:
        """What `debug` answers to the lines of a script."""
        script = self.path("asked.script")
        script.write_text("".join(f"{line}\n" for line in lines))
        return self.run(self.smemu, "debug", program, report, 0, script)[1].splitlines()


def main() -> Any:
    words = parser(__doc__)
    words.add_argument("program", nargs="?", metavar="PROGRAM")
    smemu = words.parse_args().program or emulator.find()
    os.environ["SMEMU"] = smemu = str(pathlib.Path(smemu).resolve())
    with tempfile.TemporaryDirectory() as folder:
        tests = Tests(smemu, folder)
        for test in (try_counts, try_signals, try_threads, try_trace, try_lines, try_page,
                     try_beside_qemu):
            test(tests)
    print(f"profile_tests: {tests.number} checks, {tests.faults} failed")
    return 1 if tests.faults else 0

"""Tries the command as its users have it: the wrapper over the emulator with all its words, and build systems that start programs by `smemu exec`.

    tools/smemu-tools command-tests [PROGRAM] [--only NAME]

PROGRAM is the emulator; where it is not given it is what ./smemu runs. The options that the help of a command shows are compared with those that the
emulator takes. The projects of examples/ci are built and run by CMake with CTest, Meson, lit and Cargo, as far as each is there, right ones and ones
with a fault; what is not there is said. The last line says how many checks there were; the status is 1 where one failed.
"""
from __future__ import annotations

import argparse
import collections
import itertools
import os
import pathlib
import random
import re
import shutil
import struct
import subprocess
import tempfile
import time
from typing import Any, Iterator

from smemu_tools import TOOL, TOP
from smemu_tools import verbs
from smemu_tools.tests import beside_tests, doc_tests, self_test
from smemu_tools.user import at_fault, emulator, vectors

# lit is a package of Python, or a part of Debian's llvm-19-tools
LITS = ("lit", *(f"/usr/lib/llvm-{n}/build/utils/lit/lit.py" for n in range(30, 14, -1)))


class Tests(beside_tests.Tests):
    """A folder with the wrapper over the emulator, the scripts and the examples."""

    def __init__(self, smemu: str, folder: str) -> None:
        super().__init__(smemu, folder)
        doc_tests.make_folder(self.folder, smemu)
        self.wrapper = self.path("smemu")
        self.environment = {**{name: value for name, value in os.environ.items() if name != "SMEMU"}, "PATH": f"{self.folder}:{os.environ['PATH']}"}

    def needs(self, *tools: str) -> bool:
        """Tells whether tools are there, and says of the first that is not."""
        lacking = next((tool for tool in tools if not shutil.which(tool)), None)
        if lacking:
            print(f"{lacking} is not there, so what needs it is not tried")
        return not lacking


# the words and their help


def commands_of(text: str) -> tuple[dict[str, list[str]], list[str]]:
    """Each command of the program's help, with the words that follow it, and each option."""
    commands, _, rest = text.partition("\n\n")[2].partition("\n\n")
    options = re.findall(r"(?m)^  (--\w+) [A-Z]+ ", rest)
    return {name: words.split() for name, words in re.findall(r"(?m)^  ([a-z][a-z-]*)((?: [A-Z]+)*)(?:  |$)", commands)}, options


def try_helps(tests: Tests) -> None:
    """The help of each command shows exactly the options that the emulator takes; each script has a help."""
    whole = tests.run(tests.smemu, "--help")[1]
    commands, options = commands_of(whole)
    tests.check("commands and options", [len(commands) > 10, len(options)], [True, 6])
    shown = tests.run(tests.wrapper, "--help")[1]
    tests.check("--help", [shown.startswith(whole), re.findall(r"(?m)^  ([a-z][a-z-]*) ", shown[len(whole):])], [True, list(verbs.SCRIPTS)])
    tests.check("scripts and commands", set(commands) & set(verbs.SCRIPTS), set())
    for name, words in commands.items():
        given = ["1" if word in ("N", "THREAD", "COUNT") else "absent" for word in words]
        taken = [option for option in options if "badnumber" in tests.run(tests.smemu, name, *given, option, "x")[1]]
        status, text = tests.run(tests.wrapper, name, "--help")
        first = " ".join(["usage: smemu", name, *words, *["[OPTIONS]"] * bool(taken)])
        tests.check(f"{name} --help", [status, text.splitlines()[0], re.findall(r"(?m)^  (--\w+) ", text)], [0, first, taken])
        tests.check(f"{name} -h", tests.run(tests.wrapper, name, "-h"), (0, text))
    for verb in verbs.SCRIPTS:
        status, text = tests.run(tests.wrapper, verb, "--help")
        tests.check(f"{verb} --help", [status, text.startswith(f"usage: smemu {verb} ")], [0, True])


def try_scripts(tests: Tests) -> None:
    """A script that is started by its word says what it says by its path."""
    program = tests.assemble("hello", (TOP / "examples/hello.s").read_text())
    whole = tests.report(program, "hello")
    for words in (("exec", "hello.elf"), ("exec", "--svl", 512, "hello.elf", "--vl", 256), ("show", "hello.report"), ("when", program, whole, 0, "x", 0),
                  ("refused", "hello.elf"), ("outcomes", "hello.elf", "--plans", ""), ("za-calls", program, whole), ("profile", program, whole)):
        tests.check(f"smemu {words[0]}", tests.run(tests.wrapper, *words), tests.run(tests.folder / "tools/smemu-tools", *words))
    tests.check("smemu exec", tests.run(tests.wrapper, "exec", "hello.elf"), (0, "Hello, SME!!\n"))
    status, said = tests.run(tests.wrapper, "exec", "--svl", 100, "hello.elf")
    tests.check("a length that is none", [status, said], [125, "smemu exec: --svl 100: outofrange\n"])
    tests.check("an option that stands twice", tests.run(tests.wrapper, "exec", "--vl", 128, "hello.elf", "--vl", 256), (125, "smemu exec: --vl 256: repeated\n"))


# what was not looked at


# makes so many calls with ZA on, of which the fifth from the end changes ZA
MANY = """
    .global _start
_start:
    smstart
    mov x20, #12000
loop:
    mov x0, x20
    bl square
    sub x20, x20, #1
    cbnz x20, loop
    smstop
    mov x0, #0
    mov x8, #93
    svc #0
square:
    cmp x0, #5
    b.ne out
    ptrue p0.b, all
    dup z0.b, #1
    smopa za0.s, p0/m, p0/m, z0.b, z0.b
out:
    ret
"""


def try_threads(tests: Tests) -> None:
    """A call of any thread is looked at where none is named, and a change of any thread is found."""
    source = (TOP / "examples/lost.s").read_text()
    program = tests.assemble("two", re.sub("(?m)^square:", "square:\n    cbz x0, fine", source).replace("    ret\n", "fine:\n    ret\n", 1))
    whole = tests.report(program, "two", "--threads", 2, "--svl", 128)
    kinds = lambda said: re.findall("kept (\\d+), .* changed (\\d+)", said)
    for thread, wanted, faults in (((), 1, [("1", "0"), ("0", "1")]), ((0,), 0, [("1", "0")]), ((1,), 1, [("0", "1")])):
        status, said = tests.run(tests.wrapper, "za-calls", program, whole, *thread)
        tests.check(f"za-calls of the threads {thread}", [status, kinds(said), re.findall(r"(?m)^thread \d+$", said)],
                    [wanted, faults, [] if thread else ["thread 0", "thread 1"]])
        status, said = tests.run(tests.wrapper, "when", program, whole, *thread, "za", "--after", 5)
        changed = [("0", "8"), ("1", "7")] if not thread else [(str(thread[0]), "87"[thread[0]])]
        tests.check(f"when of the threads {thread}", [status, re.findall(r"(?m)^at (\d+) ", said), re.findall(r"(?m)^thread (\d+)$", said)],
                    [0, [count for _, count in changed], [] if thread else ["0", "1"]])
    status, said = tests.run(tests.wrapper, "when", program, whole, "x", 9, "--last")
    tests.check("when of no change", [status, said], [1, "thread 0\nx 9: no change\nthread 1\nx 9: no change\n"])
    for thread in (2, 40):
        tests.check(f"thread {thread}", [tests.run(tests.wrapper, *words)[0] for words in (("za-calls", program, whole, thread), ("when", program, whole, thread, "za"))],
                    [tests.run(tests.smemu, "replay", program, whole, thread)[0]] * 2)


def try_bounds(tests: Tests) -> None:
    """Where a bound was met the last line says what was not looked at, and the status is 3, if nothing was found that is wrong."""
    program = tests.assemble("many", MANY)
    whole = tests.report(program, "many", "--svl", 128)
    # each turn of the loop but the last five has seven instructions, and its call is the second; two stand before them
    wanted = f"not looked at: the calls of thread 0 from count {2 + 7 * 10000 + 1} on (--most 10000)"
    status, said = tests.run(tests.wrapper, "za-calls", program, whole)
    tests.check("12,000 calls", [status, said.splitlines()[-1]], [3, wanted])
    status, said = tests.run(tests.wrapper, "za-calls", program, whole, "--most", 12000)
    tests.check("all of them", [status, said.splitlines()[-2].split(": ")[0], "not looked at" in said, "kept 11999, changed 1" in said],
                [1, "calls 12000, with ZA on 12000", False, True])
    stripped, image = tests.path("stripped.elf"), bytearray(program.read_bytes())
    image[40:48], image[60:62] = bytes(8), bytes(2)
    stripped.write_bytes(image)
    status, said = tests.run(tests.wrapper, "za-calls", stripped, tests.report(stripped, "stripped", "--svl", 128))
    tests.check("no section table", [status, said.splitlines()[-1]], [3, "not looked at: all calls, since the program has no section table"])
    program, whole = tests.path("two.elf"), tests.path("two.report")
    for words, last in ((("--most", 1), "not looked at: counts of thread 1 from 5 on (--most 1)"),
                        (("--last", "--most", 1), "not looked at: counts of thread 1 below 14 (--most 1)")):
        status, said = tests.run(tests.wrapper, "when", program, whole, 1, "za", *words)
        tests.check(f"when {words}", [status, said.splitlines()[-1]], [3, last])
    for words in (("--last",), ("--most", 99), ()):
        status, said = tests.run(tests.wrapper, "when", program, whole, 1, "za", *words)
        tests.check(f"when {words}", [status, "not looked at" in said], [0, False])
    status, said = tests.run(tests.wrapper, "when", program, whole, 1, "mem", "0x10", 8)
    tests.check("when, no memory", [status, said], [1, "mem 0x10 8: no memory there: fault 0000000000000010\n"])


def try_names(tests: Tests) -> None:
    """A function that is to share its caller's ZA is one that the program has."""
    program, whole = tests.path("two.elf"), tests.path("two.report")
    for name in ("square", "square,other", ""):
        status, said = tests.run(tests.wrapper, "za-calls", program, whole, "--shares", name)
        tests.check(f"--shares {name!r}", [status, said.splitlines()[-1]], [2, f"smemu za-calls: error: --shares {name}: the program has no function of that name"])
    if not tests.needs("clang-19", "ld.lld-19"):
        return
    tests.run("examples/c/build.sh", "clang-19", "ld.lld-19", "c.elf")
    whole = tests.report(tests.path("c.elf"), "c")
    found = [tests.run(tests.wrapper, "za-calls", "c.elf", whole, *(it for name in names for it in ("--shares", name)))[0] for names in ((), ("multiply",), ("multiply", "no"))]
    tests.check("--shares of a program with names", found, [1, 0, 2])


def try_marks(tests: Tests) -> None:
    """Where no call is marked abi-check's own line is as it was, and what it is worth stands beside it."""
    for name, number, sentence in (("lost", 0, "smemu: no call of this run is marked, so none was judged\n"), ("lazy", 1, "")):
        program = tests.assemble(name, (TOP / f"examples/{name}.s").read_text())
        whole = tests.report(program, name)
        line = f"abi yes calls {number} open 0\n"
        for words, wanted in ((tests.smemu, ""), (tests.wrapper, sentence)):
            ended = subprocess.run([words, "abi-check", program, whole, "0"], env=tests.environment, stdout=subprocess.PIPE, stderr=subprocess.PIPE, text=True)
            tests.check(f"abi-check of {name}", [ended.returncode, ended.stdout, ended.stderr], [0, line, wanted])
        last = tests.run(tests.wrapper, "za-calls", program, whole)[1].splitlines()[-1]
        tests.check(f"za-calls of {name}", last, "abi-check: " + (line.rstrip() if number else "no call of this run is marked"))


# what is at fault


def mutations(line: str, rng: random.Random) -> Iterator[str]:
    """Lines that differ from a line by a byte that is another, is not there, or is there besides, or by a field."""
    alphabet = "0123456789abcdefxzpmsnqvr =AF-\t\r"
    for _ in range(4):
        at = rng.randrange(len(line) + 1)
        yield line[:at] + rng.choice(alphabet) + line[at + 1:]
        yield line[:at] + line[at + 1:]
        yield line[:at] + rng.choice(alphabet) + line[at:]
    fields = line.split(" ")
    at = rng.randrange(len(fields))
    yield " ".join(fields[:at] + fields[at:at + 1] * 2 + fields[at + 1:])
    yield " ".join(fields[:at] + fields[at + 1:])
    yield " ".join(fields[:1] + rng.sample(fields[1:], len(fields) - 1))


def try_vector_faults(tests: Tests) -> None:
    """`smemu-tools vectors check` refuses exactly the lines that the emulator refuses, and names the field."""
    rng, files = random.Random(1), sorted((TOP / "crates/smemu_rows/data").glob("*.vectors"))
    tried, wrong = collections.Counter(), []
    for path in rng.sample(files, 24):
        vl, svl = map(int, path.stem.rsplit("-", 2)[1:])
        line = min(rng.sample(path.read_text().splitlines(), 1) + ["ab010020 x1=8000000000000000 nzcv=0101"] * (path.stat().st_size > 1 << 20), key=len)
        for changed in mutations(line, rng):
            file = tests.path("changed.vectors")
            file.write_bytes(f"1e604000\n{changed}\n1e604000\n".encode())
            ended = subprocess.run([tests.smemu, "vectors", file, "--vl", str(vl), "--svl", str(svl)], stdout=subprocess.PIPE, text=True)
            found = vectors.check(file, vl, svl)
            tried[ended.returncode] += 1
            if (found and f"bad vectors: line {found[0]}\n") != (ended.stdout if ended.returncode else None):
                wrong.append((path.name, changed, found))
    tests.check("lines of vectors", [wrong, sorted(tried), min(tried.values()) > 20], [[], [0, 14], True])
    for line, column, why in (
            ("ab010020 x1=80", 13, "a number has 16 hexadecimal digits"), ("ab010020 q=1", 10, "a field is KEY=VALUE"),
            ("AB010020", 1, "a line begins with a word"), ("ab010020 za0=00", 14, "ZA is there where svcr has bit 1"),
            ("ab010020 sp=0000000000000001 x1=0000000000000001", 30, "x1 is to stand before sp"),
            ("ab010020 z1=00", 13, "z1 has 16 bytes here, 32 digits, and this is 1"), ("ab010020 svcr=1 z1=00", 20, "z1 has 32 bytes here"),
            ("ab010020 ", 10, "between two fields"), ("ab010020\r", 9, "a line ends with a line feed alone"),
            ("ab010020 # a comment", 10, "a field is KEY=VALUE")):
        tests.path("one.vectors").write_bytes(line.encode())
        status, said = tests.run(TOOL, "vectors", "check", "one.vectors")
        wanted = f"line 1, column {column}: {why}"
        tests.check(f"check {line!r}", [status, said[:len(wanted)], said.splitlines()[-1]], [1, wanted, " " * (column - 1) + "^"])


def try_plan_faults(tests: Tests) -> None:
    """Of lines of plans and of scripts the kind of fault is the emulator's, so the word that is marked is the one."""
    rng, wrong, kinds = random.Random(2), [], collections.Counter()
    program, whole = tests.path("two.elf"), tests.path("two.report")
    plans = ["fetch 0", "run 12 4294967295", "offer 1", "next 0"]
    scripts = ["slice s 1 h 0", "mem 0x400000 16", "break 0x40", "step 3", "back 0", "goto 10", "where", "regs", "za"]
    ends = ("4294967296", "4096", "4097", "0x", "00", "", "-1", "v", "0 0")
    for shapes, lines, command in ((at_fault.PLAN, plans, ("sim", program)), (at_fault.SCRIPT, scripts, ("debug", program, whole, "0"))):
        for line in lines:
            for changed in (*mutations(line, rng), *(f"{line.rsplit(' ', 1)[0]} {it}" for it in ends)):
                if "\r" in changed:
                    continue
                file = tests.path("changed.plan")
                file.write_text(changed)
                said = tests.run(tests.smemu, *command, file)[1].splitlines()
                found = at_fault.shape_fault(changed, shapes)
                kind = next((it.rpartition(": ")[2] for it in said[:1] if it.startswith("bad plan")), None)
                kinds[kind] += 1
                if kind != (found and found[1]):
                    wrong.append((changed, kind, found))
    tests.check("lines of plans and scripts", [wrong, set(kinds)], [[], {None, "unknown", "badnumber", "missing", "extra"}])


# words at a terminal, and what stands below the refusal
SHOWN = (
    ("run two.elf --svl 100", ["usage: word 3: outofrange", "smemu run two.elf --svl 100", "                        ^", "--svl is 128, 256, 512, 1024 or 2048"]),
    ("run two.elf --svl", ["usage: word 3: missing", "smemu run two.elf --svl", "                        ^", "--svl is one of 128, 256, 512, 1024 or 2048"]),
    ("sim two.elf", ["usage: word 2: missing", "smemu sim two.elf", "                  ^", "PLAN is to stand here"]),
    ("run two.elf --vl 128 --vl 256", ["usage: word 4: repeated", "smemu run two.elf --vl 128 --vl 256", "                           ^", "--vl stands before, as word 2"]),
    ("replay two.elf two.report 32", ["usage: word 3: outofrange", "smemu replay two.elf two.report 32", "                                ^", "THREAD is 0 to 31"]),
    ("run two.elf --slice x", ["usage: word 3: badnumber", "smemu run two.elf --slice x", "                          ^",
                               "--slice is 1 to 1000000, in decimal digits without a sign and a leading zero"]),
    ("bench 1 --vl 128", ["usage: word 2: unknown", "smemu bench 1 --vl 128", "              ^", "an option is one of --cores"]),
    ("dis two.elf more", ["usage: word 2: extra", "smemu dis two.elf more", "                  ^", "nothing is to stand after `dis PROGRAM`"]),
    ("sim two.elf bad.plan", ["bad plan: line 2: missing", "run 0", "     ^", "the line ends where a number from 1 to 4294967295 is to stand"]),
    ("debug two.elf two.report 0 bad.script", ["bad plan: line 2: unknown", "slice s 0 k 0", "          ^", "one of h, v is to stand here"]),
    ("vectors bad.vectors", ["bad vectors: line 2", "1e604000 x1=80", "            ^", "a number has 16 hexadecimal digits"]),
    ("replay two.elf other.report 0", ["bad report: line 3: image", "image " + "0" * 64, "^", "the report is of another program"]),
    ("replay two.elf two.report 5", ["bad report: line 2: nothread", "options vl=128 svl=128 slice=1000 budget=10000000 threads=2", "^", "the report has no such thread"]),
)


def try_terminal(tests: Tests) -> None:
    """On a terminal the words and the lines at fault have a mark, and what may stand there; what is no terminal has nothing of it."""
    if not doc_tests.has_terminal():
        print("there is no pseudo-terminal here, so what stands on one is not tried")
        return
    for name, text in (("bad.plan", "fetch 0\nrun 0\n"), ("bad.script", "goto 5\nslice s 0 k 0\n"), ("bad.vectors", "ab010020\n1e604000 x1=80\n"),
                       ("other.report", re.sub("(?m)^image .*", "image " + "0" * 64, tests.path("two.report").read_text()))):
        tests.path(name).write_text(text)
    for words, wanted in SHOWN:
        found = doc_tests.shown(f"./smemu {words}", tests.folder)
        tests.check(words, found, [*wanted, *["smemu: ./smemu --help has the commands and their options"] * wanted[0].startswith("usage")])
        tests.check(f"{words}, quietly", doc_tests.shown(f"SMEMU_QUIET=1 ./smemu {words}", tests.folder), wanted[:1])
        ended = subprocess.run(["./smemu", *words.split()], cwd=tests.folder, env=tests.environment, stdout=subprocess.PIPE, stderr=subprocess.PIPE, text=True)
        tests.check(f"{words}, no terminal", [ended.stdout, "^" in ended.stderr], [f"{wanted[0]}\n", False])


# sources


SIX = """    .global _start
_start: foo x0
    add x0, x0, #4096
    mov x0, #0
    b nowhere
    cfi
    sub sp, sp, x0
    mov x8, #93
    svc #0
"""
# what stands on a terminal below the first line
FIVE = """_start: foo x0
        ^
with the lines at fault taken out one after the other:
line 3: line badnumber 17
    add x0, x0, #4096
                ^
line 6: line unknownname 5
    cfi
    ^
line 7: line badoperand 19
    sub sp, sp, x0
                  ^
line 5: undefined
    b nowhere
"""


def try_sources(tests: Tests) -> None:
    """On a terminal each line of a source that is at fault is shown, up to 20."""
    if not doc_tests.has_terminal():
        return
    tests.path("six.s").write_text(SIX)
    tests.check("a source with five faults", doc_tests.shown("./smemu asm six.s", tests.folder), ["bad source: line 2: line unknownname 9", *FIVE.splitlines()])
    for count, more in ((20, []), (21, ["and more"])):
        tests.path("many.s").write_text("    foo\n" * count)
        found = doc_tests.shown("./smemu asm many.s", tests.folder)
        wanted = [f"line {number}: line unknownname 5" for number in range(2, 21)]
        tests.check(f"{count} faults", [[it for it in found if it.startswith("line ")], found[-1:] if more else []], [wanted, more])
    for text in ("_start:\n    foo\n", "_start:\n    nop\n_start:\n"):
        tests.path("one.s").write_text(text)
        tests.check(f"the source {text!r}", "taken out" in "\n".join(doc_tests.shown("./smemu asm one.s", tests.folder)), False)


def try_elsewhere(tests: Tests) -> None:
    """What ASSEMBLY.md says to write in the place of what LLVM takes is the same word by both."""
    if not tests.needs("clang-19", "llvm-objdump-19"):
        return
    table = (TOP / "docs/ASSEMBLY.md").read_text().partition("## Elsewhere, and here")[2].partition("\n## ")[0]
    spans = [[re.findall("`([^`]*)`", cell) for cell in row.split(" | ")] for row in table.splitlines() if row.startswith("| `")]
    tried, wrong = [], []
    for there, here in (pair for cells in spans if len(cells) == 2 for pair in zip(*cells)):
        tests.path("there.s").write_text(f"{there}\n")
        made = tests.run("clang-19", "--target=aarch64-linux-gnu", "-march=armv9-a+sme", "-c", "there.s", "-o", "there.o")
        # a mnemonic without its operands, a directive, or what has a name is no line
        if made[0] or " " not in here or there.startswith(".") or "name" in there:
            continue
        words = re.findall(r"(?m)^ *[0-9a-f]+: ([0-9a-f]{8})", tests.run("llvm-objdump-19", "-d", "there.o")[1])
        tests.path("here.s").write_text(f"_start:\n    {here}\n")
        ended = subprocess.run([tests.smemu, "asm", tests.path("here.s")], stdout=subprocess.PIPE)
        tests.path("here.elf").write_bytes(ended.stdout)
        found = re.findall(r"(?m)^\w{16} (\w{8}) ", tests.run(tests.smemu, "dis", "here.elf")[1])
        tried.append(there)
        if found != words:
            wrong.append((there, words, here, found))
    new = {"sub sp, sp, x0", "bic x0, x0, #15", "ubfiz x0, x1, #3, #5", "sbfiz x0, x1, #3, #5", "mov z0.s, p1/z, #3", "subr z0.s, z0.s, #32000", "tbl z0.s, {z1.s}, z2.s"}
    tests.check("elsewhere and here", [wrong, new - set(tried), len(tried) > 25], [[], set(), True])


def try_slurm(tests: Tests) -> None:
    """A job without a program, and one whose program is refused, fail and leave nothing."""
    tests.path("programs.txt").write_text("two.elf\n\nsix.s\n")
    tests.path("six.s").write_text(SIX)
    before = set(os.listdir(tests.folder))
    for job, status, said in ((2, 2, "slurm.sh: line 2 of programs.txt has no program\n"), (3, 1, "slurm.sh: six.s: bad file: notelf\n"),
                              (4, 2, "slurm.sh: line 4 of programs.txt has no program\n")):
        ended = subprocess.run(["examples/ci/slurm.sh"], cwd=tests.folder, env={**tests.environment, "SMEMU": tests.smemu, "SLURM_ARRAY_TASK_ID": str(job)},
                               stdout=subprocess.PIPE, stderr=subprocess.STDOUT, text=True)
        tests.check(f"job {job}", [ended.returncode, ended.stdout, set(os.listdir(tests.folder)) - before], [status, said, set()])


# words that are not listed


def words_of(name: str) -> list[int]:
    """The words of a file of smemu_rows, which other tools gave."""
    return [int(line.split("\t")[0], 16) for line in (TOP / "crates/smemu_rows/data" / name).read_text().splitlines()]


def try_refused(tests: Tests) -> None:
    """Exactly the words that mean no instruction are listed, whatever else a file is refused for, and within some seconds."""
    none, known = words_of("no_row.tsv"), [*words_of("words.tsv"), *words_of("vector_words.tsv")]
    words = [word for pair in itertools.zip_longest(none, known) for word in pair if word is not None]
    program = tests.assemble("words", "    .global _start\n_start:\n" + "    nop\n" * len(words))
    image, file = bytearray(program.read_bytes()), tests.path("none.elf")
    start = image.index(struct.pack("<I", 0xD503201F) * len(words))
    image[start:start + 4 * len(words)] = struct.pack(f"<{len(words)}I", *words)
    file.write_bytes(image)
    wanted = [f"{0x400000 + 4 * at:#018x} {word:#010x}" for at, word in enumerate(words) if word in set(none)]
    before = time.monotonic()
    status, said = tests.run(tests.wrapper, "refused", file)
    others = lambda said: sorted(set(re.findall(r"(?m)^0x\w{16} 0x\w{8}", said)) ^ set(wanted))
    tests.check("words without a row", [status, others(said), said.splitlines()[-1]], [0, [], f"not listed: {len(none)}"])
    print(f"{len(none)} words that are not listed: {time.monotonic() - before:.1f} s")
    image[16] = 3
    file.write_bytes(image)
    status, said = tests.run(tests.wrapper, "refused", file)
    tests.check("of a file for any address", [status, others(said), said.splitlines()[-2:]], [1, [], [f"not listed: {len(none)}", "bad file: notstatic 3"]])
    image[40:48], image[16], image[60:62] = bytes(8), 2, bytes(2)
    file.write_bytes(image)
    tests.check("without a section table", tests.run(tests.wrapper, "refused", file), (3, "not looked at: any word, since the file has no section table\n"))
    for name, data, line in (("text", b"no program\n", "truncated 11"), ("cut", bytes(image[:63]), "truncated 63")):
        file.write_bytes(data)
        tests.check(f"refused, {name}", tests.run(tests.wrapper, "refused", file), (1, f"not listed: 0\nbad file: {line}\n"))


def try_reduction(tests: Tests) -> None:
    """A word that a compiler made is shown with its function, its line, and what FROM_C.md says to write."""
    if not tests.needs("clang-19", "ld.lld-19", "llvm-objdump-19", "llvm-symbolizer-19"):
        return
    tests.path("sum.c").write_text("#include <arm_sve.h>\nstatic int x;\nint *other(void) { return &x; }\nunsigned long sum(svuint8_t v)\n{\n"
                                   "    return svaddv(svptrue_b8(), v);\n}\n")
    options = "--target=aarch64-linux-gnu -g -O2 -march=armv8.1-a+sve2 -mno-implicit-float -ffreestanding".split()
    tests.run("clang-19", *options, "-c", "sum.c")
    tests.run("ld.lld-19", "-static", "-z", "max-page-size=4096", "-e", "sum", "-o", "sum.elf", "sum.o")
    cell = re.search(r"(?m)^\| `fmov x0, d0` \|.*\| (.*) \|$", (TOP / "docs/FROM_C.md").read_text())[1]
    advice = "fmov 1: " + re.sub(r"\[(.*?)\]\(.*?\)", r"\1", cell)
    last: Any
    for name, where, status, last in (("sum.elf", "sum sum.c:6", 0, []), ("sum.o", ".text sum", 1, ["bad file: notstatic 1"])):
        found, said = tests.run(tests.wrapper, "refused", name)
        lines = said.splitlines()
        tests.check(f"refused {name}", [found, lines[0].split(" ", 1)[1], lines[1:]], [status, f"0x9e660000 {where}: fmov x0, d0", [advice, "not listed: 1", *last]])


# the test of the program


def some_rows(tests: Tests, data: pathlib.Path) -> list[str]:
    """The first row of each command with the files that it names, in a folder; the answer is the rows."""
    rows = {}
    for row in (self_test.DATA / "rows.txt").read_text().splitlines():
        rows.setdefault((row.split(" ")[2], row.split(" ")[1] == "0"), row)
    for row in rows.values():
        for name in [row.split(" ")[0], *(it for it in row.split(" ")[3:] if "." in it)]:
            # of a row without @ the name stands for its answer alone
            if (self_test.DATA / name).exists():
                shutil.copy(self_test.DATA / name, data / name)
        shutil.copy(self_test.DATA / f"{row.split(' ')[0]}.txt", data)
    return list(rows.values())


def try_self_test(tests: Tests) -> None:
    """Each sort of line passes as it stands, and fails once with one byte of what is expected changed."""
    whole, data = self_test.DATA, tests.path("data")
    data.mkdir()
    try:
        rows = some_rows(tests, data)
        tests.check("commands of rows", {row.split(" ")[2] for row in rows}, {"run", "sim", "dis", "asm", "replay", "debug", "ckpt", "resume", "abi-check", "vectors", "gen", "bench"})
        self_test.DATA = data
        counts = lambda result: (result.passed, len(result.failures))
        tests.check("rows", counts(self_test.try_rows(tests.smemu, rows)), (len(rows), 0))
        changed = 0
        for row in rows:
            answer = data / f"{row.split(' ')[0]}.txt"
            kept = answer.read_bytes()
            if kept:
                answer.write_bytes(kept[:-2] + bytes((kept[-2] ^ 1,)) + kept[-1:])
                result = self_test.try_rows(tests.smemu, [row])
                tests.check(f"a byte of {row}", [counts(result), result.failures[0].splitlines()[1].startswith(f"  again: cd {data} && {tests.smemu} ")], [(0, 1), True])
                answer.write_bytes(kept)
                changed += 1
        tests.check("changed rows", changed >= 12, True)
        self_test.DATA = whole
        for name, text in (("changed.txt", "bad file: truncated 0|"), ("altered.txt", "bad report: line 1: header|")):
            *_, group, cases = next(it for it in self_test.tasks_of_changes(tests.smemu) if it[2] == name)
            cases = cases[:9]
            tests.check(name, counts(self_test.try_cases(tests.smemu, name, group, cases)), (9, 0))
            at = next(at for at, case in enumerate(cases) if text in case)
            wrong = [*cases[:at], cases[at].replace(text, text.replace(":", ";", 1)), *cases[at + 1:]]
            tests.check(f"a byte of {name}", counts(self_test.try_cases(tests.smemu, name, group, wrong)), (8, 1))
            wrong = [cases[0].replace("\t", "1\t", 1), *cases[1:]]
            tests.check(f"a status of {name}", counts(self_test.try_cases(tests.smemu, name, group, wrong)), (8, 1))
        self_test.DATA = data
        for name, function, old, new in (("words.tsv", self_test.try_words, "w21", "w22"), ("texts.tsv", self_test.try_words, "x23", "x24"),
                                         ("no_row.tsv", lambda smemu, _: self_test.try_no_row(smemu), "00190239", "1e600000\nd503201f"),
                                         ("faults.tsv", lambda smemu, _: self_test.try_faults(smemu), "extra 9", "extra 8")):
            lines = (whole / name).read_text().splitlines(keepends=True)[:40]
            for text, wanted in (("".join(lines), (40, 0)), ("".join(lines).replace(old, new, 1), (40 if "\n" in new else 39, 1))):
                (data / name).write_text(text)
                tests.check(f"{name}, {wanted}", counts(function(tests.smemu, name)), wanted)
    finally:
        self_test.DATA = whole


# build systems


def try_cmake(tests: Tests) -> None:
    """CTest runs a target by the toolchain file's emulator; a wrong program, and one that is given a word, fail."""
    if not tests.needs("cmake", "ctest", "ninja", "clang-19", "ld.lld-19"):
        return
    for name, defines, given, wanted in (("right", "", "check", "100% tests passed, 0 tests failed out of 6"), ("wrong", "-DWRONG", "check", "0% tests passed, 6 tests failed out of 6"),
                                         ("given", "", "check one", "83% tests passed, 1 tests failed out of 6")):
        lists = tests.folder / "examples/ci/cmake/CMakeLists.txt"
        text = lists.read_text()
        lists.write_text(text.replace("add_test(NAME check COMMAND check)", f"add_test(NAME check COMMAND {given})"))
        made = tests.run("cmake", "-G", "Ninja", "-S", "examples/ci/cmake", "-B", name, "-DCMAKE_TOOLCHAIN_FILE=smemu.cmake", f"-DCMAKE_C_FLAGS={defines} -ffreestanding -fno-pic")
        tests.check(f"cmake, {name}", made[0], 0)
        built = tests.run("cmake", "--build", name)
        tests.check(f"cmake --build, {name}", [built[0], built[0] and built[1]], [0, 0])
        status, said = tests.run("ctest", "--test-dir", name, "--output-on-failure")
        lists.write_text(text)
        tests.check(f"ctest, {name}", [status == 0, re.findall(r"(?m)^\d+% tests .*", said), "one: a guest has no arguments" in said],
                    [name == "right", [wanted], name == "given"])


def try_meson(tests: Tests) -> None:
    """`meson test` runs a program by the cross file's wrapper, with options of `run` behind it."""
    if not tests.needs("meson", "ninja", "clang-19", "ld.lld-19", "llvm-ar-19"):
        return
    for name, defines, wanted in (("meson-right", "", ("6", "0")), ("meson-wrong", "-DWRONG", ("0", "6"))):
        file = tests.folder / "examples/ci/meson/meson.build"
        text = file.read_text()
        file.write_text(text.replace("c_args: ['-march=armv8.1-a',", f"c_args: ['{defines}', '-march=armv8.1-a',") if defines else text)
        made = tests.run("meson", "setup", "--cross-file", "examples/ci/meson/smemu.ini", name, "examples/ci/meson")
        tests.check(f"meson setup, {name}", [made[0], made[0] and made[1]], [0, 0])
        status, said = tests.run("meson", "test", "-C", name)
        file.write_text(text)
        tests.check(f"meson test, {name}", [status == 0, re.findall(r"(?m)^(?:Ok|Fail): +(\d+)", said)], [not defines, list(wanted)])


def try_lit(tests: Tests) -> None:
    """lit compiles, runs and tells the test that is wrong."""
    found = next((lit for lit in LITS if shutil.which(lit)), None)
    if not found:
        print("lit is not there, so what needs it is not tried")
    if not found or not tests.needs("clang-19", "ld.lld-19"):
        return
    status, said = tests.run(found, "examples/ci/lit")
    tests.check("lit", [status, re.findall(r"(?m)^  (\w+) *: (\d+)", said)], [0, [("Passed", "2")]])
    (tests.folder / "examples/ci/lit/wrong.c").write_text((TOP / "examples/ci/lit/sum.c").read_text().replace("36", "37"))
    status, said = tests.run(found, "examples/ci/lit")
    tests.check("lit with a wrong test", [status, re.findall(r"(?m)^  (\w+) *: (\d+)", said)], [1, [("Passed", "2"), ("Failed", "1")]])


# a program of Rust without its library, which is not there for the target unless it is installed; so the words that it needs are said here
RUST = """#![feature(no_core, lang_items, rustc_attrs, decl_macro)]
#![no_core]
#![no_main]
#![allow(internal_features)]
#[lang = "pointee_sized"]
pub trait PointeeSized {}
#[lang = "meta_sized"]
pub trait MetaSized: PointeeSized {}
#[lang = "sized"]
pub trait Sized: MetaSized {}
#[lang = "copy"]
pub trait Copy {}
impl Copy for u64 {}
#[rustc_builtin_macro]
macro_rules! global_asm { () => {}; }
global_asm!(".globl _start", "_start: bl answer", "mov x8, #93", "svc #0");
#[no_mangle]
pub extern "C" fn answer() -> u64 { 42 }
"""


def try_cargo(tests: Tests) -> None:
    """`cargo run` starts what it made by the runner, and a word that the program is given is refused."""
    if not tests.needs("cargo"):
        return
    crate = tests.path("crate")
    for name, text in (("Cargo.toml", '[package]\nname = "answer"\nversion = "0.1.0"\nedition = "2021"\n[profile.dev]\npanic = "abort"\n'), ("src/main.rs", RUST),
                       (".cargo/config.toml", (TOP / "examples/ci/cargo.toml").read_text())):
        (crate / name).parent.mkdir(parents=True, exist_ok=True)
        (crate / name).write_text(text)

    def cargo(*words: str) -> tuple[int, str]:
        ended = subprocess.run(["cargo", *words], cwd=crate, env={**tests.environment, "RUSTC_BOOTSTRAP": "1"}, stdout=subprocess.PIPE, stderr=subprocess.STDOUT, text=True)
        return ended.returncode, ended.stdout

    if cargo("build", "--offline")[0]:
        print("this cargo makes no program for aarch64-unknown-none-softfloat, so its runner is not tried")
        return
    tests.check("cargo run", cargo("run", "-q", "--offline"), (42, ""))
    status, said = cargo("run", "-q", "--offline", "--", "one")
    tests.check("cargo run, with a word", [status, "smemu exec: one: a guest has no arguments" in said], [125, True])


PARTS = (try_helps, try_scripts, try_threads, try_bounds, try_names, try_marks, try_vector_faults, try_plan_faults, try_terminal,
         try_sources, try_elsewhere, try_slurm, try_refused, try_reduction, try_self_test, try_cmake, try_meson, try_lit, try_cargo)


def main() -> int:
    words = argparse.ArgumentParser(description=__doc__.splitlines()[0])
    words.add_argument("program", nargs="?", metavar="PROGRAM")
    words.add_argument("--only", default="", metavar="NAME", help="the parts with NAME in their names: helps, bounds, cmake ..")
    asked = words.parse_args()
    smemu, only = pathlib.Path(asked.program or emulator.find()).resolve(), asked.only
    with tempfile.TemporaryDirectory() as folder:
        tests = Tests(str(smemu), folder)
        for test in PARTS:
            # that of threads makes the program which others take
            if only in test.__name__ or test is try_threads:
                test(tests)
    print(f"{tests.number} checks, {tests.faults} failed")
    return 1 if tests.faults else 0

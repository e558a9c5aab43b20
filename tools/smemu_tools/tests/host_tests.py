"""Tries what the program does where the system gives it little or stops it: limits of memory and of
threads, outputs that take nothing, signals.

    tools/smemu-tools host-tests [PROGRAM]

PROGRAM is the emulator; where it is not given it is what ./smemu runs. The last line says how many
checks there were; the status is 1 where one failed.
"""
from __future__ import annotations

import os
import pathlib
import resource
import shutil
import signal
import subprocess
import tempfile
import time
from typing import Any, Callable


from smemu_tools import parser
from smemu_tools.model import elf
from smemu_tools.user import emulator

# enough for the program and what it reads of the files here, and less than the pages of a load of
# 4,032
LITTLE = 12 << 20
# a call may take as long as this on a machine that has other work
SECONDS = 60
# who has no right to pass a limit
NOBODY = 65534
PAGE = 4096
ENDS = (0xD2800540, 0xD2800BA8, 0xD4000001)
# a floating-point move
UNLISTED = 0x1E604000
LOOP = 0x14000000
PAGES_OF_STACK = 64
MOST_PAGES = 4096
# where a checkpoint of a thread with no handler, no output and no ZA says how many pages it has, at
# a VL of 128 bits
PAGES_AT = 962
# it polls after each instruction, and each poll is a line: more of them than a pipe holds
LONG_REPORT = ("run", "loop", "--slice", 1, "--budget", 20_000)
SCRIPT = "where\nstep 2\nregs\nwhere\n"
PLAN = "fetch 0\nrun 0 10\n"
VECTORS = "d503201f\nd4000021\n1e604000\n" * 40


class Tests:
    """A folder for files, and the faults that were found."""

    def __init__(self, smemu: str, folder: str) -> None:
        # a copy, where everybody may read it
        self.folder, self.smemu = pathlib.Path(folder), str(pathlib.Path(folder) / "program")
        shutil.copy(smemu, self.smemu)
        for path in (self.folder, self.folder / "program"):
            path.chmod(0o755)
        self.number = self.faults = 0

    def check(self, what: str, found: bytes | int | tuple[int, bytes | str] | None,
              wanted: bytes | int | tuple[int, bytes | str] | None) -> None:
        self.number += 1
        if found != wanted:
            self.faults += 1
            print(f"{what}:\n  wanted: {wanted!r}\n  found:  {found!r}")

    def put(self, name: str, content: bytes | str) -> str:
        """Makes a file, and gives its name."""
        (self.folder / name).write_bytes(content if isinstance(content, bytes)
                                         else content.encode())
        return name

    def start(self, *words: int | str, out: Any = subprocess.PIPE,
              before: Callable[..., Any] | None = None) -> subprocess.Popen[Any]:
        return subprocess.Popen([self.smemu, *map(str, words)], stdin=subprocess.DEVNULL,
                                stdout=out, cwd=self.folder, preexec_fn=before)

    def run(self, *words: Any, **more: Any) -> tuple[int, str]:
        """The status of a command and what it writes."""
        process = self.start(*words, **more)
        written = process.communicate(timeout=SECONDS)[0]
        return process.returncode, (written or b"").decode(errors="replace")


def little_memory() -> None:
    resource.setrlimit(resource.RLIMIT_AS, (LITTLE, LITTLE))


def few_threads(most: Any) -> None:
    """Lets the user of this process have so many threads in all. The limit does not hold for root,
    so root becomes nobody first."""
    if os.getuid() == 0:
        os.setgid(NOBODY)
        os.setuid(NOBODY)
    resource.setrlimit(resource.RLIMIT_NPROC, (most, most))


def no_threads() -> None:
    few_threads(0)


def program_of(pages: int, words: tuple[int, ...] = ENDS, entry: int = elf.ADDRESS,
               **more: Any) -> bytes:
    """A program file with one load of so many pages, of which the first begins with the words, in a
    section of their own."""
    text = elf.text_of(words)
    segment = elf.Segment(data=text, memory=pages * PAGE)
    section = elf.Section(elf.PROGBITS, elf.ALLOC | elf.EXECINSTR, elf.ADDRESS, offset=64 + 56 + 8,
                          size=len(text))
    return elf.build([segment], [section], entry)[0]


def try_room_of_loads(tests: Tests) -> None:
    """No page takes memory before all checks have passed: of a load of 15.75 MiB each later check
    is told, and 2^46 bytes are only counted."""
    most = MOST_PAGES - PAGES_OF_STACK
    cases = {
        "two to the 46": (program_of(1 << 34), f"toomanypages {(1 << 34) + PAGES_OF_STACK}"),
        "a page too many": (program_of(most + 1), f"toomanypages {MOST_PAGES + 1}"),
        "an odd entry": (program_of(most, entry=elf.ADDRESS + 2),
                         f"entryoutside 0x{elf.ADDRESS + 2:016x}"),
        "no instruction": (program_of(most, (*ENDS, UNLISTED)),
                           f"unlisted 0x{elf.ADDRESS + 12:016x} 0x{UNLISTED:08x}"),
    }
    for name, (file, line) in cases.items():
        tests.check(name, tests.run("run", tests.put("file", file), before=little_memory),
                    (6, f"bad file: {line}\n"))
    sound = tests.put("sound", program_of(most))
    tests.check("a sound load", tests.run("run", sound, before=little_memory), (8, ""))
    tests.check("a sound load without a limit", tests.run("dis", sound)[0], 0)
    tests.check("a small load", tests.run("run", "answer", before=little_memory)[0], 0)


def try_room_of_reports(tests: Tests) -> None:
    """A number that says how much follows takes no memory: what is not there is told at the line
    where it should be."""
    lines = (tests.folder / "report").read_text().splitlines(True)
    for key, number, kind in (("journal", (1 << 32) - 1, "journal"),
                              ("journal", 262_144, "journal"), ("output", (1 << 32) - 1, "block")):
        at = next(place for place, line in enumerate(lines) if line.startswith(key + " "))
        rest: Any
        for name, rest in ("the end of the file", []), ("the lines after it", lines[at + 1:]):
            tests.put("cut", "".join([*lines[:at], f"{key} {number}\n", *rest]))
            found = tests.run("replay", "answer", "cut", 0, before=little_memory)
            tests.check(f"{key} {number} and {name}", found,
                        (9, f"bad report: line {at + 2}: {kind}\n"))


def try_room_of_checkpoints(tests: Tests) -> None:
    """A number that says how many pages follow takes no memory: what is not there is told at the
    field that lacks."""
    content = (tests.folder / "checkpoint").read_bytes()
    tests.check("a checkpoint",
                tests.run("resume", "answer", "report", "checkpoint", before=little_memory)[0], 0)
    for name, rest in ("the end of the file", b""), ("the pages after it", content[PAGES_AT + 4:]):
        changed = content[:PAGES_AT] + MOST_PAGES.to_bytes(4, "little") + rest
        tests.put("cut", changed)
        found = tests.run("resume", "answer", "report", "cut", before=little_memory)
        tests.check(f"{MOST_PAGES} pages and {name}", found,
                    (12, f"bad checkpoint: field {len(changed)}\n"))


def try_outputs(tests: Tests) -> None:
    """What cannot be written is status 5, and no signal, of each command and of a refusal."""
    commands = (("run", "answer"), ("run", "answer", "--threads", 2, "--cores", 2),
                ("asm", "source"), ("dis", "answer"), ("sim", "answer", "plan"),
                ("replay", "answer", "report", 0), ("ckpt", "answer", "report", 0, 1),
                ("resume", "answer", "report", "checkpoint"), ("abi-check", "answer", "report", 0),
                ("debug", "answer", "report", 0, "script"), ("vectors", "vectors"),
                ("vectors", "vectors", "--cores", 2), ("gen", 1), ("bench", 1), ("--help",),
                ("--version",), ("walk",), ("run", "nothing"), ("run", "source"),
                ("vectors", "source"))
    for words in commands:
        with open("/dev/full", "wb") as full:
            tests.check(f"{words}, a full device", tests.run(*words, out=full)[0], 5)
        reader, writer = os.pipe()
        os.close(reader)
        tests.check(f"{words}, a closed pipe", tests.run(*words, out=writer)[0], 5)
        os.close(writer)
        tests.check(f"{words}, no output",
                    tests.run(*words, out=None, before=lambda: os.close(1))[0], 5)
    # a reader that goes away after some of it
    process = tests.start(*LONG_REPORT)
    tests.check("a front", process.stdout.read(9), b"smemu-rep")
    process.stdout.close()
    tests.check("a pipe that is closed later", process.wait(timeout=SECONDS), 5)


def wait_for(holds: Callable[..., Any]) -> bool:
    """Whether it comes to hold."""
    end = time.monotonic() + SECONDS
    while not (found := holds()) and time.monotonic() < end:
        time.sleep(0.01)
    return found


def threads_of(process: subprocess.Popen[Any]) -> int:
    """How many threads of the system a process has."""
    with open(f"/proc/{process.pid}/status") as status:
        return next(int(line.split()[1]) for line in status if line.startswith("Threads:"))


def try_signals(tests: Tests) -> None:
    """A signal ends a run at once, on any number of cores, with nothing written; and one that waits
    to write."""
    endless = ("run", "loop", "--threads", 32, "--slice", 1_000_000, "--budget", (1 << 32) - 1)
    for cores in 1, 4, 64:
        for number in signal.SIGINT, signal.SIGTERM, signal.SIGHUP, signal.SIGKILL:
            process = tests.start(*endless, "--cores", cores)
            tests.check(f"threads of {cores} cores",
                        bool(wait_for(lambda: threads_of(process) >= cores)), True)
            process.send_signal(number)
            written = process.communicate(timeout=SECONDS)[0]
            tests.check(f"{number.name} on {cores} cores", (process.returncode, written),
                        (-number, b""))
    process = tests.start(*endless, "--cores", 4)
    process.send_signal(signal.SIGSTOP)
    process.send_signal(signal.SIGCONT)
    tests.check("stopped and continued", process.poll(), None)
    process.kill()
    process.communicate()
    process = tests.start(*LONG_REPORT)
    tests.check("a front", process.stdout.read(9), b"smemu-rep")
    process.terminate()
    tests.check("SIGTERM while it writes", process.wait(timeout=SECONDS), -signal.SIGTERM)
    process.stdout.close()


def try_threads(tests: Tests) -> None:
    """Where the system starts no thread, a run of several cores is made by those that there are,
    and vectors are answered."""
    words = ("run", "answer", "--threads", 5, "--slice", 1)
    usual = tests.run(*words)
    for cores in 2, 5, 64:
        tests.check(f"{cores} cores", tests.run(*words, "--cores", cores), usual)
        tests.check(f"{cores} cores without threads",
                    tests.run(*words, "--cores", cores, before=no_threads), usual)
    answers = tests.run("vectors", "vectors")
    tests.check("vectors", answers[1].count("\n"), VECTORS.count("\n"))
    for cores in 2, 64:
        tests.check(f"vectors on {cores} cores", tests.run("vectors", "vectors", "--cores", cores),
                    answers)
        tests.check(f"vectors on {cores} cores without threads",
                    tests.run("vectors", "vectors", "--cores", cores, before=no_threads), answers)
    for most in 1, 2, 3:
        tests.check(f"{most} threads",
                    tests.run(*words, "--cores", 5, before=lambda: few_threads(most)), usual)
    # that the limit holds
    process = tests.start("run", "loop", "--threads", 4, "--cores", 4, "--slice", 1_000_000,
                          "--budget", (1 << 32) - 1, before=no_threads)
    time.sleep(0.5)
    tests.check("threads that there are", threads_of(process), 1)
    process.kill()
    process.communicate()


def main() -> int:
    words = parser(__doc__)
    words.add_argument("program", nargs="?", metavar="PROGRAM")
    smemu = words.parse_args().program or emulator.find()
    with tempfile.TemporaryDirectory() as folder:
        tests = Tests(smemu, folder)
        tests.put("answer", program_of(1))
        tests.put("loop", program_of(1, (LOOP,)))
        tests.put("source", "_start: b _start\n")
        tests.put("plan", PLAN)
        tests.put("script", SCRIPT)
        tests.put("vectors", VECTORS)
        tests.put("report", tests.run("run", "answer")[1])
        tests.put("checkpoint",
                  tests.start("ckpt", "answer", "report", 0, 1).communicate(timeout=SECONDS)[0])
        for test in (try_room_of_loads, try_room_of_reports, try_room_of_checkpoints, try_outputs,
                     try_signals, try_threads):
            test(tests)
    print(f"{tests.number} checks, {tests.faults} failed")
    return 1 if tests.faults else 0

"""Builds code that nobody of this project wrote, runs it, and prints what became of it: the table
of docs/FROM_C.md.

    tools/smemu-tools elsewhere [--folder FOLDER] [--there] [PROGRAM]

What is not on this machine is fetched from Debian by apt-get, which needs no right of the system:
its lists and packages go to FOLDER, or to one that is removed. GCC 14, where it is not on the PATH,
is that of a root of Debian 13, which root alone can make. With --there nothing is fetched. A row
whose code or compiler is not to be had is a line that says what lacks; the status is 1 where one
that ran is not as it is to be.
"""
from __future__ import annotations

import os
import pathlib
import re
import shutil
import subprocess
import tempfile
from typing import Any

from smemu_tools import TOP, parser
from smemu_tools.tests import beside_tests, from_c_tests
from smemu_tools.user import emulator

SOURCE = "deb http://deb.debian.org/debian bookworm main\n"
# with -O0 Clang and GCC make svdup a load that is not listed
LEVELS = ("O1", "O2", "O3", "Os")
CLANG, GCC, GCC_14 = from_c_tests.COMPILERS[0], *from_c_tests.COMPILERS[1:]
# the calls of Linux that its tests make; getpid is gettid, which is a thread's number here
CALLS = {"write": 64, "exit": 93, "sched_yield": 124, "kill": 129, "rt_sigaction": 134,
         "getpid": 178}
# how often a plan moves a thread
MOVES = 20000
KERNEL_FOLDER = "tools/testing/selftests/arm64/fp"


class Lacking(Exception):
    """What is not there, and why it cannot be had."""


class Packages:
    """Debian's packages, unpacked in a folder."""

    def __init__(self, folder: pathlib.Path, is_there_only: bool) -> None:
        self.folder, self.is_there_only, self.has_lists = folder, is_there_only, False

    def apt(self, *words: str) -> None:
        root = self.folder / "apt"
        for name in ("state/lists/partial", "cache/archives/partial", "packages"):
            (root / name).mkdir(parents=True, exist_ok=True)
        (root / "status").touch()
        (root / "sources.list").write_text(SOURCE)
        options = {"APT::Architecture": "arm64", "APT::Architectures": "arm64",
                   "Dir::State": root / "state", "Dir::State::status": root / "status",
                   "Dir::Cache": root / "cache", "Dir::Etc::sourcelist": root / "sources.list",
                   "Dir::Etc::sourceparts": "/dev/null", "APT::Sandbox::User": "root"}
        try:
            said = subprocess.run(["apt-get", *(f"-o{key}={it}" for key, it in options.items()),
                                   *words], capture_output=True, text=True, cwd=root / "packages")
        except FileNotFoundError:
            raise Lacking("apt-get is not there") from None
        if said.returncode or "Failed to fetch" in said.stderr:
            raise Lacking(f"apt-get {words[-1]}: {(said.stderr.splitlines() or ['failed'])[0]}")

    def package(self, name: str) -> pathlib.Path:
        """The file of a package for arm64 or for all."""
        if self.is_there_only:
            raise Lacking(f"Debian's {name} is not there")
        held = self.folder / "apt" / "packages"
        if not list(held.glob(f"{name}_*.deb")):
            if not self.has_lists:
                self.apt("update")
                self.has_lists = True
            self.apt("download", name)
        return next(iter(held.glob(f"{name}_*.deb")))

    def file(self, there: str, name: str) -> pathlib.Path:
        """A file of a package: that of this machine, or the one that is fetched."""
        if os.path.exists(there):
            return pathlib.Path(there)
        unpacked = self.folder / name
        if not unpacked.is_dir():
            subprocess.run(["dpkg-deb", "-x", str(self.package(name)),
                            str(unpacked)], check=True)
        return unpacked / there.lstrip("/")


def need(*tools: str) -> None:
    for tool in tools:
        if not shutil.which(tool):
            raise Lacking(f"{tool} is not there")


def whole_programs(tests: Any, pair: Any, library: Any) -> str:
    """How the program of examples/c ends at each level and length, beside what it is to write."""
    wanted = (TOP / "crates/smemu_rows/real/compiled/clang.out").read_text()
    right = 0
    tests.environment["ROUTINES"] = str(library)
    for level in LEVELS:
        program = tests.path("whole.elf")
        tests.check(f"build {pair[0]} -{level}",
                    tests.run(TOP / "examples/c/build.sh", *pair, program, f"-{level}"), (0, ""))
        for bits in from_c_tests.LENGTHS:
            found = from_c_tests.outcome(tests, program, "--vl", bits, "--svl", bits)
            tests.check(f"{pair[0]} -{level} at {bits}", found, ("exited 42", wanted))
            right += found == ("exited 42", wanted)
    tests.environment["ROUTINES"] = ""
    return f"the program of examples/c right in {right} of 20 runs, at four levels and five lengths"


def routines_of(packages: Packages) -> pathlib.Path:
    named = os.environ.get("ROUTINES", "")
    folder = "/usr/lib/llvm-19/lib/clang/19/lib/linux/libclang_rt.builtins-aarch64.a"
    return pathlib.Path(named) if named else packages.file(folder, "libclang-rt-19-dev")


def llvm(tests: Any, packages: Packages) -> str:
    need(*CLANG)
    library = routines_of(packages)
    tests.environment["ROUTINES"] = str(library)
    program = from_c_tests.link_routines(tests, CLANG, TOP / "examples/c")
    kept = [from_c_tests.kept_faults(tests, program, bits) for bits in from_c_tests.LENGTHS]
    tests.check("registers that LLVM's routines keep", kept, [[]] * 5)
    return f"{whole_programs(tests, CLANG, library)}; all registers kept as AAPCS64 has it"


# starts GCC 14 in a root of Debian 13, which sees the folders that are named in a name space of
# mounts of this call alone
IN_ROOT = """#!/bin/sh
exec unshare -m sh -c 'root="{root}"
for folder in {folders}; do
    mkdir -p "$root$folder"
    mount --bind "$folder" "$root$folder" || exit 99
done
where=$1
shift
inside="cd \\"\\$1\\" && shift && exec {name} \\"\\$@\\""
exec chroot "$root" sh -c "$inside" sh "$where" "$@"' sh "$PWD" "$@"
"""


def make_gcc_14(tests: Any, packages: Packages) -> None:
    """Makes a root of Debian 13 with GCC 14, and puts a script that starts it there on the PATH."""
    name, root = GCC_14[0], packages.folder / "trixie"
    if packages.is_there_only:
        raise Lacking(f"{name} is not there")
    if os.geteuid():
        raise Lacking(f"{name} is not there, and a root of Debian 13 that has it is made by root")
    need("debootstrap", "unshare", "chroot", GCC_14[1])
    if not (root / "usr/bin" / name).exists():
        said = subprocess.run(["debootstrap", "--variant=minbase",
                               "--include=gcc-14-aarch64-linux-gnu", "trixie", str(root),
                               "http://deb.debian.org/debian"], capture_output=True, text=True)
        if said.returncode:
            raise Lacking(f"debootstrap: {(said.stdout.splitlines() or ['failed'])[-1]}")
    script = packages.folder / "bin" / name
    script.parent.mkdir(exist_ok=True)
    folders = f'"{TOP}" "{tempfile.gettempdir()}"'
    script.write_text(IN_ROOT.format(root=root, folders=folders, name=name))
    script.chmod(0o755)
    os.environ["PATH"] = tests.environment["PATH"] = f"{os.environ['PATH']}:{script.parent}"


def gcc_14(tests: Any, packages: Packages) -> str:
    if not shutil.which(GCC_14[0]):
        make_gcc_14(tests, packages)
    need(*GCC_14)
    said = whole_programs(tests, GCC_14, "")
    return f"{said}; with LLVM's routines {whole_programs(tests, GCC_14, routines_of(packages))}"


def glibc(tests: Any, packages: Packages) -> str:
    need(*GCC, "aarch64-linux-gnu-ar")
    archive = packages.file("/usr/aarch64-linux-gnu/lib/libc.a", "libc6-dev-arm64-cross")
    tests.run("aarch64-linux-gnu-ar", "x", archive, "memcpy_a64fx.o")
    work = tests.path("copies")
    shutil.copytree(TOP / "examples/c", work)
    # the object is linked with all others of the library's build.sh
    script = work / "library/build.sh"
    made = tests.path("memcpy_a64fx.o")
    script.write_text(script.read_text().replace('$(echo "$work"/*.o)',
                                                 f'$(echo "$work"/*.o "{made}")'))
    program = from_c_tests.build(tests, GCC, "copies", [from_c_tests.SAMPLES / "copies.c"],
                                 "-DCOPY=__memcpy_a64fx", "-DMOVE=__memmove_a64fx",
                                 "-fno-builtin", library=work / "library")
    for bits in from_c_tests.LENGTHS:
        tests.check(f"copies of glibc at {bits}",
                    from_c_tests.outcome(tests, program, "--vl", bits, *from_c_tests.LONG),
                    ("exited 0", "300 of 300 right\n"))
    return "300 copies and moves beside plain loops right at each of five lengths"


def kernel_sources(tests: Any, packages: Packages) -> pathlib.Path:
    """The folder of Linux's tests of ZA and vectors."""
    held = pathlib.Path(packages.folder) / "kernel"
    if not held.is_dir():
        packed = "/usr/src/linux-source-6.1.tar.xz"
        held.mkdir()
        if os.path.exists(packed):
            command = f"xz -dc {packed}"
        else:
            held.rmdir()
            package = packages.package("linux-source-6.1")
            held.mkdir()
            command = f"dpkg-deb --fsys-tarfile '{package}' | tar -xO .{packed} | xz -dc"
        subprocess.run(f"{command} | tar -x -C '{held}' --wildcards '*/{KERNEL_FOLDER}/*'",
                       shell=True, check=True)
    return next(iter(held.glob(f"*/{KERNEL_FOLDER}")))


def kernel_program(tests: Any, source: pathlib.Path, name: str, *options: str,
                   entry: str = "_start") -> pathlib.Path:
    """One of Linux's tests, with our numbers of calls and without three `movi` of a handler that
    never runs."""
    calls = tests.path("calls/asm")
    calls.mkdir(parents=True, exist_ok=True)
    (calls / "unistd.h").write_text("".join(f"#define __NR_{it} {number}\n"
                                            for it, number in CALLS.items()))
    objects = []
    for file in (name, "asm-utils", "posts"):
        made = tests.path(f"{file}.o")
        text = ((from_c_tests.SAMPLES / "posts.s") if file == "posts"
                else source / f"{file}.S").read_text()
        copy = tests.path(f"{file}.{'s' if file == 'posts' else 'S'}")
        copy.write_text(re.sub(r"(?m)^\tmovi\t.*", "\tnop", text))
        march = [] if file == "posts" else ["-march=armv8.2-a+sve"]
        said = tests.run(GCC[0], *march, *options, "-I", calls.parent, "-I", source, "-c", copy,
                         "-o", made)
        tests.check(f"{file}.S", said, (0, ""))
        objects.append(made)
    program = tests.path(f"{name}{''.join(options)}.elf")
    tests.run(GCC[1], "-static", "-z", "max-page-size=4096", "-e", entry, "-o", program, *objects)
    return program


def moving_plan(tests: Any) -> pathlib.Path:
    """A plan by which each of eight threads goes to another of three cores after 97 turns, until
    all have stopped at 200,000 instructions."""
    plan = tests.path("moves.plan")
    plan.write_text("".join(f"fetch {core}\nrun {core} 97\noffer {core}\n"
                            for core in (number % 3 for number in range(MOVES))))
    return plan


def kernel_run(tests: Any, program: pathlib.Path, what: str, *options: Any,
               start: tuple[Any, ...] = ("run",)) -> int:
    """Runs it to its budget or the plan's end, and replays it: no thread may say that it found a
    mismatch. How many times it went round at least."""
    report = tests.path("kernel.report")
    said = tests.run(tests.smemu, start[0], program, *start[1:], *options)[1]
    # sim writes besides which events were skipped, and the history
    text = re.search(r"^smemu-report.*?^end$", said, re.M | re.S)[0] + "\n"
    report.write_text(text)
    blocks = re.findall(r"^thread \d+\n(.*?)^end-thread", text, re.M | re.S)
    said = [bytes.fromhex("".join(re.findall(r"^out (\w+)$", block, re.M))).decode()
            for block in blocks]
    stops = {re.search(r"^stop (.*)$", block, re.M)[1] for block in blocks}
    tests.check(f"{what}: stops", stops <= {"budget", "exited 0"}, True)
    if "posts" in what:
        # thread 0 posts to all others
        taken = [bool(re.search(r"^e poll \d+ \w+ \w+ 0{14}20$", it, re.M)) for it in blocks]
        tests.check(f"{what}: signals came", taken, [False] + [True] * 7)
    tests.check(f"{what}: said", [it for it in said if re.search("(?i)mismatch|bad|fail", it)], [])
    tests.check(f"{what}: replayed", [tests.run(tests.smemu, "replay", program, report, number)[0]
                                      for number in range(len(blocks))], [0] * len(blocks))
    # X22 counts the rounds
    rounds = [int(re.search(r"^x 22 (\w+)$", block, re.M)[1], 16) for block in blocks
              if "\nx 22 " in block]
    return min(rounds, default=0)


def linux(tests: Any, packages: Packages) -> str:
    need(*GCC)
    source = kernel_sources(tests, packages)
    rounds = {}
    shape = ("--threads", 8, "--cores", 4, "--slice", 97, "--budget", 2000000)
    for name, options in (("za-test", ()), ("sve-test", ()), ("sve-test", ("-DSSVE",))):
        program = kernel_program(tests, source, name, *options)
        for bits in (128, 512, 2048):
            what = f"{name} {' '.join(options)} at {bits}"
            rounds[what] = kernel_run(tests, program, what, "--vl", bits, "--svl", bits, *shape)
    program = kernel_program(tests, source, "za-test", entry="_posts")
    for bits in (128, 512, 2048):
        what = f"za-test with posts at {bits}"
        rounds[what] = kernel_run(tests, program, what, "--vl", bits, "--svl", bits,
                                  "--threads", 8, "--slice", 97, "--budget", 2000000)
    program, plan = kernel_program(tests, source, "za-test"), moving_plan(tests)
    for bits in (128, 512):
        what = f"za-test moved at {bits}"
        rounds[what] = kernel_run(tests, program, what, "--vl", bits, "--svl", bits,
                                  "--threads", 8, "--cores", 3, "--budget", 200000,
                                  start=("sim", plan))
    tests.check("each test goes round", [it for it, count in rounds.items() if not count], [])
    return ("no mismatch in 2,000,000 instructions of each of eight threads, nor where handlers of "
            "ours that use ZA come in, nor where a plan moves each thread to another core after 97 "
            f"turns; each replays; {min(rounds.values())} to "
            f"{max(rounds.values())} rounds a thread")


# of each row the code, its version, what was changed of it, and what runs it
ROWS = (
    ("LLVM's routines of lazy saving", "19.1.7, libclang-rt-19-dev of arm64", "nothing", llvm),
    ("GCC", "14.2, gcc-14-aarch64-linux-gnu of Debian 13", "nothing", gcc_14),
    ("glibc's memcpy and memmove for A64FX", "2.36, libc6-dev-arm64-cross", "nothing", glibc),
    ("Linux's za-test and sve-test", "6.1, linux-source-6.1",
     "numbers of calls by a header; three movi of a handler that never runs are nop", linux),
)


def try_all(smemu: str, folder: Any, is_there_only: bool) -> int:
    """Prints each row; how many checks failed."""
    packages, faults = Packages(pathlib.Path(folder).resolve(), is_there_only), 0
    for what, version, changed, run in ROWS:
        with tempfile.TemporaryDirectory() as work:
            tests = beside_tests.Tests(smemu, work)
            tests.environment["ROUTINES"] = ""
            try:
                result = run(tests, packages)
            except Lacking as lacking:
                print(f"{what}: not run, since {lacking}", flush=True)
                continue
            faults += tests.faults
            result = f"{tests.faults} of {tests.number} checks failed" if tests.faults else result
            print(f"{what} ({version}; changed: {changed}): {result}", flush=True)
    return faults


def main() -> int:
    words = parser(__doc__)
    words.add_argument("--folder", type=pathlib.Path, help="where packages are kept")
    words.add_argument("--there", action="store_true", help="fetch nothing")
    words.add_argument("program", nargs="?", metavar="PROGRAM")
    asked = words.parse_args()
    os.environ["SMEMU"] = smemu = str(pathlib.Path(asked.program or emulator.find()).resolve())
    with tempfile.TemporaryDirectory() as folder:
        if asked.folder:
            asked.folder.mkdir(parents=True, exist_ok=True)
        faults = try_all(smemu, asked.folder or folder, asked.there)
    return 1 if faults else 0

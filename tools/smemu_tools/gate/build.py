"""Builds the emulator, and says on standard error how far it is. `./smemu` calls it for `--build`,
and where there is no program of these sources.

    tools/smemu-tools build

Proves each crate that the program stands on as soon as those below it are proved, as many at a time
as there are cores, and memory for; crates of tests are left out. What is proved stays in the
crates' out/, so a build that was interrupted goes on.

`rt` lets one run at a time work in a crate's folder and in those below it. So each run has a tree
of its own, out/tree in its crate's folder, in which the files of the crates below are links to what
is proved.
"""
from __future__ import annotations

import fcntl
import os
import shutil
import signal
import subprocess
import sys
import tempfile
import time
from typing import Any

from smemu_tools import TOP, parser

CRATES = TOP / "crates"
PROGRAM = "smemu_cli"
# what a run takes of memory, in bytes
EACH = 2_500_000_000


def read_crates() -> tuple[dict[str, str], dict[str, list[str]]]:
    """The lines of crates.txt by crate, and the crates of the repository that each one uses."""
    rows = [line.partition("#")[0].strip()
            for line in (TOP / "crates.txt").read_text().splitlines()]
    lines = {row.partition(":")[0].split()[0]: row for row in rows if row}
    return lines, {name: [it for it in row.partition(":")[2].split() if it in lines]
                   for name, row in lines.items()}


LINES, USES = read_crates()


def below(name: str) -> list[str]:
    """The crates below one, each after those that it uses."""
    found = []
    for it in USES[name]:
        found += [other for other in [*below(it), it] if other not in found]
    return found


def urgency(needed: Any) -> Any:
    """For each crate how many lines there are to prove from it to the program, by the longest
    way."""
    found = {}
    for name in reversed(needed):
        files = [*(CRATES / name).glob("src/**/*.rt"), *(CRATES / name).glob("proofs/**/*.antt")]
        own = sum(file.read_bytes().count(b"\n") for file in files)
        found[name] = own + max((found[it] for it in needed if name in USES[it]), default=0)
    return found


def slots() -> Any:
    """How many runs may work at once."""
    try:
        free = int(next(line for line in open("/proc/meminfo")
                        if line.startswith("MemAvailable")).split()[1]) * 1024
    except (OSError, StopIteration):
        free = 0
    return max(1, min(len(os.sched_getaffinity(0)), free // EACH))


def link(source: Any, target: Any) -> None:
    try:
        os.link(source, target)
    except OSError:
        shutil.copy2(source, target)


def tree_of(name: Any) -> Any:
    return CRATES / name / "out" / "tree"


def take_back(name: Any) -> None:
    """Moves what a run has made from its tree to the crate's folder, and removes the tree."""
    made = tree_of(name) / "crates" / name / "out"
    for kept in made.iterdir() if made.is_dir() else ():
        shutil.rmtree(CRATES / name / "out" / kept.name, ignore_errors=True)
        kept.rename(CRATES / name / "out" / kept.name)
    shutil.rmtree(tree_of(name), ignore_errors=True)


def make_tree(name: Any) -> Any:
    """Makes the tree in which a crate is proved."""
    take_back(name)
    tree, under = tree_of(name), below(name)
    for it in [*under, name]:
        for part in ("src", "specs", "proofs", *["out/rlib"] * (it in under)):
            if (CRATES / it / part).is_dir():
                shutil.copytree(CRATES / it / part, tree / "crates" / it / part, copy_function=link)
    (tree / "crates.txt").write_text("".join(f"{LINES[it]}\n" for it in [*under, name]))
    out = tree / "crates" / name / "out"
    out.mkdir()
    for kept in ("rlib", "incremental"):
        if (CRATES / name / "out" / kept).is_dir():
            (CRATES / name / "out" / kept).rename(out / kept)
    return tree / "crates" / name


def lock() -> Any:
    """Waits until no other build runs here, nor what one has left running."""
    held = os.open(TOP / "tools", os.O_RDONLY)
    try:
        fcntl.flock(held, fcntl.LOCK_EX | fcntl.LOCK_NB)
    except BlockingIOError:
        print("smemu: waiting for another build here to end", file=sys.stderr)
        fcntl.flock(held, fcntl.LOCK_EX)
    return held


class Run:
    """A run of rt in a folder, with what it prints. It holds the lock too, as it may outlive a
    build that is killed."""

    def __init__(self, held: Any, folder: Any, *words: Any) -> None:
        self.log = tempfile.TemporaryFile()
        self.process = subprocess.Popen(["rt", *words], cwd=folder, stdin=subprocess.DEVNULL,
                                        stdout=self.log, stderr=self.log, pass_fds=[held])

    def was_killed(self) -> Any:
        """Tells whether it was killed, or ended as rattle was."""
        return self.process.returncode in (-signal.SIGKILL, 256 - signal.SIGKILL)

    def said(self) -> Any:
        self.log.seek(0)
        return self.log.read().decode(errors="replace")


class Progress:
    """One line that is rewritten on a terminal, and elsewhere one for each crate."""

    def __init__(self, count: Any) -> None:
        self.count, self.done, self.start, self.is_terminal = (count, 0, time.monotonic(),
                                                               sys.stderr.isatty())
        self.say("smemu: building the emulator; each crate is proved first, "
                 "which takes some 20 minutes on four cores; it may be interrupted, "
                 "and the next start goes on\n")

    def say(self, text: Any) -> None:
        sys.stderr.write(text)
        sys.stderr.flush()

    def time(self) -> Any:
        minutes, seconds = divmod(int(time.monotonic() - self.start), 60)
        return f"{minutes}:{seconds:02}"

    def show(self, running: Any) -> None:
        if self.is_terminal:
            line = (f"smemu: {self.done} of {self.count} crates proved "
                    f"after {self.time()}, now {', '.join(running)}")
            self.say(f"\r{line[:shutil.get_terminal_size().columns - 1]}\033[K")

    def proved(self, name: Any) -> None:
        self.done += 1
        if not self.is_terminal:
            self.say(
                f"smemu: {self.done} of {self.count} crates proved after {self.time()}: {name}\n")

    def end(self, text: Any) -> None:
        self.say("\r\033[K" * self.is_terminal + f"smemu: {text}\n")


def build(needed: Any, running: Any, progress: Any, held: Any) -> Any:
    """Proves the crates, and links the program. The answer is what went wrong."""
    left, most, most_lines = list(needed), slots(), urgency(needed)
    while left or running:
        ready = sorted((it for it in left if not {*USES[it]} & {*left, *running}),
                       key=most_lines.get, reverse=True)
        for name in ready[:most - len(running)]:
            left.remove(name)
            if name == PROGRAM:
                running[name] = Run(held, CRATES / name, "run", "--jobs", "1", "--", "--version")
                continue
            # each job reads all that stands below the crate, so more than one serves only where
            # nothing does
            jobs = 1 if USES[name] else min(most, 2)
            running[name] = Run(held, make_tree(name), "lib", "--jobs", str(jobs))
        progress.show(running)
        time.sleep(0.2)
        for name, run in list(running.items()):
            if run.process.poll() is not None:
                take_back(name)
                del running[name]
                if run.was_killed() and most > 1:
                    # most likely for memory
                    most -= 1
                    left.append(name)
                elif run.process.returncode:
                    progress.end(f"what rt says of {name}:\n{run.said()}")
                    return f"{name} is not proved: rt ended with status {run.process.returncode}"
                else:
                    progress.proved(name)
    (CRATES / PROGRAM / "out" / PROGRAM).touch()


def main() -> Any:
    parser(__doc__).parse_args()
    held, needed = lock(), [*below(PROGRAM), PROGRAM]
    running, progress = {}, Progress(len(needed))
    signal.signal(signal.SIGTERM, signal.getsignal(signal.SIGINT))
    try:
        fault = build(needed, running, progress, held)
    except KeyboardInterrupt:
        fault = "interrupted; what is proved is kept, and the next start goes on"
    signal.signal(signal.SIGINT, signal.SIG_IGN)
    for name, run in running.items():
        run.process.terminate()
        run.process.wait()
        take_back(name)
    progress.end(f"not built, after {progress.time()}: {fault}" if fault
                 else f"built in {progress.time()}")
    return 1 if fault else 0

"""Runs examples/stress.s on 1, 2, 3, 4 and 64 cores, and looks at each report: every thread ends
with 0, the shared words are the sums, each thread's replay is its block, and the journals are parts
of one history that ends in the words.

    tools/smemu-tools stress [RUNS [THREADS [PROGRAM]]]

RUNS is how often on each number of cores, 50 if not given, and THREADS 6 (with many the search is
long); PROGRAM is the emulator, by default that which ./smemu --build makes. The history is looked
for here, by the rule of each operation alone, and none of it is taken from the emulator.
"""
from __future__ import annotations

import pathlib
import subprocess
import tempfile
from typing import Any

from smemu_tools import TOP, parser
from smemu_tools.model.expected import OPERATIONS

CORES = (1, 2, 3, 4, 64)
ROUNDS = 40


class Event:
    """An operation of a thread on a word, and its answer."""

    def __init__(self, line: str) -> None:
        _, self.kind, place, *values = line.split(" ")
        self.word = ("pending" if self.kind in ("post", "poll") else "w", int(place))
        self.a, self.b, self.answer = (int(it, 16) for it in values)

    def after(self, old: int) -> int | None:
        """The word after it, or None where it does not answer so on that word."""
        if self.answer != (0 if self.kind == "st" else old):
            return None
        return OPERATIONS[self.kind](old, self.a, self.b)


def parse(report: str) -> tuple[list[list[Event]], dict[tuple[str, int], int]]:
    """The journals of a report and the words at its end that are not zero."""
    journals, words = [], {}
    for line in report.splitlines():
        first = line.split(" ")[0]
        if first == "thread":
            journals.append([])
        elif first == "e":
            journals[-1].append(Event(line))
        elif first in ("w", "pending"):
            _, place, value = line.split(" ")
            words[first, int(place)] = int(value, 16)
    return journals, words


class Search:
    """Looks for a history of which the journals are parts. Where an event leaves its word, it is
    made at once: nothing is lost by it. Of those that change a word, the one is tried first whose
    thread adds to a word the soonest: what an addition answers tells its place."""

    def __init__(self, journals: list[list[Event]]) -> None:
        self.journals = journals
        self.next_add = [self.ranks(it) for it in journals]
        self.next_poll = [self.polls(it, ("pending", thread)) for thread, it in enumerate(journals)]
        self.failed = set()

    @staticmethod
    def ranks(journal: list[Event]) -> list[int]:
        """Of each event, what the next addition of its thread answers."""
        found, rank = [], 1 << 64
        for event in reversed(journal):
            rank = event.answer if event.kind == "add" else rank
            found.append(rank)
        return found[::-1]

    @staticmethod
    def polls(journal: list[Event], word: tuple[str, int]) -> list[int]:
        """Of each event, what the next poll of its thread answers, None past the last."""
        found: list[Any] = [None]
        answer = None
        for event in reversed(journal):
            answer = event.answer if event.word == word and event.kind == "poll" else answer
            found.append(answer)
        return found[::-1]

    def is_open(self, event: Event, at: list[int]) -> bool:
        """A signal that is posted is among those of the next poll of that thread."""
        if event.kind != "post":
            return True
        answer = self.next_poll[event.word[1]][at[event.word[1]]]
        return answer is None or answer & event.a == event.a

    def settle(self, at: list[int], words: dict[tuple[str, int], int]) -> None:
        """Makes all events that leave their words."""
        moved = True
        while moved:
            moved = False
            for thread, journal in enumerate(self.journals):
                while at[thread] < len(journal):
                    event = journal[at[thread]]
                    old = words.get(event.word, 0)
                    if event.after(old) != old or not self.is_open(event, at):
                        break
                    at[thread] += 1
                    moved = True

    def choices(self, at: list[int],
                words: dict[tuple[str, int], int]) -> list[tuple[int, int, tuple[str, int], int]]:
        found = []
        for thread, journal in enumerate(self.journals):
            if at[thread] < len(journal):
                event = journal[at[thread]]
                new = event.after(words.get(event.word, 0))
                if new is not None and self.is_open(event, at):
                    found.append((self.next_add[thread][at[thread]], thread, event.word, new))
        return sorted(found, reverse=True)

    def words_at_end(self) -> dict[tuple[str, int], int] | None:
        """The words at the end of such a history that are not zero, or None where there is no
        history."""
        at, words, open_choices = [0] * len(self.journals), {}, []
        while True:
            self.settle(at, words)
            if all(it == len(journal) for it, journal in zip(at, self.journals)):
                return {word: value for word, value in words.items() if value}
            place = (tuple(at), tuple(sorted(words.items())))
            if place not in self.failed:
                self.failed.add(place)
                open_choices += [(at, words, choice) for choice in self.choices(at, words)]
            if not open_choices:
                return None
            at, words, (_, thread, word, new) = open_choices.pop()
            at, words = list(at), dict(words)
            at[thread] += 1
            words[word] = new


def said(program: pathlib.Path, *words: int | str) -> tuple[int, str]:
    """What the emulator writes, with its status."""
    done = subprocess.run([str(program), *map(str, words)], capture_output=True, text=True,
                          timeout=600)
    return done.returncode, done.stdout


def faults(program: pathlib.Path, elf: str, report_file: str, report: str,
           threads: int) -> list[Any]:
    """What is wrong with a report."""
    found = []
    journals, words = parse(report)
    if report.count("\nstop exited 0\n") != threads:
        found.append("a thread did not end with 0")
    sums = {("w", 1): ROUNDS * threads * (threads + 1) // 2, ("w", 2): ROUNDS * threads}
    if {word: value for word, value in words.items() if word[0] == "w"} != sums:
        found.append("a word is not the sum")
    if Search(journals).words_at_end() != words:
        found.append("the journals are no history that ends in the words")
    for thread in range(threads):
        status, block = said(program, "replay", elf, report_file, thread)
        if status != 0 or f"{block}" not in report:
            found.append(f"the replay of thread {thread} is another")
    return found


def main() -> int:
    words = parser(__doc__)
    words.add_argument("runs", type=int, nargs="?", default=50, metavar="RUNS")
    words.add_argument("threads", type=int, nargs="?", default=6, metavar="THREADS")
    words.add_argument("program", type=pathlib.Path, nargs="?",
                       default=TOP / "crates/smemu_cli/out/smemu_cli", metavar="PROGRAM")
    runs, threads, program = vars(words.parse_args()).values()
    bad = 0
    with tempfile.TemporaryDirectory() as folder:
        elf, report_file = f"{folder}/stress.elf", f"{folder}/stress.report"
        done = subprocess.run([str(program), "asm", str(TOP / "examples" / "stress.s")],
                              capture_output=True, timeout=600)
        pathlib.Path(elf).write_bytes(done.stdout)
        for cores in CORES:
            reports = set()
            for _ in range(runs):
                status, report = said(program, "run", elf, "--threads", threads, "--cores", cores,
                                      "--slice", 50)
                pathlib.Path(report_file).write_text(report)
                wrong = faults(program, elf, report_file, report,
                               threads) if status == 0 else [f"status {status}"]
                for it in wrong:
                    print(f"{cores} cores: {it}")
                bad += bool(wrong)
                reports.add(report)
            print(f"{cores} cores: {runs} runs, {len(reports)} different reports")
    print(f"{bad} of {runs * len(CORES)} runs are wrong")
    return 1 if bad else 0

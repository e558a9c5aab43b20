"""Prints what `run PROGRAM --threads N` and `sim PROGRAM PLAN` are to write, by a world of its own
that shares nothing with the emulator.

    tools/smemu-tools world run FILE [OPTIONS]
    tools/smemu-tools world sim FILE PLAN [OPTIONS]

The options are those of the command, and the status is that of the process. A thread's
instructions, calls and signals are those of tools/smemu_tools/model/expected.py; here are the words
that all threads share, the cores and the queue, the events, the plans and the history.
"""
from __future__ import annotations

import argparse
import hashlib
import pathlib
import re
import sys
from typing import Any

from smemu_tools import parser
from smemu_tools.model.expected import KERNEL, OPERATIONS, SHARED, Raised, Thread, block

PLACES = 8  # for residents on a core
YIELD = 124
SPENT, YIELDED, STOPPED = "spent", "yielded", "stopped"
OPTIONS = {"vl": 128, "svl": 256, "slice": 1000, "budget": 10_000_000, "threads": 1, "cores": 1,
           "kernel": KERNEL}


class Guest(Thread):
    """A thread of a world: its operations are on words that all threads share, and each is an entry
    of the world's history."""

    def __init__(self, world: World, file: bytes, number: int) -> None:
        options = world.options
        super().__init__(file, options["budget"], options["vl"], options["svl"], options["slice"],
                         number, options["threads"], options["kernel"])
        self.world, self.stop, self.gave_way = world, None, False

    def ask(self, kind: str, address: int, base: int, a: int = 0, b: int = 0) -> int:
        if base == 31 and self.sp % 16:
            raise Raised("spalign", "")
        return self.operate(self.world.shared, kind, (address - SHARED.start) // 8, a, b)

    def ask_signals(self, kind: str, thread: int, a: int = 0) -> int:
        return self.operate(self.world.pending, kind, thread, a, 0)

    def operate(self, words: list[int], kind: str, place: int, a: int, b: int) -> int:
        """The operation on a word: the journal and the history have it with its answer."""
        self.need_room()
        old = words[place]
        words[place] = OPERATIONS[kind](old, a, b)
        answer = 0 if kind == "st" else old
        self.world.history.append(f"h {self.number} {kind} {place} {a:016x} {b:016x} {answer:016x}")
        return self.keep(kind, place, a, b, answer)

    def call(self) -> str:
        self.gave_way = self.x[8] == YIELD
        return super().call()

    def make_turn(self) -> None:
        self.gave_way = False
        self.stop = self.turn()


class World:
    """The queue, the residents of each core and the threads that are done, as lists of threads, and
    the words and the history."""

    def __init__(self, file: bytes, **options: int) -> None:
        self.options = {**OPTIONS, **options}
        self.image = hashlib.sha256(file).hexdigest()
        self.shared, self.pending, self.history = [0] * 512, [0] * 32, []
        self.threads = [Guest(self, file, number) for number in range(self.options["threads"])]
        self.queue, self.done = list(self.threads), []
        self.cores = [[] for _ in range(self.options["cores"])]

    def refusal(self, kind: Any, number: int) -> str | None:
        """Why an event of that kind is not enabled on the core of that number, if so: the first
        fact that holds."""
        if number >= len(self.cores):
            return f"nocore {number}"
        residents = self.cores[number]
        if kind != "fetch" and not residents:
            return "noresident"
        if kind == "next" and len(residents) < 2:
            return "oneresident"
        if kind == "fetch" and len(residents) == PLACES:
            return f"corefull {PLACES}"
        if kind == "fetch" and not self.queue:
            return "queueempty"
        return None

    def happens(self, kind: Any, number: int, turns: int = 0) -> str | None:
        """An event that is enabled; how it ended, where it is a run."""
        residents = self.cores[number]
        if kind == "run":
            return self.run(residents, turns)
        if kind == "next":
            residents.append(residents.pop(0))
        elif kind == "fetch":
            residents.append(self.queue.pop(0))
        else:
            self.queue.append(residents.pop(0))
        return None

    def run(self, residents: list[Guest], turns: int) -> str:
        """The first resident makes as many turns, or fewer where it yields or stops; one that has
        stopped is done."""
        thread = residents[0]
        last = thread.turns + turns
        while thread.turns < last:
            thread.make_turn()
            if thread.stop is not None:
                self.done.append(residents.pop(0))
                return STOPPED
            if thread.gave_way:
                return YIELDED
        return SPENT

    def run_serially(self) -> None:
        """The events of core 0 until each thread is done, where no plan says others."""
        residents = self.cores[0]
        while len(self.done) < len(self.threads):
            while self.queue and len(residents) < PLACES:
                self.happens("fetch", 0)
            if self.happens("run", 0, self.options["slice"]) != STOPPED:
                if self.queue:
                    self.happens("offer", 0)
                elif len(residents) >= 2:
                    self.happens("next", 0)

    def report(self) -> list[str]:
        """The lines of the report; a thread that goes on has a stop of its own."""
        named = " ".join(f"{name}={self.options[name]}"
                         for name in ("vl", "svl", "slice", "budget", "threads"))
        lines = [f"smemu-report {self.options['kernel']}", f"options {named}",
                 f"image {self.image}"]
        for thread in self.threads:
            lines += block(thread, thread.stop or "none", thread.number)
        lines.append("shared")
        lines += [f"w {place} {word:016x}" for place, word in enumerate(self.shared) if word]
        lines += [f"pending {place} {word:016x}" for place, word in enumerate(self.pending) if word]
        return [*lines, "end"]


class BadPlan(Exception):
    """The kind of fault of a line of a plan."""


# of each event the numbers that follow its name
CORE, TURNS = range(1 << 32), range(1, 1 << 32)
EVENTS = {"run": (CORE, TURNS), "next": (CORE,), "fetch": (CORE,), "offer": (CORE,)}


def event_of(line: str) -> tuple[int | str, ...]:
    """The event of a line: its name and its numbers. The words are judged from left to right, with
    one space between them."""
    name, *words = line.split(" ")
    if name not in EVENTS:
        raise BadPlan("unknown")
    numbers = []
    for place, values in enumerate(EVENTS[name]):
        if place == len(words):
            raise BadPlan("missing")
        if not re.fullmatch("0|[1-9][0-9]*", words[place]) or int(words[place]) not in values:
            raise BadPlan("badnumber")
        numbers.append(int(words[place]))
    if len(words) > len(numbers):
        raise BadPlan("extra")
    return name, *numbers


def read_plan(plan: bytes) -> list[tuple[int | str, ...]]:
    """The events of a plan, each with the number of its line; the first faulty line raises."""
    lines, events = plan.split(b"\n"), []
    for number, line in enumerate(lines, 1):
        try:
            if line:
                events.append((number, *event_of(line.decode())))
        except UnicodeDecodeError:
            raise BadPlan(f"line {number}: nottext") from None
        except BadPlan as fault:
            raise BadPlan(f"line {number}: {fault}") from None
    return events


def text_of(lines: Any) -> str:
    return "".join(line + "\n" for line in lines)


def run(file: Any, **options: Any) -> str:
    """The report of all threads on one core."""
    world = World(file, **options)
    world.run_serially()
    return text_of(world.report())


def sim(file: bytes, plan: Any, **options: int) -> tuple[int, str]:
    """The status and the text over a plan."""
    try:
        events = read_plan(plan)
    except BadPlan as fault:
        return 11, f"bad plan: {fault}\n"
    world, skipped = World(file, **options), []
    event: Any
    for line, *event in events:
        why = world.refusal(*event[:2])
        if why:
            skipped.append(f"skip {line} {why}")
        else:
            world.happens(*event)
    return 0, text_of([*skipped, *world.report(), f"history {len(world.history)}", *world.history])


def main() -> Any:
    asked = parser(__doc__)
    asked.add_argument("command", choices=("run", "sim"))
    asked.add_argument("words", nargs=argparse.REMAINDER, metavar="WORD",
                       help="the words of that command")
    command, words = vars(asked.parse_args()).values()
    names, rest = (words[:1], words[1:]) if command == "run" else (words[:2], words[2:])
    options: dict[str, Any] = {name[2:]: int(value) for name, value in zip(rest[::2], rest[1::2])}
    files = [pathlib.Path(name).read_bytes() for name in names]
    status, text = (0, run(*files, **options)) if command == "run" else sim(*files, **options)
    sys.stdout.write(text)
    return status

"""Makes plans for `sim` and reads what it writes, for the scripts that try many orders of a
program's threads: docs/WORLDS.md has plans and worlds.

A thread acts on the others only where it makes an operation on what they share: an *event*. A
polling for signals is one, but as long as no thread posts any it is passed over. A *step* of a
thread is its turns up to its next event, and, where it makes no more, to its stop.
"""
from __future__ import annotations

import hashlib
import re
from typing import List, NamedTuple
from typing import Any, Callable

from smemu_tools.user import emulator

RESIDENTS = 8
POLLED = re.compile(r"\npolled [01]")
# turns that a search for the next event begins with
FIRST_TURNS = 4
MOST_TURNS = 1 << 32


class Piece(NamedTuple):
    """Turns that a thread makes in one go, and how they end: "" after so many, by a yield, or with
    its stop."""
    thread: int
    turns: int
    end: str = ""


class Placement:
    """The lines of a plan: which threads are on which core, and what is done with them."""

    def __init__(self, threads: int, cores: int) -> None:
        self.residents, self.lines = [[] for _ in range(cores)], []
        for thread in range(threads):
            self.residents[thread % cores].append(thread)
            self.lines.append(f"fetch {thread % cores}")

    def bring(self, thread: int) -> int:
        """Makes a thread the first on its core; the answer is the core."""
        core = next(number for number, there in enumerate(self.residents) if thread in there)
        while self.residents[core][0] != thread:
            self.residents[core].append(self.residents[core].pop(0))
            self.lines.append(f"next {core}")
        return core

    def run(self, piece: Piece) -> None:
        core = self.bring(piece.thread)
        self.lines.append(f"run {core} {piece.turns}")
        if piece.end == "stop":
            self.residents[core].pop(0)

    def move(self, thread: int) -> None:
        """Moves a thread by the queue to the next core that has a place."""
        core = self.bring(thread)
        others = [(core + at) % len(self.residents) for at in range(1, len(self.residents))]
        to = next(it for it in others if len(self.residents[it]) < RESIDENTS)
        self.residents[to].append(self.residents[core].pop(0))
        self.lines += [f"offer {core}", f"fetch {to}"]

    def text(self) -> str:
        return "".join(line + "\n" for line in self.lines)


def joined(pieces: list[Piece]) -> list[Piece]:
    """The same turns in as few pieces as may be."""
    found: List[Piece] = []
    for piece in pieces:
        if found and found[-1].thread == piece.thread and not found[-1].end:
            piece = Piece(piece.thread, found.pop().turns + piece.turns, piece.end)
        found.append(piece)
    return found


class Block(NamedTuple):
    """A thread's block in what `sim` writes: its stop, its numbers, and its other lines up to the
    journal."""
    stop: str
    count: int  # type: ignore[assignment]
    turns: int
    text: str

    @property
    def is_done(self) -> bool:
        return self.stop != "none"

    def lines(self, name: str) -> list[str]:
        """Its lines of a name, or of a name and a number."""
        return [line for line in self.text.split("\n")
                if line == name or line.startswith(name + " ")]

    @property
    def has_za(self) -> bool:
        return "\nsvcr 2" in self.text or "\nsvcr 3" in self.text

    @property
    def pc(self) -> int:
        return int(self.lines("pc")[0].split()[1], 16)


class Seen:
    """What `sim` writes: the blocks, what is shared, and the history."""

    def __init__(self, text: str) -> None:
        self.text = text
        head, _, tail = text.partition("\nshared\n")
        shared, _, history = tail.partition("end\nhistory ")
        self.blocks = [self.block(it) for it in ("\n" + head).split("\nthread ")[1:]]
        self.shared, self.history = shared, history.split("\n")[1:-1]

    @staticmethod
    def block(text: str) -> Block:
        _, stop, count, turns, rest = text.partition("\njournal ")[0].split("\n", 4)
        return Block(stop[5:], int(count[6:]), int(turns[6:]), "\n" + rest)

    @property
    def is_done(self) -> bool:
        return all(block.is_done for block in self.blocks)

    @property
    def report(self) -> str:
        """The lines that are a report, where all threads have stopped."""
        start = self.text.index("smemu-report ")
        return self.text[start:self.text.index("\nhistory ") + 1]

    def words(self) -> dict[int, int]:
        """The shared words that are not zero, by their numbers."""
        found = (line.split() for line in self.shared.split("\n") if line.startswith("w "))
        return {int(number): int(value, 16) for _, number, value in found}


class Endless(Exception):
    """A thread goes on for ever without an event."""


class State:
    """A state of a world: the pieces that lead to it, and what a search needs to know of it. The
    texts are long, so they are not kept."""

    def __init__(self, world: World, pieces: list[Piece], seen: Seen, trail: list[tuple[int, int]],
                 has_event: bool = True, has_yield: bool = False) -> None:
        # of each event that counts the thread, and its count of instructions after it
        self.pieces, self.trail = pieces, trail
        self.turns = [block.turns for block in seen.blocks]
        self.stops = [block.stop for block in seen.blocks]
        self.places = [block.pc for block in seen.blocks]
        self.locals = [digest(world.local(block)) for block in seen.blocks]
        self.key = digest("".join([*(local.hex() for local in self.locals), seen.shared]))
        self.events = len(seen.history)
        self.has_post = any(line.split(" ", 3)[2] == "post" for line in seen.history)
        self.outcome = world.describe(seen) if seen.is_done else None
        # whether its last step made an event, and yielded before it
        self.has_event, self.has_yield = has_event, has_yield

    def going(self) -> list[int]:
        """The threads that have not stopped."""
        return [thread for thread, stop in enumerate(self.stops) if stop == "none"]


def digest(text: str) -> bytes:
    return hashlib.sha1(text.encode()).digest()


class World:
    """A program and the options of its runs. Several threads may call it at once."""

    def __init__(self, program: str, options: list[Any], threads: int, cores: int,
                 describe: Callable[..., Any]) -> None:
        self.words = [emulator.find(), "sim", str(program), "/dev/stdin", "--threads", str(threads),
                      "--cores", str(cores), *options]
        self.threads, self.cores, self.describe = threads, cores, describe
        self.slice = int(options[options.index("--slice") + 1]) if "--slice" in options else 1000
        self.has_signals, self.gaps = False, {}

    def plan(self, pieces: list[Piece]) -> str:
        """The text of a plan that makes these turns."""
        placed = Placement(self.threads, self.cores)
        for piece in joined(pieces):
            placed.run(piece)
        return placed.text()

    def try_plan(self, plan: str) -> Seen:
        """What `sim` writes for the text of a plan."""
        return Seen(emulator.call(self.words, plan.encode()).decode())

    def seen(self, pieces: list[Piece]) -> Seen:
        """What is there after these turns."""
        return self.try_plan(self.plan(pieces))

    def start(self) -> State:
        """The state before all events."""
        return State(self, [], self.seen([]), [])

    def local(self, block: Block) -> str:
        """All that decides how a thread goes on, but its number and what the others share."""
        if self.has_signals:
            return f"{block.stop}{block.text}\n{block.count % self.slice}"
        return block.stop + POLLED.sub("", block.text)

    def made(self, start: State, seen: Seen) -> list[str]:
        """The events of the history after a state, those that count."""
        return self.counting(seen.history[start.events:])

    def counting(self, history: list[str]) -> list[str]:
        """Those of the events of a history that count."""
        return [it for it in history if self.has_signals or it.split(" ", 3)[2] != "poll"]

    def step(self, start: State, thread: int) -> State:
        """The state to which a thread's step leads, or Endless."""
        local = (thread, start.locals[thread])
        pieces = self.gaps.get(local)
        # the same turns as from an equal state, which is looked at again
        seen = self.seen(start.pieces + pieces) if pieces else None
        if not seen or not self.is_step(start, seen, thread, pieces):
            pieces, seen = self.search(start, thread)
            self.gaps[local] = pieces
        has_event = bool(self.made(start, seen))
        trail = [*start.trail, (thread, seen.blocks[thread].count)] if has_event else start.trail
        return State(self, joined(start.pieces + pieces), seen, trail, has_event, len(pieces) > 1)

    def is_step(self, start: State, seen: Seen, thread: int, pieces: list[Piece]) -> bool:
        """Tells whether these pieces of a thread were exactly a step."""
        events = self.made(start, seen)
        if pieces[-1].end == "stop":
            return seen.blocks[thread].is_done and not events
        turns = seen.blocks[thread].turns - start.turns[thread]
        return len(events) == 1 and seen.history[-1] == events[0] and turns == sum(piece.turns
                                                                                   for piece
                                                                                   in pieces)

    def search(self, start: State, thread: int) -> tuple[list[Piece], Seen] | None:
        """Looks for the pieces of a thread's step."""
        made, before, met = [], start.turns[thread], set()
        while True:
            turns = FIRST_TURNS
            while True:
                seen = self.seen([*start.pieces, *made, Piece(thread, turns)])
                block = seen.blocks[thread]
                gone = block.turns - before
                if self.made(start, seen):
                    return self.narrow(start, made, thread, gone)
                if block.is_done:
                    return [*made, Piece(thread, gone + 1, "stop")], seen
                if gone < turns or turns > MOST_TURNS // 4:
                    break
                turns *= 4
            local = self.local(block)
            if local in met or gone == turns:
                raise Endless()
            met.add(local)
            made.append(Piece(thread, gone, "yield"))
            before = block.turns

    def narrow(self, start: State, made: list[Piece], thread: int, high: int) -> tuple[list[Piece],
                                                                                       Seen]:
        """Looks for the least turns that make the event, of which so many make one or more."""
        prefix, low, exact = [*start.pieces, *made], 0, None
        while high - low > 1:
            middle = (low + high) // 2
            seen = self.seen([*prefix, Piece(thread, middle)])
            if self.made(start, seen):
                high, exact = middle, seen
            else:
                low = middle
        return [*made, Piece(thread, high)], exact or self.seen([*prefix, Piece(thread, high)])

"""Tries a run again with one thing that is not to matter: a thread moved to another core, or a
signal, at one place after the other."""
from __future__ import annotations

import concurrent.futures
import pathlib
import tempfile
from typing import Any, Callable

from smemu_tools.user import emulator, places, progress, recorded, worlds

# the faults that are shown, and the counts before a post up to which its thread is run
SHOWN = 40
MOST_SLICE, ROUNDS, ROUND = 1_000_000, 64, 20_000
# what a signal's handler has to leave as it was
REGISTERS = ("x", "sp", "nzcv", "tpidr", "tpidr2", "svcr", "z", "p", "ffr")


def show_faults(lines: list[str]) -> None:
    for line in lines[:SHOWN]:
        print(line)
    if len(lines) > SHOWN:
        print(f"    and {len(lines) - SHOWN} more")


def in_parallel(function: Callable[..., Any], items: Any, jobs: int) -> list[Any]:
    """What a function gives of each item, several at once, in their order."""
    told, found = progress.Progress(), []
    with concurrent.futures.ThreadPoolExecutor(jobs) as pool:
        for it in pool.map(function, items):
            found.append(it)
            told.show(f"places {len(found)} of {len(items)}")
    told.clear()
    return found


# moves


def move_places(plans: list[list[worlds.Piece]], most: int) -> tuple[list[tuple[int, int, int]],
                                                                     int]:
    """The places of plans, as many as are to be tried, spread over all of them: the plan, its
    piece, and the turns of it before the move."""
    found = [(plan, at, turn) for plan, pieces in enumerate(plans)
             for at, piece in enumerate(pieces)
             for turn in range(piece.turns - (piece.end == "stop"))]
    return [found[at * len(found) // most]
            for at in range(most)] if len(found) > most else found, len(found)


def moved_plan(world: worlds.World, pieces: list[worlds.Piece], at: int, turn: int) -> str:
    """The text of a plan that moves a thread to another core before a turn."""
    placed, piece = worlds.Placement(world.threads, world.cores), pieces[at]
    for before in pieces[:at]:
        placed.run(before)
    if turn:
        placed.run(worlds.Piece(piece.thread, turn))
    placed.move(piece.thread)
    placed.run(worlds.Piece(piece.thread, piece.turns - turn, piece.end))
    for after in pieces[at + 1:]:
        placed.run(after)
    return placed.text()


def try_moves(world: worlds.World, plans: Any, words: Any) -> tuple[bool, list[str]]:
    """Tries plans with a thread moved to another core, at one place after the other; tells whether
    something is another then, and what was not tried."""
    tried, number = move_places(plans, words.most)
    whole = [world.seen(pieces).text for pieces in plans]

    def try_one(place: tuple[int, int, int]) -> Any:
        plan, at, turn = place
        pieces = plans[plan]
        there = world.seen([*pieces[:at],
                            *([worlds.Piece(pieces[at].thread, turn)] if turn
                              else [])]).blocks[pieces[at].thread]
        same = world.try_plan(moved_plan(world, pieces, at, turn)).text == whole[plan]
        return (there.has_za,
                None if same
                else f"    plan {plan + 1}: thread {pieces[at].thread} "
                f"at count {there.count}, {there.pc:016x}")

    found = in_parallel(try_one, tried, words.jobs)
    faults = [fault for _, fault in found if fault]
    where = (f"each of {number} places" if len(tried) == number
             else f"{len(tried)} of {number} places")
    with_za = sum(has_za for has_za, _ in found)
    print(f"moved to another core at {where}, {with_za} of them with ZA on: "
          + ("something is another" if faults else "all is as before"))
    show_faults(faults)
    return (bool(faults),
            [f"{number - len(tried)} of {number} places of a move (--most {words.most})"]
            if len(tried) < number else [])


# signals


class Posted:
    """Runs of a program in which a thread is given a signal at a count of instructions that is
    chosen, in a folder of its own."""

    def __init__(self, words: Any, options: list[str], folder: str) -> None:
        self.words, self.bit, self.folder = words, 1 << words.signal, folder
        self.options = [it for name, value in zip(options[::2], options[1::2]) if name != "--slice"
                        for it in (name, value)]
        found = [line.split() for line in self.sim(1000, self.rounds(self.placement())).history]
        posts = [(int(line[1]), int(line[3])) for line in found
                 if line[2] == "post" and int(line[4], 16) == self.bit]
        # the thread that posts the signal, and the one to which it comes
        self.sender, self.receiver = next((it for it in posts if words.to in (None, it[1])),
                                          (None, None))

    def placement(self) -> worlds.Placement:
        return worlds.Placement(self.words.threads, self.words.cores)

    def sim(self, polls: int, placed: Any) -> worlds.Seen:
        """What `sim` writes for a plan, with a poll after so many instructions."""
        words = self.words
        call = [emulator.find(), "sim", words.program, "/dev/stdin", "--threads",
                str(words.threads), "--cores", str(words.cores), *self.options]
        return worlds.Seen(emulator.call([*call, "--slice", str(polls)],
                                         placed.text().encode()).decode())

    def rounds(self, placed: worlds.Placement, first: int | None = None) -> worlds.Placement:
        """Lets all threads run on, one after the other and again, to their ends; what is left when
        all have stopped is skipped."""
        order = sorted(range(self.words.threads), key=lambda thread: thread != first)
        for turns in [ROUND] * ROUNDS + [worlds.MOST_TURNS - 1] * 2:
            for thread in order:
                placed.run(worlds.Piece(thread, turns))
        return placed

    @property
    def is_own(self) -> bool:
        """Tells whether the thread posts the signal to itself; then the slice says when it comes,
        and else the plan says when it is posted."""
        return self.sender == self.receiver

    def run_at(self, count: int) -> worlds.Seen:
        """What `sim` writes of the run in which the signal is to come at a count."""
        if self.is_own:
            return self.sim(min(count, MOST_SLICE), self.rounds(self.placement(), self.receiver))
        placed = self.placement()
        # with a poll before each instruction but the first, so many turns make so many instructions
        placed.run(worlds.Piece(self.receiver, 2 * count - 1))
        placed.run(worlds.Piece(self.sender, ROUND))
        return self.sim(1, self.rounds(placed, self.receiver))

    def comes_at(self, seen: worlds.Seen, slice_length: int) -> int | None:
        """The count at which the signal comes in a run, or None."""
        polls = (line.split() for line in seen.history
                 if line.startswith(f"h {self.receiver} poll "))
        found = next((at for at, poll in enumerate(polls, 1) if int(poll[6], 16) & self.bit), None)
        return None if found is None else found * slice_length

    def record(self, seen: worlds.Seen, name: str) -> recorded.Recorded:
        """The receiver's run, to be gone over."""
        path = pathlib.Path(self.folder, f"{name}.report")
        path.write_text(seen.report)
        return recorded.Recorded(self.words.program, path, self.receiver)

    def first(self) -> int:
        """The first count at which the signal can come."""
        return self.comes_at(self.run_at(1), 1) if self.is_own else 1


class Place:
    """A count at which the signal came: the place that is interrupted, what the handler did not
    leave as it was, and the run's end; or the thread goes on there, since the signal is in its
    mask."""

    def __init__(self, count: int, pc: int, text: str) -> None:
        self.count, self.pc, self.text, self.waits = count, pc, text, False
        self.changed: list[str] | None = None
        self.end: Any = None


def state_at(thread: recorded.Recorded, count: int) -> dict[str, str]:
    """All that a handler has to leave as it was, at a count: registers and vectors of ZA by their
    names in a report."""
    return of_state(thread.state(count).registers, thread.za(count))


def of_state(registers: dict[str, str], za: dict[int, bytes]) -> dict[str, str]:
    kept = {name: value for name, value in registers.items() if name.split()[0] in REGISTERS}
    return {**kept, **{f"za {row}": value.hex() for row, value in za.items()}}


def after_handler(thread: recorded.Recorded, count: int, before: dict[str, str],
                  pc: int) -> dict[str, str] | None:
    """The same, where the thread is again at the place that was interrupted; None where it does not
    come there."""
    answers = thread.ask_at(count, [f"break {pc:#x}", "regs", "za"] * 16)
    for move, lines, za in zip(answers[::3], answers[1::3], answers[2::3]):
        registers = dict(line.rsplit(" ", 1) for line in lines)
        if move:
            break
        if registers["sp"] == before["sp"]:
            return of_state(registers, recorded.read_za(za))
    return None


def changes_of(before: dict[str, str], after: dict[str, str]) -> list[str]:
    """What is another in a state: names, and both values of what is short."""
    names = [name for name in [*before, *(it for it in after if it not in before)]
             if before.get(name) != after.get(name)]
    return [f"{name} {before[name]} becomes {after[name]}" if name == "svcr" else name
            for name in names]


def try_place(posted: Posted, count: int, before: Any, where: str, describe: Any) -> Place | None:
    """What a signal at a count does."""
    pc, text = where.split(" ", 3)[2:]
    place = Place(count, int(pc, 16), text)
    seen = posted.run_at(count)
    if not seen.is_done or posted.comes_at(seen, count if posted.is_own else 1) != count:
        return None
    place.end = describe(seen)
    thread = posted.record(seen, str(count))
    # a handler begins with SP at its frame
    place.waits = thread.end > count and thread.state(count + 1).registers["sp"] == before["sp"]
    if place.waits:
        return place
    after = after_handler(thread, count, before, place.pc)
    place.changed = ["does not return there"] if after is None else changes_of(before, after)
    return place


def different(thread: recorded.Recorded, first: int,
              last: int) -> tuple[list[tuple[int, dict[Any, Any], str]], int]:
    """The counts of a run at which the thread is in another state than at those before, with the
    state and the place; and how many are not."""
    found, met = [], set()
    for count in range(first, last + 1):
        state, where = state_at(thread, count), thread.state(count).where
        key = (where.split(" ", 2)[2], *state.items())
        if key not in met:
            met.add(key)
            found.append((count, state, where))
    return found, last - first + 1 - len(found)


def try_signal(words: Any, options: Any, describe: Any) -> int:
    """Lets a signal come at one place after the other; the answer is the status."""
    with tempfile.TemporaryDirectory() as folder:
        posted = Posted(words, options, folder)
        first = None if posted.sender is None else posted.first()
        if first is None:
            print(f"no thread posts signal {words.signal}"
                  + (f" to thread {words.to}" if words.to is not None else "")
                  + ": let it be posted by call 131")
            return 1
        base = posted.run_at(first + words.most - 1)
        if not base.is_done:
            print(f"a thread goes on after {ROUNDS * ROUND} turns and more: give a lesser --budget")
            return 1
        thread = posted.record(base, "base")
        last = min(thread.end - 1, first + words.most - 1)
        counts, alike = different(thread, first, last)
        tried = [it
                 for it
                 in in_parallel(lambda it: try_place(posted, it[0], it[1], it[2], describe), counts,
                                words.jobs) if it]
        is_cut = thread.end - 1 > last
        return show_signal(words, posted, tried, alike, is_cut)


def show_signal(words: Any, posted: Posted, tried: Any, alike: int, is_cut: bool) -> int:
    """Says what a signal at each place does; the answer is the status."""
    known = places.Places(words.program)
    known.learn(place.pc for place in tried)
    how = "by --slice" if posted.is_own else f"posted by thread {posted.sender}"
    print(f"signal {words.signal} comes to thread {posted.receiver} at {len(tried)} places, {how}"
          + (f"; {alike} more have the registers and ZA of one of these" if alike else ""))
    faults, waits = [place for place in tried if place.changed], [place for place in tried
                                                                  if place.waits]
    print(f"  after the handler all is as before "
          f"at {len(tried) - len(faults) - len(waits)} places, not at {len(faults)}")
    if waits:
        print(f"  at {len(waits)} places it is in the mask, and comes later "
              f"(the first at count {waits[0].count})")
    show_faults(
        [f"    count {place.count} {known.text(place.pc)}: {place.text}: {', '.join(place.changed)}"
         for place in faults])
    ends = {}
    for place in tried:
        ends.setdefault(place.end, []).append(place.count)
    for end, counts in ends.items():
        print(f"  {len(counts)} end so: {end}"
              + (f" (the first at count {counts[0]})" if len(ends) > 1 else ""))
    if is_cut:
        print(f"not looked at: counts after the first {words.most} at which it may "
              f"come (--most {words.most})")
    return 1 if faults or len(ends) > 1 else emulator.NOT_ALL if is_cut else 0

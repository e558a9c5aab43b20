"""What a thread's calls leave otherwise than AAPCS64 has it: a lazy save that is not restored,
registers that a call is to keep, PSTATE.SM, SP.

Each BL and BLR is followed to its return: the first later BR or RET that leads to the address after
it with the SP of the call, within the same handler. smemu za-calls shows what is found, beside what
it says itself of ZA over each call.
"""
from __future__ import annotations

import re
from typing import Any, Callable, Iterator

from smemu_tools.user import counted

# a call, a return or a jump, what uses ZA, what writes it, and what sets TPIDR2_EL0
CALL, BACK = re.compile(r"blr? "), re.compile(r"(?:ret|br) ")
USE = re.compile(r"(?:[su]{1,3}mop[as]|addha|addva|str za|st1[bhwdq] \{za|mova z\d)")
WRITE = re.compile(r"(?:zero |ldr za|ld1[bhwdq] \{za|mova za)")
CLEAR = re.compile(r"msr tpidr2_el0, ")
CALLS, BACKS, USES, WRITES, CLEARS, DELIVERY, RETURN = range(7)
KINDS = ("not restored", "not cleared", "restored with ZA off", "restored without a save",
         "not finished", "few slices", "bad block", "left on", "mode", "registers", "vectors",
         "stack")
# what a callee keeps: of vectors by the base convention the low 8 bytes, by the vector convention
# all
KEPT = [f"x {number}" for number in range(19, 30)]
LOW_VECTORS = [f"z {number}" for number in range(8, 16)]
VECTORS = [f"z {number}" for number in range(8, 24)] + [f"p {number}" for number in range(4, 16)]
# a piece of several functions, which a compiler calls as it likes
OUTLINED = "OUTLINED_FUNCTION_"
RESTORE = "__arm_tpidr2_restore"
# so many states are asked for in one call
PART = 4096
# more calls and returns than these are not looked at
MOST = 400_000


class State:
    """The registers at a count."""

    def __init__(self, lines: list[str]) -> None:
        self.held = dict(line.rsplit(" ", 1) for line in lines)

    def number(self, name: str) -> int:
        return int(self.held.get(name, "0"), 16)

    @property
    def is_on(self) -> bool:
        return self.held["svcr"] in ("2", "3")

    @property
    def mode(self) -> bool:
        return self.held["svcr"] in ("1", "3")


class Call:
    """A call that is open: its count, its address, where it went, and the state before it."""

    def __init__(self, number: int, count: int, address: int, target: int, state: State) -> None:
        self.number, self.count, self.address, self.target, self.state = (number, count, address,
                                                                          target, state)
        self.key = (address + 4) % 2 ** 64, state.number("sp")
        self.pointer = state.number("tpidr2") if state.is_on else 0
        self.slices = 0


class Debt:
    """A call that was made with ZA dormant and came back: the caller is to clear TPIDR2_EL0, and to
    restore ZA if it was saved, before it uses ZA."""

    def __init__(self, call: Call, is_saved: bool, at: int) -> None:
        self.call, self.is_saved, self.at = call, is_saved, at
        self.younger, self.is_cleared = 0, False


class Fault:
    """A call that is at fault: its kind, the count and the address at which that is told, and what
    is at fault."""

    def __init__(self, kind: str, call: Call, count: int, address: int, what: str = "") -> None:
        self.kind, self.call, self.count, self.address, self.what = kind, call, count, address, what


class Level:
    """The calls that are open in one handler, or outside of all, by their keys, and what they
    owe."""

    def __init__(self) -> None:
        self.open, self.debts = {}, []


class Checker:
    """Follows the calls of a thread, and finds those at fault."""

    def __init__(self, thread: Any, block: Any, texts: dict[int, str], name_of: Callable[..., Any],
                 follows_vectors: Callable[..., Any]) -> None:
        self.thread, self.block, self.texts, self.name_of, self.follows_vectors = (thread, block,
                                                                                   texts, name_of,
                                                                                   follows_vectors)
        self.signals = counted.Signals(thread, block, texts)
        self.faults, self.levels, self.frames, self.number = [], [Level()], {}, 0
        self.left: int | None = None

    # what happened, in order

    def hits(self, pattern: re.Pattern, kind: int) -> list[tuple[int, int, int]]:
        return [(count, kind, address) for address, text in self.texts.items()
                if pattern.match(text) for count in self.thread.all_hits(address)]

    def events(self) -> list[tuple[int, int, int]]:
        """The counts of calls, returns and deliveries, and of what touches ZA if some call is made
        with ZA dormant."""
        found = self.hits(CALL, CALLS) + self.hits(BACK, BACKS)
        if len(found) > MOST:
            found.sort()
            self.left = found[MOST][0]
        last = self.thread.end if self.left is None else self.left - 1
        if any(CLEAR.match(text) for text in self.texts.values()):
            found += self.hits(CLEAR, CLEARS) + self.hits(USE, USES) + self.hits(WRITE, WRITES)
        # an instruction at whose count a handler begins is not executed then
        begun = self.signals.deliveries
        found = [it for it in found if it[0] not in begun and it[0] <= last]
        for count, delivery in begun.items():
            found.append((count, DELIVERY, delivery.first))
            text = self.texts.get(delivery.first, "")
            found += [(count, kind, delivery.first)
                      for pattern, kind in ((CALL, CALLS), (BACK, BACKS)) if pattern.match(text)]
        found += [(count, RETURN, 0) for count in self.signals.returns]
        return sorted(found, key=lambda it: (it[0], it[1] != DELIVERY))

    def states(self, events: Any) -> Iterator[tuple[int, int, int, list[State]]]:
        """Each event with the states that it needs: the one before a call, a return or a use, and
        the one after a return."""
        for at in range(0, len(events), PART):
            part = events[at:at + PART]
            asked = [it for count, kind, _ in part for it in self.asked(count, kind)]
            answers = iter(self.thread.ask(asked))
            for count, kind, address in part:
                held = []
                for command in self.asked(count, kind):
                    lines = next(answers)
                    if command == "regs":
                        held.append(State(lines))
                yield count, kind, address, held

    def asked(self, count: int, kind: int) -> list[str]:
        # where a handler begins its registers are shown after its first instruction
        first = count + (count in self.signals.deliveries)
        if kind == CALLS:
            return [f"goto {first}", "regs"]
        if kind == BACKS:
            return [f"goto {first}", "regs", f"goto {count + 1}", "regs"]
        return []

    def check(self) -> list[Fault]:
        """Follows all calls. Gives the faults, in order of their counts."""
        for count, kind, address, states in self.states(self.events()):
            level = self.levels[-1]
            if kind == DELIVERY:
                for _, frame in self.signals.deliveries[count].handlers:
                    self.frames[frame] = len(self.levels)
                    self.levels.append(Level())
            elif kind == RETURN:
                depth = self.frames.get(self.signals.returns[count])
                if depth is not None and depth < len(self.levels):
                    del self.levels[depth:]
            elif kind == CALLS:
                self.call(level, count, address, states[0])
            elif kind == BACKS:
                self.back(level, count, address, *states)
            elif kind == CLEARS:
                for debt in self.current(level):
                    debt.is_cleared = True
            else:
                self.touch(level, count, address, kind == USES)
        if self.block.stop.name == "raised" and self.left is None:
            for debt in (it for level in self.levels for it in level.debts if it.is_saved):
                self.tell("not finished", debt.call, self.thread.end,
                          self.thread.state(self.thread.end).pc)
        return sorted(self.faults, key=lambda it: (it.call.count, it.count))

    def tell(self, kind: str, call: Call, count: int, address: int, what: str = "") -> Any:
        if not self.name_of(call.target).startswith(OUTLINED):
            self.faults.append(Fault(kind, call, count, address, what))

    # calls

    def call(self, level: Level, count: int, address: int, state: State) -> None:
        """A call: the restore of a save, or a use of ZA by whoever saved it."""
        self.number += 1
        name, operand = self.texts[address].split()[:2]
        target = address + int(operand[1:]) if name == "bl" else state.number(f"x {operand[1:]}")
        if count in self.signals.deliveries:
            target = state.number("pc")
        call = Call(self.number, count, address, target, state)
        if (self.name_of(target) != RESTORE
                or self.is_restore_in_order(level, call)) and state.is_on:
            for debt in self.current(level):
                if call.pointer and call.pointer == debt.call.pointer:
                    # one call after the other with the same block: the last of them is to be
                    # followed by the restore
                    level.debts.remove(debt)
                elif state.number("x 0") != debt.call.pointer or debt.is_cleared and self.is_back(
                        debt, count):
                    self.decide(level, debt, count, address)
        for debt in level.debts:
            debt.younger += 1
        if call.key in level.open:
            self.leave(level, level.open[call.key])
        if call.pointer:
            self.read_block(call, any(it.pointer == call.pointer for it in level.open.values()))
        level.open[call.key] = call

    def is_restore_in_order(self, level: Level, call: Call) -> bool:
        """Tells whether a restore is made with ZA on, of a block to which ZA was saved."""
        if not call.state.is_on:
            self.tell("restored with ZA off", call, call.count, call.address)
            return False
        if not any(debt.is_saved and debt.call.pointer == call.state.number("x 0")
                   for debt in self.current(level)):
            self.tell("restored without a save", call, call.count, call.address)
            return False
        return True

    def read_block(self, call: Call, is_passed_on: bool) -> Any:
        """Looks at the block of a call that is made with ZA dormant: it is at fault where it is set
        up, not where a callee passes it on."""
        rows, place = self.thread.rows, call.pointer
        data = self.thread.memory(call.count, place, 16)
        start, slices = int.from_bytes(data[:8], "little"), int.from_bytes(data[8:10], "little")
        if len(data) < 16 or any(data[10:]):
            return is_passed_on or self.tell("bad block", call, call.count, call.address,
                                             f"{place:016x}")
        if not start or not slices:
            return None
        call.slices = min(slices, rows)
        if is_passed_on:
            return None
        size = min(slices, rows) * rows
        # the buffer is another memory than the block, and is all there
        if start < place + 16 and place < start + size or len(self.thread.memory(call.count, start,
                                                                                 size)) < size:
            self.tell("bad block", call, call.count, call.address, f"{place:016x}")
        elif slices < rows:
            self.tell("few slices", call, call.count, call.address, f"{slices} of {rows}")
        return None

    def leave(self, level: Level, call: Call) -> None:
        """Takes a call from those that are open."""
        del level.open[call.key]
        for debt in list(level.debts):
            if call.number > debt.at:
                debt.younger -= 1
            else:
                level.debts.remove(debt)

    # returns

    def back(self, level: Level, count: int, address: int, before: State, state: State) -> None:
        """A BR or RET, with the states before it and after it."""
        place = state.number("pc")
        call = level.open.get((place, state.number("sp")))
        if call is None:
            call = next(reversed(level.open.values()), None)
            if call and call.key[0] == place:
                self.tell("stack", call, count + 1, place,
                          f"sp {call.key[1]:016x} becomes {state.number('sp'):016x}")
                self.leave(level, call)
            return
        if before.is_on:
            for debt in self.current(level):
                if debt.at >= call.number:
                    self.decide(level, debt, count, address)
        self.leave(level, call)
        self.judge(level, call, count + 1, place, state)

    def judge(self, level: Level, call: Call, count: int, place: int, state: State) -> None:
        """Compares the state after a call's return with the one before it."""
        old = call.state
        if old.mode != state.mode:
            self.tell("mode", call, count, place,
                      f"svcr {old.held['svcr']} becomes {state.held['svcr']}")
        changed = [name for name in KEPT if old.number(name) != state.number(name)]
        if changed:
            self.tell("registers", call, count, place, ", ".join(changed))
        names = VECTORS if self.follows_vectors(call.target) else LOW_VECTORS
        length = None if names is VECTORS else 16
        changed = [name for name in names
                   if value(old, name, length)
                   != value(state, name, length)] if old.mode == state.mode else []
        if changed:
            self.tell("vectors", call, count, place, ", ".join(changed))
        if not call.pointer:
            return
        pointer = state.number("tpidr2")
        if state.is_on and not pointer:
            self.tell("left on", call, count, place)
        is_passed_on = any(it.pointer == call.pointer for it in level.open.values())
        if not is_passed_on and pointer in (0, call.pointer):
            level.debts.append(Debt(call, not pointer, self.number))

    # debts

    @staticmethod
    def current(level: Level) -> list[Debt]:
        """What the function that runs owes."""
        return [debt for debt in level.debts if not debt.younger]

    def is_back(self, debt: Debt, count: int) -> bool:
        """Tells whether ZA is at a count as it was before the call, as many slices as the block
        says."""
        one, other = self.thread.za(debt.call.count), self.thread.za(count)
        return all(one.get(row, None) == other.get(row, None) for row in range(debt.call.slices))

    def decide(self, level: Level, debt: Debt, count: int, address: int) -> None:
        """ZA is used: it is to be back, and TPIDR2_EL0 to be cleared."""
        level.debts.remove(debt)
        if debt.is_saved and not self.is_back(debt, count):
            self.tell("not restored", debt.call, count, address)
        elif not debt.is_cleared:
            self.tell("not cleared", debt.call, count, address)

    def touch(self, level: Level, count: int, address: int, is_use: bool) -> None:
        """An instruction that uses ZA, or writes it: whoever writes what is new gives up what was
        saved."""
        for debt in self.current(level):
            if is_use:
                self.decide(level, debt, count, address)
            else:
                level.debts.remove(debt)


def value(state: State, name: str, length: int | None) -> str:
    """The first digits of a vector or predicate, without zeros at their end."""
    return state.held.get(name, "")[:length].rstrip("0")


def lines_of(faults: Any, known: Any) -> Iterator[str]:
    """A line for each place of calls and each kind of fault."""
    by_place = {}
    for fault in faults:
        by_place.setdefault((fault.call.address, fault.call.target, KINDS.index(fault.kind)),
                            []).append(fault)
    known.learn(it.address for fault in faults for it in (fault, fault.call))
    for (address, target, kind), here in sorted(by_place.items()):
        first = here[0]
        to = known.function(target) or f"{target:016x}"
        at = f", at {known.text(first.address)}" if first.address not in (address,
                                                                          address + 4) else ""
        what = f" ({first.what})" if first.what else ""
        yield (f"{known.text(address)} calls {to}: {KINDS[kind]} {len(here)}{what}: "
               f"counts {first.call.count} to {first.count}{at}")

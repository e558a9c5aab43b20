"""Prints the report that a program file is to have, by an interpreter of its own that shares
nothing with the emulator.

    tools/smemu-tools expected FILE [VL [SVL]]

It knows the instructions that the programs of this repository use, and the calls of both kernels;
each other word is undefined to it. One thread makes all operations on the shared words.
"""
from __future__ import annotations

import hashlib
import pathlib
import struct
import sys
from typing import Any

from smemu_tools import parser
from smemu_tools.model import expected_compiled
from smemu_tools.model.expected_matrix import Matrix
from smemu_tools.model.expected_signals import BadFrame, DEPTHS, come_back, deliver, set_mask
from smemu_tools.model.expected_vectors import Vectors

# the kernel of `run`, `sim` and `bench`; that of `replay` and `debug` is the version of the report
KERNEL = 2
OUTPUT_LIMIT = 1_048_576
JOURNAL_LIMIT = 262_144
MASK = (1 << 64) - 1
STACK = 0x7DFFFFFC0000
SHARED = range(0x7F0000000000, 0x7F0000001000)


# the operations on a shared word: the new word, from the old one and the values a and b
OPERATIONS = {
    "ld": lambda old, a, b: old,
    "st": lambda old, a, b: a,
    "swp": lambda old, a, b: a,
    "add": lambda old, a, b: old + a & MASK,
    "clr": lambda old, a, b: old & ~a,
    "eor": lambda old, a, b: old ^ a,
    "set": lambda old, a, b: old | a,
    "umax": lambda old, a, b: max(old, a),
    "umin": lambda old, a, b: min(old, a),
    "cas": lambda old, a, b: b if old == a else old,
    "post": lambda old, a, b: old | a,
    "poll": lambda old, a, b: 0,
}
# LDADD and its kin, by their number
UPDATES = ("add", "clr", "eor", "set", "smax", "smin", "umax", "umin")


class Raised(Exception):
    pass


class Full(Exception):
    """The journal has no room for another event."""


def signed(value: int, bits: int) -> int:
    value &= (1 << bits) - 1
    return value - (1 << bits) if value >> (bits - 1) else value


class Thread:
    def __init__(self, file: bytes, budget: int, vl: int, svl: int, interval: int, number: int = 0,
                 threads: int = 1, kernel: int = KERNEL) -> None:
        self.number, self.threads, self.kernel = number, threads, kernel
        self.pages, self.budget, self.interval = {}, budget, interval
        self.tpidr = self.tpidr2 = self.held = self.mask = self.depth = self.pending = self.turns = 0
        self.polled = False
        self.vectors, self.matrix, self.handlers = Vectors(vl // 8), Matrix(vl // 8, svl // 8), {}
        at, count = struct.unpack_from("<Q", file, 32)[0], struct.unpack_from("<H", file, 56)[0]
        for i in range(count):
            kind, flags, offset, address, _, size, memory, _ = struct.unpack_from("<IIQQQQQQ", file,
                                                                                  at + 56 * i)
            if kind == 1 and memory:
                for number in range(address // 4096, (address + memory - 1) // 4096 + 1):
                    page = self.page(number, 0)
                    page[0] |= flags & 7
                for k in range(size):
                    self.pages[(address + k) // 4096][1][(address + k) % 4096] = file[offset + k]
        for number in range(STACK // 4096, STACK // 4096 + 64):
            self.page(number, 6)
        self.x = [self.number, self.threads] + [0] * 29
        self.sp = STACK + 64 * 4096
        self.pc = struct.unpack_from("<Q", file, 24)[0]
        self.flags = [0, 0, 0, 0]
        self.count = 0
        self.output = b""
        self.words, self.journal = [0] * 512, []

    def page(self, number: int, flags: int) -> list[bytearray | int]:
        return self.pages.setdefault(number, [flags, bytearray(4096)])

    def bytes_with(self, need: int, address: int, count: int) -> bytes | None:
        page, start = self.pages.get((address & MASK) // 4096), address % 4096
        if page is not None and start + count <= 4096:
            return bytes(page[1][start:start + count]) if page[0] & need or not count else None
        out = bytearray()
        for at in range(address, address + count):
            page = self.pages.get((at & MASK) // 4096)
            if page is None or not page[0] & need:
                return None
            out.append(page[1][at % 4096])
        return bytes(out)

    def check(self, address: int, count: int, kind: str, base: int | None = None,
              aligned: bool = False) -> None:
        if base == 31 and self.sp % 16:
            raise Raised("spalign", "")
        if aligned and address % count:
            raise Raised("align", f" {address:016x}")
        for at in range(address, address + count):
            if at & MASK in SHARED:
                raise Raised("shared", f" {at & MASK:016x}")
        for need, name in ((4, "read"), (2, "write")):
            for at in range(address, address + count):
                if name in kind and self.bytes_with(need, at, 1) is None:
                    raise Raised("data", f" {at & MASK:016x} {name}")

    def keep(self, kind: str, place: int, a: int, b: int, answer: int) -> int:
        self.journal.append(f"e {kind} {place} {a:016x} {b:016x} {answer:016x}")
        return answer

    def need_room(self) -> None:
        if len(self.journal) == JOURNAL_LIMIT:
            raise Full

    def ask(self, kind: str, address: int, base: int, a: int = 0, b: int = 0) -> int:
        """An operation on a shared word: an aligned access of 64 bits."""
        if base == 31 and self.sp % 16:
            raise Raised("spalign", "")
        self.need_room()
        place = (address - SHARED.start) // 8
        old = self.words[place]
        self.words[place] = OPERATIONS[kind](old, a, b)
        return self.keep(kind, place, a, b, 0 if kind == "st" else old)

    def ask_signals(self, kind: str, thread: int, a: int = 0) -> int:
        """A poll or a post of a thread's pending signals, which are those of the one thread."""
        self.need_room()
        old = self.pending
        self.pending = OPERATIONS[kind](old, a, 0)
        return self.keep(kind, thread, a, 0, old)

    def check_all(self, addresses: list[int], count: int, kind: str, base: int) -> None:
        if base == 31 and self.sp % 16:
            raise Raised("spalign", "")
        places = [(at + k) & MASK for at in addresses for k in range(count)]
        for at in places:
            if at in SHARED:
                raise Raised("shared", f" {at:016x}")
        for at in places:
            self.check(at, 1, kind)

    def need(self, streaming: bool | None = None, za: bool = False) -> None:
        """Raises where the modes are not those that an instruction is executed in."""
        if streaming is False and self.matrix.streaming:
            raise Raised("illegalstreaming", "")
        if streaming and not self.matrix.streaming:
            raise Raised("notstreaming", "")
        if za and not self.matrix.on:
            raise Raised("zainactive", "")

    def load(self, address: int, count: int) -> int:
        return int.from_bytes(self.bytes_with(4, address, count), "little")

    def store(self, address: int, count: int, value: int) -> None:
        for k, byte in enumerate((value & (1 << 8 * count) - 1).to_bytes(count, "little")):
            at = (address + k) & MASK
            self.pages[at // 4096][1][at % 4096] = byte

    def holds(self, condition: int) -> bool:
        n, z, c, v = self.flags
        truth = [z, c, n, v, c and not z, n == v, not z and n == v, True][condition // 2]
        return bool(truth) != bool(condition & 1 and condition != 15)

    def call(self) -> str:
        """A call that is counted leaves streaming mode."""
        number, answer = self.x[8], -38 & MASK
        if number == 93:
            self.matrix.leave_streaming(self)
            self.pc = self.pc + 4
            self.counted()
            return f"exited {self.x[0] & 255}"
        if number == 64:
            descriptor, address, count = self.x[:3]
            if descriptor not in (1, 2):
                answer = -9 & MASK
            elif len(self.output) + count > OUTPUT_LIMIT:
                return "outputfull"
            else:
                got = self.bytes_with(4, address, count)
                answer = -14 & MASK if got is None else count
                self.output += got or b""
        if number == 124:
            answer = 0
        if number == 131:
            target, signal = self.x[:2]
            answer = -22 & MASK
            if target < self.threads and 1 <= signal <= 62:
                self.ask_signals("post", target, 1 << signal)
                answer = 0
        if number == 135 and self.kernel == 2:
            answer = set_mask(self)
        if number == 139:
            come_back(self)
            return self.counted()
        if number == 134:
            signal, address = self.x[:2]
            answer = 0 if 1 <= signal <= 62 else -22 & MASK
            if answer == 0:
                self.handlers[signal] = address
        if number == 178:
            answer = self.number
        self.matrix.leave_streaming(self)
        self.x[0], self.pc = answer, self.pc + 4
        return self.counted()

    def counted(self) -> Any:
        self.count, self.turns, self.polled = self.count + 1, self.turns + 1, False

    def turn(self) -> str:
        """What the thread stops with, if it does."""
        try:
            return self.due()
        except Full:
            return "tracefull"
        except BadFrame as bad:
            return f"badframe {bad.args[0]:016x}"

    def due(self) -> str | None:
        """A poll, the delivery of a signal, or an instruction."""
        if self.count == self.budget:
            return "budget"
        if self.count and self.count % self.interval == 0 and not self.polled:
            self.held |= self.ask_signals("poll", self.number)
            self.polled, self.turns = True, self.turns + 1
            return None
        open_signals = self.held & ~self.mask
        if self.polled and open_signals and self.depth < DEPTHS[self.kernel]:
            signal = (open_signals & -open_signals).bit_length() - 1
            self.held -= 1 << signal
            if not self.handlers.get(signal):
                return f"killed {signal}"
            deliver(self, signal)
            self.turns += 1
            return None
        return self.instruction()

    def instruction(self) -> str:
        if self.pc % 4:
            return f"raised pcalign {self.pc:016x}"
        got = self.bytes_with(1, self.pc, 4)
        if got is None:
            return f"raised fetch {self.pc:016x}"
        word = int.from_bytes(got, "little")
        if word & 0xFFE0001F == 0xD4000001:
            return self.call()
        if word & 0xFFE0001F == 0xD4200000:
            return f"raised breakpoint {self.pc:016x} {word >> 5 & 0xFFFF}"
        try:
            target = self.execute(word)
        except Raised as exception:
            name, values = exception.args
            return f"raised {name} {self.pc:016x}{values}"
        if target is None:
            return f"raised undefined {self.pc:016x} {word:08x}"
        self.pc = target & MASK
        return self.counted()

    def execute(self, word: int) -> int:
        """The address of the next instruction; None where the word is undefined."""
        wide, rd, rn, after = word >> 31, word & 31, word >> 5 & 31, self.pc + 4
        if word & 0x7F800000 in (0x52800000, 0x72800000,
                                 0x12800000) and (wide or not word >> 22 & 1):
            return self.move_wide(word, wide, rd) or after
        if word & 0x1F800000 == 0x11000000:
            second = (word >> 10 & 0xFFF) << (12 if word >> 22 & 1 else 0)
            return self.add(word, wide, rd, self.sp if rn == 31 else self.x[rn], second,
                            True) or after
        if word & 0x1FE0FC00 == 0x0B000000:
            return self.add(word, wide, rd, self.read(rn), self.read(word >> 16 & 31),
                            False) or after
        if word & 0x7FE0FC00 == 0x2A000000:
            value = self.read(rn) | self.read(word >> 16 & 31)
            self.write(rd, value & (MASK if wide else 0xFFFFFFFF), False)
            return after
        if word & 0xFFE00000 == 0x9B000000:
            product = self.read(rn) * self.read(word >> 16 & 31)
            addend = self.read(word >> 10 & 31)
            self.write(rd, (addend - product if word >> 15 & 1 else addend + product) & MASK, False)
            return after
        if word & 0xFFE0FC00 == 0x9AC00800:
            divisor = self.read(word >> 16 & 31)
            self.write(rd, self.read(rn) // divisor if divisor else 0, False)
            return after
        if word & 0xFF000010 == 0x54000000:
            return self.pc + 4 * signed(word >> 5, 19) if self.holds(word & 15) else after
        if word & 0x7E000000 == 0x34000000:
            value = self.read(rd) if wide else self.read(rd) & 0xFFFFFFFF
            return self.pc + 4 * signed(word >> 5,
                                        19) if (value != 0) == bool(word >> 24 & 1) else after
        if word & 0x7C000000 == 0x14000000:
            if wide:
                self.x[30] = after & MASK
            return self.pc + 4 * signed(word, 26)
        if (word & 0xFFBFFC1F == 0xD61F0000 or word & 0xFFFFFC1F == 0xD65F0000
                or word & 0xFFFFFC1F == 0xD63F0000):
            target = self.read(rn)
            if word & 0x00600000 == 0x00200000:
                self.x[30] = after & MASK
            return target
        if word & 0x1F000000 == 0x10000000:
            distance = signed((word >> 5 & 0x7FFFF) << 2 | word >> 29 & 3, 21)
            self.write(rd,
                       ((self.pc & ~4095) + 4096 * distance if wide else self.pc + distance) & MASK,
                       False)
            return after
        if word & 0xFFFFF01F == 0xD503201F:
            return after
        if word & 0xFFDFFFE0 in (0xD51BD040, 0xD51BD0A0):
            name = "tpidr2" if word & 0x80 else "tpidr"
            if word >> 21 & 1:
                self.write(rd, getattr(self, name), False)
            else:
                setattr(self, name, self.read(rd))
            return after
        if self.vectors.execute(word, self) or self.matrix.execute(word, self):
            return after
        target = expected_compiled.execute(word, self)
        return self.access(word, rd, rn, after) if target is None else target

    def read(self, number: int) -> int:
        return 0 if number == 31 else self.x[number]

    def write(self, number: int, value: int, sp: bool) -> None:
        if number < 31:
            self.x[number] = value
        elif sp:
            self.sp = value

    def move_wide(self, word: int, wide: int, rd: int) -> Any:
        shift, imm = 16 * (word >> 21 & 3), word >> 5 & 0xFFFF
        value = imm << shift
        if word >> 29 & 3 == 0:
            value = ~value & (MASK if wide else 0xFFFFFFFF)
        if word >> 29 & 3 == 3:
            value = self.read(rd) & ~(0xFFFF << shift) & (MASK if wide else 0xFFFFFFFF) | value
        self.write(rd, value, False)

    def add(self, word: int, wide: int, rd: int, a: int, b: int, sp: bool) -> Any:
        bits = 64 if wide else 32
        size = 1 << bits
        a, b, subtracts, sets = a % size, b % size, word >> 30 & 1, word >> 29 & 1
        result = (a - b if subtracts else a + b) % size
        if sets:
            whole = signed(a, bits) - signed(b, bits) if subtracts else signed(a, bits) + signed(
                b, bits)
            carry = a >= b if subtracts else a + b >= size
            self.flags = [result >> (bits - 1), int(result == 0), int(carry),
                          int(whole != signed(result, bits))]
        self.write(rd, result, sp and not sets)

    def access(self, word: int, rt: int, rn: int, after: int) -> int | None:
        size = 1 << (word >> 30)
        base = self.sp if rn == 31 else self.x[rn]
        if word & 0x3F000000 == 0x39000000:
            return self.transfer(word, size, (base + (word >> 10 & 0xFFF) * size) & MASK, rt, rn,
                                 after)
        if word & 0x3F200000 == 0x38000000 and word >> 10 & 3 != 2:
            moved = (base + signed(word >> 12, 9)) & MASK
            mode = word >> 10 & 3
            result = self.transfer(word, size, base if mode == 1 else moved, rt, rn, after)
            if mode and result:
                self.write(rn, moved, True)
            return result
        if word & 0x3F200C00 == 0x38200800 and word >> 13 & 7 == 3:
            index = self.read(word >> 16 & 31) * (size if word >> 12 & 1 else 1)
            return self.transfer(word, size, (base + index) & MASK, rt, rn, after)
        if word & 0x3F000000 == 0x18000000 and word >> 30 < 3:
            size = (4, 8, 4)[word >> 30]
            address = (self.pc + 4 * signed(word >> 5, 19)) & MASK
            if word >> 30 == 1 and address in SHARED and address % 8 == 0:
                self.write(rt, self.ask("ld", address, None), False)
                return after
            self.check(address, size, "read")
            value = self.load(address, size)
            self.write(rt, signed(value, 32) & MASK if word >> 30 == 2 else value, False)
            return after
        if word & 0x7E000000 == 0x28000000 and word >> 23 & 3:
            return self.pair(word, rt, rn, base, after)
        if word & 0x3F200C00 == 0x38200000 and (word >> 15 & 1 == 0 or word >> 12 & 7 == 0):
            return self.exchange(word, "swp" if word >> 15 & 1 else UPDATES[word >> 12 & 7], size,
                                 base, rt, rn, after)
        if word & 0x3FA07C00 == 0x08A07C00:
            return self.compare(word, size, base, rt, rn, after)
        if word & 0x3FFFFC00 in (0x08DFFC00, 0x089FFC00):
            loads = word >> 22 & 1
            if size == 8 and base in SHARED and base % 8 == 0:
                answer = self.ask("ld", base, rn) if loads else self.ask("st", base, rn,
                                                                         self.read(rt))
                if loads:
                    self.write(rt, answer, False)
                return after
            self.check(base, size, "read" if loads else "write", rn, True)
            if loads:
                self.write(rt, self.load(base, size), False)
            else:
                self.store(base, size, self.read(rt))
            return after
        return None

    def transfer(self, word: int, size: int, address: int, rt: int, rn: int,
                 after: int) -> int | None:
        operation = word >> 22 & 3
        if size == 8 and operation > 1 or size == 4 and operation == 3:
            return None
        if size == 8 and operation < 2 and address in SHARED and address % 8 == 0:
            kind, value = ("ld", 0) if operation else ("st", self.read(rt))
            answer = self.ask(kind, address, rn, value)
            if operation:
                self.write(rt, answer, False)
            return after
        self.check(address, size, "read" if operation else "write", rn)
        if operation == 0:
            self.store(address, size, self.read(rt))
        else:
            value = self.load(address, size)
            if operation > 1:
                value = signed(value, 8 * size) & (MASK if operation == 2 else 0xFFFFFFFF)
            self.write(rt, value, False)
        return after

    def exchange(self, word: int, kind: str, size: int, base: int, rt: int, rn: int,
                 after: int) -> int:
        """SWP, LDADD and its kin."""
        value = self.read(word >> 16 & 31)
        if size == 8 and kind in OPERATIONS and base in SHARED and base % 8 == 0:
            self.write(rt, self.ask(kind, base, rn, value), False)
            return after
        self.check(base, size, "read write", rn, True)
        old, bits = self.load(base, size), 8 * size
        value &= (1 << bits) - 1
        if kind in ("smax", "smin"):
            new = (max if kind == "smax" else min)(signed(old, bits), signed(value, bits))
        else:
            new = OPERATIONS[kind](old, value, 0)
        self.store(base, size, new)
        self.write(rt, old, False)
        return after

    def compare(self, word: int, size: int, base: int, rt: int, rn: int, after: int) -> int:
        """CAS."""
        rs = word >> 16 & 31
        if size == 8 and base in SHARED and base % 8 == 0:
            self.write(rs, self.ask("cas", base, rn, self.read(rs), self.read(rt)), False)
            return after
        self.check(base, size, "read write", rn, True)
        old = self.load(base, size)
        if old == self.read(rs) & (1 << 8 * size) - 1:
            self.store(base, size, self.read(rt))
        self.write(rs, old, False)
        return after

    def pair(self, word: int, rt: int, rn: int, base: int, after: int) -> int:
        size, second, mode = 8 if word >> 31 else 4, word >> 10 & 31, word >> 23 & 3
        moved = (base + signed(word >> 15, 7) * size) & MASK
        address = base if mode == 1 else moved
        loads = word >> 22 & 1
        self.check(address, 2 * size, "read" if loads else "write", rn)
        if loads:
            values = self.load(address, size), self.load(address + size, size)
            self.write(rt, values[0], False)
            self.write(second, values[1], False)
        else:
            self.store(address, size, self.read(rt))
            self.store(address + size, size, self.read(second))
        if mode & 1:
            self.write(rn, moved, True)
        return after


def masking(thread: Any) -> list[str]:
    """The lines that say which signals have to wait."""
    return [f"inside {thread.depth}"] if thread.kernel == 1 else [f"mask {thread.mask:016x}",
                                                                  f"depth {thread.depth}"]


def block(thread: Any, stop: str | None, number: Any = 0) -> list[str]:
    """The lines of the block of a thread that stopped so."""
    digest = hashlib.sha256()
    for page, (flags, content) in sorted(thread.pages.items()):
        digest.update(struct.pack("<QB", page * 4096, flags) + content)
    lines = [f"thread {number}", f"stop {stop}", f"count {thread.count}", f"turns {thread.turns}",
             f"pc {thread.pc:016x}"]
    lines += [f"x {i} {value:016x}" for i, value in enumerate(thread.x) if value]
    lines += [f"sp {thread.sp:016x}", "nzcv " + "".join(map(str, thread.flags)),
              f"tpidr {thread.tpidr:016x}", f"tpidr2 {thread.tpidr2:016x}",
              f"svcr {thread.matrix.svcr()}", *thread.vectors.lines(), *thread.matrix.lines(),
              f"memory {len(thread.pages)} {digest.hexdigest()}", f"held {thread.held:016x}",
              *masking(thread), f"polled {int(thread.polled)}"]
    lines += [f"handler {signal} {address:016x}"
              for signal, address in sorted(thread.handlers.items()) if address]
    lines += [f"output {len(thread.output)}"]
    lines += [f"out {thread.output[i:i + 32].hex()}" for i in range(0, len(thread.output), 32)]
    return lines + [f"journal {len(thread.journal)}", *thread.journal, "end-thread"]


def report(file: bytes, vl: Any = 128, svl: Any = 256, budget: Any = 10_000_000, slice: int = 1000,
           kernel: int = KERNEL, thread: Any = Thread) -> str:
    thread, stop = thread(file, budget, vl, svl, slice, kernel=kernel), None
    while stop is None:
        stop = thread.turn()
    lines = [f"smemu-report {kernel}",
             f"options vl={vl} svl={svl} slice={slice} budget={budget} threads=1",
             f"image {hashlib.sha256(file).hexdigest()}", *block(thread, stop), "shared"]
    lines += [f"w {place} {word:016x}" for place, word in enumerate(thread.words) if word]
    lines += [f"pending 0 {thread.pending:016x}"] * bool(thread.pending)
    return "\n".join(lines + ["end"]) + "\n"


def main() -> Any:
    words = parser(__doc__)
    words.add_argument("program", type=pathlib.Path, metavar="PROGRAM")
    words.add_argument("numbers", type=int, nargs="*", metavar="NUMBER",
                       help="the numbers that `report` takes")
    asked = words.parse_args()
    sys.stdout.write(report(asked.program.read_bytes(), *asked.numbers))
    return 0

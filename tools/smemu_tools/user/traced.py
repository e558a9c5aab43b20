"""Shows the instructions of a thread of a report from one count to another, each with what it changed: `smemu profile --trace` calls it."""
import re

from smemu_tools.user import counted, emulator, recorded, reports

# so many counts are asked for at once
WINDOW = 512
# after these ZA may be another: they write it, turn it on or off, or return from a handler
CHANGES_ZA = re.compile(r"zero |smst(?:art|op)(?: za)?$|svc |(?!st)\w+ \{?za")
STORES = re.compile(r"st|swp|cas|ld(?:add|clr|eor|set|[su]max|[su]min)")
BASE = re.compile(r"\[(x\d+|sp)(?:, (?:#(-?\d+)(, mul vl)?|([xw]\d+|[xw]zr)(?:, (lsl|uxtw|sxtw|uxtx|sxtx)(?: #(\d+))?)?))?\]")
SIZES = {"b": 1, "h": 2, "w": 4, "s": 4, "d": 8, "q": 16}
SPACE = 2 ** 64


def value_of(registers, name):
    """The value of a register that an instruction names."""
    if name.endswith("zr"):
        return 0
    number = int(registers.get("sp" if name == "sp" else f"x {name[1:]}", "0"), 16)
    return number & 0xffffffff if name[0] == "w" else number


def extended(value, how):
    """A register as an offset, before its shift."""
    if how in ("uxtw", "sxtw"):
        value &= 0xffffffff
    return value - 2 ** 32 if how == "sxtw" and value >> 31 else value


def address_of(text, registers, unit=0):
    """The address that an instruction accesses, with the unit of an offset `mul vl`; None of one without a base."""
    found = BASE.search(text)
    if not found:
        return None
    base, number, is_scaled, index, how, shift = found.groups()
    offset = int(number or 0) * (unit if is_scaled else 1)
    if index:
        offset = extended(value_of(registers, index), how) << int(shift or 0)
    return (value_of(registers, base) + offset) % SPACE


class Memory:
    """Where an instruction may write: an address and a length, for a report's vector lengths."""

    def __init__(self, report):
        self.vl, self.svl = report.vl // 8, report.svl // 8

    def size(self, text, length):
        """The bytes that a store writes at most, and the unit of an offset `mul vl`."""
        name, _, rest = text.partition(" ")
        if rest.startswith("za["):
            return self.svl, self.svl
        vector = re.match(r"\{?(?:z\d+|za\d+[hv])\.([bhsdq])", rest)
        if name.startswith("st1") and vector:
            size = length * SIZES[name[3]] // SIZES[vector[1]]
            return size, size
        if re.match(r"z\d+,", rest):
            return length, length
        if re.match(r"p\d+,", rest):
            return length // 8, length // 8
        register = 8 if re.match(r"(?:w\d+, )?x", rest) else 4
        width = SIZES.get(name[-1]) if name[-1] in "bh" and name not in ("stp",) else None
        return (width or register) * (2 if name == "stp" else 1), 0

    def place(self, text, registers):
        """The address and the length of what an instruction may write, or None."""
        if not STORES.match(text):
            return None
        size, unit = self.size(text, self.svl if registers["svcr"] in ("1", "3") else self.vl)
        address = address_of(text, registers, unit)
        return None if address is None else (address, size)


def changed(before, after):
    """The lines that two sets of lines of a report do not share, each with both values."""
    for name in sorted({*before, *after}, key=order):
        one, other = before.get(name, "0"), after.get(name, "0")
        if one != other and name != "pc":
            width = max(len(one), len(other))
            yield f"  {name} {one.rjust(width, '0')} -> {other.rjust(width, '0')}"


def order(name):
    """X0 to X30, then all others by their names and numbers."""
    kind, _, number = name.partition(" ")
    return kind != "x", kind, int(number or 0)


class Trace:
    """The instructions of a thread."""

    def __init__(self, program, report, number, code):
        self.thread, self.code = recorded.Recorded(program, report, number), code
        self.memory, block = Memory(self.thread.report), reports.read(report).threads[number]
        self.block = block
        if not code.texts and self.thread.end:
            code.texts.update(counted.texts_of_run(self.thread.words, self.thread.end))
        self.signals = counted.Signals(self.thread, block, code.texts)
        code.find_functions({address for it in self.signals.deliveries.values() for address, _ in it.handlers})

    def states(self, low, high):
        """The address, the text and the registers at each count from one to another, and of signals the delivery."""
        answers = self.thread.ask_at(low, [it for _ in range(low, high + 1) for it in ("where", "regs", "step 1")])
        for count, where, lines in zip(range(low, high + 1), answers[::3], answers[1::3]):
            _, _, address, text = where[0].split(" ", 3)
            yield int(address, 16), text, dict(line.rsplit(" ", 1) for line in lines), self.signals.deliveries.get(count)

    def lines(self, first, last):
        """The lines of the instructions from a count to another."""
        for low in range(first, last + 1, WINDOW):
            yield from self.part(low, min(last, low + WINDOW - 1))

    def part(self, low, high):
        states = list(self.states(low, high + 1))
        asked = [self.questions(state) for state in states[:-1]]
        answers = iter(self.thread.ask([it for count, questions in enumerate(asked, low) if questions
                                        for it in (f"goto {count}", *questions, "step 1", *questions)]))
        self.code.known.learn(state[0] for state in states)
        for count, state, after, questions in zip(range(low, high + 1), states, states[1:], asked):
            sides = ([], [])
            if questions:
                for side in sides:
                    next(answers)
                    side += [next(answers) for _ in questions]
            yield from self.told(count, state, after[2], questions, *sides)

    def questions(self, state):
        """What is asked besides before an instruction and after it."""
        address, text, registers, delivery = state
        if delivery:
            text = self.code.texts.get(delivery.first, "")
        place = None if delivery else self.memory.place(text, registers)
        asked = ["za"] * bool(delivery or CHANGES_ZA.match(text))
        return asked + ([f"mem {place[0]:#x} {place[1]}"] if place else [])

    def told(self, count, state, after, questions, *sides):
        """The lines of an instruction."""
        address, text, registers, delivery = state
        if delivery:
            yield f"at {count} {self.place(address)}: interrupted"
            for (handler, frame), signal in zip(delivery.handlers, delivery.signals):
                yield f"  signal {signal}, handler {self.place(handler)}, frame {frame:016x}"
            address, text = delivery.first, self.code.texts.get(delivery.first, "")
        yield f"at {count} {self.place(address)}: {text}"
        yield from changed(registers, after)
        for question, one, other in zip(questions, *sides):
            if question == "za":
                yield from changed(*(dict(line.rsplit(" ", 1) for line in side) for side in (one, other)))
            elif one != other or one[0].startswith("fault"):
                yield from self.bytes_changed(count, question)

    def bytes_changed(self, count, question):
        """The bytes of memory that changed, up to the first that cannot be read."""
        _, start, length = question.split()
        start, length = int(start, 16), int(length)
        one, other = (self.thread.memory(at, start, length) for at in (count, count + 1))
        differs = [at for at in range(len(one)) if one[at] != other[at]]
        if differs:
            low, high = differs[0], differs[-1] + 1
            yield f"  mem {start + low:#x} {one[low:high].hex()} -> {other[low:high].hex()}"

    def place(self, address):
        names = [f"{address:016x}", self.code.function(address), self.short(self.code.line(address))]
        return " ".join(name for at, name in enumerate(names) if name and name not in names[:at])

    @staticmethod
    def short(line):
        return f"{line[0].rpartition('/')[2]}:{line[1]}" if line else ""


def show(program, report, number, code, first, last):
    """Writes the instructions of a thread from a count to another."""
    trace = Trace(program, report, number, code)
    end = trace.thread.end
    if first >= end:
        raise emulator.Refused(f"thread {number} executed {end} instructions: 0 to {end - 1}" if end else f"thread {number} executed no instruction", 2)
    for line in trace.lines(first, min(last, end - 1)):
        print(line)
    if last >= end - 1:
        print(f"stop {trace.block.stop}")
    return 0

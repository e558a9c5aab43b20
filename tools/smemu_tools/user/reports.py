"""Reads reports of both versions, and what `sim` writes, for the scripts beside it: docs/REPORT.md and docs/WORLDS.md have the formats.

    report = reports.read("outer.report")       # or NoReport, whose text says the file, its line and why
    report.threads[0].x[8], report.threads[0].stop.name

What a report leaves out because it is zero is there: X0 to X30, all vectors and predicates, and each vector of ZA where it is on.
"""
import pathlib
import re
from typing import Dict, List, NamedTuple, Optional

LENGTHS = (128, 256, 512, 1024, 2048)
MOST_THREADS = 32
KINDS = ("ld", "st", "swp", "add", "clr", "eor", "set", "umax", "umin", "cas", "post", "poll")
# names of the parts of numbers in a line: a decimal number, 16 hexadecimal digits, bytes with two digits each
DECIMAL, NUMBER, BYTES = "(0|[1-9][0-9]{0,19})", "([0-9a-f]{16})", "((?:[0-9a-f]{2})+)"
BIT, EVENT = "([01])", f"({'|'.join(KINDS)}) {DECIMAL} {NUMBER} {NUMBER} {NUMBER}"
STATUS = "(25[0-5]|2[0-4][0-9]|1[0-9][0-9]|[1-9]?[0-9])"
STOPS = (
    f"exited {STATUS}", f"killed {DECIMAL}", f"badframe {NUMBER}", "budget", "tracefull", "outputfull", "none",
    f"raised (?:pcalign|fetch|illegalstreaming|notstreaming|zainactive|spalign) {NUMBER}",
    f"raised undefined {NUMBER} ([0-9a-f]{{8}})", f"raised breakpoint {NUMBER} {DECIMAL}",
    f"raised (?:align|shared) {NUMBER} {NUMBER}", f"raised data {NUMBER} {NUMBER} (read|write)",
)
# what stands in a line after its first word
FORMS = {
    "skip": f"{DECIMAL} (noresident|oneresident|queueempty|corefull 8|nocore {DECIMAL})",
    "smemu-report": "([12])",
    "options": f"vl={DECIMAL} svl={DECIMAL} slice={DECIMAL} budget={DECIMAL} threads={DECIMAL}",
    "image": "([0-9a-f]{64})",
    "thread": DECIMAL, "stop": f"({'|'.join(STOPS)})", "count": DECIMAL, "turns": DECIMAL, "pc": NUMBER,
    "x": f"{DECIMAL} {NUMBER}", "sp": NUMBER, "nzcv": "([01]{4})", "tpidr": NUMBER, "tpidr2": NUMBER, "svcr": "([0-3])",
    "z": f"{DECIMAL} {BYTES}", "p": f"{DECIMAL} {BYTES}", "ffr": BYTES, "za": f"{DECIMAL} {BYTES}",
    "memory": f"{DECIMAL} ([0-9a-f]{{64}})", "held": NUMBER, "inside": BIT, "mask": NUMBER, "depth": DECIMAL, "polled": BIT,
    "handler": f"{DECIMAL} {NUMBER}", "output": DECIMAL, "out": BYTES, "journal": DECIMAL, "e": EVENT, "end-thread": "",
    "shared": "", "w": f"{DECIMAL} {NUMBER}", "pending": f"{DECIMAL} {NUMBER}", "end": "",
    "history": DECIMAL, "h": f"{DECIMAL} {EVENT}",
}
# what a stop says to a person, with its values in their order; the first of an exception is PC
MEANINGS = {
    "exited": "exited with status {0}", "killed": "signal {0} was delivered, and has no handler",
    "badframe": "a signal's frame cannot be written, or a return found none, at {0}", "budget": "executed as many instructions as the budget has",
    "tracefull": "the journal is full", "outputfull": "the output is full", "none": "has not stopped",
}
CAUSES = {
    "pcalign": "PC is no multiple of 4", "fetch": "the bytes at PC may not be executed", "undefined": "the word {1} is no listed instruction",
    "breakpoint": "a breakpoint, brk #{1}", "illegalstreaming": "the instruction is not legal in Streaming SVE mode",
    "notstreaming": "the instruction needs Streaming SVE mode", "zainactive": "the instruction needs ZA, which is off",
    "spalign": "SP as a base is no multiple of 16", "align": "an ordered or atomic access at {1} is not aligned to its size",
    "shared": "an access to shared words at {1} reaches none of them", "data": "the byte at {1} is not there, or there is no permission to {2} it",
}
PATTERNS = {name: re.compile(f"{name} {form}" if form else name) for name, form in FORMS.items()}


class NoReport(Exception):
    """A file that is not there, or a text that is no report."""


class Stop(NamedTuple):
    """Why a thread stopped: the words after `stop`."""
    words: tuple

    @property
    def name(self):
        """`exited`, `killed`, `badframe`, `budget`, `tracefull`, `outputfull`, `raised`, or `none` in what `sim` writes."""
        return self.words[0]

    @property
    def status(self):
        """The exit status, or None where the thread did not exit."""
        return int(self.words[1]) if self.name == "exited" else None

    @property
    def meaning(self):
        """What it says to a person."""
        values = [f"{int(word, 16):#x}" if re.fullmatch(NUMBER, word) else word for word in self.words]
        if self.name != "raised":
            return MEANINGS[self.name].format(*values[1:])
        return f"{CAUSES[values[1]].format(*values[2:])}; PC is {values[2]}"

    def __str__(self):
        return " ".join(self.words)


class Event(NamedTuple):
    """An operation of a thread on what threads share."""
    kind: str
    place: int
    a: int
    b: int
    answer: int

    def __str__(self):
        """Its kind, place and values, and behind an arrow what it found."""
        given = {"ld": "", "poll": "", "cas": f" {self.a}, {self.b}"}.get(self.kind, f" {self.a}")
        return f"{self.kind} {self.place}{given}" + ("" if self.kind == "st" else f" -> {self.answer}")


class Entry(NamedTuple):
    """An event of the history, with its thread."""
    thread: int
    event: Event


class Skip(NamedTuple):
    """An event of the plan that was not enabled: its line in the file, counted from 1, and why."""
    line: int
    why: str


class Thread:
    """A block of a report."""
    number: int
    stop: Stop
    count: int
    turns: int
    pc: int
    x: List[int]                # X0 to X30
    sp: int
    nzcv: str                   # four digits
    tpidr: int
    tpidr2: int
    svcr: int
    z: List[bytes]              # 32, each of the length in force
    p: List[bytes]              # 16, a bit for each byte of a vector, the lowest bit first
    ffr: bytes
    za: Optional[List[bytes]]   # one vector for each of its bytes, or None where PSTATE.ZA is 0
    pages: int
    digest: str                 # SHA-256 of the pages
    held: int
    mask: int                   # 0 in version 1
    depth: int                  # 0 or 1 in version 1, whose line is `inside`
    polled: bool
    handlers: Dict[int, int]    # addresses by signal
    output: bytes
    events: int                 # in the journal
    journal: Optional[List[Event]]  # None where it was not asked for

    @property
    def streaming(self):
        """PSTATE.SM"""
        return self.svcr & 1 == 1

    @property
    def za_on(self):
        """PSTATE.ZA"""
        return self.svcr & 2 == 2


class Report:
    """A report, or what `sim` writes."""
    version: int
    vl: int                     # in bits, as svl
    svl: int
    slice: int
    budget: int
    image: str                  # SHA-256 of the program file
    threads: List[Thread]
    shared: Dict[int, int]      # the shared words that are not zero
    pending: Dict[int, int]     # the pending signals of each thread that has any
    skips: List[Skip]
    history: Optional[List[Entry]]  # None where the text is no `sim`'s

    @property
    def options(self):
        """The values of the line `options` by their names, in its order."""
        return {"vl": self.vl, "svl": self.svl, "slice": self.slice, "budget": self.budget, "threads": len(self.threads)}

    def length(self, thread):
        """The bytes of a vector of a thread."""
        return (self.svl if thread.streaming else self.vl) // 8


def shown(line):
    """The beginning of a line that may be of any file."""
    return "".join(character if character.isprintable() else "." for character in line[:72])


class Lines:
    """The lines of a text, of which the next one is taken by its name."""

    def __init__(self, text):
        self.lines, self.at = text.split("\n"), 0
        if self.lines[-1] == "":
            self.lines.pop()

    def fail(self, why, at=None):
        raise NoReport(f"line {(self.at if at is None else at) + 1}: {why}")

    def is_next(self, name):
        """Tells whether the next line has this first word."""
        return self.at < len(self.lines) and self.lines[self.at].partition(" ")[0] == name

    def take(self, name):
        """The values of the next line, which must be of this name, as texts."""
        if self.at == len(self.lines):
            self.fail(f"the text ends where `{name}` should stand")
        line = self.lines[self.at]
        found = PATTERNS[name].fullmatch(line)
        if not found:
            self.fail(f"no line `{name}` of a report: {shown(line)}")
        self.at += 1
        return found.groups()

    def all(self, name):
        """The values of the lines of this name that come next."""
        while self.is_next(name):
            yield self.take(name)

    def decimal(self, name, least=0, most=2 ** 32 - 1):
        """The number that the next line has, which must be in a range."""
        return self.within(name, self.take(name)[0], least, most)

    def number(self, name):
        """The 16 hexadecimal digits that the next line has, as a number."""
        return int(self.take(name)[0], 16)

    def within(self, name, text, least, most):
        """A decimal number of the line that was taken last."""
        if not least <= int(text) <= most:
            self.fail(f"`{name}` is not from {least} to {most}: {text}", self.at - 1)
        return int(text)

    def by_number(self, name, most):
        """The values of lines that each have a number up to this one."""
        return {self.within(name, number, 0, most): int(value, 16) for number, value in self.all(name)}

    def bytes_of(self, name, text, length):
        """The bytes of the line that was taken last, which must be so many."""
        if len(text) != 2 * length:
            self.fail(f"`{name}` has {len(text) // 2} bytes, not {length}", self.at - 1)
        return bytes.fromhex(text)

    def vectors(self, name, count, length):
        """So many vectors, of which those that are not zero have a line."""
        found = [bytes(length)] * count
        for number, text in self.all(name):
            found[self.within(name, number, 0, count - 1)] = self.bytes_of(name, text, length)
        return found


def event_of(values):
    """An event, of the texts of its kind, place, values and answer."""
    kind, place, a, b, answer = values
    return Event(kind, int(place), int(a, 16), int(b, 16), int(answer, 16))


def read_head(lines, report):
    """The lines before the first block; the answer is the number of threads."""
    report.skips = [Skip(int(line), why) for line, why, _ in lines.all("skip")]
    report.version = int(lines.take("smemu-report")[0])
    values = dict(zip(("vl", "svl", "slice", "budget", "threads"), lines.take("options")))
    for name in ("vl", "svl"):
        if int(values[name]) not in LENGTHS:
            lines.fail(f"no vector length: {name}={values[name]}", lines.at - 1)
    report.vl, report.svl = int(values["vl"]), int(values["svl"])
    report.slice = lines.within("slice", values["slice"], 1, 1_000_000)
    report.budget = lines.within("budget", values["budget"], 1, 2 ** 32 - 1)
    count = lines.within("threads", values["threads"], 1, MOST_THREADS)
    report.image, = lines.take("image")
    return count


def read_registers(lines, report, thread):
    """The lines of a block from `stop` to `za`."""
    thread.stop = Stop(tuple(lines.take("stop")[0].split()))
    thread.count, thread.turns, thread.pc = lines.decimal("count"), lines.decimal("turns", most=2 ** 64 - 1), lines.number("pc")
    thread.x = [0] * 31
    for number, value in lines.by_number("x", 30).items():
        thread.x[number] = value
    thread.sp, (thread.nzcv,) = lines.number("sp"), lines.take("nzcv")
    thread.tpidr, thread.tpidr2, thread.svcr = lines.number("tpidr"), lines.number("tpidr2"), int(lines.take("svcr")[0])
    length, rows = report.length(thread), report.svl // 8
    thread.z, thread.p = lines.vectors("z", 32, length), lines.vectors("p", 16, length // 8)
    thread.ffr = bytes(length // 8)
    if lines.is_next("ffr"):
        thread.ffr = lines.bytes_of("ffr", lines.take("ffr")[0], length // 8)
    if lines.is_next("za") and not thread.za_on:
        lines.fail("a line `za` where PSTATE.ZA is 0")
    thread.za = lines.vectors("za", rows, rows) if thread.za_on else None


def read_kernel(lines, report, thread, journals):
    """The lines of a block from `memory` to `end-thread`; those of the journal are passed over where it is not asked for."""
    pages, thread.digest = lines.take("memory")
    thread.pages, thread.held, thread.mask = lines.within("memory", pages, 0, 2 ** 32 - 1), lines.number("held"), 0
    if report.version == 1:
        thread.depth = int(lines.take("inside")[0])
    else:
        thread.mask, thread.depth = lines.number("mask"), lines.decimal("depth")
    thread.polled = lines.take("polled")[0] == "1"
    thread.handlers = lines.by_number("handler", 2 ** 32 - 1)
    length = lines.decimal("output")
    thread.output = b"".join(lines.bytes_of("out", lines.take("out")[0], min(32, length - at)) for at in range(0, length, 32))
    thread.events, thread.journal = lines.decimal("journal"), None
    if journals:
        thread.journal = [event_of(lines.take("e")) for _ in range(thread.events)]
    else:
        lines.at = min(lines.at + thread.events, len(lines.lines))
    lines.take("end-thread")


def read_block(lines, report, number, journals):
    thread = Thread()
    thread.number = lines.decimal("thread", number, number)
    read_registers(lines, report, thread)
    read_kernel(lines, report, thread, journals)
    return thread


def read_history(lines, threads):
    """The history that `sim` writes after its report, or None."""
    if not lines.is_next("history"):
        return None
    entries = []
    for _ in range(lines.decimal("history")):
        thread, *event = lines.take("h")
        entries.append(Entry(lines.within("h", thread, 0, threads - 1), event_of(event)))
    return entries


def parse(text, journals=True):
    """The report that a text is, or NoReport with its first line that is not in the format. Most of the time goes into long journals."""
    lines, report = Lines(text), Report()
    count = read_head(lines, report)
    report.threads = []
    for number in range(count):
        report.threads.append(read_block(lines, report, number, journals))
    lines.take("shared")
    report.shared, report.pending = lines.by_number("w", 511), lines.by_number("pending", MOST_THREADS - 1)
    lines.take("end")
    report.history = read_history(lines, count)
    if lines.at < len(lines.lines):
        lines.fail(f"a line after the end: {shown(lines.lines[lines.at])}")
    return report


def read(path, journals=True):
    """The report in a file of this name, which may be /dev/stdin, or NoReport."""
    try:
        # what is no ASCII is in no line of a report, which tells it
        return parse(pathlib.Path(path).read_bytes().decode("ascii", errors="replace"), journals)
    except OSError as fault:
        raise NoReport(f"{path}: {fault.strerror}") from fault
    except NoReport as fault:
        raise NoReport(f"{path}: {fault}") from fault


def elements(data, size, signed=False):
    """The elements of so many bytes each of a vector, element 0 first."""
    return [int.from_bytes(data[at:at + size], "little", signed=signed) for at in range(0, len(data), size)]


def active(data, size):
    """For each element of so many bytes whether a predicate has it: the bit of its lowest byte."""
    return [data[at // 8] >> at % 8 & 1 for at in range(0, 8 * len(data), size)]


def tile_rows(za, size, tile):
    """The rows of a tile of ZA whose elements have so many bytes."""
    return za[tile::size]

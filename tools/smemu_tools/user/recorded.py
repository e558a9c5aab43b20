"""Goes over a thread of a report by `debug`: its states, forwards and back, the places of an address, and where an answer changes.

Each call of `debug` first runs the thread to its end, so many states are asked for in one call, and those that were asked for are kept.
docs/DEBUGGER.md says what its commands are and what is shown at a count.
"""
import bisect
import collections
import pathlib
import re
import struct
import tempfile

from smemu_tools.user import emulator, reports

PAGE = 4096
# an empty line, which no other answer has
EMPTY = "mem 0x0 0"
# the bytes that one call is to answer at most, the states of a window, and the hits of a place that are asked for at once
MOST_BYTES = 32_000_000
WINDOW = 64
HITS = 2048
FIRST_SPAN, MOST_SPAN = 512, 1 << 20
# the pages of code and constants that are kept from the start on
MOST_CONSTANT = 256
# a register by its name in a report, whose value may be asked for as an answer
REGISTER = re.compile(r"(?:x|z|p) (?:0|[1-9]\d?)|pc|sp|nzcv|tpidr2?|svcr|ffr")
# an address is hot that has so many hits or more
HOT = 4096
# the words of a listing after which ZA may be another: those that write it, or turn it on or off, and a call, which may be a handler's return
CHANGES_ZA = re.compile(r"^([0-9a-f]{16}) [0-9a-f]{8} (?:zero|smst(?:art|op)(?: za)?$|svc|(?!st)\w+ \{?za)", re.MULTILINE)

# the lines before the report in what `sim` writes
SKIPS = re.compile(rb"(?:skip [^\n]*\n)*")
# a thread that has not stopped, and the status of a report that is none
RUNNING, NOT_STOPPED = re.compile(rb"^thread (\d+)\nstop none$", re.MULTILINE), 9
# an event by which a thread was given signals
SIGNALS = re.compile(rb"^e poll \d+ 0{16} 0{16} (?!0{16})", re.MULTILINE)


class State:
    """What is known of a thread at a count: the line that `where` writes, registers by their names in a report, vectors of ZA, pages."""

    def __init__(self, where, registers):
        self.where = where
        self.registers = dict(line.rsplit(" ", 1) for line in registers)
        self.za = None
        self.pages = {}

    @property
    def pc(self):
        return int(self.registers["pc"], 16)

    @property
    def has_za(self):
        return self.registers["svcr"] in ("2", "3")


def read_za(lines):
    """The vectors of ZA that lines `za` have, by their numbers."""
    return {int(number): bytes.fromhex(row) for _, number, row in map(str.split, lines)}


def constant_pages(program):
    """The pages that a program cannot write: those that some load touches, and none with the flag to write."""
    data = pathlib.Path(program).read_bytes()
    place, = struct.unpack_from("<Q", data, 32)
    constant, written = set(), set()
    for at in range(place, place + 56 * struct.unpack_from("<H", data, 56)[0], 56):
        kind, flags, _, address, _, _, size = struct.unpack_from("<IIQQQQQ", data, at)
        if kind == 1 and size:
            (written if flags & 2 else constant).update(range(address // PAGE, (address + size - 1) // PAGE + 1))
    return constant - written


class Plain:
    """The file of a report. Of what `sim` writes, which has more before it and after it, it is one
    with the report alone, for as long as this is there."""

    def __init__(self, path):
        self.path, self.file = str(path), None
        try:
            data = pathlib.Path(path).read_bytes()
        except OSError:
            # the emulator says so
            return
        running = RUNNING.search(data)
        if running:
            raise emulator.Refused(f"thread {running[1].decode()} has not stopped, and a record is "
                                   "gone over where all threads have", NOT_STOPPED)
        start, end = data.find(b"smemu-report "), data.rfind(b"\nend\nhistory ")
        if start >= 0 and SKIPS.fullmatch(data[:start]) and (start > 0 or end >= 0):
            self.file = tempfile.NamedTemporaryFile(suffix=".report")
            self.file.write(data[start:end + 5 if end >= 0 else None])
            self.file.flush()
            self.path = self.file.name


def threads_of(program, report_file):
    """The numbers of the threads of a report. Refused where the emulator refuses one of the files, or the record of thread 0."""
    return [block.number for block in Recorded(program, report_file, 0).report.threads]


class Recorded:
    """A thread of a report, or of what `sim` writes. Refused where the emulator refuses one of the
    files, the thread or the record.

    While a call waits, `is_over` may tell that nobody waits for it any longer; the call then ends by Interrupted.
    """

    def __init__(self, program, report_file, thread, is_over=None):
        self.file = Plain(report_file)
        self.words = [emulator.find(), "debug", str(program), self.file.path, str(thread), "/dev/stdin"]
        self.is_over = is_over
        self.ask([EMPTY])
        # the emulator has read it, so it is a report
        self.report = reports.read(report_file, journals=False)
        self.block = self.report.threads[thread]
        self.end = self.block.count
        self.longest, self.rows = max(self.report.vl, self.report.svl) // 8, self.report.svl // 8
        self.has_signals = bool(SIGNALS.search(pathlib.Path(report_file).read_bytes()))
        self.program = program
        constant = sorted(constant_pages(program))[:MOST_CONSTANT]
        answers = self.ask([f"mem {page * PAGE:#x} {PAGE}" for page in constant])
        self.constant = {page: self.read_page(answer) for page, answer in zip(constant, answers)}
        self.states = collections.OrderedDict()
        self.wanted = {}
        self.stops = 0
        self.known, self.places_of_za = {}, None

    # calls

    def written(self, script):
        """What `debug` writes for a script."""
        return emulator.call(self.words, script.encode(), self.is_over)

    def ask(self, commands):
        """The lines that each of these commands answers."""
        answers, lines = [], []
        script = "".join(f"{command}\n{EMPTY}\n" for command in commands)
        for line in self.written(script).decode().split("\n")[:-1]:
            if line:
                lines.append(line)
            else:
                answers.append(lines)
                lines = []
        return answers

    def ask_at(self, count, commands):
        """The lines that each of these commands answers at a count."""
        return self.ask([f"goto {count}", *commands])[1:]

    # states

    def state(self, count, backwards=False):
        """The state at a count. Those that a session asks for next, after it or before it, come with it."""
        if count not in self.states:
            ask_za, pages = self.usual()
            size = 4 * self.longest * 17 + 2048 + (2 * self.rows * self.rows if ask_za else 0) + 2 * PAGE * len(pages)
            span = max(2, min(WINDOW, MOST_BYTES // size)) if self.follows(count) else 2
            low = max(0, count - span + 1) if backwards else count
            self.fetch(low, min(self.end, low + span - 1), ask_za, pages)
        self.states.move_to_end(count)
        return self.states[count]

    def follows(self, count):
        """Tells whether a state beside this one is known, as in a session that goes on step by step."""
        return count - 1 in self.states or count + 1 in self.states

    def usual(self):
        """What was asked for at one of the last stops: whether ZA was, and which pages."""
        recent = [key for key, stop in self.wanted.items() if stop >= self.stops - 2]
        return "za" in recent, [key for key in recent if key != "za"][:4]

    def fetch(self, low, high, ask_za, pages):
        """Asks for the states from a count to another."""
        each = ["where", "regs", *(["za"] if ask_za else []), *(f"mem {page * PAGE:#x} {PAGE}" for page in pages)]
        answers = iter(self.ask_at(low, [it for count in range(low, high + 1) for it in (*each, "step 1")]))
        for count in range(low, high + 1):
            state = State(next(answers)[0], next(answers))
            if ask_za:
                state.za = read_za(next(answers))
            for page in pages:
                state.pages[page] = self.read_page(next(answers))
            next(answers)
            self.states[count] = state
        while len(self.states) > 8 * WINDOW:
            self.states.popitem(last=False)

    @staticmethod
    def read_page(answer):
        """The bytes of a page, or None where the thread cannot read it."""
        return None if answer[0].startswith("fault") else bytes.fromhex(answer[0])

    def za(self, count):
        """The vectors of ZA that are not zero at a count, by their numbers; none where ZA is off."""
        state = self.state(count)
        self.wanted["za"] = self.stops
        if state.za is None:
            state.za = read_za(self.ask_at(count, ["za"])[0])
        return state.za

    def page(self, count, page):
        """The bytes of a page at a count, or None where the thread cannot read it."""
        if page in self.constant:
            return self.constant[page]
        state = self.state(count)
        self.wanted[page] = self.stops
        if page not in state.pages:
            state.pages[page] = self.read_page(self.ask_at(count, [f"mem {page * PAGE:#x} {PAGE}"])[0])
        return state.pages[page]

    def memory(self, count, address, length):
        """The bytes of memory at a count, up to the first that the thread cannot read."""
        found = b""
        while len(found) < length:
            page, offset = divmod(address + len(found), PAGE)
            there = self.page(count, page)
            if there is None:
                break
            found += there[offset:offset + length - len(found)]
        return found

    # places

    def hits(self, after, address, most=HITS):
        """The next counts above one at which PC is this address, as many as `most`."""
        return self.hits_of(self.ask_at(after, [f"break {address:#x}", "where"] * most))

    @staticmethod
    def hits_of(answers):
        """The counts that pairs of a break and a `where` answer, up to the first break that comes to the end."""
        found = []
        for move, where in zip(answers[::2], answers[1::2]):
            if move:
                break
            found.append(int(where[0].split()[1]))
        return found

    def hits_within(self, low, high, address):
        """All counts from one to below another at which PC is this address."""
        found, most = [], 64
        if low == 0 and self.state(0).pc == address:
            found.append(0)
        after = max(low - 1, 0)
        while after < high:
            more = self.hits(after, address, most)
            found += more
            if len(more) < most:
                break
            after, most = more[-1], min(8 * most, 1 << 17)
        return found[:bisect.bisect_left(found, high)]

    def all_hits(self, address):
        """All counts at which PC is this address."""
        return self.hits_within(0, self.end + 1, address)

    def learn(self, addresses):
        """Looks once for the hits of addresses; a hot one has None."""
        new = [it for it in addresses if it not in self.known]
        if not new:
            return
        answers = self.ask([it for address in new for it in ("goto 0", *[f"break {address:#x}", "where"] * HOT)])
        start = self.state(0).pc
        for at, address in enumerate(new):
            hits = self.hits_of(answers[at * (2 * HOT + 1) + 1:(at + 1) * (2 * HOT + 1)])
            self.known[address] = None if len(hits) == HOT else ([0] if start == address else []) + hits

    def next_hit(self, count, addresses):
        """The least count above this one at which PC is one of the addresses, or None."""
        answers = self.ask([it for address in addresses for it in (f"goto {count}", f"break {address:#x}", "where")])
        found = [int(where[0].split()[1]) for move, where in zip(answers[1::3], answers[2::3]) if not move]
        return min(found, default=None)

    def last_hit(self, count, addresses):
        """The greatest count below this one at which PC is one of the addresses, or None."""
        return max((hit for hit in (self.last_of(count, address) for address in addresses) if hit is not None), default=None)

    def last_of(self, count, address):
        """The greatest count below this one at which PC is this address, or None."""
        near = self.hits_within(max(0, count - HITS), count, address)
        if near:
            return near[-1]
        self.learn([address])
        if self.known[address] is not None:
            at = bisect.bisect_left(self.known[address], count)
            return self.known[address][at - 1] if at else None
        low, span = max(0, count - HITS), 8 * HITS
        while low > 0:
            high, low = low, max(0, low - span)
            first = self.first_from(low, address)
            if first is not None and first < high:
                return self.last_within(first, high, address)
            span *= 8
        return None

    def first_from(self, count, address):
        """The least count from this one on at which PC is this address, or None."""
        here, move, there = self.ask_at(count, ["where", f"break {address:#x}", "where"])
        if int(here[0].split()[2], 16) == address:
            return count
        return None if move else int(there[0].split()[1])

    def last_within(self, hit, high, address):
        """The greatest count below another at which PC is this address, where a lesser one is known."""
        low = hit
        while high - low > HITS:
            middle = (low + high) // 2
            first = self.first_from(middle, address)
            if first is not None and first < high:
                low = hit = first
            else:
                high = middle
        return max([hit, *self.hits_within(low, high, address)])

    # changes

    def next_change(self, count, question, limit=None, show=None):
        """The least count from this one on whose turn to the next count changes what a command answers, or None; below the limit."""
        end, span = self.end if limit is None else min(limit, self.end), FIRST_SPAN
        while count < end:
            high = min(end, count + span)
            found = self.changes(count, high, question)
            if found:
                return found[0]
            count, span = high, self.wider(span, question)
            if show:
                show(count)
        return None

    def last_change(self, count, question, limit=0, show=None):
        """The greatest count below this one whose turn to the next count changes what a command answers, or None; not below the limit."""
        span = FIRST_SPAN
        while count > limit:
            low = max(limit, count - span)
            found = self.changes(low, count, question)
            if found:
                return found[-1]
            count, span = low, self.wider(span, question)
            if show:
                show(count)
        return None

    def wider(self, span, question):
        """How many counts are looked at in one call after none of so many was one."""
        if question == "za" and self.za_places():
            return 8 * span
        lengths = {"mem": 2 * int(question.split()[-1]) if question.startswith("mem ") else 0, "slice": 2 * self.rows, "za": 2 * self.rows ** 2}
        length = lengths.get(question.split()[0], 100 * self.longest)
        return min(8 * span, MOST_SPAN, max(FIRST_SPAN, 4 * MOST_BYTES // max(64, length)))

    def changes(self, low, high, question):
        """The counts from one to below another whose turns change what a command answers."""
        if question == "za" and self.za_places():
            return [it for part in self.parts(self.candidates(low, high)) for it in self.changed(part, question)]
        if question == "za":
            return [it for part in self.parts(range(low, high)) for it in self.changed(part, question)]
        if REGISTER.fullmatch(question):
            return self.changes_of(low, high, question)
        answers = self.written(f"goto {low}\n{question}\n" + f"step 1\n{question}\n" * (high - low)).split(b"\n")
        return [low + at for at in range(high - low) if answers[at] != answers[at + 1]]

    def changes_of(self, low, high, register):
        """The counts from one to below another whose turns change a register."""
        each = f"regs\n{EMPTY}\n"
        blocks = self.written(f"goto {low}\n{each}" + f"step 1\n{each}" * (high - low)).split(b"\n\n")
        line = re.compile(rb"^%s (.*)" % register.encode(), re.MULTILINE)
        values = [line.findall(block) for block in blocks]
        return [low + at for at in range(high - low) if values[at] != values[at + 1]]

    def answer(self, count, question):
        """The lines that a command answers at a count, or the value of a register."""
        if REGISTER.fullmatch(question):
            # those that are zero have no line
            return [self.state(count).registers.get(question, "0" * 16 if question.startswith("x") else "0")]
        return self.ask_at(count, [question])[0]

    def parts(self, counts):
        """Counts in lists of as many as one call is to ask ZA for."""
        size = max(16, MOST_BYTES // (4 * self.rows * self.rows))
        return (counts[at:at + size] for at in range(0, len(counts), size))

    def changed(self, counts, question):
        """Those of these counts whose turns change what a command answers."""
        answers = self.ask([it for count in counts for it in (f"goto {count}", question, "step 1", question)])
        return [count for at, count in enumerate(counts) if answers[4 * at + 1] != answers[4 * at + 3]]

    def za_places(self):
        """The addresses of the words after which ZA may be another; none where the program has no listing."""
        if self.places_of_za is None:
            listing = emulator.call([self.words[0], "dis", self.program], is_over=self.is_over).decode()
            self.places_of_za = [int(it, 16) for it in CHANGES_ZA.findall(listing)]
        return self.places_of_za

    def candidates(self, low, high):
        """The counts from one to below another whose turns may change ZA: by the word that is there, or by a signal's delivery."""
        found = set()
        self.learn(self.za_places())
        for address in self.za_places():
            hits = self.known[address]
            if hits is None:
                found.update(self.hits_within(low, high, address))
            else:
                found.update(hits[bisect.bisect_left(hits, low):bisect.bisect_left(hits, high)])
        if self.has_signals:
            polls = self.report.slice
            found |= set(range(max(polls, -(-low // polls) * polls), high, polls))
        return sorted(found)

"""Lets gdb go over a recorded run, forwards and backwards: the threads of a report, with vectors, predicates and ZA as registers.

    smemu gdb PROGRAM REPORT [THREAD] [--port N]

At a terminal it starts gdb, connected; else it is the other end of `target remote | smemu gdb PROGRAM REPORT` in a gdb that knows AArch64.
With --port it waits for one gdb at that port of this machine, `target remote :N`; 0 is a free one,
which is told. THREAD is the thread of the report that is looked at first, 0 where it is not given.
REPORT may be what `sim` writes, which has a history besides. What gdb would write, registers and
memory, is refused. SMEMU may name the emulator, GDB gdb (gdb-multiarch where it is not set).
docs/GDB.md shows a session.
"""
import argparse
import bisect
import concurrent.futures
import functools
import os
import pathlib
import re
import select
import shlex
import shutil
import signal
import socket
import sys
import tempfile

from smemu_tools import TOOL
from smemu_tools.user import emulator, gdb_registers, recorded, reports, shared_words

FEATURES = "PacketSize=40000;qXfer:features:read+;qXfer:threads:read-;ReverseStep+;ReverseContinue+;swbreak+;QStartNoAckMode+"
BREAKPOINT, INTERRUPTED, WATCHED_STOP = 5, 2, 0
# the signals that Linux sends for what stops a thread, by gdb's numbers
SIGILL, SIGTRAP, SIGBUS, SIGSEGV = 4, 5, 10, 11
FAULTS = {
    "undefined": SIGILL, "illegalstreaming": SIGILL, "notstreaming": SIGILL, "zainactive": SIGILL,
    "breakpoint": SIGTRAP, "pcalign": SIGBUS, "spalign": SIGBUS, "align": SIGBUS, "shared": SIGBUS,
    "fetch": SIGSEGV, "data": SIGSEGV, "badframe": SIGSEGV,
}
# the first lines of a report, or of what `sim` writes
HEAD = re.compile(rb"(?:skip [^\n]*\n)*smemu-report \d+\n"
                  rb"options vl=(\d+) svl=(\d+) slice=\d+ budget=\d+ threads=(\d+)\n")
NOT_CHANGED = "E.a record is not changed"
NO_READS = ("gdb: watchpoints for reads (rwatch, awatch) are not there: "
            "delete it, and no move fails for it")
SHARED_SAID = "shared words have their value after the thread's last event: monitor shared"
NO_HISTORY = ("there is no order of the threads' events in a report: "
              "what sim writes of a plan has one")
WATCHED = ("za", "slice", "mem")
MOVES = ("goto", "step", "back", "break")
HELP = """monitor LINE           a line of a script of debug, at this count: where, regs, za, slice s 0 v 3, mem 0x404000 64
monitor goto N         goes to count N (so do step N, back N and break ADDRESS); then: maintenance flush register-cache
monitor watch za       continue and reverse-continue stop where ZA changes; so with slice .., mem .., x 3
monitor unwatch        they stop there no longer
monitor shared         the shared words that are not zero, as they are in memory here
monitor event N        each thread goes to where it is after N events of the history; then the same
"""
# what a gdb that this starts is told besides where to connect
COMMANDS = pathlib.Path(__file__).resolve().parent / "gdbinit"


class Closed(Exception):
    """gdb has gone."""


class Unread(Exception):
    """The emulator has refused the files or the thread: its own exception is the value."""


class Wire:
    """Packets to gdb and from it, by two files."""

    def __init__(self, source, sink):
        self.source, self.sink = source, sink
        self.waiting, self.acknowledges = b"", True

    def more(self):
        try:
            part = os.read(self.source, 65536)
        except ConnectionError:
            part = b""
        if not part:
            raise Closed()
        self.waiting += part

    def packet(self):
        """The next packet's text; an interrupt that comes between packets is none."""
        while True:
            found = re.search(rb"\$([^#]*)#[0-9a-fA-F]{2}", self.waiting)
            if found:
                self.waiting = self.waiting[found.end():]
                if self.acknowledges:
                    self.put(b"+")
                return found[1].decode("latin-1")
            self.more()

    def put(self, data):
        try:
            while data:
                data = data[os.write(self.sink, data):]
        except (BrokenPipeError, ConnectionError):
            raise Closed() from None

    def send(self, text):
        data = text.encode("latin-1")
        self.put(b"$%s#%02x" % (data, sum(data) & 255))

    def is_interrupted(self):
        """Tells whether gdb interrupts what it waits for, or has gone."""
        while select.select([self.source], [], [], 0)[0]:
            self.more()
        before, found, after = self.waiting.partition(b"\x03")
        self.waiting = before + after
        return bool(found)


class Place:
    """A thread of the report, and the count at which gdb sees it; at a place of the history the
    number of events before it, until the thread moves."""

    def __init__(self, thread):
        self.thread, self.count = thread, 0

    @property
    def count(self):
        return self.at

    @count.setter
    def count(self, count):
        self.at, self.moment = count, None

    def __str__(self):
        return self.thread.state(self.count).where


def shared_place(question):
    """The address and the length of shared bytes that a watch looks at, or None."""
    found = re.fullmatch(r"mem (0x[0-9a-fA-F]+) (\d+)", question)
    place = (int(found[1], 16), int(found[2])) if found else None
    return place if place and shared_words.is_shared(*place) else None


def end_text(block):
    """How a thread has stopped, and within how many handlers."""
    return str(block.stop) + (f", within {block.depth} handler{'s' * (block.depth > 1)}" if block.depth else "")


class Session:
    """What gdb sees: a place in each thread, breakpoints and watches. Threads have the numbers of the report and one more, since gdb counts from 1.

    gdb says of which thread it wants registers, and, with `set scheduler-locking on`, which one is to move. Else it is the one that was selected last.
    """

    def __init__(self, program, report, first, wire=None):
        self.program, self.report, self.wire = program, report, wire
        # gdb is answered while the emulator reads the report
        pool = concurrent.futures.ThreadPoolExecutor(1)
        self.first, self.load = first, pool.submit(recorded.Recorded, program, report, first)
        self.places, self.events = {}, {}
        self.chosen = self.selected = first
        self.locked = None
        self.breakpoints, self.watchpoints, self.watches = set(), set(), []
        self.whole, self.words = None, None
        # whether gdb has read shared words, and was told which value that is
        self.read_shared, self.told_shared = False, False

    def loaded(self):
        """The thread that is looked at first, or Unread."""
        try:
            return self.load.result()
        except (emulator.Refused, reports.NoReport) as fault:
            raise Unread(fault) from fault

    @functools.cached_property
    def head(self):
        """The vector lengths of the report in bytes, and its threads, without the emulator where
        its first lines say so."""
        try:
            with open(self.report, "rb") as file:
                found = HEAD.match(file.read(1 << 16))
        except OSError:
            found = None
        if found and all(int(it) in reports.LENGTHS for it in found.groups()[:2]):
            return int(found[1]) // 8, int(found[2]) // 8, int(found[3])
        report = self.loaded().report
        return report.vl // 8, report.svl // 8, len(report.threads)

    @property
    def threads(self):
        return self.head[2]

    @functools.cached_property
    def description(self):
        vl, svl, _ = self.head
        return gdb_registers.Description(max(vl, svl), svl)

    def place(self, number):
        if number not in self.places:
            thread = self.loaded()
            if number != self.first:
                thread = recorded.Recorded(self.program, self.report, number)
            thread.is_over = self.wire.is_interrupted
            self.places[number] = Place(thread)
        return self.places[number]

    def shared(self):
        """What the report says of shared words."""
        if self.words is None:
            self.loaded()
            self.whole = reports.read(self.report)
            self.words = shared_words.Shared(self.whole)
        return self.words

    def events_of(self, number):
        if number not in self.events:
            self.shared()
            journal = self.whole.threads[number].journal
            self.events[number] = shared_words.Events(self.place(number).thread, journal)
        return self.events[number]

    def here(self):
        """The place that gdb looks at."""
        return self.place(self.chosen)

    def mover(self):
        """The place that is to move, which gdb looks at then."""
        self.chosen = self.selected = self.selected if self.locked is None else self.locked
        return self.place(self.chosen)

    def say(self, text):
        """Shows a text in gdb, which waits for the end of a move."""
        self.wire.send("O" + (text + "\n").encode().hex())

    def shared_bytes(self, place, address, length):
        """Bytes of shared words after the thread's last event, up to the first that is not known;
        after so many of the history where gdb went there."""
        number = place.thread.block.number
        made = 0 if place.moment is not None else self.events_of(number).made(place.count)
        return self.shared().bytes(address, length, number, made, place.moment)

    # packets

    def answer(self, packet):
        """What is answered to a packet; an empty text says that it is not known."""
        for start, method in ANSWERS:
            if packet.startswith(start):
                return method(self, packet[len(start):])
        return ""

    def features(self, _):
        return FEATURES

    def no_acknowledgements(self, _):
        self.wire.send("OK")
        self.wire.acknowledges = False
        return None

    def describe(self, rest):
        start, length = (int(it, 16) for it in rest.split(","))
        part = self.description.text[start:start + length]
        return ("m" if start + length < len(self.description.text) else "l") + part

    def why(self, _):
        return self.stopped("")

    def stopped(self, why, number=BREAKPOINT):
        return f"T{number:02x}thread:{self.chosen + 1:x};{why}"

    def all_threads(self, _):
        return "m" + ",".join(f"{number + 1:x}" for number in range(self.threads))

    def no_more_threads(self, _):
        return "l"

    def thread_text(self, rest):
        """What `info threads` says of a thread."""
        number = int(rest, 16) - 1
        place = self.place(number)
        return f"thread {number}, count {place.count} of {place.thread.end}, then {end_text(place.thread.block)}".encode().hex()

    def is_thread(self, rest):
        number = int(rest, 16) - 1
        if not 0 <= number < self.threads:
            return "E01"
        self.selected = number
        return "OK"

    def current(self, _):
        return f"QC{self.chosen + 1:x}"

    def choose(self, rest):
        """The thread that is looked at; 0 leaves it as it is."""
        number = int(rest, 16)
        if number > 0:
            self.chosen = min(number, self.threads) - 1
        return "OK"

    def lock(self, rest):
        """The thread that alone is to move; 0 and -1 say that any may."""
        number = int(rest, 16)
        self.locked = min(number, self.threads) - 1 if number > 0 else None
        return "OK"

    def attached(self, _):
        return "1"

    def refuse(self, _):
        return NOT_CHANGED

    def registers(self, _):
        place = self.here()
        return self.description.at_a_stop(place.thread, place.count)

    def register(self, rest):
        place = self.here()
        return self.description.one(int(rest, 16), place.thread, place.count) or "E01"

    def memory(self, rest):
        address, length = (int(it, 16) for it in rest.split(","))
        place = self.here()
        if shared_words.is_shared(address):
            self.read_shared = True
            return self.shared_bytes(place, address, length).hex() or "E01"
        return place.thread.memory(place.count, address, min(length, 0x10000)).hex() or ("E01" if length else "")

    def insert(self, rest):
        kind, address, length = rest.split(";")[0].split(",")
        if kind in "01":
            self.breakpoints.add(int(address, 16))
        elif kind == "2":
            self.watchpoints.add((int(address, 16), int(length, 16)))
        else:
            # gdb shows it: of the answer it shows nothing
            print(NO_READS, file=sys.stderr, flush=True)
        return "OK" if kind in "012" else ""

    def remove(self, rest):
        kind, address, length = rest.split(";")[0].split(",")
        if kind in "01":
            self.breakpoints.discard(int(address, 16))
        elif kind == "2":
            self.watchpoints.discard((int(address, 16), int(length, 16)))
        return "OK" if kind in "012" else ""

    def leave(self, _):
        self.wire.send("OK")
        raise Closed()

    # moves

    def step(self, rest):
        place = self.mover()
        if place.count == place.thread.end:
            return self.at_the_end(place, rest)
        place.count += 1
        return self.stopped("")

    def step_back(self, _):
        place = self.mover()
        if place.count == 0:
            return self.stopped("replaylog:begin;")
        place.count -= 1
        place.thread.state(place.count, backwards=True)
        return self.stopped("")

    def at_the_end(self, place, rest=""):
        """What stopped the thread: a fault is a signal, as it is elsewhere, and once gdb has passed
        that on it is the end of the record."""
        stop = place.thread.block.stop
        self.say(f"thread {self.chosen} ends at count {place.thread.end}: stop {end_text(place.thread.block)}")
        number = FAULTS.get(stop.words[1] if stop.name == "raised" else stop.name)
        return self.stopped("", number) if number and not rest else self.stopped("replaylog:end;")

    def go_on(self, rest):
        place = self.mover()
        if rest and place.count == place.thread.end:
            return self.at_the_end(place, rest)
        thread, start = place.thread, place.count
        hit = thread.next_hit(start, self.breakpoints) if self.breakpoints else None
        limit = thread.end if hit is None else hit
        watched = self.first_watched(thread, start, limit)
        if watched:
            return self.at_a_change(place, *watched)
        place.count = limit
        return self.at_the_end(place) if hit is None else self.stopped("swbreak:;")

    def go_back(self, _):
        place = self.mover()
        thread, start = place.thread, place.count
        hit = thread.last_hit(start, self.breakpoints) if self.breakpoints else None
        limit = 0 if hit is None else hit
        watched = self.last_watched(thread, start, limit)
        if watched:
            return self.at_a_change(place, *watched)
        place.count = limit
        return self.stopped("replaylog:begin;" if hit is None else "swbreak:;")

    def questions(self):
        """Each command whose answers are watched, and the address that gdb watches by it, or None."""
        return [(f"mem {address:#x} {length}", address) for address, length in sorted(self.watchpoints)] + [(line, None) for line in self.watches]

    def first_watched(self, thread, start, limit):
        """The first change from a count on, below another: the count to stop at, the count of the change, what changes, and its address."""
        found = None
        for question, address in self.questions():
            at = self.next_change(thread, start, question, limit)
            if at is not None:
                # gdb itself makes the step over an instruction that changes what it watches
                found, limit = (at if address is not None else at + 1, at, question, address), at
        return found

    def last_watched(self, thread, start, limit):
        """The last change before a count, not below another: as above."""
        found = None
        for question, address in self.questions():
            at = self.last_change(thread, start, question, limit)
            if at is not None:
                found, limit = (at + 1 if address is not None else at, at, question, address), at + 1
        return found

    def next_change(self, thread, start, question, limit):
        """The least count from one on, below another, whose turn changes an answer, or None."""
        if not shared_place(question):
            return thread.next_change(start, question, limit)
        events = self.events_of(thread.block.number)
        made = range(events.made(start), len(events.journal))
        count = self.first_of_shared(thread, question, made)
        return count if count is not None and count < limit else None

    def last_change(self, thread, start, question, limit):
        """The greatest count below one, not below another, whose turn does, or None."""
        if not shared_place(question):
            return thread.last_change(start, question, limit)
        made = range(self.events_of(thread.block.number).made(start) - 1, -1, -1)
        count = self.first_of_shared(thread, question, made)
        return count if count is not None and count >= limit else None

    def first_of_shared(self, thread, question, numbers):
        """The count of the first of a thread's events after which shared bytes are others."""
        number, place = thread.block.number, shared_place(question)
        value = lambda made: self.shared().bytes(*place, number, made)
        found = next((it for it in numbers if value(it) != value(it + 1)), None)
        return None if found is None else self.events_of(number).count_of(found)

    def at_a_change(self, place, stop, count, question, address):
        place.count = stop
        if address is not None:
            return self.stopped(f"watch:{address:x};")
        self.say(f"{question}: changed {place.thread.state(count).where}")
        return self.stopped("", WATCHED_STOP)

    # the monitor

    def monitor(self, rest):
        line = bytes.fromhex(rest).decode("utf-8", errors="replace").strip()
        return (self.monitored(line) + "\n").encode().hex()

    def monitored(self, line):
        name, _, rest = line.partition(" ")
        place = self.here()
        if name in ("", "help"):
            return HELP.rstrip()
        if name == "unwatch":
            self.watches = []
            return "nothing is watched"
        if name == "shared":
            return "\n".join(self.shared_lines(place))
        if name == "event":
            return "\n".join(self.to_event(rest))
        try:
            if name == "watch":
                return self.watch(place, rest)
            answer = place.thread.ask_at(place.count, [line, "where"])
        except emulator.Refused as fault:
            return f"no line of a script: {line}: {str(fault).rpartition(': ')[2]}"
        if name in MOVES:
            place.count = int(answer[1][0].split()[1])
            return "\n".join([*answer[0], *answer[1]])
        return "\n".join(answer[0])

    def shared_lines(self, place):
        """The shared words that are not zero, below a line that says when."""
        number, words = place.thread.block.number, self.shared()
        made = self.events_of(number).made(place.count)
        if place.moment is not None:
            yield f"after event {place.moment} of the history"
        elif words.history is not None:
            yield (f"after event {words.moment(number, made)} of the history, "
                   f"the last of thread {number} up to count {place.count}")
        else:
            yield (f"after {made} events of thread {number}, "
                   "of which alone it is known when they were")
        for word in range(shared_words.WORDS):
            value = words.word(number, word, made, place.moment)
            if value is None:
                yield (f"w {word} is not known: another thread changes it, "
                       "and this one has not looked yet")
            elif value:
                yield f"w {word} {value:016x}"

    def to_event(self, rest):
        """Goes with all threads to where they are after so many events of the history."""
        words = self.shared()
        if words.history is None:
            return [NO_HISTORY]
        length = len(words.history)
        if not re.fullmatch(r"\d{1,9}", rest) or int(rest) > length:
            return [f"the history has {length} events: monitor event 0 to {length}"]
        number, lines = int(rest), []
        if number:
            thread, event = words.history[number - 1]
            lines.append(f"event {number} of {length}: thread {thread} {event}")
        for thread in range(self.threads):
            place, events = self.place(thread), self.events_of(thread)
            last = bisect.bisect_right(words.own[thread], number) - 1
            place.count = 0
            if last >= 0:
                # the instruction after a poll is made with it
                is_poll = events.journal[last].kind == "poll"
                place.count = events.count_of(last) + (not is_poll)
            place.moment = number
            lines.append(f"thread {thread} {place}")
        return lines

    def watch(self, place, line):
        if line:
            if not recorded.REGISTER.fullmatch(line):
                if line.split()[0] not in WATCHED:
                    return f"only registers and what {', '.join(WATCHED)} answer can be watched"
                place.thread.ask_at(place.count, [line])
            self.watches.append(line)
        return "\n".join(f"watched: {line}" for line in self.watches) or "nothing is watched"


# the packets that are known, by their first characters
ANSWERS = (
    ("qSupported", Session.features), ("QStartNoAckMode", Session.no_acknowledgements), ("qXfer:features:read:target.xml:", Session.describe),
    ("?", Session.why), ("qfThreadInfo", Session.all_threads), ("qsThreadInfo", Session.no_more_threads),
    ("qThreadExtraInfo,", Session.thread_text), ("T", Session.is_thread), ("qC", Session.current), ("Hg", Session.choose), ("Hc", Session.lock),
    ("qAttached", Session.attached), ("g", Session.registers), ("p", Session.register), ("m", Session.memory), ("Z", Session.insert),
    ("z", Session.remove), ("s", Session.step), ("c", Session.go_on), ("S", Session.step),
    ("C", Session.go_on), ("bs", Session.step_back), ("bc", Session.go_back),
    ("qRcmd,", Session.monitor), ("G", Session.refuse), ("P", Session.refuse), ("M", Session.refuse), ("X", Session.refuse),
    ("D", Session.leave), ("k", Session.leave),
)


def serve(session, wire):
    """Answers packets until gdb goes."""
    session.wire = wire
    while True:
        packet = wire.packet()
        moves = packet[:1] in ("s", "c", "b", "S", "C")
        if moves:
            for place in session.places.values():
                place.thread.stops += 1
        try:
            answer = session.answer(packet)
        except emulator.Interrupted:
            answer = session.stopped("", INTERRUPTED)
        except emulator.Refused as fault:
            print(f"gdb: {fault}", file=sys.stderr)
            answer = "E01"
        if moves and session.read_shared and not session.told_shared:
            session.say(SHARED_SAID)
            session.told_shared = True
        if answer is not None:
            wire.send(answer)


def start_gdb(words):
    """Becomes a gdb that is connected to this script."""
    gdb = shutil.which(os.environ.get("GDB", "gdb-multiarch"))
    if not gdb:
        sys.exit("gdb: gdb-multiarch is not there: apt-get install gdb-multiarch, or GDB=.. names a gdb that knows AArch64")
    server = [sys.executable, str(TOOL), "gdb", words.program, words.report, str(words.thread)]
    # it has no name, so it goes with gdb
    commands = tempfile.TemporaryFile()
    connection = f"target remote | {' '.join(map(shlex.quote, server))}\n"
    commands.write((COMMANDS.read_text() + connection).encode())
    commands.flush()
    os.set_inheritable(commands.fileno(), True)
    os.execv(gdb, [gdb, "-q", words.program, "-x", f"/dev/fd/{commands.fileno()}"])


def listen(port):
    """Waits for a gdb at a port of this machine; the answer is its connection."""
    with socket.create_server(("127.0.0.1", port)) as server:
        # as gdbserver says it
        print(f"Listening on port {server.getsockname()[1]}", file=sys.stderr, flush=True)
        return server.accept()[0]


def arguments():
    parser = argparse.ArgumentParser(description=__doc__.splitlines()[0])
    parser.add_argument("program", metavar="PROGRAM")
    parser.add_argument("report", metavar="REPORT")
    parser.add_argument("thread", metavar="THREAD", type=int, nargs="?", default=0)
    parser.add_argument("--port", type=int, metavar="N",
                        help="wait for one gdb at this port of this machine; 0: a free one")
    words = parser.parse_args()
    if words.port is not None and not 0 <= words.port < 1 << 16:
        parser.error("--port is 0 to 65535")
    return words


def connect(words):
    """Answers one gdb, by the standard files or at a port."""
    session = Session(words.program, words.report, words.thread)
    try:
        if words.port is None:
            # Ctrl-C at a terminal is gdb's, which says so by a packet
            signal.signal(signal.SIGINT, signal.SIG_IGN)
            serve(session, Wire(sys.stdin.fileno(), sys.stdout.fileno()))
        session.loaded()
        with listen(words.port) as connection:
            serve(session, Wire(connection.fileno(), connection.fileno()))
    except Closed:
        session.loaded()


def main():
    words = arguments()
    if words.port is None and sys.stdin.isatty():
        recorded.Recorded(words.program, words.report, words.thread)
        return start_gdb(words)
    try:
        connect(words)
    except Unread as fault:
        raise fault.args[0] from None
    return 0

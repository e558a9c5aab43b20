"""Shows a report to a person: first its threads, then of one of them, or of all, the registers, vectors, predicates and tiles of ZA as
numbers, the output as text, and the journal; of two reports what differs.

    smemu show REPORT [--thread N|all] [--size b|h|s|d] [--unsigned | --hex] [--tile N] [--rows A-B] [--columns A-B]
    smemu show REPORT OTHER [the same]
    smemu show REPORT --json
    smemu show REPORT [OTHER] --page [--program PROGRAM] > page.html

An element has 1, 2, 4 or 8 bytes (s, 4, where it is not said). Element 0 stands first, and row R of a tile is line R of its table, from 0
on. Of one report thread 0 is shown, and two are compared in all threads, where --thread does not say otherwise. What `sim` writes is read
too. With --program the page names functions, lines and the places of events; SMEMU may name the emulator that is asked. REPORT may be /dev/stdin. The status is 1 where two reports differ, and 2 where one is no report.
"""
import argparse
import itertools
import json
import signal
import sys

from smemu_tools.user import emulator, report_page, report_places, reports
from smemu_tools.user.reports import active, elements, tile_rows

SIZES = {"b": 1, "h": 2, "s": 4, "d": 8}
COLUMNS = ("thread", "stop", "count", "turns", "events", "output")


class Refused(Exception):
    """What was asked cannot be shown of this report."""


class View:
    """How elements are shown, and which of them."""

    def __init__(self, words):
        self.letter, self.size, self.how = words.size, SIZES[words.size], words.how
        self.tile, self.rows, self.columns = words.tile, words.rows or slice(None), words.columns or slice(None)
        if self.tile is not None and self.tile >= self.size:
            raise Refused(f"there is no tile za{self.tile}.{self.letter}: these are 0 to {self.size - 1}")

    @property
    def tiles(self):
        return range(self.size) if self.tile is None else [self.tile]

    def numbers(self, data):
        """The elements of a vector as texts."""
        if self.how == "hex":
            return [f"{value:0{2 * self.size}x}" for value in elements(data, self.size)]
        return [str(value) for value in elements(data, self.size, self.how == "signed")]

    def bits(self, data):
        """The elements of a predicate as texts."""
        return [str(bit) for bit in active(data, self.size)]

    def vectors(self, thread):
        """The name of each vector and predicate of a thread, its bytes and how its elements are read."""
        for kind, values, read in (("z", thread.z, self.numbers), ("p", thread.p, self.bits)):
            yield from ((f"{kind} {number}", data, read) for number, data in enumerate(values))
        yield "ffr", thread.ffr, self.bits


def part_of(text):
    """The slice that a word says: a number, or two with a `-` between, the last included."""
    first, _, last = text.partition("-")
    least, most = int(first), int(last or first)
    if most < least:
        raise ValueError
    return slice(least, most + 1)


def table(rows, left=()):
    """Rows of texts in columns: numbers, but for these columns from the left."""
    widths = [max(map(len, column)) for column in zip(*rows)]
    for row in rows:
        yield "  ".join(text.ljust(width) if at in left else text.rjust(width) for at, (text, width) in enumerate(zip(row, widths))).rstrip()


def grid(rows):
    """Rows of elements in columns."""
    widths = [max(map(len, column)) for column in zip(*rows)]
    return ["  " + " ".join(text.rjust(width) for text, width in zip(row, widths)) for row in rows]


def thread_table(report):
    """A line for each thread of a report, below the names of the columns."""
    rows = [(str(it.number), str(it.stop), str(it.count), str(it.turns), str(it.events), str(len(it.output))) for it in report.threads]
    return table([COLUMNS, *rows], left=(1,))


def event_words(event):
    """A kind, a place and three numbers, for a table."""
    return event.kind, str(event.place), *(f"{value:#x}" for value in (event.a, event.b, event.answer))


def event_table(rows, first):
    """Lines of events, each with a word before its own, below the names of the columns."""
    return ("  " + line for line in table([(first, "kind", "place", "a", "b", "answer"), *rows], left=(1,))) if rows else ()


def scalars(report, thread):
    """The values of a block that are no vectors, by the names of its lines, in their order; of X0 to X30 and the handlers all that are not 0."""
    yield from (("stop", str(thread.stop)), ("count", str(thread.count)), ("turns", str(thread.turns)), ("pc", f"{thread.pc:016x}"))
    yield from ((f"x {number}", f"{value:016x}") for number, value in enumerate(thread.x) if value)
    yield from (("sp", f"{thread.sp:016x}"), ("nzcv", thread.nzcv), ("tpidr", f"{thread.tpidr:016x}"), ("tpidr2", f"{thread.tpidr2:016x}"))
    yield "svcr", str(thread.svcr)


def kernel_scalars(report, thread):
    """Those that stand after the vectors."""
    yield from (("memory", f"{thread.pages} {thread.digest}"), ("held", f"{thread.held:016x}"))
    yield from [("inside", str(thread.depth))] if report.version == 1 else [("mask", f"{thread.mask:016x}"), ("depth", str(thread.depth))]
    yield "polled", str(int(thread.polled))
    yield from ((f"handler {number}", f"{address:016x}") for number, address in thread.handlers.items())


def shared_scalars(report):
    """The shared words and pending signals that are not zero."""
    yield from ((f"w {number}", f"{value:016x}") for number, value in report.shared.items())
    yield from ((f"pending {number}", f"{value:016x}") for number, value in report.pending.items())


def za_lines(thread, view):
    """The tiles of ZA that are not all zero, or the one that is asked for."""
    if not thread.za_on:
        if view.tile is not None:
            yield "za is off"
        return
    for tile in view.tiles:
        rows = tile_rows(thread.za, view.size, tile)
        if view.tile is not None or any(map(any, rows)):
            yield f"za{tile}.{view.letter}{parts_named(view)}"
            yield from grid([view.numbers(row)[view.columns] for row in part(rows, view.rows, "rows")])


def parts_named(view):
    """The rows and columns that are asked for, in words."""
    parts = [(name, it.start, it.stop - 1) for name, it in (("row", view.rows), ("column", view.columns)) if it.stop is not None]
    return "".join(f" {name} {first}" if first == last else f" {name}s {first} to {last}" for name, first, last in parts)


def part(values, chosen, name):
    """The values that are asked for, of which one has to be there."""
    if not values[chosen]:
        raise Refused(f"there are no {name} {chosen.start} to {chosen.stop - 1}: these are 0 to {len(values) - 1}")
    return values[chosen]


def block_lines(report, thread, view):
    """The lines of a thread."""
    yield f"thread {thread.number}"
    if view.tile is not None:
        yield from za_lines(thread, view)
        return
    yield from (f"{name} {value}" for name, value in scalars(report, thread))
    for name, data, read in view.vectors(thread):
        if any(data):
            yield f"{name.replace(' ', '')}.{view.letter}"
            yield from grid([read(data)])
    yield from za_lines(thread, view)
    yield from (f"{name} {value}" for name, value in kernel_scalars(report, thread))
    yield f"output {len(thread.output)}"
    yield from ("  " + line for line in thread.output.decode(errors="backslashreplace").splitlines())
    yield f"journal {thread.events}"
    yield from event_table([(str(number), *event_words(event)) for number, event in enumerate(thread.journal)], "event")


def chosen_threads(report, which):
    """The threads that are asked for: all, or the one of a number."""
    if which == "all":
        return report.threads
    if which >= len(report.threads):
        raise Refused(f"there is no thread {which}: these are 0 to {len(report.threads) - 1}")
    return [report.threads[which]]


def shown(report, view, which):
    """The lines of a report."""
    yield f"smemu-report {report.version}"
    yield "options " + options_of(report)
    yield f"image {report.image}"
    yield from thread_table(report)
    yield from (f"skip {skip.line} {skip.why}" for skip in report.skips)
    for thread in chosen_threads(report, which):
        yield from block_lines(report, thread, view)
    if view.tile is None:
        yield "shared"
        yield from (f"{name} {value}" for name, value in shared_scalars(report))
    if view.tile is None and report.history is not None:
        yield f"history {len(report.history)}"
        yield from event_table([(str(thread), *event_words(event)) for thread, event in report.history], "thread")


def options_of(report):
    return " ".join(f"{name}={value}" for name, value in report.options.items())


def pairs(first, second, missing):
    """What two dictionaries say otherwise: each name, and what the first and the second say."""
    for name in [*first, *(it for it in second if it not in first)]:
        one, two = first.get(name, missing), second.get(name, missing)
        if one != two:
            yield name, one, two


def element_pairs(name, one, two, read):
    """The elements that differ of two vectors, which are whole where their lengths differ."""
    if one == two:
        return
    if len(one) == len(two):
        both = enumerate(zip(read(one), read(two)))
        yield from ((f"{name} element {at}", first, second) for at, (first, second) in both if first != second)
    elif any(one) or any(two):
        yield name, one.hex(), two.hex()


def za_pairs(first, second, view):
    """The elements of tiles that differ."""
    if first.za_on != second.za_on or not first.za_on:
        yield from [("za", *("on" if it.za_on else "off" for it in (first, second)))] * (first.za_on != second.za_on)
    elif len(first.za) != len(second.za):
        yield "za", f"{len(first.za)} vectors", f"{len(second.za)} vectors"
    elif first.za != second.za:
        for tile in view.tiles:
            rows = zip(*(tile_rows(it.za, view.size, tile) for it in (first, second)))
            for number, (one, two) in list(enumerate(rows))[view.rows]:
                both = list(enumerate(zip(view.numbers(one), view.numbers(two))))[view.columns]
                yield from ((f"za{tile}.{view.letter} row {number} column {column}", *it) for column, it in both if it[0] != it[1])


def event_pairs(name, first, second):
    """The events that differ of two journals or histories."""
    for number, (one, two) in enumerate(itertools.zip_longest(first, second)):
        if one != two:
            yield (f"{name} {number}", *("none" if it is None else " ".join(event_words(it)) for it in (one, two)))


def thread_pairs(reports_of, first, second, view):
    """What differs between two threads."""
    if view.tile is not None:
        yield from za_pairs(first, second, view)
        return
    zero = f"{0:016x}"
    yield from pairs(*(dict(scalars(report, it)) for report, it in zip(reports_of, (first, second))), zero)
    for (name, one, read), (_, two, _) in zip(view.vectors(first), view.vectors(second)):
        yield from element_pairs(name, one, two, read)
    yield from za_pairs(first, second, view)
    yield from pairs(*(dict(kernel_scalars(report, it)) for report, it in zip(reports_of, (first, second))), "no line")
    if first.output != second.output:
        yield "output", repr(first.output), repr(second.output)
    yield from event_pairs("event", first.journal, second.journal)


def history_pairs(first, second):
    """The events of two histories that differ, each with its thread, where both have one."""
    if first.history is not None and second.history is not None:
        for number, (one, two) in enumerate(itertools.zip_longest(first.history, second.history)):
            if one != two:
                yield (f"history {number}", *("none" if it is None else f"{it.thread} {' '.join(event_words(it.event))}" for it in (one, two)))


def differences(first, second, view, which):
    """What two reports say otherwise: a line for each name, with what the first and the second say."""
    if view.tile is None:
        yield from pairs(*({"smemu-report": str(it.version), "options": options_of(it), "image": it.image} for it in (first, second)), "")
        yield from pairs(*({f"skip {skip.line}": skip.why for skip in it.skips} for it in (first, second)), "no line")
    else:
        yield from pairs(*({"threads": str(len(it.threads))} for it in (first, second)), "")
    for one, two in zip(chosen_threads(first, which), chosen_threads(second, which)):
        before = "" if len(first.threads) == len(second.threads) == 1 else f"thread {one.number} "
        yield from ((before + name, *values) for name, *values in thread_pairs((first, second), one, two, view))
    if view.tile is None:
        yield from pairs(dict(shared_scalars(first)), dict(shared_scalars(second)), f"{0:016x}")
        yield from history_pairs(first, second)


def event_object(event):
    """An event for JSON."""
    return {"kind": event.kind, "place": event.place, **{name: f"{getattr(event, name):016x}" for name in ("a", "b", "answer")}}


def thread_object(report, thread):
    """A thread for JSON: what has 16 digits in a report is a text of them, as it may pass 2^53, and bytes are hexadecimal digits."""
    kernel = {"inside": thread.depth} if report.version == 1 else {"mask": f"{thread.mask:016x}", "depth": thread.depth}
    return {
        "thread": thread.number, "stop": list(thread.stop.words), "status": thread.stop.status,
        "count": thread.count, "turns": thread.turns, "pc": f"{thread.pc:016x}", "x": [f"{value:016x}" for value in thread.x],
        "sp": f"{thread.sp:016x}", "nzcv": thread.nzcv, "tpidr": f"{thread.tpidr:016x}", "tpidr2": f"{thread.tpidr2:016x}",
        "svcr": thread.svcr, "streaming": thread.streaming, "za_on": thread.za_on,
        "z": [data.hex() for data in thread.z], "p": [data.hex() for data in thread.p], "ffr": thread.ffr.hex(),
        "za": thread.za and [data.hex() for data in thread.za],
        "memory": {"pages": thread.pages, "digest": thread.digest}, "held": f"{thread.held:016x}", **kernel, "polled": thread.polled,
        "handlers": {number: f"{address:016x}" for number, address in thread.handlers.items()},
        "output": thread.output.hex(), "text": thread.output.decode(errors="backslashreplace"),
        "journal": [event_object(event) for event in thread.journal],
    }


def report_object(report):
    """A report for JSON, with what is zero too; `history` is null where it is none of `sim`."""
    return {
        "version": report.version, "options": report.options, "image": report.image,
        "skips": [skip._asdict() for skip in report.skips],
        "threads": [thread_object(report, thread) for thread in report.threads],
        "shared": {number: f"{value:016x}" for number, value in report.shared.items()},
        "pending": {number: f"{value:016x}" for number, value in report.pending.items()},
        "history": report.history and [{"thread": thread, **event_object(event)} for thread, event in report.history],
    }


def which_thread(text):
    return "all" if text == "all" else int(text)


def parser():
    words = argparse.ArgumentParser(description=__doc__.partition("\n\n")[0])
    words.add_argument("report")
    words.add_argument("other", nargs="?")
    words.add_argument("--thread", type=which_thread, metavar="N|all", help="of one report 0, of two all, where it is not given")
    words.add_argument("--size", choices=SIZES, default="s", help="of elements: 1, 2, 4 or 8 bytes")
    words.add_argument("--unsigned", dest="how", action="store_const", const="unsigned", default="signed")
    words.add_argument("--hex", dest="how", action="store_const", const="hex")
    words.add_argument("--tile", type=int, metavar="N", help="this tile of ZA alone")
    words.add_argument("--rows", type=part_of, metavar="A-B", help="these rows of tiles, from 0, or one of them")
    words.add_argument("--columns", type=part_of, metavar="A-B", help="these columns of tiles")
    words.add_argument("--json", action="store_true", help="all of a report as JSON")
    words.add_argument("--page", action="store_true", help="one report, or two and what differs, as one HTML file")
    words.add_argument("--program", metavar="PROGRAM",
                       help="with --page: functions, lines and the places of events")
    return words


def write(words, view, report, other):
    """Writes what is asked for of one report or of two; the answer is the status."""
    which = "all" if words.thread is None and other else words.thread or 0
    lines = other and [f"{name}: {one}, {two}" for name, one, two in differences(report, other, view, which)]
    if words.program and not words.page:
        raise Refused("--program is for --page")
    if words.json and other:
        raise Refused("--json shows one report")
    if words.json:
        json.dump(report_object(report), sys.stdout, separators=(",", ":"))
        print()
    elif words.page:
        both, names = [report, *[other] * bool(other)], [words.report, *[words.other] * bool(other)]
        chosen = {"size": words.size, "how": words.how}
        if which != "all" and words.thread is not None:
            chosen["thread"] = chosen_threads(report, which)[0].number
        found = [found_of(words.program, *it) for it in zip(names, both)]
        print(report_page.page(both, names, lines, chosen, found))
    else:
        print("".join(f"{line}\n" for line in (lines if other else shown(report, view, which))), end="")
    return 1 if lines else 0


def found_of(program, path, report):
    """What a program says of a report, or None where none is given."""
    if not program:
        return None
    try:
        return report_places.Found(program, path, report)
    except (OSError, report_places.Other, emulator.Refused) as fault:
        raise Refused(str(fault)) from fault


def main():
    # where it is interrupted, or its output is closed, it ends as other programs do
    for name in (signal.SIGINT, signal.SIGPIPE):
        signal.signal(name, signal.SIG_DFL)
    words = parser().parse_args()
    try:
        view, report = View(words), reports.read(words.report)
        return write(words, view, report, words.other and reports.read(words.other))
    except (reports.NoReport, Refused) as fault:
        print(f"show: {fault}", file=sys.stderr)
        return 2

"""The list data/altered.txt: reports of rows, each with one change, and what `replay` is to answer
to them.

The lines are those of changed.py; for status 0 the text is `block`: the block of the thread in the
report as it is then. What is at fault in a report, and how a thread runs over its journal, is said
by tools/smemu_tools/model/report_faults.py and expected_replay.py, which share nothing with the
emulator.
"""
from __future__ import annotations

import hashlib
import re
from typing import Any, Iterator

from smemu_tools.model.expected import Thread, block
from smemu_tools.model.expected_replay import replay
from smemu_tools.model.report_faults import (STOP_WORDS, changes, changes_of_two_threads, found,
                                             line_moves, of_two_threads, spans_of)

DONE, BAD_REPORT = 0, 9
# the report of two threads in each version, which is a row too
TWO_THREADS = {1: "replay-of-two-threads.report", 2: "replay-version-2-of-two-threads.report"}
KINDS = b"ld st swp add clr eor set umax umin cas post poll".split()
# what takes the place of a part of the report of a program with shared words and signals: fields
# just inside or outside of what they may be, and
# others that stay in the format. These are of both programs below, and then those of each
PARTS = {
    b"vl=128": [b"vl=256", b"vl=2048", b"vl=384"], b"svl=128": [b"svl=256", b"svl=1024", b"svl=64"],
    b"slice=40": [b"slice=1", b"slice=39", b"slice=41", b"slice=1000000", b"slice=1000001"],
    b"budget=90": [b"budget=89", b"budget=91", b"budget=4294967295", b"budget=4294967296"],
    b"threads=1": [b"threads=2", b"threads=32", b"threads=33"],
    b"count 90": [b"count 89", b"count 91", b"count 0", b"count 1", b"count 4294967295",
                  b"count 4294967296"],
    b"x 11": [b"x 12", b"x 4294967295", b"x 4294967296"],
    b"svcr 2": [b"svcr 3", b"svcr 4294967295", b"svcr 4294967296"],
    b"z 2 09": [b"z 2 ", b"z 2 0", b"z 2 0909"], b"ffr ffff": [b"ffr ffffff", b"ffr ff"],
    b"output 40": [b"output 41", b"output 32", b"output 64", b"output 65"],
    b"out c8": [b"out ", b"out c8c8"],
    b"e ld": [b"e " + kind for kind in KINDS],
    b"e st 511": [b"e st 512", b"e st 4294967295", b"e st 4294967296"],
    b"w 511": [b"w 510", b"w 512"], b"pending 0": [b"pending 31", b"pending 32"],
    b"stop budget": [b"stop " + stop for stop in STOP_WORDS],
}
OWN_PARTS = {
    1: {b"turns 94": [b"turns 18446744073709551615", b"turns 18446744073709551616"],
        b"journal 12": [b"journal 11", b"journal 13", b"journal 0", b"journal 4294967295",
                        b"journal 4294967296"],
        b"inside 0": [b"inside 1", b"inside 2", b"inside 00", b"depth 0",
                      b"mask 0000000000000000\ndepth 0"], b"report 1": [b"report 2"]},
    2: {b"turns 93": [b"turns 18446744073709551615", b"turns 18446744073709551616"],
        b"journal 17": [b"journal 16", b"journal 18", b"journal 0", b"journal 4294967295",
                        b"journal 4294967296"],
        b"mask 4000000000000020": [b"mask 4000000000000000", b"mask 0000000000000020",
                                   b"mask 4000000000000021", b"mask c000000000000020", b"mask ",
                                   b"inside 0\nmask 4000000000000020", b"mask 40000000000000020",
                                   b"mask 400000000000002"],
        b"depth 1": [b"depth 0", b"depth 2", b"depth 64", b"depth 65", b"depth 4294967295",
                     b"depth 4294967296", b"depth 01", b"inside 1", b"depth 1\ninside 1"],
        b"report 2": [b"report 1"]},
}


def answer(file: bytes, report: bytes, number: int) -> tuple[int, str]:
    """The status and the text: the format of the whole report is looked at before its program and
    its thread."""
    fault = found(report)
    if fault == "read":
        return replay(file, report.decode(), number)
    line, part = fault.split()
    return BAD_REPORT, f"bad report: line {line}: {part}\n"


def block_in(report: Any, number: Any) -> Any:
    """The text of the block of a thread."""
    return re.search(f"^thread {number}\n.*?^end-thread\n", report.decode(),
                     re.DOTALL | re.MULTILINE).group()


def last_bytes(report: Any) -> Iterator[Any]:
    """The last digit of each field, and the first one of each value, changed to others; most stay
    in the format."""
    for field in re.finditer(rb"(?<=[ =])[0-9a-f]+(?=[ \n])", report):
        start, end = field.span()
        yield end - 1, end, b"2" if report[end - 1:end] == b"1" else b"1"
        if end - start == 16:
            yield start, start + 1, b"8"


def part_changes(report: Any, version: Any) -> Iterator[Any]:
    """Of each part in the tables its first place changed to others."""
    for old, others in {**PARTS, **OWN_PARTS[version]}.items():
        start = report.index(old)
        for new in others:
            yield start, start + len(old), new


def moves(report: Any) -> Iterator[Any]:
    """Each line removed, doubled and swapped with the next."""
    spans = spans_of(report)
    for k in range(len(spans)):
        yield from line_moves(report, spans, k)


def with_a_count_more(report: Any) -> Iterator[Any]:
    """One more instruction counted."""
    count = re.search(rb"(?<=^count )[0-9]+$", report, re.MULTILINE)
    yield *count.span(), str(int(count.group()) + 1).encode()


def of_each_stop(reports: Any) -> Any:
    """For each stop, whatever its addresses and its word, the report with the fewest
    instructions."""
    def count(name: Any) -> Any:
        return int(re.search(rb"^count ([0-9]+)$", reports[name], re.MULTILINE).group(1))

    names = {}
    for name in sorted(reports, key=count):
        stop = re.search(rb"^stop (.*)$", reports[name], re.MULTILINE).group(1)
        names.setdefault(re.sub(rb" ([0-9a-f]{8}|[0-9a-f]{16})\b", b"", stop), name)
    return names.values()


def two_threads(file: Any, version: Any) -> Any:
    """A report of two threads of a program; the second is as it runs alone."""
    thread, stop = Thread(file, 10_000_000, 128, 256, 1000, 1, 2, version), None
    while stop is None:
        stop = thread.turn()
    return of_two_threads(hashlib.sha256(file).hexdigest(), block(thread, stop, 1), version)


def groups(written: Any, others: Any) -> Iterator[Any]:
    """The file of a program, that of a report and the report, the thread, and the changes."""
    of_run = lambda name: (f"{name}.elf.txt", written[name])
    for program, (name, report), version in (("nested-signals", of_run("nested-signals"), 2),
                                             ("signal-in-streaming-mode-128",
                                              of_run("signal-in-streaming-mode-128"), None),
                                             ("shared-signals",
                                              ("debug-signals.report",
                                               others["debug-signals.report"]), 1)):
        more = part_changes(report, version) if version else ()
        yield program, name, report, 0, [*changes(report), *last_bytes(report), *more]
    # the format is looked at first, then the program, then the thread
    yield "answer", *of_run("answer"), 1, moves(written["answer"])
    yield "answer", *of_run("shared-cas"), 31, moves(written["shared-cas"])
    for name in of_each_stop(written):
        yield name, *of_run(name), 0, with_a_count_more(written[name])
    for version, name in TWO_THREADS.items():
        yield "answer", name, others[name], 1, changes_of_two_threads(others[name], version)


def case(file: Any, report: Any, number: Any, start: Any, end: Any, new: Any) -> Any:
    """The line of a case."""
    changed = report[:start] + new + report[end:]
    status, text = answer(file, changed, number)
    if status == DONE:
        assert text == block_in(changed, number)
        text = "block"
    else:
        assert text.endswith("\n") and not set(text) & set("|\t")
        text = text.replace("\n", "|")
    return f"{start} {end} {new.hex() or '-'} {status}\t{text}\n"


def altered_list(programs: Any, written: Any, others: Any) -> Any:
    """The list; there are the programs and the reports that their runs write by their names, and
    other reports by those of their files."""
    lines = []
    for program, name, report, number, altered in groups(written, others):
        lines.append(f"{name} replay {program}.elf @ {number}\n")
        lines += dict.fromkeys(case(programs[program], report, number, *change)
                               for change in altered)
    return "".join(lines)

"""The list data/checkpoints.txt: checkpoints of threads of rows, and what `resume` answers to them
as they are and with changes.

The lines are those of changed.py. The checkpoint that is resumed is what `ckpt` writes, and a case
of its own says what that is. All comes from tools/smemu_tools/model/expected_ckpt.py.
"""
from __future__ import annotations

import itertools
import functools
from typing import Any, Iterator

from smemu_tools.model.expected import report
from smemu_tools.model.expected_ckpt import (FILE_LIMIT, JOURNAL_LIMIT, OUTPUT_LIMIT, PAGE,
                                             PAGE_LIMIT, SHARED_PAGE, ckpt, number, read_for,
                                             resume)
from smemu_tools.model.expected_replay import count_of, events_of, opened
from smemu_tools.rows.changed import after, case, cuts, group, of_bytes

TOP = (1 << 64) - PAGE
LENGTHS = (128, 256, 512, 1024, 2048)
VERSIONS = (1, 2)
# a program whose thread is in streaming mode, with ZA on, when so many instructions are counted
STREAMING, STREAMING_COUNT, STREAMING_OPTIONS = "signal-in-streaming-mode-128", 39, {"slice": 40,
                                                                                     "budget": 120}
ON_BANKS = "threads-use-banks-threads-8-slice-9-svl-2048-cores-4.elf.txt"
# threads of reports, with counts at which a checkpoint is made besides 0 and the last but one
COUNTS = {
    **{(program, f"{program}.elf.txt", 0): counts
       for program, counts
       in {"answer": (1,), "shared-cas": (4, 6), "nested-signals": (30, 45, 60),
           "signals-one-after-the-other": (41,), "handlers-64-deep-waits": (500, 1020),
           "signal-while-za-is-dormant": (39, 41), "writes-33-and-then-to-2": (5, 9),
           "handlers": (14, 18), "za-lazy-saving": (100,), "4096-pages": ()}.items()},
    # of version 1
    ("shared-signals", "debug-signals.report", 0): (41, 46),
    ("debug-handler", "debug-handler.report", 0): (),
    ("answer", "replay-answer-as-it-is.report", 0): (),
    # four threads on four cores, and more of them that take turns with ZA and with signals
    **{("threads-get-a-signal", "debug-four-cores.report", thread): (6,) for thread in range(4)},
    **{("threads-use-banks", ON_BANKS, thread): (20,) for thread in range(4)},
    **{("threads-handle-signals", "threads-handle-signals-threads-3-slice-12-cores-3.elf.txt",
        thread): (20,) for thread in range(3)},
}
# the version and how many handlers the thread is in, of which there are checkpoints
DEPTHS = {(1, 0), (1, 1), (2, 0), (2, 1), (2, 64)}
# checkpoints of which each field is changed: one with no handler and no output, one in a handler in
# streaming mode with ZA on, and one of version 1
ANSWER, NESTED, FIRST = ("answer", "answer.elf.txt", 0, 1), ("nested-signals",
                                                             "nested-signals.elf.txt", 0,
                                                             45), ("shared-signals",
                                                                   "debug-signals.report", 0, 46)
CAS, OF_A_THREAD = ("shared-cas", "shared-cas.elf.txt", 0, 4), ("threads-use-banks", ON_BANKS, 1,
                                                                20)
# the cases of a checkpoint of which any byte is changed
ANY_BYTE = 800


class Session:
    """A program, a report and a thread of it, and a checkpoint at a count."""

    def __init__(self, contents: Any, program: Any, reported: Any, thread: Any, count: Any) -> None:
        self.program, self.reported, self.asked = f"{program}.elf", reported, f"{thread} {count}"
        self.file, self.report, self.thread = contents[self.program], contents[reported], thread
        self.status, self.content = ckpt(self.file, self.report, thread, count)

    def writes(self) -> Any:
        """What `ckpt` writes."""
        return f"{self.reported} ckpt {self.program} @ {self.asked}\n" + case(
            self.report, (), lambda _: (self.status, self.content))

    def resumes(self, changes: Any, most: Any = None) -> Any:
        """What `resume` answers to the checkpoint with each of those changes, or with so many of
        them."""
        base, words = (f"ckpt {self.program} {self.reported} {self.asked} >",
                       f"resume {self.program} {self.reported} @")
        return group(base, words, self.content,
                     changes, lambda content: resume(self.file, self.report, content), most)[0]

    def resumed_for(self, contents: Any, program: Any, reported: Any, changes: Any = ()) -> Any:
        """What `resume` answers to it, with those changes, for another program or another
        report."""
        answer = lambda content: resume(contents[program], contents[reported], content)
        return (
            f"ckpt {self.program} {self.reported} {self.asked} > resume {program} {reported} @\n"
            + case(self.content, changes, answer))

    @functools.cached_property
    def read(self) -> Any:
        """The values of its fields, and where they stand."""
        return read_for(self.content, self.report)

    def value(self, at: Any, size: Any) -> Any:
        return int.from_bytes(self.content[at:at + size], "little")


# ---- changes of a checkpoint: of each the places


AS_IT_IS = ((0, 0, b""),)


def of_head(session: Any) -> Iterator[Any]:
    """The numbers up to the vectors, where they stand and how many bytes they have, and values at
    the borders of what they may be."""
    said, _, block = opened(session.file, session.report, session.thread)
    count, events = count_of(block), len(events_of(block))
    yield from ((at, 4, ()) for at in range(40, 64, 4))
    yield 64, 4, (said["threads"] - 1, said["threads"])
    yield 68, 4, (count - 1, count, said["budget"] - 1, said["budget"])
    yield 72, 4, (events, events + 1, JOURNAL_LIMIT, JOURNAL_LIMIT + 1)
    yield 76, 4, (1, 2, 64, 65)
    yield 80, 8, (64 * said["budget"], 64 * said["budget"] + 1)
    yield from ((at, 8, ()) for at in range(88, 352, 8))
    yield 352, 8, (15 << 28, *(1 << bit for bit in (27, 28, 31, 32, 63)))
    yield 360, 8, (1, 2, 3, 4, 1 << 32)
    yield from ((at, 8, ()) for at in (368, 376))
    yield 384, 8, (1, 2, 1 << 63)
    yield 392, 8, (1, 2, 1 << 62, 1 << 63, (1 << 63) - 2)
    yield 400, 8, (1, 2, 1 << 8, 1 << 32)


def of_tail(session: Any) -> Iterator[Any]:
    """Those past the vectors: of the handlers, of the output, and of the first and the last
    pages."""
    places, parts = session.read[1].places, session.read[1].parts
    handlers, output, pages = (parts[name] for name in ("handlers", "output", "pages"))
    yield *places[handlers], (62, 63)
    for k in range(handlers + 1, output, 2):
        before = session.value(*places[k - 2]) if k > handlers + 1 else 0
        yield *places[k], (before, before + 1, 62, 63)
        yield *places[k + 1], ()
    yield *places[output], (OUTPUT_LIMIT, OUTPUT_LIMIT + 1)
    yield *places[pages], (PAGE_LIMIT, PAGE_LIMIT + 1)
    for k in (pages + 1, pages + 4, len(places) - 6, len(places) - 3):
        old = session.value(*places[k])
        yield *places[k], (old + PAGE, old - PAGE, old + PAGE // 2, SHARED_PAGE, SHARED_PAGE + PAGE,
                           TOP)
        yield *places[k + 1], range(9)


def of_numbers(session: Any, numbers: Any) -> Iterator[Any]:
    """Each number at these values, at the ends of its range and beside what it is."""
    for at, size, borders in numbers:
        old, end = session.value(at, size), 1 << 8 * size
        yield from (((at, at + size, number(value, size)),)
                    for value in (0, end // 2, end - 1, old - 1, old + 1, *borders)
                    if value != old and 0 <= value < end)


def chosen(session: Any) -> Iterator[Any]:
    """Where the fields stand, and how many bytes they have: all but most of the vectors and of the
    pages."""
    places, parts = session.read[1].places, session.read[1].parts
    vectors, handlers = parts["vectors"], parts["handlers"]
    yield from places[:vectors]
    bounds = (vectors, vectors + 32, vectors + 48, vectors + 49, handlers)
    for start, end in zip(bounds, bounds[1:]):
        yield from dict.fromkeys([*places[start:end][:2], *places[start:end][-1:]])
    yield from places[handlers:parts["pages"] + 4]
    yield from places[-6:]


def of_fields(session: Any) -> Iterator[Any]:
    """Each field with another first and another last byte, left out and twice, and the file cut at
    it and within it."""
    content = session.content
    for at, size in (place for place in chosen(session) if place[1]):
        yield from ((change,) for change in of_bytes(content, [at], lambda byte: [byte ^ 1]))
        yield from ((change,)
                    for change in of_bytes(content, [at + size - 1], lambda byte: [byte ^ 0x80]))
        yield ((at, at + size, b""),)
        yield ((at, at, content[at:at + size]),)
        yield from ((change,) for change in cuts(content, [at, at + size - 1]))


def of_ends(session: Any) -> Iterator[Any]:
    """More bytes than there are to be, and files of which the first of two bad fields is told."""
    content = session.content
    end = len(content)
    yield from (((end, end, more),) for more in (b"\0", bytes(PAGE + 9), content))
    yield (0, 1, b"s"), (360, 361, b"\4")
    yield (360, 361, b"\4"), (400, 401, b"\2")
    yield (64, 65, b"\xff"), (end - 1, end, b"")
    yield (48, 49, b"\xff"), (44, 45, b"\xff")


def with_pages(session: Any, *pages: Any, last: Any = False) -> Any:
    """The changes that put pages before or behind those that there are, and say their number."""
    at, size = session.read[1].places[session.read[1].parts["pages"]]
    place = len(session.content) if last else at + size
    records = b"".join(number(address, 8) + number(flags, 1) + bytes(PAGE)
                       for address, flags in pages)
    return (place, place, records), (at, at + size,
                                     number(session.value(at, size) + len(pages), size))


def of_pages(session: Any) -> Iterator[Any]:
    """Pages at the ends of the address space and beside the shared region, pages out of order, and
    too few or too many for their number."""
    yield with_pages(session, (0, 7))
    yield with_pages(session, (0, 7), (PAGE, 0))
    yield with_pages(session, (0, 8))
    yield with_pages(session, (0, 7), (0, 7))
    yield with_pages(session, (PAGE, 7), (0, 7))
    yield from ((change,) for change in with_pages(session, (0, 7)))
    for address in SHARED_PAGE - PAGE, SHARED_PAGE, SHARED_PAGE + PAGE, TOP:
        yield with_pages(session, (address, 5), last=True)
    yield with_pages(session, (TOP, 7), (TOP, 7), last=True)


def of_room(session: Any) -> Iterator[Any]:
    """As many handlers and as much output as there may be, and one more."""
    handlers, output = (session.read[1].places[session.read[1].parts[name]]
                        for name in ("handlers", "output"))
    for count in 62, 63:
        records = b"".join(number(signal, 4) + number(PAGE, 8) for signal in range(1, count + 1))
        yield (sum(handlers), sum(handlers), records), (handlers[0], sum(handlers),
                                                        number(count, 4))
    for count in OUTPUT_LIMIT, OUTPUT_LIMIT + 1:
        yield (sum(output), sum(output), b"z" * count), (output[0], sum(output), number(count, 4))


def of_any_byte(session: Any) -> Iterator[Any]:
    """Any byte of any field but most pages changed, and the file cut there."""
    places = sorted({at + k
                     for at, size in session.read[1].places[:session.read[1].parts["pages"] + 3]
                     for k in range(size)} | {at for at, _ in session.read[1].places})
    yield from ((change,)
                for change
                in of_bytes(session.content, places, lambda byte: (byte ^ 1, byte ^ 0x80, 0, 255)))
    yield from ((change,) for change in cuts(session.content, places))


# ---- rows of their own


def checkpoint_rows(contents: Any) -> Iterator[Any]:
    """The first example of both commands, and ends of each kind: name, status, file, text and
    words."""
    file, report = contents["answer.elf"], contents["answer.elf.txt"]
    _, checkpoint = ckpt(file, report, 0, 1)
    assert len(checkpoint) == 267_791
    assert resume(file, report, checkpoint[:-1]) == (12,
                                                     "bad checkpoint: field 263695\n") and resume(
        file, report, b"s" + checkpoint[1:]) == (12, "bad checkpoint: field 0\n")
    assert ckpt(file, report, 0, 3) == (12, b"bad checkpoint: count 3\n")
    for name, count in (("", 1), ("-past-its-count", 3)):
        status, text = ckpt(file, report, 0, count)
        yield f"ckpt-answer{name}.report", status, report, text, f"ckpt answer.elf @ 0 {count}"
    written = "ckpt-answer.report.txt"
    for name, other, resumed, content in (
            ("", report, written, checkpoint), ("-of-no-checkpoint", report, "answer.elf", file),
            ("-with-another-sp", contents["replay-version-2-answer-with-another-sp.report"],
             written, checkpoint)):
        status, text = resume(file, other, content)
        yield f"resume-answer{name}.report", status, other, text, f"resume answer.elf @ {resumed}"


# ---- the list


def as_they_are(contents: Any) -> Iterator[Any]:
    """Checkpoints of each thread, and the rest of the run from each."""
    depths = set()
    for (program, reported, thread), counts in COUNTS.items():
        last = count_of(opened(contents[f"{program}.elf"], contents[reported], thread)[2]) - 1
        for count in sorted({0, *counts, last}):
            session = Session(contents, program, reported, thread, count)
            depths.add((int(session.report[len("smemu-report "):][:1]), session.read[0]["depth"]))
            yield session.writes() + session.resumes([AS_IT_IS])
    assert DEPTHS <= depths


def streaming_name(version: Any, svl: Any) -> Any:
    return f"checkpoint-streaming-{version}-{svl}.report"


def streaming(contents: Any) -> Iterator[Any]:
    """In streaming mode with ZA on, at each length and in each version."""
    for version, svl in itertools.product(VERSIONS, LENGTHS):
        session = Session(contents, STREAMING, streaming_name(version, svl), 0, STREAMING_COUNT)
        assert session.read[0]["svcr"] == 3 and len(session.read[0]["za"]) == svl // 8
        rows = session.read[1].places[session.read[1].parts["vectors"] + 49]
        first = of_bytes(session.content, [rows[0]], lambda byte: [byte ^ 1])
        yield session.writes() + session.resumes([AS_IT_IS, *((change,) for change in first),
                                                  ((360, 361, b"\1"),), ((360, 361, b"\2"),)])


def refused(contents: Any) -> Iterator[Any]:
    """Where there is no checkpoint: counts past the block's, other threads and programs, and
    reports from which the run parts."""
    for program, reported, thread, counts in (
            ("answer", "answer.elf.txt", 0, (3, 4, 4294967295)),
            ("answer", "answer.elf.txt", 1, (0,)), ("shared-cas", "answer.elf.txt", 0, (0,)),
            ("answer", "replay-answer-with-a-count-more.report", 0, (2, 3, 4, 13)),
            ("answer", "replay-answer-with-count-2.report", 0, (1, 2)),
            ("answer", "replay-answer-empty.report", 0, (0,)),
            ("shared-cas", "replay-shared-cas-without-its-last-event.report", 0, (0, 5, 6, 7, 8)),
            ("shared-cas", "replay-shared-cas-with-another-place.report", 0, (0, 3, 4, 5)),
            ("shared-cas", "replay-shared-cas-with-an-event-more.report", 0, (5,)),
            ("threads-use-banks", ON_BANKS, 2, (26,)), ("threads-use-banks", ON_BANKS, 8, (0,))):
        for count in counts:
            yield Session(contents, program, reported, thread, count).writes()


def other_files(contents: Any) -> Iterator[Any]:
    """Checkpoints that are resumed for another program and for other reports than theirs, and one
    that is at fault besides."""
    answer, cas = Session(contents, *ANSWER), Session(contents, *CAS)
    for program, reported in ("shared-cas.elf", "shared-cas.elf.txt"), ("answer.elf",
                                                                        "shared-cas.elf.txt"), (
            "shared-cas.elf", "answer.elf.txt"):
        yield answer.resumed_for(contents, program, reported)
    for reported in ("replay-answer-as-it-is.report", "answer-with-lengths.elf.txt",
                     "replay-answer-empty.report",
                     *(f"replay-version-2-answer-with-{what}.report"
                       for what in ("count-2", "a-count-more", "another-sp", "a-turn-more"))):
        yield answer.resumed_for(contents, "answer.elf", reported)
    yield answer.resumed_for(contents, "shared-cas.elf", "answer.elf.txt", ((0, 1, b"s"),))
    for what in "with-another-answer", "with-another-place", "with-an-event-more", "without-its-last-event":
        yield cas.resumed_for(contents, "shared-cas.elf",
                              f"replay-version-2-shared-cas-{what}.report")
    for program, others in (("saturate", ("saturate-at-2048",)),
                            ("matmul", ("matmul-at-128-and-128", "matmul-at-2048-and-512"))):
        for other in others:
            yield Session(contents, program, f"{program}.elf.txt", 0, 2).resumed_for(
                contents, f"{program}.elf", f"{other}.elf.txt")


def past_the_budget(contents: Any) -> Iterator[Any]:
    """Of a report whose count is past its own budget: `ckpt` writes the state at the budget, which
    no checkpoint is of."""
    for count in 119, 120, 121:
        session = Session(contents, "signals-one-after-the-other",
                          "replay-version-2-signals-one-after-the-other-with-a-count-more.report",
                          0, count)
        yield session.writes()
        if session.status == 0:
            yield session.resumes([AS_IT_IS])


# how commands end whose words, and then whose files, are looked at one after the other; `@` is the
# report of answer.elf
WRITTEN_OUT = (
    ("ckpt nowhere replay-answer-empty.report 0 0", 3, "absent: nowhere"),
    ("ckpt refused-empty.elf nowhere 0 0", 6, "bad file: truncated 0"),
    ("ckpt answer.elf nowhere 0 0", 3, "absent: nowhere"),
    ("ckpt answer.elf replay-answer-empty.report 1 9", 9, "bad report: line 1: header"),
    ("ckpt shared-cas.elf @ 1 9", 9, "bad report: line 3: image"),
    ("ckpt answer.elf @ 1 9", 9, "bad report: line 2: nothread"),
    ("ckpt answer.elf @ 0", 2, "usage: word 4: missing"),
    ("ckpt answer.elf @ 0 0 0", 2, "usage: word 5: extra"),
    ("ckpt answer.elf @ 0 4294967296", 2, "usage: word 4: outofrange"),
    ("ckpt answer.elf @ 0 -1", 2, "usage: word 4: badnumber"),
    ("ckpt answer.elf @ 0 00", 2, "usage: word 4: badnumber"),
    ("ckpt answer.elf @ 32 0", 2, "usage: word 3: outofrange"),
    ("ckpt answer.elf @ x 0x1", 2, "usage: word 3: badnumber"),
    ("ckpt answer.elf", 2, "usage: word 2: missing"),
    ("resume nowhere replay-answer-empty.report @", 3, "absent: nowhere"),
    ("resume refused-empty.elf nowhere @", 6, "bad file: truncated 0"),
    ("resume answer.elf nowhere @", 3, "absent: nowhere"),
    ("resume answer.elf replay-answer-empty.report nowhere", 9, "bad report: line 1: header"),
    ("resume answer.elf @ nowhere", 3, "absent: nowhere"),
    ("resume shared-cas.elf @ nowhere", 3, "absent: nowhere"),
    ("resume shared-cas.elf @ answer.elf", 12, "bad checkpoint: field 0"),
    ("resume answer.elf @ @", 12, "bad checkpoint: field 0"),
    ("resume answer.elf @", 2, "usage: word 3: missing"),
    ("resume answer.elf @ 0 @", 2, "usage: word 4: extra"), ("resume", 2, "usage: word 1: missing"))


def longest(contents: Any) -> Iterator[Any]:
    """A file with as many bytes as there may be, of which the first past the last page is told, and
    one with one byte more, of which nothing is looked at."""
    session = Session(contents, *ANSWER)
    end = len(session.content)
    pages, rest = divmod(FILE_LIMIT - end, PAGE)
    for more, line in (0, f"field {end}"), (1, "toolong"):
        assert resume(session.file, session.report,
                      session.content.ljust(FILE_LIMIT + more, b"\0")) == (
            12, f"bad checkpoint: {line}\n")
        yield (session.resumes([]) + f"{end} {end} {bytes(PAGE).hex()}*{pages}+00*{rest + more} "
               f"12\tbad checkpoint: {line}|\n")


def front_name(events: Any) -> Any:
    return f"checkpoint-of-{events}-events.ckpt"


def fronts(contents: Any) -> Any:
    """What stands in a checkpoint up to the events that it has used, where these are as many as
    there may be, and one more."""
    content = Session(contents, *CAS).content
    return {front_name(events): content[:72] + number(events, 4)
            for events in (JOURNAL_LIMIT, JOURNAL_LIMIT + 1)}


def most_events(contents: Any) -> Iterator[Any]:
    """These, of a report with one event more than a checkpoint may have used: the field that lacks
    is told, or the number."""
    program, reported, _, _ = CAS
    content, event = contents[reported], f"e poll 0 {0:016x} {0:016x} {0:016x}\n".encode()
    said, end = (content.index(part) + len(part) for part in (b"\njournal ", b"\nend-thread\n"))
    said, end = (said, content.index(b"\n", said)), end - len(b"end-thread\n")
    more, count = JOURNAL_LIMIT + 1 - int(content[slice(*said)]), b"%d" % (JOURNAL_LIMIT + 1)
    report = after(content, [(end, end, event * more), (*said, count)])
    for events, field in (JOURNAL_LIMIT, 76), (JOURNAL_LIMIT + 1, 72):
        assert resume(contents[f"{program}.elf"], report, contents[front_name(events)]) == (
            12, f"bad checkpoint: field {field}\n")
        yield f"{reported} resume {program}.elf @ {front_name(events)}\n"
        yield (f"{end} {end} {event.hex()}*{more} {said[0]} {said[1]} {count.hex()} "
               f"12\tbad checkpoint: field {field}|\n")


def changed(contents: Any) -> Iterator[Any]:
    """Checkpoints with changes of each field and of any byte."""
    for asked in ANSWER, NESTED, FIRST:
        session = Session(contents, *asked)
        yield session.resumes([*of_numbers(session, [*of_head(session), *of_tail(session)]),
                               *of_fields(session), *of_ends(session), *of_pages(session),
                               *of_room(session)])
    session = Session(contents, *OF_A_THREAD)
    yield session.resumes(of_numbers(session,
                                     itertools.takewhile(lambda place: place[0] < 88,
                                                         of_head(session))))
    session = Session(contents, *NESTED)
    yield session.resumes((change,)
                          for change
                          in cuts(session.content, [at for at, _ in session.read[1].places]))
    yield session.resumes(of_any_byte(session), ANY_BYTE)


def checkpoints(contents: Any) -> Any:
    """The files that are made for the list, by name, and the list; there is the content of each
    other file by its name."""
    file = contents[f"{STREAMING}.elf"]
    files = {streaming_name(version, svl): report(file, svl=svl, kernel=version,
                                                  **STREAMING_OPTIONS).encode()
             for version, svl in itertools.product(VERSIONS, LENGTHS)}
    files.update(fronts(contents))
    contents = {**contents, **files}
    kinds = (as_they_are, streaming, refused, other_files, past_the_budget, changed, longest,
             most_events)
    written_out = "".join(f"answer.elf.txt {words}\n{status}\t{text}|\n"
                          for words, status, text in WRITTEN_OUT)
    return files, written_out + "".join(itertools.chain(*(kind(contents) for kind in kinds)))

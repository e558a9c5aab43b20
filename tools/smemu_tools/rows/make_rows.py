"""Makes the program files and the sources of data/, the texts that they are to give, the list of
them, and those of files with changes.

    tools/smemu-tools make-rows

The reports come from tools/smemu_tools/model/expected.py and the interpreters beside it, and those
of several threads from world.py, which share nothing with the emulator; the refusals, and the
listings but one, are written out here. The files real-*.elf come from real/make.sh, which runs an
assembler and two linkers, and those of real/compiled from real/make_compiled.sh, which runs two
compilers. The files of vectors and their answers come from other tools, and from word_steps.py,
lane_steps.py, vector_edges.py and vector_lines.py, which are run before this. What `run` and `sim`
are to write is of version 2; for `replay` and `debug` there are reports of both versions.

Where the gate runs smemu_rows it has data/ alone, and takes no links there. So a source of
examples/ or real/ that is a row stands there too, as this script copied it.
"""
from __future__ import annotations

import re
from typing import Any, Iterator

from smemu_tools import parser
from smemu_tools.model.elf import (ALLOC, DYNAMIC, EXECINSTR, INTERP, NOTE, STACK, STRTAB, SYMTAB,
                                   TLS, Section, Segment, assembled, build, elf, symbols, text_of)
from smemu_tools.model.expected import report
from smemu_tools.model.expected_debug import listed
from smemu_tools.model.expected_replay import replay
from smemu_tools.model.workload import bench_line, text as workload_text
from smemu_tools.rows import HERE, without
from smemu_tools.rows.abi_rows import abi_rows
from smemu_tools.rows.altered import TWO_THREADS, altered_list, two_threads
from smemu_tools.rows.changed import changed_list, group
from smemu_tools.rows.checkpoints import checkpoint_rows, checkpoints
from smemu_tools.rows.debug_rows import debug_rows
from smemu_tools.rows.frames import frames
from smemu_tools.rows.instructions import EXIT, SVC, add, branch, call, movz, subs
from smemu_tools.rows.lazy import lazy_rows
from smemu_tools.rows.loop_rows import KnowsAllWords, loop_rows
from smemu_tools.rows.marked_calls import abi_check
from smemu_tools.rows.nested import ADDS, masked_and_nested, masks
from smemu_tools.rows.nested_replays import changed_programs, replays_of_nested, version_1_replays
from smemu_tools.rows.source_lines import SOURCE, asm, changes as source_changes
from smemu_tools.rows.sources import (WITH_DATA, assemblies, lazy_savings, routine_lines,
                                      source_refusals)
from smemu_tools.rows.vector_files import vector_rows
from smemu_tools.rows.vector_lines import altered_steps, lists as vector_lists
from smemu_tools.rows.world_rows import world_rows

AT_TEXT = (0x40, 1)

REPORTS: dict[str, Any] = {
    "writes-5-bytes": [*call(64, (1, 0), AT_TEXT, (5, 0)), *EXIT],
    "writes-no-bytes-at-0": [*call(64, (2, 0), (0, 0), (0, 0)), *EXIT],
    "writes-32-bytes": [*call(64, (1, 0), AT_TEXT, (32, 0)), *EXIT],
    "writes-33-bytes": [*call(64, (1, 0), AT_TEXT, (33, 0)), *EXIT],
    "writes-33-and-then-to-2": [*call(64, (1, 0), AT_TEXT, (33, 0)),
                                *call(64, (2, 0), AT_TEXT, (32, 0)), *EXIT],
    "bad-descriptor": [*call(64, (0, 0), AT_TEXT, (5, 0)), SVC, *EXIT],
    "bad-address": [*call(64, (1, 0), (0x80, 1), (5, 0)), *EXIT],
    "address-past-the-page": [*call(64, (1, 0), AT_TEXT, (4097, 0)), *EXIT],
    "output-full": [*call(64, (1, 0), AT_TEXT, (5, 0)), movz(0, 1), movz(2, 0x10, 1), SVC],
    "output-full-before-bad-address": [movz(1, 0), *call(64, (1, 0), (0, 0), (0xFFFF, 3))],
    "output-that-fits-but-is-not-there": [*call(64, (1, 0), AT_TEXT, (0x10, 1)), *EXIT],
    "yields": [*call(124, (7, 0)), add(3, 0, 1), *EXIT],
    "tells-its-number": [*call(178, (7, 0)), add(3, 0, 1), *EXIT],
    "handlers": [*call(134, (62, 0), (8, 0)), *call(134, (1, 0), (0x1234, 3)),
                 *call(134, (2, 0), (4, 0)), *call(134, (2, 0), (0, 0)),
                 *call(134, (1, 0), (0x4321, 3)), *call(134, (3, 0), (0, 0)), *EXIT],
    "handler-of-no-signal": [*call(134, (0, 0), (4, 0)), add(3, 0, 0), *call(134, (63, 0), (4, 0)),
                             add(4, 0, 0), *call(134, (1, 3), (4, 0)), add(5, 0, 0), *EXIT],
    "unknown-call": [movz(8, 65), SVC, *EXIT],
    "call-with-a-number": [movz(0, 300), movz(8, 93), 0xD4000001 | 7 << 5],
    "branches-outside": [branch(14, 2), SVC],
    "branches-before": [branch(15, -1)],
    "falls-out": [movz(0, 1)],
    "loops": [branch(14, 0)],
    "goes-round": [movz(3, 0xFFFF, 3), add(3, 3, 0xFFF, True), subs(4, 3, 1), *EXIT],
    "sp": [add(31, 31, 16), add(5, 31, 0xFFF, True), subs(31, 31, 1), subs(6, 31, 0), movz(31, 7),
           *EXIT],
    "narrow": [movz(3, 1, 1, False), subs(4, 3, 1, True, False), add(5, 4, 1, False, False),
               subs(6, 31, 1, False, False), movz(7, 9, 3), add(7, 7, 0xFFF, True, False), *EXIT],
    "breaks": [movz(0, 1), 0xD4200000 | 65535 << 5],
    "branches-to-no-multiple-of-4": [movz(3, 0x40, 1), add(3, 3, 6), 0xD61F0060],
    "branches-to-0": [0xD61F03E0],
    "hints": [0xD503201F, 0xD503245F, 0xD503237F, *EXIT],
    "undefined": [movz(0, 1), 9],
    "overflow": [movz(3, 0x8000, 3), subs(4, 3, 1), movz(5, 0x8000, 1, False),
                 subs(6, 5, 1, False, False), *EXIT],
}
# each condition after 3 - 1, 1 - 1, 0 - 1 and the overflow of the least number minus 1
for condition in range(16):
    words = []
    for first in ((3, 0), (1, 0), (0, 0), (0x8000, 3)):
        words += [movz(3, *first), subs(4, 3, 1), branch(condition, 2), add(9, 9, 1),
                  add(10, 10, 1)]
    REPORTS[f"condition-{condition}"] = words + EXIT


def patched(file: Any, at: Any, value: Any) -> Any:
    return file[:at] + value + file[at + len(value):]


ANSWER = call(93, (42, 0))
TEXT = 0x400000
CODE = ALLOC | EXECINSTR
UNLISTED = 0x1E604000


def number(value: Any, size: Any) -> Any:
    return value.to_bytes(size, "little")


def with_code(segments: list[Segment], *sections: Section, entry: int = TEXT) -> tuple[bytes,
                                                                                       list[int],
                                                                                       list[int]]:
    """A file of the segments, with these sections."""
    return build(segments, list(sections), entry)


def code_section(size: int, address: int = TEXT) -> Section:
    return Section(flags=CODE, address=address, size=size)


def marked(words: list[int], *marks: tuple[str, int, int]) -> bytes:
    """The words at 0x400000 in a section, with mapping symbols: name, section and value."""
    text = text_of(words)
    table, strings = symbols(*marks)
    return with_code([Segment(TEXT, text)], code_section(len(text)),
                     Section(SYMTAB, data=table, link=3, entry_size=24),
                     Section(STRTAB, data=strings))[0]


def header_refusals() -> Iterator[Any]:
    """Files that fail one of the checks on the file's header."""
    file = elf(ANSWER)
    size = len(file)
    yield "empty", b"", "truncated 0"
    yield "63-bytes", file[:63], "truncated 63"
    for place in range(7):
        yield f"other-byte-{place}", patched(file, place, number(file[place] ^ 1, 1)), "notelf"
    yield "x86-64", patched(file, 18, number(62, 2)), "notthismachine 62"
    yield "x86-64-shared-object", patched(patched(file, 18, number(62, 2)), 16,
                                          number(3, 2)), "notthismachine 62"
    for kind in (0, 1, 3, 4, 65535):
        yield f"type-{kind}", patched(file, 16, number(kind, 2)), f"notstatic {kind}"
    yield "header-size", patched(file, 54, number(64, 2)), "badtable 64"
    yield "no-headers", patched(file, 56, number(0, 2)), "badtable 64"
    yield "65535-headers", patched(file, 56, number(65535, 2)), "badtable 64"
    yield "headers-that-end-at-2-to-the-64", patched(file, 32,
                                                     number(2**64 - 56,
                                                            8)), f"badtable {2**64 - 56}"
    yield "headers-that-end-below-2-to-the-64", patched(file, 32,
                                                        number(2**64 - 57, 8)), f"truncated {size}"
    yield "headers-outside", patched(file, 32, number(size - 55, 8)), f"truncated {size}"
    yield "header-alone", file[:64], "truncated 64"


def segment_refusals() -> Iterator[Any]:
    """Files that fail one of the checks on a program header. The second header stands at 120."""
    text = Segment(TEXT, text_of(ANSWER))
    bad = Segment(0x500000, b"1234", memory=3)
    for kind, name in ((DYNAMIC, "dynamic"), (INTERP, "interpreter"), (TLS, "thread-local")):
        yield name, build([text, Segment(0x500000, b"", kind=kind)])[0], f"notstatic {kind}"
        yield f"{name}-after-a-bad-load", build([text, bad,
                                                 Segment(0, b"", kind=kind)])[0], "badtable 120"
    yield "dynamic-before-a-bad-load", build([text, Segment(0, b"", kind=DYNAMIC),
                                              bad])[0], "notstatic 2"
    yield "more-bytes-than-memory", build([text, bad])[0], "badtable 120"
    yield "bytes-and-no-memory", build([text,
                                        Segment(0x500000, b"1234", memory=0)])[0], "badtable 120"
    yield "load-that-ends-past-2-to-the-47", build([text,
                                                    Segment(2**47 - 4,
                                                            b"12345")])[0], "badtable 120"
    yield "load-that-goes-round", build([text, Segment(2**64 - 4, b"12345678")])[0], "badtable 120"
    yield "bytes-that-end-at-2-to-the-64", build([text,
                                                  Segment(0x500000, b"1234",
                                                          offset=2**64 - 4)])[0], "badtable 120"
    outside = build([text, Segment(0x500000, b"", size=8, offset=2**64 - 9)])[0]
    yield "bytes-that-end-below-2-to-the-64", outside, f"truncated {len(outside)}"
    outside = build([text, Segment(0x500000, b"", size=9, memory=64, offset=184)])[0]
    yield "bytes-outside", outside, f"truncated {len(outside)}"
    for name, address, size in (("last-byte-in-the-stack", 0x7DFFFFFC0000 - 8, 9),
                                ("first-byte-in-the-stack", 0x7DFFFFFFFFFF, 1),
                                ("between-stack-and-shared-region", 0x7E8000000000, 4),
                                ("in-the-shared-region", 0x7F0000000FFF, 1),
                                ("over-all-of-them", 0x7D0000000000, 0x20000000000)):
        yield name, build([text, Segment(0, b"", kind=NOTE),
                           Segment(address, b"", memory=size)])[0], "inshared 2"


def whole_refusals() -> Iterator[Any]:
    """Files that fail one of the checks on the loads together."""
    text = Segment(TEXT, text_of(ANSWER))
    at = lambda address, memory: Segment(address, b"", flags=6, memory=memory)
    yield "overlap", build([text, at(TEXT + 11, 1)])[0], "overlap 0 1"
    yield "overlap-past-others", build([at(0x600000, 8), Segment(0, b"", kind=NOTE),
                                        at(0x500000, 16), text, at(0x50000F, 1),
                                        at(0x600007, 9)])[0], "overlap 0 5"
    yield "overlap-of-the-later", build([text, at(0x500000, 16), at(0x500004, 1),
                                         at(0x500000, 2)])[0], "overlap 1 2"
    yield "overlap-within", build([at(0x500000, 4096), text, at(0x500800, 1)])[0], "overlap 0 2"
    yield "overlap-with-a-long-load", build([text, at(0x600000, 9), at(0x700000, 9),
                                             at(0x500000, 0x300000)])[0], "overlap 1 3"
    yield "overlap-beside-a-load-of-no-bytes", build([text, at(0x3FF000, 0x3000), at(0x400004, 0),
                                                      at(0x401000, 1)])[0], "overlap 0 1"
    yield "too-many-pages", build([text, at(0x1000000, 4032 * 4096)])[0], "toomanypages 4097"
    yield "too-many-pages-of-loads-that-share-one", build([text, at(TEXT + 4095, 4031 * 4096 + 1),
                                                           at(2**46, 1)])[0], "toomanypages 4097"
    yield "load-of-2-to-the-46", build([Segment(0, b"", memory=1 << 46)],
                                       entry=0)[0], f"toomanypages {(1 << 34) + 64}"
    yield ("too-many-pages-by-far", build([text, at(0x100000000, 0x7C0000000000)])[0],
           f"toomanypages {0x7C0000000 + 1 + 64}")
    yield "entry-of-no-multiple", build([text],
                                        entry=TEXT + 2)[0], "entryoutside 0x0000000000400002"
    yield "entry-before", build([text], entry=TEXT - 4)[0], "entryoutside 0x00000000003ffffc"
    yield "entry-behind", build([text], entry=TEXT + 12)[0], "entryoutside 0x000000000040000c"
    yield "entry-in-data", build([text, Segment(0x500000, text_of(ANSWER), flags=6)],
                                 entry=0x500000)[0], "entryoutside 0x0000000000500000"
    yield ("entry-in-the-page-of-an-executable-load",
           build([Segment(TEXT, text_of(ANSWER), flags=4), Segment(TEXT + 12, text_of(ANSWER))])[0],
           "entryoutside 0x0000000000400000")


def section_refusals() -> Iterator[Any]:
    """Files that fail one of the checks on the section table. Tables and sections are named by
    their places."""
    file = elf(ANSWER)
    at = int.from_bytes(file[40:48], "little")
    yield "section-header-size", patched(file, 58, number(40, 2)), f"badtable {at}"
    yield "no-section-headers", patched(file, 60, number(0, 2)), f"badtable {at}"
    yield "sections-that-end-at-2-to-the-64", patched(patched(file, 40, number(2**64 - 64, 8)), 60,
                                                      number(1, 2)), f"badtable {2**64 - 64}"
    yield "sections-that-end-below-2-to-the-64", patched(patched(file, 40, number(2**64 - 65, 8)),
                                                         60, number(1, 2)), f"truncated {len(file)}"
    yield "sections-outside", file[:-1], f"truncated {len(file) - 1}"
    text = text_of(ANSWER)

    def table(link: Any = 3, entry_size: Any = 24, strings: Any = None, **fields: Any) -> Any:
        rows, names = symbols(("$x", 1, TEXT))
        section = Section(SYMTAB, data=rows, link=link, entry_size=entry_size)
        for key, value in fields.items():
            setattr(section, key, value)
        file, _, places = with_code([Segment(TEXT, text)], code_section(len(text)), section,
                                    Section(STRTAB, data=names if strings is None else strings))
        return file, places

    for name, fields in (("symbols-of-another-size", {"entry_size": 16}),
                         ("symbols-linked-to-no-section", {"link": 5}),
                         ("names-that-do-not-end", {"strings": b"\0$x"}),
                         ("no-name-table", {"strings": b""})):
        file, places = table(**fields)
        yield name, file, f"badtable {places[2]}"
    file, places = table()
    yield "symbols-outside", patched(file, places[2] + 32,
                                     number(len(file), 8)), f"badtable {places[2]}"
    yield "symbols-far", patched(file, places[2] + 24,
                                 number(2**64 - 8, 8)), f"badtable {places[2]}"
    yield "names-outside", patched(file, places[3] + 32,
                                   number(len(file), 8)), f"badtable {places[2]}"
    name_at = int.from_bytes(file[places[2] + 24:places[2] + 32], "little") + 24
    yield "name-past-the-last-end", patched(file, name_at, number(4, 4)), f"badtable {places[2]}"
    for name, address, size in (("section-before-its-load", TEXT - 4, 8),
                                ("section-past-its-load", TEXT + 8, 5),
                                ("section-in-no-load", 0, 4), ("section-far", 2**64 - 4, 8),
                                ("section-far-and-long", 2**64 - 1, 2**64 - 1)):
        file, _, places = with_code([Segment(TEXT, text)], code_section(size, address))
        yield name, file, f"badtable {places[1]}"
    file, _, places = with_code([Segment(TEXT, text), Segment(0x500000, b"", memory=16)],
                                code_section(0x100010))
    yield "section-over-a-gap", file, f"badtable {places[1]}"
    file, _, places = with_code([Segment(TEXT, text)], code_section(16),
                                Section(SYMTAB, link=9, entry_size=24))
    yield "first-of-two-bad-sections", file, f"badtable {places[1]}"


def word_refusals() -> Iterator[Any]:
    """Files with a code word that means no instruction."""
    yield "unlisted", elf(ANSWER + [UNLISTED]), f"unlisted 0x000000000040000c 0x{UNLISTED:08x}"
    yield "unlisted-narrow-halfword", elf([movz(0, 0, 2,
                                                False)]), "unlisted 0x0000000000400000 0x52c00000"
    yield "unlisted-after-data", marked(ANSWER + [UNLISTED, 0, UNLISTED], ("$d", 1, TEXT + 12),
                                        ("$x.rest", 1,
                                         TEXT
                                         + 20)), f"unlisted 0x0000000000400014 0x{UNLISTED:08x}"
    yield "later-of-two-symbols", marked(ANSWER + [UNLISTED], ("$d", 1, TEXT + 12),
                                         ("$x", 1,
                                          TEXT
                                          + 12)), f"unlisted 0x000000000040000c 0x{UNLISTED:08x}"
    yield ("symbol-of-another-section", marked(ANSWER + [UNLISTED], ("$d", 2, TEXT + 12)),
           f"unlisted 0x000000000040000c 0x{UNLISTED:08x}")
    yield "symbols-of-other-names", marked(ANSWER + [UNLISTED], ("$data", 1, TEXT), ("$", 1, TEXT),
                                           ("d", 1, TEXT),
                                           ("$t", 1,
                                            TEXT)), f"unlisted 0x000000000040000c 0x{UNLISTED:08x}"
    text = text_of(ANSWER + [UNLISTED, UNLISTED])
    table, strings = symbols(("$d", 1, TEXT + 12))
    both = with_code([Segment(TEXT, text)], code_section(len(text)),
                     Section(SYMTAB, data=table, link=3, entry_size=24),
                     Section(STRTAB, data=strings), code_section(8, TEXT + 12))[0]
    yield "code-by-one-of-two-sections", both, f"unlisted 0x000000000040000c 0x{UNLISTED:08x}"
    halves = [Segment(TEXT, text[:14]), Segment(TEXT + 14, text[14:16])]
    yield ("word-over-two-loads", with_code(halves, code_section(16))[0],
           f"unlisted 0x000000000040000c 0x{UNLISTED:08x}")
    yield ("zeros-past-the-bytes",
           with_code([Segment(TEXT, text[:15], memory=20)], code_section(16))[0],
           "unlisted 0x000000000040000c 0x00604000")


def real_refusals() -> Iterator[Any]:
    """What linkers make that is not loaded."""
    for name, line in (("pie", "notstatic 3"), ("interpreter", "notstatic 3"),
                       ("tls", "notstatic 7"), ("x86-64", "notthismachine 62"),
                       ("object", "notstatic 1"),
                       ("stripped", "unlisted 0x00000000002101a0 0x55667788")):
        yield f"real-{name}", (HERE / "data" / f"real-{name}.elf").read_bytes(), line


def refusals() -> Iterator[Any]:
    for kind in (header_refusals, segment_refusals, whole_refusals, section_refusals,
                 word_refusals):
        for name, file, line in kind():
            yield f"refused-{name}", file, f"bad file: {line}\n"
    for name, file, line in real_refusals():
        yield name, file, f"bad file: {line}\n"


def loaded() -> Iterator[tuple[str, bytes, dict[str, int]]]:
    """Files that are loaded, and the options of their runs."""
    text = text_of(ANSWER)
    yield "answer-with-budget-1", elf(ANSWER), {"budget": 1}
    yield "answer-with-budget-3", elf(ANSWER), {"budget": 3}
    yield "answer-with-the-greatest-budget", elf(ANSWER), {"budget": 4294967295, "vl": 2048}
    yield "answer-with-lengths", elf(ANSWER), {"vl": 2048, "svl": 512}
    yield "answer-with-lengths-in-another-order", elf(ANSWER), {"svl": 2048, "vl": 512}
    yield "answer-with-lengths-and-budget-1", elf(ANSWER), {"svl": 1024, "budget": 1, "vl": 512}
    yield "below-the-stack", elf(EXIT, 0x7DFFFFFC0000 - 4 * len(EXIT)), {}
    yield "above-the-shared-region", elf(EXIT, 0x7F0000001000), {}
    yield "at-the-top", elf(EXIT, 2**47 - 4 * len(EXIT)), {}
    yield "over-a-page", elf([movz(3, i) for i in range(1100)] + EXIT, 0x400FFC), {}
    yield "data-in-the-text", marked(ANSWER + [UNLISTED], ("$x", 1, TEXT), ("$d", 1, TEXT + 12)), {}
    yield "data-by-a-symbol-with-a-suffix", marked(ANSWER + [UNLISTED], ("$d.1", 1, TEXT + 12)), {}
    yield "data-by-the-later-symbol", marked(ANSWER + [UNLISTED], ("$x", 1, TEXT + 12),
                                             ("$d", 1, TEXT + 12)), {}
    yield "symbol-below-its-section", marked([UNLISTED], ("$d", 1, 0)), {}
    yield "no-section-table", build([Segment(TEXT, text_of(ANSWER[:1] + [UNLISTED]))])[0], {}
    yield "part-of-a-word-in-a-section", with_code([Segment(TEXT, text + text_of([UNLISTED]))],
                                                   code_section(15))[0], {}
    yield "section-of-no-bytes", with_code([Segment(TEXT, text)], code_section(0, 4))[0], {}
    yield "section-over-touching-loads", with_code([Segment(TEXT + 8, text[8:]),
                                                    Segment(TEXT, text[:8])],
                                                   code_section(12))[0], {}
    yield "section-without-the-flag", with_code([Segment(TEXT, text + text_of([UNLISTED]))],
                                                Section(flags=ALLOC, address=TEXT, size=16))[0], {}
    hint, names = 0xD503245F, b"name\0"
    yield "hint-note-stack-and-sections", with_code(
        [Segment(TEXT, text_of([hint, *ANSWER])), Segment(0, names, kind=NOTE, flags=4),
         Segment(0, b"", kind=STACK, flags=6)],
        code_section(16), Section(7, data=names),
        Section(SYMTAB, data=symbols()[0], link=4, entry_size=24),
        Section(STRTAB, data=symbols()[1]))[0], {}
    yield "loads-in-any-order", build([Segment(0x500FF0, b"abcdefgh" * 4, flags=6, memory=8000),
                                       Segment(0, b"", memory=0), Segment(TEXT, text)])[0], {}
    yield "loads-that-share-a-page", build([Segment(TEXT, text),
                                            Segment(TEXT + 0x800, b"abc", flags=6,
                                                    memory=0x900)])[0], {}
    yield "no-bytes-at-a-far-offset", build([Segment(TEXT, text),
                                             Segment(0x500000, b"", flags=4, memory=1,
                                                     offset=2**63)])[0], {}
    yield "4096-pages", build([Segment(TEXT, text),
                               Segment(0x1000000, b"", flags=0, memory=4031 * 4096)])[0], {}
    yield "4096-pages-of-loads-that-share-one", build([Segment(TEXT, text),
                                                       Segment(TEXT + 4095, b"", flags=0,
                                                               memory=4031 * 4096 + 1)])[0], {}
    yield "loads-that-touch", build([Segment(TEXT, text, memory=4096),
                                     Segment(TEXT + 4096, b"", memory=1),
                                     Segment(TEXT - 4096, b"", memory=4096)])[0], {}
    yield "no-memory-in-the-shared-region", build([Segment(TEXT, text),
                                                   Segment(0x7F0000000FFF, b"", memory=0)])[0], {}
    for name in ("lld", "gnu"):
        yield f"real-{name}", (HERE / "data" / f"real-{name}.elf").read_bytes(), {}


def program(*words: int) -> bytes:
    """The words after X2 was set to the page of data at 0x410000, which ends where nothing is
    mapped."""
    text = text_of([movz(2, 0x41, 1), *words, *EXIT])
    return build([Segment(TEXT, text),
                  Segment(0x410000, bytes(range(1, 129)), flags=6, memory=4096)])[0]


def accesses() -> Iterator[tuple[str, bytes]]:
    """Loads and stores, and those that raise."""
    yield "stp-over-the-end-of-a-page", program(add(2, 2, 0xFF8), 0xA9000440)
    yield "ldp-over-the-end-of-a-page", program(add(2, 2, 0xFF8), 0xA9400440)
    yield "post-index-that-raises", program(add(2, 2, 0xFFC), 0xF8008440)
    yield "load-of-text", program(movz(3, 0x40, 1), 0xF9400064, 0xB9800465)
    yield "store-to-text", program(movz(3, 0x40, 1), 0xF9000064)
    yield "load-past-the-stack", program(0xF94003E0)
    yield "sp-of-no-multiple-of-16", program(add(31, 31, 8), 0xF94003E4)
    yield "shared-word", program(movz(3, 0x7F00, 2), 0xF9400064)
    yield "last-bytes-before-the-shared-region", program(movz(3, 0x7F00, 2), subs(3, 3, 4),
                                                         0xF9400064)
    yield "unaligned-ldadd", program(add(2, 2, 4), 0xF8240045)
    yield "signed-loads", program(movz(4, 0xFF80), 0xF9000044, 0x39C00045, 0x39800046, 0x79C00047,
                                  0x79800048, 0xB9800049)
    yield "stack", program(0xA9BF0BE2, 0xA9C007E0, 0xA8C11FE6)
    yield "load-beside-pc", program(0x58FFFFE4, 0x18FFFFC5, 0x98FFFFA6)


SHARED = 0x7F0000000000
AT_SHARED = movz(3, 0x7F00, 2)
LDR, STR, LDUR, STUR, LDAR, STLR, CAS, SWP = (0xF9400000, 0xF9000000, 0xF8400000, 0xF8000000,
                                              0xC8DFFC00, 0xC89FFC00, 0xC8A07C00, 0xF8208000)
LDADD, LDCLR, LDEOR, LDSET, LDSMAX, LDSMIN, LDUMAX, LDUMIN = (0xF8200000 | n << 12
                                                              for n in range(8))


def at_x3(word: int, rt: int, rs: int = 0) -> int:
    """An access at X3 of Xt, and of Xs where it has one."""
    return word | rs << 16 | 3 << 5 | rt


def shared_operations() -> Iterator[tuple[str, bytes]]:
    """Programs that make operations on shared words; X3 is the address of the first, X4 and X5 are
    5 and 12, X6 is the greatest number."""
    begin = [AT_SHARED, movz(4, 5), movz(5, 12), 0x92800006]  # the last is movn x6, #0
    program = lambda *words: elf([*begin, *words, *EXIT])
    every = (LDADD, LDCLR, LDEOR, LDSET, LDUMAX, LDUMIN, SWP)
    yield "shared-store-and-load", program(at_x3(STR, 4), at_x3(LDR, 7))
    for name, word in zip(("ldadd", "ldclr", "ldeor", "ldset", "ldumax", "ldumin", "swp"), every):
        yield f"shared-{name}", program(at_x3(STR, 5), at_x3(word, 7, 4), at_x3(word, 8, 6),
                                        at_x3(word, 31, 5), at_x3(LDR, 9))
    yield "shared-cas", program(at_x3(STR, 4), at_x3(CAS, 5, 4), at_x3(LDR, 7))
    yield "shared-cas-that-fails", program(at_x3(STR, 5), at_x3(CAS, 6, 4), at_x3(LDR, 7))
    yield "shared-ordered", program(at_x3(STLR, 4), at_x3(LDAR, 7))
    yield "shared-addressing", program(at_x3(STR, 4) | 511 << 10, at_x3(STUR, 5) | 8 << 12,
                                       at_x3(STR & ~0x1000000, 6) | 0x10C00,
                                       at_x3(LDUR, 7) | 0x1F8 << 12, at_x3(LDUR, 8) | 0x8400,
                                       0xF8657869, 0xF8647868)
    yield "shared-word-beside-pc", elf([0x58FF8004, *EXIT], 0x7F0000001000)
    yield "shared-word-at-sp", program(0x9100007F, 0xF90003E4, 0xF94007E7, 0xF82403E8)
    yield "shared-word-at-sp-of-no-multiple-of-16", program(0x9100207F, 0xF90003E4)
    yield "shared-last-word-and-past-it", program(at_x3(LDR, 7) | 511 << 10,
                                                  at_x3(LDR, 7) | 512 << 10)
    refused = {"pair": 0xA9400464, "ldsmax": at_x3(LDSMAX, 7, 4), "ldsmin": at_x3(LDSMIN, 7, 4),
               "byte": 0x39000064, "word": 0xB9400064, "signed-word": 0xB9800064,
               "ldadd-of-a-word": 0xB8240067, "cas-of-a-byte": 0x08A47C65, "unaligned": 0xF8401064,
               "over-its-end": at_x3(LDUR, 7) | 0xC << 12, "vector": 0xA4004063}
    for name, word in refused.items():
        # the store before it stays; the vector load has P0, all of whose elements are active
        more = [add(3, 3,
                    0xFF0)] if name == "over-its-end" else [0x2518E3E0] if name == "vector" else []
        yield f"shared-region-by-{name}", program(at_x3(STR, 4), *more, word)


# the bytes of a frame before its vectors, in each version
HEADS, SUB_SP = {1: 320, 2: 336}, 0xD10003FF
# a loop of one branch, and the call that returns from a handler
FOREVER, RETURN = branch(14, 0), [movz(8, 139), SVC]
SMSTART_BOTH, SMSTART_ZA, SMSTOP_BOTH = 0xD503477F, 0xD503457F, 0xD503467F


def handled(handler: list[int], *setup: int, posts: tuple[int, ...] = (5,),
            handlers: tuple[int, ...] = (5,),
            end: list[int] | tuple[int, ...] = (FOREVER,)) -> bytes:
    """A program that sets one handler for some signals, posts some to itself, and goes on so; the
    handler stands past its end."""
    begin = [word for signal in posts for word in [movz(0, 0), movz(1, signal), movz(8, 131), SVC]]
    count = 5 * len(handlers) + len(begin) + len(setup) + len(end)
    sets = [word for signal in handlers
            for word
            in [movz(0, signal), movz(1, 0x40, 1), add(1, 1, 4 * count), movz(8, 134), SVC]]
    return elf([*sets, *begin, *setup, *end, *handler])


def changed(offset: int, amount: int = 1, value: int | None = None) -> list[int]:
    """A handler that changes one byte of the frame, at X1, and returns."""
    load = [0x39400029 | offset << 10,
            add(9, 9, amount, wide=False)] if value is None else [movz(9, value)]
    return [*load, 0x39000029 | offset << 10, *RETURN]


def signals(version: int) -> Iterator[tuple[str, bytes, dict[str, int]]]:
    """Signals that are posted, polled, delivered and returned from, and frames that are none; the
    frame is of 16 bytes a vector, and of a version."""
    soon = {"slice": 40, "budget": 120}
    # one more in the X3 that the frame keeps
    counts = [0xF9401429, add(9, 9, 1), 0xF9001429, *RETURN]
    yield "signal-returns", handled(counts), soon
    yield "signal-comes-in-a-handler", handled([0xF9401429, add(9, 9, 1), 0xF9001429,
                                                *call(131, (0, 0), (5, 0)), *RETURN]), soon
    yield "signal-has-no-handler", handled(RETURN, posts=(6,)), soon
    yield "signals-of-one-poll", handled(RETURN, posts=(5, 3), handlers=(3,)), soon
    yield "signals-one-after-the-other", handled(counts, posts=(62, 1), handlers=(1, 62)), soon
    yield "signal-that-was-posted-is-pending", handled(RETURN, end=EXIT), {}
    yield "signal-whose-handler-was-removed", handled(RETURN, *call(134, (5, 0), (0, 0))), soon
    yield "signal-at-a-slice-of-1", handled(counts), {"slice": 1, "budget": 30}
    yield "posts-that-fail", elf([*call(131, (1, 0), (5, 0)), add(3, 0, 0),
                                  *call(131, (0, 0), (0, 0)), add(4, 0, 0),
                                  *call(131, (0, 0), (63, 0)), add(5, 0, 0),
                                  *call(131, (0, 0), (62, 0)), *EXIT]), {}
    # ptrue p0.b, index z0.b, #1, #8, smopa za0.s
    modes = [SMSTART_BOTH, 0x2518E3E0, 0x04284000 | 1 << 5, 0xA0800000]
    # dup z0.b, #9, ptrue p1.b, smopa za1.s
    streams = [SMSTART_BOTH, 0x2538C120, 0x2518E3E1, 0xA0800401, SMSTOP_BOTH, *RETURN]
    for svl in (128, 2048):
        yield f"signal-in-streaming-mode-{svl}", handled(streams, *modes), {**soon, "svl": svl}
    dormant = [SMSTART_ZA, movz(3, 0x1230), 0xD51BD0A3]  # msr tpidr2_el0, x3
    # svcr and tpidr2_el0, put where the frame keeps X6 and X7
    sees = [0xD53B4244, 0xD53BD0A5, 0xF9002024, 0xF9002425, *RETURN]
    yield "signal-while-za-is-dormant", handled(sees, *dormant), soon
    yield "signal-while-za-is-dormant-stops-inside", handled(sees, *dormant), {"slice": 40,
                                                                               "budget": 42}
    # sp is 4096 bytes above the stack's start
    low = [SMSTART_ZA, movz(9, 0x7DFF, 2), movz(10, 0xFFFC, 1), 0x8B0A0129, add(31, 9, 1, True)]
    yield "frame-below-the-stack", handled(RETURN, *low), {**soon, "svl": 2048}
    head = HEADS[version]
    of_version = {"z0": changed(head), "z31": changed(head + 511, 3), "p15": changed(head + 543, 3),
                  "ffr": changed(head + 545, 3), "past-ffr": changed(head + 546),
                  "ffr-s-end": changed(head + 575)}
    if version == 2:
        of_version.update({"tag-of-version-1": changed(7, value=0x31), "mask-bit-0": changed(320),
                           "mask-bits-1-to-7": changed(320, value=0xFE),
                           "mask-bit-62": changed(327, value=0x40),
                           "mask-bit-63": changed(327, value=0x80), "depth": changed(328),
                           "depth-s-end": changed(331), "zeros": changed(332),
                           "zeros-end": changed(335)})
    for name, handler in {"tag": changed(0), "tag-s-end": changed(7), "size": changed(8),
                          "size-s-end": changed(11), "other-signal": changed(12),
                          "signal-0": changed(12, value=0), "signal-63": changed(12, value=63),
                          "signal-s-end": changed(15), "x0": changed(16), "x30": changed(256, 7),
                          "sp": changed(264, 32), "flags": changed(283, 0x50),
                          "bit-0-of-nzcv": changed(280), "bit-24-of-nzcv": changed(283),
                          "bit-32-of-nzcv": changed(284), "mode": changed(288),
                          "za-on": changed(288, 2), "bit-2-of-svcr": changed(288, 4),
                          "svcr-s-end": changed(295), "tpidr2": changed(296),
                          "tpidr": changed(304, 9), "length": changed(312),
                          "streaming-length": changed(316), **of_version}.items():
        yield f"frame-changed-at-{name}", handled(handler), soon
    yield "return-of-no-handler", elf(RETURN), {}
    yield "return-of-no-handler-to-zeros", elf([0xD14007FF, *RETURN]), {}  # sub sp, sp, #1, lsl #12
    for name, lacking in (("the-last-bytes", 1), ("the-last-whole-head", 0)):
        yield f"return-to-{name}", elf([SUB_SP | head - lacking << 10, *RETURN]), {}
    again = [0xF9002421, *RETURN]  # the X7 that the frame keeps is its address
    # after the return the frame is still there, and the thread is inside no handler
    yield "return-twice", handled(again, 0xB4000007, add(31, 7, 0), *RETURN), soon  # cbz x7, .
    shares = [AT_SHARED, movz(4, 5), movz(5, 12), at_x3(STR, 4), at_x3(CAS, 5, 4), at_x3(LDR, 7), 0xB4FFFFE7,  # cbz x7, .-4
              at_x3(LDADD, 9, 4), at_x3(SWP, 10, 5), at_x3(STR, 4) | 511 << 10, *call(64, (1, 0), AT_TEXT, (40, 0))]
    # smstop sm, dup z2.b, #9, ptrue p1.b, setffr
    keeps = [0xD503427F, 0x2538C122, 0x2518E3E1, 0x252C9000]
    # it stops after the return of the lower signal: the other one is held, and another is pending
    ends = {"posts": (5, 62), "handlers": (5, 62), "end": (add(11, 11, 1), branch(14, -1))}
    yield "shared-signals", handled([*call(131, (0, 0), (5, 0)), *RETURN], *shares, *modes, *keeps,
                                    **ends), {"slice": 40, "budget": 90, "svl": 128}
    if version == 2:
        # it stops in the handler of the lower signal, with ZA of its own; the other one is masked
        # and held, and the lower one is pending again
        yield "nested-signals", handled([*modes, 0xA0800000, *keeps, add(11, 11, 1),
                                         *call(131, (0, 0), (5, 0)), branch(14, -5)],
                                        *masks(ADDS, 1 << 62), *shares, *keeps,
                                        **ends), {"slice": 40, "budget": 90, "svl": 128}


# the words of vectors; the base of an access is X2, X3 or SP, its index X0 or X3, which are zero,
# and Z3 is not zero before it
PTRUE_P1_D, PFALSE_P2_B, WHILELT_P0_B_ZERO_X4, INDEX_Z3_D = (0x25D8E3E1, 0x2518E402, 0x252417E0,
                                                             0x04FF4063)
LD1B_Z3_P0_AT_X2, LD1B_Z3_P2_AT_X3, LD1B_Z3_P2_AT_SP = 0xA4034043, 0xA4004863, 0xA4004BE3
ST1D_Z3_P1_AT_X2, LD1SB_Z4_D_P1_AT_X2, ST1B_Z4_D_P1_AT_X2 = 0xE5E34443, 0xA5834444, 0xE4634444


def vector_accesses() -> Iterator[Any]:
    """Loads and stores of vectors, and those that raise, at the least and the greatest length."""
    begin = [movz(2, 0x41, 1), PTRUE_P1_D, PFALSE_P2_B, INDEX_Z3_D]
    full = Segment(0x410000, bytes(range(128, 0, -1)) * 32, flags=6)
    after = lambda *words: [Segment(TEXT, text_of([*begin, *words, *EXIT])), full]
    up_to = lambda count: after(add(2, 2, 0xFF9), movz(4, count), WHILELT_P0_B_ZERO_X4,
                                LD1B_Z3_P0_AT_X2)
    parts = {"load-up-to-the-last-byte": up_to(7), "load-past-the-last-byte": up_to(8),
             "store-over-a-page-to-read": [*after(add(2, 2, 0xFF8), ST1D_Z3_P1_AT_X2),
                                           Segment(0x411000, b"\7" * 4096, flags=4)],
             "load-of-no-byte": after(movz(3, 0x8000, 1), LD1B_Z3_P2_AT_X3),
             "load-of-no-byte-at-sp": after(add(31, 31, 8), LD1B_Z3_P2_AT_SP),
             "load-of-signed-bytes": after(LD1SB_Z4_D_P1_AT_X2, add(2, 2, 8), ST1B_Z4_D_P1_AT_X2)}
    files = [(f"vector-{name}", build(segments)[0]) for name, segments in parts.items()]
    for name, file in files:
        for vl in (128, 2048):
            yield f"{name}-{vl}", file, {"vl": vl}


SMSTART = {0: [], 1: [0xD503437F], 2: [0xD503457F], 3: [0xD503477F]}
# words of SME, and the values of SVCR with which they raise for it; the base of an access is X2,
# where nothing is mapped, or SP, which is no multiple of 16
MODES = {"setffr": (0x252C9000, 1), "rdffr": (0x2519F000, 3), "wrffr": (0x25289000, 1),
         "zero": (0xC00800FF, 1), "ldr-za-at-sp": (0xE10003E0, 0), "str-za": (0xE1200040, 1),
         "ld1b-slice": (0xE0030040, 0, 1, 2), "st1q-slice-at-sp": (0xE1E303E0, 1),
         "mova-to-slice": (0xC0000000, 0, 1, 2), "mova-from-slice": (0xC0020000, 1),
         "addha": (0xC0900000, 0, 1, 2), "addva-of-doublewords": (0xC0D10000, 2),
         "smopa": (0xA0800000, 0, 1, 2), "umops-of-doublewords": (0xA1E00010, 1)}
PTRUE_P0_B, LD1D_SLICE_P0_AT_X2_X3, STR_ZA_AT_X2 = 0x2518E3E0, 0xE0C30040, 0xE1200040


def matrix_stops() -> Iterator[Any]:
    """Instructions of SME that raise for the mode, whatever they access, and accesses of ZA from
    below the shared region into it."""
    for name, (word, *values) in MODES.items():
        for svcr in values:
            yield f"{name}-with-svcr-{svcr}", elf([add(31, 31, 8), *SMSTART[svcr], word, *EXIT])
    for name, word in (("ld1d-slice", LD1D_SLICE_P0_AT_X2_X3), ("str-za", STR_ZA_AT_X2)):
        yield f"{name}-over-the-shared-region", elf([movz(2, 0x7F00, 2), subs(2, 2, 4), *SMSTART[3],
                                                     PTRUE_P0_B, word, *EXIT])


def listing(*lines: Any) -> Any:
    """A listing of addresses, words and texts."""
    return "".join(f"{address:016x} {word:08x} {text}\n" for address, word, text in lines)


def listings() -> Iterator[Any]:
    """Files, and the status and the text of their listings; the texts of words are those of other
    tools."""
    words = [line.split("\t") for line in (HERE / "data" / "words.tsv").read_text().splitlines()]
    words = [(int(word, 16), text) for word, text in words]
    code = text_of(word for word, _ in words)
    yield "words", with_code([Segment(TEXT, code)],
                             code_section(len(code)))[0], 0, listing(*((TEXT + 4 * k, *line)
                                                                       for k, line
                                                                       in enumerate(words)))
    answer = ((TEXT, 0xD2800540, "movz x0, #42"), (TEXT + 4, 0xD2800BA8, "movz x8, #93"),
              (TEXT + 8, 0xD4000001, "svc #0"))
    yield "answer", elf(ANSWER), 0, listing(*answer)
    yield "data-in-the-text", marked(ANSWER + [UNLISTED], ("$x", 1, TEXT),
                                     ("$d", 1, TEXT + 12)), 0, listing(*answer)
    later = 0x500000
    parts = [Segment(later, text_of([0xD503201F])), Segment(TEXT, text_of(ANSWER))]
    yield "sections-out-of-order", with_code(parts, code_section(4, later),
                                             code_section(12))[0], 0, listing(*answer,
                                                                              (later, 0xD503201F,
                                                                               "hint #0"))
    yield "no-section-table", build([Segment(TEXT, text_of(ANSWER))])[0], 0, ""
    routines = routine_lines()
    yield "routines", assembled(text_of([word for word, _ in routines]), b"", TEXT, [(TEXT, True)]), 0, listing(
        *((TEXT + 4 * k, *line) for k, line in enumerate(routines)))
    yield "source-with-data-in-its-text", assembled(*WITH_DATA), 0, listing(
        (TEXT, 0xD2800020, "movz x0, #1"), (TEXT + 8, 0xD2800BA8, "movz x8, #93"),
        (TEXT + 12, 0xD4000001, "svc #0"))
    yield ("refused", elf(ANSWER + [UNLISTED]), 6,
           f"bad file: unlisted 0x000000000040000c 0x{UNLISTED:08x}\n")
    for name, file, text in [*marked_listings(), *table_listings()]:
        yield name, file, 0, text


HINTS = [0xD503201F | number << 5 for number in range(1, 9)]


def hints(*places: Any) -> Any:
    """The listing of those of the eight hints."""
    return listing(*((TEXT + 4 * k, HINTS[k], f"hint #{k + 1}") for k in places))


def marked_listings() -> Iterator[Any]:
    """Files of the eight hints whose mapping symbols say which of them are code."""
    yield "symbols-in-order", marked(HINTS, ("$d", 1, TEXT + 4), ("$x", 1, TEXT + 12)), hints(0, 3,
                                                                                              4, 5,
                                                                                              6, 7)
    yield "symbols-in-no-order", marked(HINTS, ("$x", 1, TEXT + 16), ("$d", 1, TEXT + 8)), hints(0,
                                                                                                 1,
                                                                                                 4,
                                                                                                 5,
                                                                                                 6,
                                                                                                 7)
    yield "symbol-for-the-rest", marked(HINTS, ("$d.1", 1, TEXT + 16)), hints(0, 1, 2, 3)
    yield "code-by-a-symbol-with-a-suffix", marked(HINTS, ("$d", 1, TEXT),
                                                   ("$x.a", 1, TEXT + 8)), hints(2, 3, 4, 5, 6, 7)
    yield "names-that-go-on", marked(HINTS, ("$d", 1, TEXT), ("$xa", 1, TEXT + 8)), hints()
    yield "code-by-the-later-symbol", marked(HINTS, ("$d", 1, TEXT + 8),
                                             ("$x", 1, TEXT + 8)), hints(*range(8))
    yield "data-by-the-later-symbol", marked(HINTS, ("$x", 1, TEXT + 8),
                                             ("$d", 1, TEXT + 8)), hints(0, 1)
    yield "data-before-the-section", marked(HINTS, ("$d", 1, TEXT - 4096)), hints()
    yield "symbol-within-a-word", marked(HINTS, ("$d", 1, TEXT + 5)), hints(0, 1)
    yield "symbols-past-the-section", marked(HINTS, ("$d", 1, TEXT + 32),
                                             ("$x", 1, 2**64 - 1)), hints(*range(8))


def with_tables(*sections: Any) -> Any:
    """A file of the eight hints with these sections, and the places of their headers."""
    file, _, places = with_code([Segment(TEXT, text_of(HINTS))], *sections)
    return file, places


def table_listings() -> Iterator[Any]:
    """Files of the eight hints with two sections of code, or with two symbol tables."""
    yield "section-of-no-whole-words", with_tables(code_section(8, TEXT + 2))[0], hints(1)
    yield "sections-that-overlap", with_tables(code_section(24),
                                               code_section(16, TEXT + 8))[0], hints(*range(6))
    yield "sections-that-overlap-out-of-order", with_tables(code_section(16, TEXT + 16),
                                                            code_section(20))[0], hints(*range(8))
    for name, section, places in (("first", 1, range(2, 8)), ("second", 2, range(4))):
        table, strings = symbols(("$d", section, TEXT))
        both = code_section(16), code_section(24, TEXT + 8), Section(SYMTAB, data=table, link=4,
                                                                     entry_size=24), Section(
            STRTAB, data=strings)
        yield f"data-in-the-{name}-of-two-sections", with_tables(*both)[0], hints(*places)
    code, data = symbols(("$x", 1, TEXT))[0], symbols(("$d", 1, TEXT))[0]
    names = {"$x": b"\0$x\0", "$d": b"\0$d\0"}
    tables = lambda first, second, x, y: (code_section(32),
                                          Section(SYMTAB, data=first, link=4, entry_size=24),
                                          Section(SYMTAB, data=second, link=5, entry_size=24),
                                          Section(STRTAB, data=names[x]),
                                          Section(STRTAB, data=names[y]))
    yield "data-by-the-last-table", with_tables(*tables(code, data, "$x", "$d"))[0], hints()
    yield "code-by-the-last-table", with_tables(*tables(data, code, "$d",
                                                        "$x"))[0], hints(*range(8))
    file, places = with_tables(*tables(data, code, "$d", "$x"))
    yield "one-table-twice", patched(file, places[3], file[places[2]:places[2] + 64]), hints()
    yield "far-table-of-no-symbols", with_tables(code_section(32),
                                                 Section(SYMTAB, offset=2**64 - 1,
                                                         entry_size=24))[0], hints(*range(8))
    yield "table-of-no-whole-symbol", with_tables(code_section(32),
                                                  Section(SYMTAB, data=data[:23],
                                                          entry_size=24))[0], hints(*range(8))
    last = patched(data, 24, number(3, 4))
    yield "name-at-the-last-end", with_tables(code_section(32),
                                              Section(SYMTAB, data=last, link=3, entry_size=24),
                                              Section(STRTAB,
                                                      data=names["$d"]))[0], hints(*range(8))
    zeros = [Segment(TEXT, text_of(HINTS)), Segment(0x500000, b"", memory=16)]
    yield "section-of-zeros", with_code(zeros,
                                        code_section(16,
                                                     0x500000))[0], listing(*((0x500000 + 4 * k, 0,
                                                                               "udf #0")
                                                                              for k in range(4)))


VECTOR_EXAMPLES = ("saturate", "strlen")
# VL and SVL of the other runs of programs with ZA
MATRIX_RUNS = {"matmul": [(128, 128), (2048, 512), (128, 2048)],
               "transpose": [(256, 128), (128, 512), (512, 2048)], "outer": [(128, 128)],
               "signals": [(128, 128), (2048, 2048)], "nested": [(128, 128), (512, 2048)],
               "za-modes": [(2048, 128)], "za-slices": [(256, 128), (128, 2048)],
               "za-loads": [(2048, 128), (512, 512), (128, 2048)],
               "za-products": [(128, 128), (128, 2048)], "za-sums": [(256, 128)],
               "za-zero": [(128, 512)], "za-stack": [(128, 1024)], "za-calls": [(1024, 128)],
               "za-vectors": [(128, 2048)], "za-load-fault": [(128, 2048)]}
# SVL and the budget of a program that ends in streaming mode
STOPPED_RUNS = {"za-slices": [(512, 25)], "za-products": [(128, 26)]}


def runs(programs: list[tuple[str, bytes, bytes]]) -> Iterator[tuple[str, bytes, dict[str, int]]]:
    """The programs with the options of their runs."""
    for name, _, file in programs:
        yield name, file, {}
        if name in VECTOR_EXAMPLES:
            yield f"{name}-at-2048", file, {"vl": 2048}
        for vl, svl in MATRIX_RUNS.get(name, ()):
            yield f"{name}-at-{vl}-and-{svl}", file, {"vl": vl, "svl": svl}
        for svl, budget in STOPPED_RUNS.get(name, ()):
            yield f"{name}-until-{budget}", file, {"svl": svl, "budget": budget}


def compiled() -> Iterator[tuple[str, bytes, dict[str, int]]]:
    """What two compilers make of examples/c, by real/make_compiled.sh, and the options of its runs;
    it writes what it writes under QEMU."""
    for path in sorted((HERE / "real" / "compiled").glob("*.elf")):
        file, written = path.read_bytes(), path.with_suffix(".out").read_bytes()
        for length in (128, 512, 2048):
            options = {"vl": length, "svl": length}
            lines = report(file, **options).splitlines()
            assert "stop exited 42" in lines and bytes.fromhex("".join(line[4:] for line in lines if line.startswith("out "))) == written
            yield f"compiled-{path.stem}-at-{length}", file, options


def replaced(old: Any, new: Any) -> Any:
    """The report with the first such part replaced."""
    return lambda text: text.replace(old, new, 1)


def events_of(text: Any) -> Any:
    return [line for line in text.splitlines() if line.startswith("e ")]


def without_last_event(text: Any) -> Any:
    events = events_of(text)
    return text.replace(f"journal {len(events)}\n",
                        f"journal {len(events) - 1}\n").replace(events[-1] + "\n", "", 1)


def with_one_event_more(text: Any) -> Any:
    events = events_of(text)
    return text.replace(f"journal {len(events)}\n",
                        f"journal {len(events) + 1}\n").replace("end-thread",
                                                                f"{events[-1]}\nend-thread")


def with_other_answer(text: Any) -> Any:
    last = events_of(text)[-1]
    return text.replace(last, last[:-16] + "00000000000000aa")


def with_other_place(text: Any) -> Any:
    first = events_of(text)[0]
    kind, place = first.split()[1:3]
    return text.replace(first, first.replace(f"{kind} {place}", f"{kind} 31"), 1)


def replays(programs: Any, version: Any) -> Iterator[Any]:
    """Reports of programs in a version, as they are and altered: the name of the report, the
    program, the report and the thread."""
    prefix = {1: "", 2: "version-2-"}[version]
    for name, *row in altered_replays(programs, version):
        yield prefix + name, *row


def altered_replays(programs: Any, version: Any) -> Iterator[Any]:
    same = lambda text: text
    everywhere = {"as-it-is": same, "with-another-sp": replaced("\nsp 0", "\nsp 1"),
                  "with-a-turn-more": replaced("\nturns ", "\nturns 1"),
                  "with-a-count-more": replaced("\ncount ", "\ncount 1"),
                  "with-count-2": lambda text: re.sub("\ncount .*", "\ncount 2", text)}
    shared = {"without-its-last-event": without_last_event,
              "with-an-event-more": with_one_event_more, "with-another-answer": with_other_answer,
              "with-another-place": with_other_place}
    named = dict(programs)
    for name, file, options in named["answer"], named["signal-in-streaming-mode-2048"], named[
            "shared-cas"], named["signals-one-after-the-other"]:
        text = report(file, kernel=version, **options)
        for how, alter in {**everywhere, **(shared if events_of(text) else {})}.items():
            yield f"{name}-{how}", name, alter(text), 0, *replay(file, alter(text))
    name, file, options = named["answer"]
    text = report(file, kernel=version, **options)
    for how, program, altered, number in ("of-thread-1", name, text, 1), ("of-thread-31", name,
                                                                          text, 31), (
            "of-another-program", "shared-cas", text, 0):
        yield f"{name}-{how}", program, altered, number, *replay(named[program][1], altered, number)
    lines = text.splitlines(keepends=True)
    block_end = lines.index("end-thread\n") + 1
    for how, altered, line in (("cut-after-line-3", "".join(lines[:3]), "4: block"),
                               ("cut-after-its-block", "".join(lines[:block_end]),
                                f"{block_end + 1}: shared"),
                               ("first-line-alone", f"smemu-report {version}\n", "2: options"),
                               ("empty", "", "1: header"),
                               ("end-missing", text[:-4], f"{text.count(chr(10))}: end"),
                               ("no-text", text.replace("svcr", "\udcff"),
                                f"{text[:text.index('svcr')].count(chr(10)) + 1}: nottext")):
        yield f"{name}-{how}", name, altered, 0, 9, f"bad report: line {line}\n"
    both = two_threads(file, version).decode()
    yield "of-two-threads", name, both, 1, *replay(file, both, 1)
    if version == 1:
        # the program is read, and refused, before the report
        yield "of-no-program", "refused-empty", "", 0, 6, "bad file: truncated 0\n"


def workload_rows() -> Iterator[Any]:
    """Sources of workloads and what their runs print, by a program that shares nothing with the
    emulator."""
    for number in (1, 2, 77, 20000):
        yield f"gen-{number}", 0, b"", workload_text(number), f"gen {number}"
    for number, cores in ((1, None), (1, 4), (2, 64), (500, 2), (20000, 4)):
        options = f" --cores {cores}" if cores else ""
        yield (f"bench-{number}-on-{cores or 1}", 0, b"", bench_line(number) + "\n",
               f"bench {number}{options}")


def told(sort: Any, name: Any) -> Any:
    """What the program prints of a file of lines, of which each agrees."""
    text = (HERE / "data" / name).read_text()
    count = text.count("\n")
    if sort == "rows":
        return "".join(f"{row.split()[0]} agrees\n" for row in text.splitlines())
    if sort == "failing":
        return "".join(f"{row.split()[0]} agrees where reads and writes fail\n"
                       for row in text.splitlines())
    cases = text.count("\t")
    if sort == "changed":
        return f"{name}: {cases} of {cases} changed files agree\n"
    printed = text.count("\tprinted\t")
    return {"words": f"words and texts, both ways: {count} agree\n",
            "texts": f"texts: {printed} agree both ways, {count - printed} aliases are read\n",
            "no-row": f"words of no row: {count} agree\n",
            "faults": f"lines at fault: {count} agree\n",
            "differing": f"{name}: {cases} of {cases} cases have another text, as they must\n"}[
        sort]


def words_of(options: Any) -> Any:
    """The words of a row: as they are, or a command with its options, where the file stands after
    the programs."""
    if isinstance(options, str):
        return options
    words = [f"--{name} {value}" if value else name for name, value in options.items()]
    at = 1 + sum(word.endswith(".elf") for word in words)
    return " ".join([*words[:at], "@", *words[at:]])


# rows of each command, whose reads and writes fail in turn as well
FAILING = ("answer.elf", "writes-33-and-then-to-2.elf", "answer.s", "listing-words.elf",
           "replay-answer-as-it-is.report", "replay-version-2-of-two-threads.report",
           "plan-of-the-example.plan", "plan-has-every-refusal.plan",
           "debug-shows-all-in-the-middle.script", "gen-77", "bench-1-on-1", "refused-empty.elf",
           "source-unknown-first.s", "mixed-lines-128-256.vectors", "abi-check-second-loses.report",
           "ckpt-answer.report", "ckpt-answer-past-its-count.report", "resume-answer.report",
           "resume-answer-with-another-sp.report", "resume-answer-of-no-checkpoint.report")


def main() -> None:
    parser(__doc__).parse_args()
    data = HERE / "data"
    rows = [(name, elf(words), {"slice": 1_000_000} if name == "loops" else {})
            for name, words in REPORTS.items()] + list(loaded()) + [(name, file, {})
                                                                    for name, file
                                                                    in [*accesses(),
                                                                        *shared_operations()]]
    programs = list(assemblies())
    rows += [*signals(2), *masked_and_nested(), *runs(programs), *compiled(), *vector_accesses(),
             *((name, file, {}) for name, file in matrix_stops())]
    rows = [(f"{name}.elf", 0, file, report(file, **options), {"run": "", **options})
            for name, file, options in rows]
    rows += [(f"loop-{name}.elf", 0, file, report(file, thread=KnowsAllWords, **options),
              {"run": "", **options}) for name, file, options in loop_rows()]
    files = {without(name, ".elf"): file for name, _, file, _, _ in rows}
    written = {without(name, ".elf"): text.encode() for name, _, _, text, _ in rows}
    rows += [(f"{name}.elf", 6, file, text, {"run": ""}) for name, file, text in refusals()]
    rows += [(f"listing-{name}.elf", status, file, text, {"dis": ""})
             for name, file, status, text in listings()]
    rows += [(f"source-{name}.s", 7, source, text, {"asm": ""})
             for name, source, text in source_refusals()]
    rows += [(f"{name}.s", 0, source, file, {"asm": ""})
             for name, source, file
             in [*programs, *lazy_savings(),
                 ("source-with-lines-that-move", SOURCE, asm(SOURCE)[1])]]
    runnable = [(without(name, ".elf"),
                 (without(name, ".elf"), file, {k: v for k, v in options.items() if v}))
                for name, status, file, _, options in rows if status == 0 and "run" in options]
    again = [*replays(runnable, 1), *replays(runnable, 2), *version_1_replays(files, signals(1)),
             *replays_of_nested(runnable)]
    rows += [(f"replay-{name}.report", status, text.encode(errors="surrogateescape"), out,
              {"replay": "", f"{program}.elf": "", str(number): ""})
             for name, program, text, number, status, out in again]
    rows += [(f"{name}.elf", None, file, "", "")
             for name, file in changed_programs(files, signals(1))]
    rows += world_rows()
    rows += lazy_rows()
    rows += workload_rows()
    rows += debug_rows(rows)
    rows += vector_rows()
    framed, framed_reports, framed_list = frames()
    rows += [(f"{name}.elf", None, file, "", "")
             for name, file in framed.items()] + [(name, None, text.encode(), "", "")
                                                  for name, text in framed_reports.items()]
    others = {name: file for name, _, file, _, _ in rows
              if name in ("debug-signals.report", *TWO_THREADS.values())}
    altered = altered_list(files, written, others)
    contents = {name: file for name, _, file, _, _ in rows}
    contents.update((f"{name}.txt", text if isinstance(text, bytes) else text.encode())
                    for name, _, _, text, _ in rows)
    abi_files, abi_reports, abi_list = abi_rows(contents,
                                                sorted(without(name, ".elf") for name in contents
                                                       if re.fullmatch("lazy-callee-.*[.]elf",
                                                                       name)))
    rows += [(f"{name}.elf", None, file, "", "")
             for name, file in abi_files.items()] + [(name, None, text.encode(), "", "")
                                                     for name, text in abi_reports.items()]
    rows += [(f"abi-check-{name}.report", status, abi_reports[f"abi-{name}.report"].encode(), text,
              {"abi-check": "", f"abi-{name}.elf": "", "0": ""})
             for name, (status, text)
             in ((name,
                  abi_check(abi_files[f"abi-{name}"], abi_reports[f"abi-{name}.report"].encode(),
                            0)) for name in ("twice", "second-loses"))]
    rows += checkpoint_rows(contents)
    checkpoint_files, checkpoint_list = checkpoints(contents)
    rows += [(name, None, content, "", "") for name, content in checkpoint_files.items()]
    moved_lines = group("source-with-lines-that-move.s", "asm @", SOURCE, source_changes(), asm,
                        2000)
    changed = changed_list({name: words_of(options) for name, _, _, _, options in rows}, contents,
                           listed(), moved_lines)
    vector_lines, altered_vectors = vector_lists(contents), altered_steps()
    for old in [*data.glob("*.txt"), *data.glob("*.s"), *data.glob("*.report"),
                *data.glob("*.plan"), *data.glob("*.script"), *data.glob("*.ckpt")]:
        if not old.name.endswith(".vectors.txt"):
            old.unlink()
    for old in data.glob("*.elf"):
        if not old.name.startswith("real-"):
            old.unlink()
    for name, status, file, text, _ in rows:
        if file or "." in name:
            (data / name).write_bytes(file)
        if status is not None:
            (data / f"{name}.txt").write_bytes(text if isinstance(text, bytes) else text.encode())
    rows = [row for row in rows if row[1] is not None]
    (data
     / "rows.txt").write_text("".join(f"{name} {status} {words_of(options)}\n"
                                      for name, status, _, _, options in rows))
    (data
     / "failing.txt").write_text("".join(f"{name} {status} {words_of(options)}\n"
                                         for name, status, _, _, options in rows
                                         if name in FAILING))
    for name, text in ("altered", altered), ("changed", changed), ("frames",
                                                                   framed_list), ("vector_lines",
                                                                                  vector_lines), (
            "abi", abi_list), ("checkpoints", checkpoint_list), ("altered_steps", altered_vectors):
        (data / f"{name}.txt").write_text(text)
    (HERE
     / "stdout").write_text("".join(told(*argument.split("="))
                                    for argument in (HERE / "args").read_text().split()))
    cases = (altered + changed + framed_list + vector_lines + abi_list
             + checkpoint_list).count("\t")
    print(f"{len(rows)} rows, {cases} changed files")

"""Rows of `debug`: scripts over reports of one thread and of several. What is to be written comes
from tools/smemu_tools/model/expected_debug.py; what is wrong with a file is written out here.
"""
from __future__ import annotations

from typing import Any, Iterator
from smemu_tools.model.elf import Segment, build, elf, text_of
from smemu_tools.model.expected import report
from smemu_tools.model.expected_debug import debug, listed
from smemu_tools.rows import without
from smemu_tools.rows.instructions import EXIT, SVC, add, address, call, laid_out, movz, subs, to
from smemu_tools.rows.nested import (ADDS, EACH_SIGNAL, RETURNS, deep, masks, posts, sets, signals,
                                     spins)
from smemu_tools.rows.world_programs import (AT_TEXT, DUP_REGISTER, LDADD, NESTS, PTRUE_P0_B,
                                             SETFFR, SMOPA_ZA0_Z0_Z1, at, index, number,
                                             shared_words)
from smemu_tools.rows.world_rows import of_report, rewritten

NE = 1
TEXT, DATA = 0x400000, 0x410000
SMSTART, SMSTOP, LDR_ZA_W12_AT_X2 = 0xD503477F, 0xD503467F, 0xE1000040
STR, UDF_9 = 0xF9000000, 9

# fills ZA from data in 32 turns of a loop, each of five instructions from count 3 on; then it
# stores at the end of a page, past it, and in
# a shared word, and stops ZA. Past its data there are a page that can be written alone and one that
# can be executed alone
TILES = build([Segment(TEXT,
                       text_of(laid_out(movz(2, DATA >> 16, 1), SMSTART, movz(12, 0), "loop",
                                        LDR_ZA_W12_AT_X2, add(2, 2, 32), add(12, 12, 1),
                                        subs(3, 12, 32), to("loop", NE),
                                        STR | 3064 // 8 << 10 | 2 << 5 | 2,
                                        STR | 3072 // 8 << 10 | 2 << 5 | 12, movz(5, 0x7F00, 2),
                                        STR | 5 << 5 | 12, SMSTOP, *EXIT))),
               Segment(DATA, bytes(7 * k % 251 + 1 for k in range(1024)), flags=6, memory=8192),
               Segment(DATA + 0x2000, b"1234", flags=2),
               Segment(DATA + 0x3000, text_of(EXIT), flags=1)])[0]
# posts a signal to itself, whose handler has an undefined word, and waits
HANDLER = elf(laid_out(movz(0, 5), address(1, "handler"), movz(8, 134), SVC,
                       *call(131, (0, 0), (5, 0)), "wait", to("wait"), "handler", UDF_9))
MSR_TPIDR, MSR_TPIDR2 = 0xD51BD040, 0xD51BD0A0
# comes past counts at which states are kept: at 65536 it is in streaming mode with ZA on, at 131072
# in a handler, where another signal is
# held and masked, and at 196608 in neither. In each of twelve rounds it adds to a shared word,
# stores, writes, and posts itself a signal
KEEPS = build([Segment(TEXT,
                       text_of(laid_out(*sets(s5="five", s6="six"), movz(19, DATA >> 16, 1),
                                        shared_words(21), movz(22, 1), movz(23, 12), "round",
                                        number(LDADD, 24, 21, 22), at(STR, 23, 19, 8),
                                        MSR_TPIDR | 24, MSR_TPIDR2 | 23,
                                        *call(64, (1, 0), AT_TEXT, (1, 0)), *posts(5), SMSTART,
                                        PTRUE_P0_B, index(0, 1, 3), number(DUP_REGISTER, 1, 23),
                                        SMOPA_ZA0_Z0_Z1, *spins(5000, "spin"), add(19, 19, 1024),
                                        subs(23, 23, 1), to("round", NE), SMSTOP, PTRUE_P0_B,
                                        SETFFR, index(2, 5, 7), *spins(48000, "rest"), *EXIT,
                                        "five", *masks(ADDS, signals(6)), *posts(6),
                                        *spins(2100, "handled"), *RETURNS, "six", add(9, 9, 1),
                                        *RETURNS))),
               Segment(DATA, bytes(5 * k % 253 for k in range(64)), flags=6,
                       memory=12 * 1024 + 64)])[0]

# of each report of version 1 its program and the options of its run
RUNS = {"debug-tiles": (TILES, {}), "debug-handler": (HANDLER, {"slice": 12}),
        "debug-nothing": (elf([UDF_9]), {}), "debug-keeps-unmasked": (KEEPS, {"svl": 128})}
# and of each of version 2
NEW_RUNS = {"debug-nested": (NESTS, {"slice": 12, "svl": 128}),
            "debug-64-deep": (deep(5, []), {"slice": 16}),
            "debug-62-signals": (EACH_SIGNAL, {"slice": 700, "budget": 900}),
            "debug-keeps": (KEEPS, {})}
# of each report of version 1 the row that writes it in version 2
WRITTEN = {
    "debug-signals": "shared-signals.elf", "debug-waits": "signal-returns.elf",
    "debug-undefined": "undefined.elf",
    "debug-no-row": "no-section-table.elf",
    "debug-no-multiple-of-4": "branches-to-no-multiple-of-4.elf", "debug-at-0": "branches-to-0.elf",
    "debug-breakpoint": "breaks.elf", "debug-four-cores": "plan-posts-over-four-cores.plan",
}
# and of each of version 2
NEW_WRITTEN = {
    "debug-masked": "nested-signals.elf",
    "debug-nested-on-two-cores": "plan-nested-is-moved-and-goes-on-to-the-end-at-128.plan",
    "debug-two-signals": "two-signals-of-one-poll-to-the-end.elf"}
ANSWER, STREAMING = "replay-answer-as-it-is", "replay-signal-in-streaming-mode-2048-as-it-is"
SHOWN = "where; regs; za; slice b 0 h 0; mem 0x7dfffffffff0 16"


def sessions() -> Iterator[Any]:
    """The name of each row, the report, the thread and the script, with `; ` between its lines."""
    yield "example-goes-past-the-end", ANSWER, 0, "goto 2; where; goto 9"
    yield "example-goes-back-to-0", ANSWER, 0, "goto 2; back 5; where"
    yield "of-no-line", ANSWER, 0, ""
    yield "of-a-last-line-without-its-line-feed", ANSWER, 0, b"step 1\nwhere"
    yield "of-empty-lines", ANSWER, 0, "\n\nwhere\n\n\nstep 1\n\nwhere"
    for name, place in (("at-0", "goto 0"), ("in-the-middle", "goto 102"),
                        ("at-the-last-count", "goto 171"), ("past-it", "goto 172")):
        yield f"shows-all-{name}", "debug-tiles", 0, f"{place}; {SHOWN}"
    yield ("steps", "debug-tiles", 0,
           "step 0; where; step 1; where; step 169; where; step 1; where; "
           "step 0; where; step 1; where")
    yield "steps-as-far-as-can-be", "debug-tiles", 0, (
        "step 4294967295; where; step 4294967295; where; back 4294967295; where; step 4294967295")
    yield "goes-back", "debug-tiles", 0, (
        "back 0; where; goto 171; back 0; where; back 1; where; back 160; where; back "
        "10; where; back 1; where")
    yield "goes-back-as-far-as-can-be", "debug-tiles", 0, (
        "back 4294967295; where; goto 5; back 5; where; step 2; back 3; where; goto "
        "4; back 4294967295; where")
    yield "goes-to", "debug-tiles", 0, (
        "goto 5; where; goto 5; where; goto 4; where; goto 171; where; goto 0; where; "
        "goto 4294967295; where; goto 3; where")
    yield ("goes-on-after-the-end", "debug-tiles", 0,
           "goto 200; step 1; back 1; where; step 2; where; break 0x400000; back 171; where")
    # breaks
    yield "breaks-never", "debug-tiles", 0, (
        "break 0x400044; where; back 1; break 0x40000d; where; goto 3; "
        "break 0xffffffffffffffff; where; goto 3; break 0x0")
    yield "breaks-now-alone", ANSWER, 0, "break 0x400000; where"
    yield "breaks-at-the-next-count", ANSWER, 0, (
        "break 0x400004; where; break 0x400008; where; break 0x40000c; where; break "
        "0x40000c; where")
    yield "breaks-in-a-loop", "debug-tiles", 0, (
        "break 0x40000C; where; break 0x40000c; where; break 0x000000000040000c; "
        "where; break 0x40001c; where")
    yield "breaks-after-going-back", "debug-tiles", 0, (
        "goto 171; back 20; break 0x40000c; where; back 4; break 0x40000c; "
        "where; break 0x40000c; where; break 0x40000c; where")
    yield ("breaks-at-the-last-count", "debug-tiles", 0,
           "break 0x400040; where; break 0x400040; where; back 1; break 0x400040; where")
    yield ("breaks-where-it-stays", "debug-waits", 0,
           "break 0x400024; where; break 0x400024; where; goto 39; break 0x400024; where")
    # the first instruction of a handler is at no count that is shown
    yield "breaks-never-at-a-handler", "debug-signals", 0, (
        "break 0x4000ac; where; goto 0; break 0x4000b0; where; break 0x4000b0; where; "
        "break 0x4000b0; where")
    # signals
    beside = "where; regs; za; slice s 0 h 0; mem 0x7dfffffffb80 32"
    yield ("goes-back-over-a-delivery", "debug-signals", 0,
           f"goto 41; {beside}; back 1; {beside}; back 1; where; step 2; where")
    yield "goes-back-over-a-return", "debug-signals", 0, (
        "goto 46; where; regs; slice s 0 v 3; mem 0x7dfffffffb80 1152; "
        "back 1; where; regs; slice s 0 v 3; back 5; where; slice s 0 v 3; step 6; where")
    yield "goes-over-a-second-delivery", "debug-signals", 0, (
        "goto 80; where; regs; step 1; where; step 5; where; back 40; where; goto 90; where; regs")
    yield ("goes-back-over-output", "debug-signals", 0,
           "goto 33; regs; back 1; regs; step 1; where; back 33; regs")
    yield ("goes-back-over-a-change-of-modes", "debug-signals", 0,
           "goto 38; regs; back 1; regs; za; back 3; regs; za")
    yield "stops-in-a-handler-that-has-just-begun", "debug-handler", 0, (
        "goto 12; where; regs; mem 0x7dfffffffc80 16; step 1; where; back 1; where; "
        "break 0x400024; where; goto 11; "
        "break 0x400020; where")
    # slices of ZA, and beside them
    for letter, size in zip("bhsdq", (1, 2, 4, 8, 16)):
        last, slices = 32 // size - 1, lambda *places: "goto 163; " + "; ".join(
            f"slice {letter} {tile} {way} {number}" for way in "hv" for tile, number in places)
        yield f"slices-{letter}", "debug-tiles", 0, slices(
            *((tile, number) for tile in sorted({0, size // 2, size - 1})
              for number in sorted({0, last // 2, last})))
        yield f"slices-{letter}-outside", "debug-tiles", 0, slices(
            (size, 0), (0, last + 1), (size - 1, last + 1), (size, last + 1), (4294967295, 0),
            (0, 4294967295))
    yield "slices-off", "debug-tiles", 0, (
        "slice b 0 h 0; slice q 16 v 0; step 2; slice b 0 h 0; slice q 16 v 0; goto "
        "167; slice d 7 v 3; step 1; slice d 7 v 3; "
        "slice s 9 h 9")
    yield "slices-as-za-is-filled", "debug-tiles", 0, (
        "goto 83; slice b 0 v 1; slice h 1 v 0; slice q 3 h 1; step 1; slice b 0 "
        "v 1; slice q 0 h 1; za")
    yield "slices-of-2048-bits", STREAMING, 0, (
        "goto 39; slice b 0 v 255; slice s 0 h 63; slice s 0 v 1; slice "
        "q 15 h 15; slice q 15 h 16; slice q 16 h 15; "
        "slice b 0 h 256")
    yield "slices-of-128-bits", "debug-signals", 0, (
        "goto 39; slice b 0 v 15; slice b 0 v 12; slice h 0 v 6; slice s 0 v 3; slice "
        "d 4 h 1; slice d 4 v 1; slice q 12 v 0; "
        "slice q 0 h 1; slice d 0 h 2; slice b 0 v 16")
    # memory
    yield "memory-at-the-end-of-a-page", "debug-tiles", 0, (
        "mem 0x400ff0 16; mem 0x400ff0 17; mem 0x400fff 1; mem 0x401000 "
        "1; mem 0x3fffff 2; mem 0x411ff8 8; mem 0x411ff8 9")
    yield (
        "memory-of-no-byte", "debug-tiles", 0,
        "mem 0x410000 0; mem 0x0 0; mem 0xffffffffffffffff 0; mem 0x7f0000000000 0; mem 0x412000 0")
    yield "memory-of-a-page", "debug-tiles", 0, "mem 0x410000 4096"
    yield "memory-of-two-half-pages", "debug-tiles", 0, "goto 165; mem 0x410800 4096"
    yield "memory-of-256-bytes-and-about", "debug-tiles", 0, "; ".join(
        f"mem 0x410003 {length}" for length in (1, 255, 256, 257, 511, 512, 513, 768))
    yield ("memory-past-a-page", "debug-tiles", 0,
           "mem 0x411001 4096; mem 0x400000 4096; mem 0x400001 4096")
    yield "memory-over-stores", "debug-tiles", 0, (
        "goto 163; mem 0x410ff4 16; step 1; mem 0x410ff4 16; step 1; mem 0x410FF4 16; "
        "mem 0x0000000000410fF4 16; back 1; "
        "mem 0x410ff4 16; goto 0; mem 0x410ff4 16")
    yield "memory-of-the-stack", "debug-tiles", 0, (
        "mem 0x7dfffffc0000 8; mem 0x7dfffffbffff 1; mem 0x7dfffffffff8 "
        "8; mem 0x7dfffffffff8 9; mem 0x7DFFFFFFFFFF 1")
    yield "memory-of-the-shared-region", "debug-tiles", 0, (
        "goto 167; mem 0x7f0000000000 8; mem 0x7effffffffff 2; mem 0x7f0000000fff "
        "1; mem 0x7f0000001000 1")
    yield "memory-of-the-last-address", "debug-tiles", 0, (
        "mem 0xffffffffffffffff 1; mem 0xffffffffffffffff 2; mem 0xffffffffffffffff "
        "4096; mem 0x0 1; mem 0xfffffffffffff000 4096")
    yield ("memory-that-cannot-be-read", "debug-tiles", 0,
           "mem 0x412000 4; mem 0x413000 4; mem 0x412000 1; mem 0x410000 1")
    # the place
    yield "is-at-no-multiple-of-4", "debug-no-multiple-of-4", 0, (
        "goto 2; where; step 1; where; goto 4; where; back 1; break 0x400006; where")
    yield "is-where-nothing-is", "debug-at-0", 0, "where; goto 1; where; goto 0; break 0x0; where"
    yield "is-at-a-word-of-no-row", "debug-no-row", 0, "where; step 1; where; step 1; where; regs"
    yield "is-at-an-undefined-word", "debug-undefined", 0, "where; step 1; where; step 1; where"
    yield "is-at-a-breakpoint", "debug-breakpoint", 0, "goto 1; where; regs; goto 2; where"
    yield "of-no-instruction", "debug-nothing", 0, (
        "where; regs; step 1; where; step 0; back 1; where; goto 0; where; goto "
        "1; break 0x400000; where")
    # the thread
    for thread in range(4):
        yield f"thread-{thread}-of-four-on-four-cores", "debug-four-cores", thread, (
            "where; regs; step 5; where; goto 8; where; step 1; where; regs; goto 99; "
            "where; regs; back 3; where; regs")
    yield ("thread-2-of-four-on-one-core", "replay-threads-get-a-signal-2-of-4", 2,
           "where; goto 8; regs; break 0x400000; where")
    # the block's other lines are not compared, and an answer may be another one
    yield "with-another-sp", "replay-answer-with-another-sp", 0, "goto 3; regs; where"
    yield "with-a-turn-more", "replay-answer-with-a-turn-more", 0, "goto 3; regs; where"
    yield "with-another-answer", "replay-shared-cas-with-another-answer", 0, "goto 99; regs"
    yield "parts-goes-on", "replay-answer-with-count-2", 0, "where"
    yield "parts-ends-early", "replay-answer-with-a-count-more", 0, "where"
    yield "parts-ends-early-with-events", "replay-shared-cas-with-a-count-more", 0, "where"
    yield "parts-journal-short", "replay-shared-cas-without-its-last-event", 0, "where"
    yield "parts-journal-differs", "replay-shared-cas-with-another-place", 0, "where"
    yield "parts-journal-long", "replay-shared-cas-with-an-event-more", 0, "where"
    yield "of-another-program", "replay-answer-of-another-program", 0, "where"
    yield "of-another-program-and-thread", "replay-answer-of-another-program", 7, "where"
    yield "of-no-thread", "replay-answer-of-thread-1", 1, "where"
    yield "of-no-thread-of-one-that-parts", "replay-answer-with-count-2", 31, "where"
    # the script is judged before the report is compared with the program, and the format of the
    # report before the script
    for name, of, thread in (("of-another-program", "replay-answer-of-another-program", 0),
                             ("of-no-thread", ANSWER, 1),
                             ("that-parts", "replay-answer-with-count-2", 0),
                             ("that-is-cut", "replay-answer-end-missing", 0),
                             ("that-is-empty", "replay-answer-empty", 0),
                             ("with-a-history", "replay-answer-with-a-history", 0)):
        yield f"at-fault-of-a-report-{name}", of, thread, "where; wheer"
    yield "many-lines", "debug-signals", 0, "; ".join(many_lines(10_000))


def nested_sessions() -> Iterator[Any]:
    """Sessions over reports of version 2, with handlers within handlers; what is shown at a count
    is after the fewest turns."""
    inner = "where; regs; za; slice s 1 h 0; mem 0x7dfffffff390 16"
    yield ("nested-goes-back-over-each-delivery", "debug-nested", 0,
           f"goto 49; {inner}; back 1; {inner}; back 11; where; regs; za; back "
           f"12; where; regs; za; goto 24; where; za")
    yield ("nested-goes-over-each-return", "debug-nested", 0,
           f"goto 56; {inner}; step 1; {inner}; step 8; where; step 1; where; "
           f"regs; za; step 9; where; regs; za")
    frames = "mem 0x7dfffffffb70 16; mem 0x7dfffffffcb0 16; mem 0x7dfffffff6e0 336"
    yield ("nested-shows-its-frames", "debug-nested", 0,
           f"{frames}; goto 49; {frames}; goto 80; {frames}; back 80; {frames}")
    yield "nested-breaks-in-handlers", "debug-nested", 0, "; ".join(
        [f"break {address:#x}; where" for address in range(0x400078, 0x400130, 16)] + ["goto 0"]
        + [f"break {address:#x}; where" for address in range(0x4000a0, 0x4000f0, 8)])
    yield ("nested-on-two-cores", "debug-nested-on-two-cores", 0,
           "goto 70; where; regs; za; back 20; where; regs; za; goto 999; where; regs")
    yield ("nested-on-two-cores-thread-1", "debug-nested-on-two-cores", 1,
           "goto 70; where; regs; za; back 20; where; regs; za; goto 999; where; regs")
    yield ("64-deep", "debug-64-deep", 0,
           "goto 1041; where; regs; mem 0x7dffffff1c00 16; mem 0x7dffffff1d40 "
           "16; back 1; where; goto 1073; regs; mem 0x7dffffff1d40 16; goto 9999; "
           "where")
    yield ("64-deep-goes-back", "debug-64-deep", 0,
           "break 0x400044; where; goto 1041; back 1000; where; goto 2600; where; "
           "mem 0x410000 16; back 1500; where; mem 0x410000 16")
    yield ("62-signals", "debug-62-signals", 0,
           "goto 700; where; regs; step 1; where; regs; mem 0x7dffffff2460 "
           "16; step 3; where; regs; back 4; where; goto 900; where; regs")
    yield ("masked", "debug-masked", 0,
           "goto 40; where; regs; step 1; where; regs; goto 41; mem 0x7dfffffffdb0 "
           "16; goto 90; where; regs; za; back 50; where; za")
    yield ("two-signals", "debug-two-signals", 0,
           "goto 40; where; step 1; where; regs; mem 0x7dfffffffdb0 "
           "16; mem 0x7dfffffffa20 16; step 1; where; regs; step 1; where; step 4; "
           "where; regs")
    # over counts at which states are kept
    all_of_it = ("where; regs; za; slice b 0 h 4; mem 0x410000 64; mem 0x411c00 "
                 "16; mem 0x412c00 16; mem 0x7dffffffffe0 32")
    yield "goes-back-over-kept-states", "debug-keeps", 0, (
        f"goto 266852; where; back 1; {all_of_it}; back 70243; {all_of_it}; "
        f"back 1; {all_of_it}; back 65535; {all_of_it}; back 1; "
        f"{all_of_it}; back 65535; {all_of_it}; back 1; {all_of_it}; "
        f"back 65535; {all_of_it}; goto 131073; where; back 2; where")
    yield "goes-on-over-kept-states", "debug-keeps", 0, (
        f"goto 65535; where; step 1; where; step 1; where; goto 131071; "
        f"regs; step 1; {all_of_it}; step 1; where; step 65535; {all_of_it}; "
        f"goto 4294967295; where; regs; back 4294967295; where; step 196608; {all_of_it}")
    yield "breaks-past-kept-states", "debug-keeps", 0, (
        "goto 65530; break 0x400030; regs; za; break 0x4000e8; where; regs; "
        "break 0x4000f0; where; goto 131000; break 0x4000e4; where; regs; back 99; "
        "regs; goto 196600; break 0x400090; where; back 4294967295; break 0x4000a4; where; regs")
    yield "keeps-states-of-version-1", "debug-keeps-unmasked", 0, (
        f"goto 131072; {all_of_it}; back 65536; {all_of_it}; goto 196608; "
        f"{all_of_it}; back 66000; regs; step 1000; regs; za")


def many_lines(count: Any) -> Iterator[Any]:
    """Lines of all commands, mostly moves, by a generator of numbers; the session stands at counts
    from 0 to 90."""
    seed, shows = 5, ("regs", "za", "where", "slice s 0 v 2", "mem 0x7dfffffffb80 8")
    for _ in range(count):
        seed = (25173 * seed + 13849) % 65536
        amount, kind = seed // 16 % 9, seed // 256
        if kind < 250:
            yield (f"{('step', 'back')[kind % 2]} {amount}" if kind < 230
                   else f"goto {9 * amount + kind - 230}")
        else:
            yield f"break 0x{4194304 + 4 * (amount + 30):x}" if kind == 250 else shows[kind - 251]


# scripts that are refused, the line at fault and its kind
FAULTS = {
    "unknown-name": ("wheer", 1, "unknown"),
    "unknown-of-a-plan": ("step 1; run 0 5", 2, "unknown"),
    "unknown-blank": (" ", 1, "unknown"),
    "unknown-blank-before-the-name": ("where;  where", 2, "unknown"),
    "unknown-carriage-return": ("where\r", 1, "unknown"),
    "unknown-number": ("5", 1, "unknown"),
    "unknown-element": ("slice w 0 h 0", 1, "unknown"),
    "unknown-element-of-no-letter": ("slice  0 h 0", 1, "unknown"),
    "unknown-direction": ("\n\nslice b 0 x 0", 3, "unknown"),
    "unknown-direction-before-a-bad-number": ("slice b 0 hv 00", 1, "unknown"),
    "missing-count-of-step": ("step", 1, "missing"),
    "missing-count-of-back": ("back", 1, "missing"),
    "missing-count-of-goto": ("where; goto", 2, "missing"),
    "missing-address-of-break": ("break", 1, "missing"),
    "missing-element": ("slice", 1, "missing"),
    "missing-tile": ("slice b", 1, "missing"),
    "missing-direction": ("slice b 0", 1, "missing"),
    "missing-slice": ("slice b 0 h", 1, "missing"),
    "missing-address": ("mem", 1, "missing"),
    "missing-length": ("mem 0x0", 1, "missing"),
    "badnumber-of-33-bits": ("step 4294967296", 1, "badnumber"),
    "badnumber-of-goto": ("goto 007", 1, "badnumber"),
    "badnumber-hexadecimal": ("goto 0x5", 1, "badnumber"),
    "badnumber-blanks": ("step  1", 1, "badnumber"),
    "badnumber-blank-at-the-end": ("step ", 1, "badnumber"),
    "badnumber-address-without-its-mark": ("break 400000", 1, "badnumber"),
    "badnumber-address-with-another-mark": ("break 0X400000", 1, "badnumber"),
    "badnumber-address-of-no-digit": ("break 0x", 1, "badnumber"),
    "badnumber-address-of-17-digits": ("break 0x00000000000400000", 1, "badnumber"),
    "badnumber-address-of-another-digit": ("break 0x40000g", 1, "badnumber"),
    "badnumber-length": ("mem 0x0 4097", 1, "badnumber"),
    "badnumber-tile": ("slice b h 0 0", 1, "badnumber"),
    "badnumber-tile-of-33-bits": ("slice b 4294967296 x 0", 1, "badnumber"),
    "badnumber-slice": ("slice q 0 v 01", 1, "badnumber"),
    "extra-after-step": ("step 1 1", 1, "extra"),
    "extra-blank-after-break": ("break 0x0 ", 1, "extra"),
    "extra-after-slice": ("slice b 0 h 0 0", 1, "extra"),
    "extra-after-mem": ("mem 0x0 1 // one", 1, "extra"),
    "extra-after-regs": ("regs x0", 1, "extra"),
    "extra-blank-after-where": ("where ", 1, "extra"),
    "nottext": ("where; \udcff", 2, "nottext"),
    "nottext-after-a-whole-command": ("where \udcc3", 1, "nottext"),
    "nottext-before-a-bad-line": ("where\udcff; step", 1, "nottext"),
    "nottext-after-a-bad-line": ("step; where\udcff", 1, "missing"),
    "other-digits": ("step \u0661", 1, "badnumber"),
    "last-of-many": ("where; regs; " * 40 + "step", 81, "missing"),
}


def script(lines: Any) -> Any:
    """The file of lines with `; ` between them; bytes are a file already."""
    if isinstance(lines, bytes) or not lines:
        return lines or b""
    return "".join(line + "\n" for line in lines.split("; ")).encode(errors="surrogateescape")


def refusals() -> Iterator[Any]:
    """The name of each row, the status, the script, what is to be written, and the words: files
    that are not there or not accepted."""
    for name, (lines, line, kind) in FAULTS.items():
        yield (f"at-fault-{name}.script", 11, script(lines), f"bad plan: line {line}: {kind}\n",
               f"answer.elf {ANSWER}.report 0 @")
    # each file is fetched and judged before the next one is fetched
    cut = "replay-answer-end-missing.report"
    for name, status, text, words in (
            ("no-program", 3, "absent: nowhere\n", f"nowhere {cut} 0 @"),
            ("a-program-at-fault", 6, "bad file: truncated 0\n", "refused-empty.elf nowhere 0 @"),
            ("a-program-and-a-report-at-fault", 6, "bad file: truncated 0\n",
             f"refused-empty.elf {cut} 0 @"),
            ("no-report", 3, "absent: nowhere\n", "answer.elf nowhere 0 @"),
            ("no-script", 3, "absent: nowhere\n", f"answer.elf {ANSWER}.report 0 nowhere"),
            ("no-script-and-another-program", 3, "absent: nowhere\n",
             "answer.elf replay-answer-of-another-program.report 0 nowhere"),
            ("no-script-and-no-such-thread", 3, "absent: nowhere\n",
             f"answer.elf {ANSWER}.report 5 nowhere"),
            ("no-script-and-a-report-at-fault", 9, "bad report: line 1: header\n",
             "answer.elf replay-answer-empty.report 0 nowhere")):
        yield f"of-{name}.script", status, b"wheer\n", text, words
    yield ("of-a-last-line-without-its-end.script", 11, b"where\nstep",
           "bad plan: line 2: missing\n", f"answer.elf {ANSWER}.report 0 @")


def debug_rows(rows: Any) -> Any:
    """Rows as make_rows.py has them, from those that it has: the reports, which have no command,
    and the scripts."""
    known = {row[0]: (row, list(row[4])) for row in rows if not isinstance(row[4], str)}
    files = {name: row[2] for name, (row, _) in known.items()}
    made, programs, reports = [], {}, {}
    for name, (row, words) in known.items():
        if words[0] == "replay":
            programs[without(name, ".report")], reports[without(name, ".report")] = words[1], row[2]
    for version, runs, of_rows in ((1, RUNS, WRITTEN), (2, NEW_RUNS, NEW_WRITTEN)):
        for name, (file, options) in runs.items():
            made.append((f"{name}.elf", None, file, "", ""))
            programs[name], reports[name] = f"{name}.elf", report(file, kernel=version,
                                                                  **options).encode()
        for name, row in of_rows.items():
            whole, words = known[row]
            programs[name], reports[name] = words[1] if words[0] == "sim" else row, of_report(
                rewritten(whole, version, files)).encode()
        made += [(f"{name}.report", None, reports[name], "", "") for name in (*runs, *of_rows)]
    files.update((name, file) for name, _, file, _, _ in made)
    texts = listed()
    for name, of, thread, lines in [*sessions(), *nested_sessions()]:
        status, text = debug(files[programs[of]], reports[of], thread, script(lines), texts)
        made.append((f"debug-{name}.script", status, script(lines), text,
                     f"debug {programs[of]} {of}.report {thread} @"))
    for name, status, file, text, words in refusals():
        made.append((f"debug-{name}", status, file, text, f"debug {words}"))
    return made

"""Programs with masks of signals and handlers within handlers, for `run`, and frames put together
by hand that a handler returns from."""
from __future__ import annotations

import struct
from typing import Any, Iterator

from smemu_tools.model.elf import Segment, build, elf, text_of
from smemu_tools.rows.instructions import EXIT, add, address, laid_out, movz, subs, to
from smemu_tools.rows.world_programs import (CBNZ, DATA, EQ, LDR, NE, PTRUE_P0_B, SMOPA_ZA0_Z0_Z1,
                                             SMSTART, STR, TEXT, ask, at, copy, dup, index)

MASK_SIGNALS, POST, SET_HANDLER, RETURN = 135, 131, 134, 139
ADDS, TAKES, SETS = range(3)
MOVK, MOVN, SMSTOP_SM = 0xF2800000, 0x92800000, 0xD503427F
ALL = (1 << 64) - 1
# where the frame keeps X0, the mask and the depth, and where its vectors begin
X0_OF_FRAME, MASK_OF_FRAME, DEPTH_OF_FRAME, HEAD = 16, 320, 328, 336


def constant(rd: int, value: int) -> list[int]:
    """The words that make a number of 64 bits."""
    if value == ALL:
        return [MOVN | rd]
    parts = [(value >> 16 * hw & 0xFFFF, hw) for hw in range(4)
             if value >> 16 * hw & 0xFFFF] or [(0, 0)]
    (first, hw), *rest = parts
    return [movz(rd, first, hw), *(MOVK | hw << 21 | part << 5 | rd for part, hw in rest)]


def signals(*numbers: int) -> int:
    """The bits of signals."""
    return sum(1 << number for number in numbers)


def sets(**handlers: str) -> list[int | tuple[int, str]]:
    """Sets the handler of each signal, given as `s5="place"`."""
    return [part for name, place in handlers.items()
            for part in (movz(0, int(name[1:])), address(1, place), *ask(SET_HANDLER))]


def posts(*numbers: int) -> list[int]:
    """Posts these signals to thread 0, in this order."""
    return [word for number in numbers for word in (movz(0, 0), movz(1, number), *ask(POST))]


def masks(how: int, bits: int) -> list[int]:
    """Changes the mask."""
    return [*constant(0, how), *constant(1, bits), *ask(MASK_SIGNALS)]


def spins(times: int, name: str) -> list[int | str | tuple[int, str]]:
    """A loop of two instructions."""
    return [movz(11, times), name, subs(11, 11, 1), to(name, NE)]


def puts(value: int, register: int, frame: int = 1) -> list[int]:
    """Puts a number into a register that the frame at X1 keeps."""
    return [movz(9, value), at(STR, 9, frame, X0_OF_FRAME + 8 * register)]


RETURNS, FOR_EVER = ask(RETURN), ["wait", to("wait")]
# the slice and the budget of most programs
SOON = {"slice": 40, "budget": 120}


def simple(*parts: Any) -> bytes:
    return elf(laid_out(*parts))


def mask_programs() -> Iterator[tuple[str, bytes, dict[str, int]]]:
    """The call that changes the mask, and signals that wait for it."""
    keeps = lambda register: [copy(register, 0)]
    yield "mask-adds-all-and-is-refused", simple(*masks(ADDS, ALL), *keeps(20), *masks(3, ALL),
                                                 *keeps(21), *EXIT), {}
    yield "mask-in-each-way", simple(
        *masks(ADDS, signals(1, 5, 62)), *keeps(20), *masks(ADDS, signals(5, 6)), *keeps(21),
        *masks(TAKES, signals(1, 7, 62)), *keeps(22),
        *masks(SETS, signals(2, 61)), *keeps(23), *masks(TAKES, ALL), *keeps(24), *masks(SETS, ALL),
        *keeps(25), *masks(SETS, 0), *keeps(26),
        *masks(ADDS, signals(30)), *EXIT), {}
    yield "mask-of-no-signals", simple(*masks(ADDS, signals(9)),
                                       *[part
                                         for register, how
                                         in zip(range(20, 23), (ADDS, TAKES, SETS))
                                         for part in (*masks(how, 1 | 1 << 63), *keeps(register))],
                                       *EXIT), {}
    ways = (3, 4, 255, 1 << 32, 1 << 63, ALL)
    yield "mask-in-no-way", simple(*masks(SETS, signals(9, 40)),
                                   *[part for n, how in enumerate(ways)
                                     for part in (*masks(how, ALL), *keeps(20 + n))], *EXIT), {}
    yield "mask-in-streaming-mode", simple(SMSTART, PTRUE_P0_B, dup(0, 7), *masks(SETS, signals(3)),
                                           *EXIT), {"svl": 128}
    keeps_on = sets(s5="five", s3="three", s7="seven")
    ends = ["three", *puts(3, 23), *RETURNS, "five", *puts(5, 25), *RETURNS, "seven", *puts(7, 27),
            *RETURNS]
    yield "masked-signal-waits", simple(*keeps_on, *masks(ADDS, signals(5)), *posts(5), *FOR_EVER,
                                        *ends), SOON
    yield "masked-signals-let-a-higher-one-come", simple(*keeps_on, *masks(ADDS, signals(3, 5)),
                                                         *posts(3, 5, 7), *FOR_EVER, *ends), SOON
    loosed = simple(*keeps_on, *masks(ADDS, signals(5)), *posts(5), *spins(8, "spin"),
                    *masks(TAKES, signals(5)), *FOR_EVER, *ends)
    for name, budget in (("is-held", 79), ("comes-at-the-next-poll", 81), ("has-come", 120)):
        yield f"signal-no-longer-masked-{name}", loosed, {"slice": 40, "budget": budget}
    yield "mask-stays-over-polls", simple(*keeps_on, *masks(SETS, ALL), *posts(3, 5, 7), *FOR_EVER,
                                          *ends), {"slice": 10, "budget": 95}
    yield "masked-signal-without-a-handler", simple(*sets(s3="three"), *masks(ADDS, signals(5)),
                                                    *posts(3, 5), *FOR_EVER, *ends), SOON
    yield "signal-no-longer-masked-has-no-handler", simple(
        *masks(ADDS, signals(6)), *posts(6), *spins(20, "spin"), *masks(TAKES, signals(6)),
        *FOR_EVER), {"slice": 20, "budget": 120}


def nested_programs() -> Iterator[tuple[str, bytes, dict[str, int]]]:
    """Handlers within handlers."""
    both = simple(*sets(s3="three", s5="five"), *posts(5, 3), *FOR_EVER, "three", *puts(3, 23),
                  *RETURNS, "five", *RETURNS)
    for name, budget in (("after-an-instruction-of-the-second", 41), ("after-its-return", 42),
                         ("to-the-end", 120)):
        yield f"two-signals-of-one-poll-{name}", both, {"slice": 40, "budget": budget}
    yield "three-signals-in-any-order", simple(
        *sets(s62="high", s1="low", s30="middle"), *posts(30, 62, 1), *FOR_EVER, "low",
        *puts(1, 21), *RETURNS, "middle", *puts(30, 22), *RETURNS,
        "high", *puts(62, 23), *RETURNS), {"slice": 50, "budget": 130}
    # the handler posts its own signal once, and goes on over a poll
    again = lambda *first: simple(
        *sets(s5="five"), *posts(5), *FOR_EVER, "five", *first, (CBNZ | 20, "leave"), movz(20, 1),
        *posts(5), *spins(30, "spin"),
        at(STR, 11, 31, X0_OF_FRAME + 8 * 21), "leave", movz(9, 1),
        at(STR, 9, 31, X0_OF_FRAME + 8 * 20), *RETURNS)
    yield "own-signal-waits-for-the-return", again(), {"slice": 25, "budget": 150}
    for name, budget in (("begins", 51), ("returns", 150)):
        yield f"own-signal-is-let-in-and-{name}", again(*masks(TAKES, signals(5))), {
            "slice": 25, "budget": budget}
    other = lambda how: simple(
        *sets(s3="three", s5="five"), *posts(3), *FOR_EVER, "three", *masks(how, signals(5)),
        *posts(5), *spins(30, "spin"), *puts(3, 23, 31),
        *RETURNS, "five", *puts(5, 25), *RETURNS)
    yield "handler-masks-another-signal", other(ADDS), {"slice": 30, "budget": 140}
    yield "handler-sets-the-mask-to-another-signal", other(SETS), {"slice": 30, "budget": 99}
    for name, bits in (("another-mask", signals(7)), ("all-masked", signals(*range(1, 63))),
                       ("its-own-signal", signals(5))):
        yield f"returns-with-{name}", simple(*sets(s5="five"), *posts(5), *FOR_EVER, "five",
                                             *constant(9, bits), at(STR, 9, 1, MASK_OF_FRAME),
                                             *RETURNS), SOON
    # the inner handler's frame says that it was begun outside of all handlers, or as deep as it is
    inner = lambda depth: simple(*sets(s3="three", s5="five"), *posts(5, 3), *FOR_EVER, "three",
                                 *puts(3, 23, 31), *RETURNS, "five", movz(9, depth),
                                 0xB9000029 | DEPTH_OF_FRAME // 4 << 10, *RETURNS)
    for depth in range(4):
        yield f"inner-frame-with-depth-{depth}", inner(depth), SOON
    # returns by the outer frame from within the inner handler, and again by the inner one
    yield "returns-by-the-outer-frame", simple(
        *sets(s3="three", s5="five"), *posts(5, 3), *FOR_EVER, "three", *RETURNS, "five",
        at(LDR, 9, 1, X0_OF_FRAME + 8), add(31, 9, 0), *RETURNS), SOON
    low = [movz(9, 0x7DFF, 2), MOVK | 1 << 21 | 0xFFFC << 5 | 9]  # the stack's first byte
    for name, more in (("one-frame", 912), ("a-part-of-a-frame", 896), ("two-frames", 1824),
                       ("one-frame-and-a-part", 1808)):
        yield f"stack-with-room-for-{name}", simple(*sets(s3="three", s5="five"), *posts(5, 3), *low, add(31, 9, more), *FOR_EVER, "three", *RETURNS, "five", *RETURNS), {
            "slice": 40, "budget": 60}


def streaming(value: int) -> list[int]:
    """Streaming mode, with a predicate, vectors and ZA that a value tells from others."""
    return [SMSTART, PTRUE_P0_B, index(3, value, value), dup(0, value), dup(1, value + 1),
            SMOPA_ZA0_Z0_Z1]


# the program and both handlers are in streaming mode when the next one comes
STREAMING = simple(*sets(s5="five", s6="six"), *posts(5), *streaming(3), *FOR_EVER, "five",
                   *posts(6), *streaming(5), *spins(30, "spin"), SMOPA_ZA0_Z0_Z1, *RETURNS, "six",
                   *streaming(7), SMOPA_ZA0_Z0_Z1, *RETURNS)


def streaming_programs() -> Iterator[tuple[str, bytes, dict[str, int]]]:
    """The second handler at work, after its return, after that of the first, and at the end."""
    for svl in (128, 512):
        for where, budget in (("at-work", 67), ("returns", 69), ("has-returned", 113),
                              ("to-the-end", 200)):
            yield f"nested-in-streaming-mode-{where}-at-{svl}", STREAMING, {"slice": 30,
                                                                            "budget": budget,
                                                                            "svl": svl}


def deep(signal: int, modes: Any, times: int = 66) -> bytes:
    """A handler that lets its own signal in and posts it, so that handlers come to stand within one
    another, until it was there so many times in all. X19 is the place of how often it began and how
    often it has ended; at the end X0 has the latter."""
    counts = lambda offset: [at(LDR, 9, 19, offset), add(9, 9, 1), at(STR, 9, 19, offset)]
    text = laid_out(
        *sets(**{f"s{signal}": "handler"}), movz(19, DATA >> 16, 1), *posts(signal), *modes,
        "wait", at(LDR, 2, 19, 8), subs(3, 2, times), to("wait", NE), copy(0, 2), movz(8, 93),
        ask(93)[1],
        "handler", *counts(0), copy(21, 9), *modes, subs(10, 9, times), to("last", EQ),
        *masks(SETS, 0), *posts(signal),
        "last", *spins(10, "spin"), *counts(8), *RETURNS)
    return build([Segment(TEXT, text_of(text)), Segment(DATA, bytes(16), flags=6)])[0]


# ZA is on, and has what the handler's number makes of it
# the fourth is dup z1.b, w9
WITH_ZA = [SMSTART, PTRUE_P0_B, index(0, 1, 1), 0x05203801 | 9 << 5, SMOPA_ZA0_Z0_Z1, SMSTOP_SM]
# each of the 62 signals has the handler, and all are posted; the handler adds 1 to X20 of the one
# around it
EACH_SIGNAL = simple(movz(5, 1), "next", copy(0, 5), address(1, "handler"), *ask(SET_HANDLER),
                     movz(0, 0), copy(1, 5), *ask(POST), add(5, 5, 1), subs(31, 5, 63),
                     to("next", NE), *FOR_EVER, "handler", add(9, 20, 1),
                     at(STR, 9, 1, X0_OF_FRAME + 8 * 20), *RETURNS)


def deep_programs() -> Iterator[tuple[str, bytes, dict[str, int]]]:
    """As many handlers within one another as there may be, and one signal more, which waits."""
    for name, modes, options in (("", [], {}), ("-with-za", WITH_ZA, {"svl": 128})):
        file = deep(5, modes)
        for where, budget in (("to-the-end", 4000),
                              *((where, budget) for where, budget in BUDGETS[name].items())):
            yield f"handlers-64-deep{name}-{where}", file, {"slice": 16, "budget": budget,
                                                            **options}
    for where, budget in (("begin", 701), ("return", 760), ("have-returned", 1100)):
        yield f"62-signals-of-one-poll-{where}", EACH_SIGNAL, {"slice": 700, "budget": budget}


# where the 64th handler runs, and the signal that was posted in it is held; and where the 65th one
# has begun
BUDGETS = {"": {"waits": 1041, "goes-on": 1073}, "-with-za": {"waits": 2065}}


# ---- frames put together by hand

# what a frame says where nothing else is asked for: outside streaming mode, ZA off, VL 128 and SVL
# 128, of a thread at `back` with SP at the top
TOP_OF_STACK, BACK = 0x7E0000000000, TEXT + 4 * 2
LENGTH = 16


def frame(tag: bytes = b"SMEFRAM2", size: int | None = None, signal: int = 5,
          x: list[int] | None = None, sp: int = TOP_OF_STACK, pc: int = BACK, nzcv: int = 0,
          svcr: int = 0, tpidr2: int = 0, tpidr: int = 0, length: int = LENGTH, array: int = LENGTH,
          mask: int = 0, depth: int = 0, zeros: int = 0, body: bytes | None = None) -> bytes:
    """The bytes of a frame of version 2, with these fields."""
    whole = 336 + 34 * length + 32 + (array * array if svcr & 2 else 0)
    head = tag + struct.pack("<II", whole if size is None else size, signal) + struct.pack(
        "<31Q", *(x or range(100, 131)))
    head += (struct.pack("<6Q", sp, pc, nzcv, svcr, tpidr2, tpidr)
             + struct.pack("<II", length, array) + struct.pack("<QII", mask, depth, zeros))
    vectors = bytes(range(1, 256)) * 3
    rest = vectors[:34 * length] + b"\xff" * (length // 8) + bytes(32 - length // 8) + bytes(
        k % 251 + 1 for k in range(whole - 368 - 34 * length))
    return head + (rest if body is None else body)


def old_frame() -> bytes:
    """The same of version 1."""
    whole = frame(tag=b"SMEFRAM1", size=352 + 34 * LENGTH)
    return whole[:320] + whole[336:]


PAGE, AT_FRAME = 4096, 0x500000


def returns_to(content: bytes, before: int, second: int = 0, first: int = 6) -> bytes:
    """A program whose handler returns by these bytes, of which so many stand at the end of a page,
    and the rest at the start of the next one, whose flags are given; 0 is of a page that is not
    there."""
    start = AT_FRAME + PAGE - before
    text = laid_out(to("begin"), 0, "back", *EXIT, "begin", *sets(s5="handler"), *posts(5),
                    *FOR_EVER, "handler", *constant(9, start), add(31, 9, 0), *RETURNS)
    parts = [Segment(TEXT, text_of(text)),
             Segment(AT_FRAME, bytes(PAGE - before) + content[:before], flags=first, memory=PAGE)]
    if second:
        parts.append(Segment(AT_FRAME + PAGE, content[before:], flags=second, memory=PAGE))
    return build(parts)[0]


def frame_programs() -> Iterator[tuple[str, bytes, dict[str, int]]]:
    """Returns by frames that stand over the end of a page, whose fields are good or one of which is
    not."""
    options = {"slice": 40, "budget": 80, "svl": 128}
    good, with_za, whole = frame(), frame(svcr=2), len(frame())
    assert whole == 912 and len(with_za) == 912 + 256
    # the second page is not there: what is in the head, at its end, within each part of the rest,
    # and in front of the last byte
    for before in (1, 8, 12, 16, 264, 312, 316, 319, 320, 327, 328, 331, 332, 335, 336, 337, 352,
                   848, 864, 880, 882, 911):
        yield f"frame-over-a-page-end-after-{before}", returns_to(good, before), options
    yield "frame-up-to-a-page-end", returns_to(good, whole), options
    for before in (912, 913, 1167, 1168):
        yield f"frame-with-za-over-a-page-end-after-{before}", returns_to(with_za, before), options
    for before in (1, 320, 336, 880):
        yield f"frame-over-two-pages-after-{before}", returns_to(good, before, 4), options
    for before in (320, 336, 880):
        yield f"frame-over-a-page-that-can-be-written-alone-after-{before}", returns_to(good,
                                                                                        before,
                                                                                        2), options
        yield f"frame-over-a-page-that-can-be-executed-alone-after-{before}", returns_to(good,
                                                                                         before,
                                                                                         1), options
    yield "frame-in-a-page-that-can-be-written-alone", returns_to(good, whole, 0, 2), options
    # a field that is not good: the rest is not looked at, whether it is there or not
    faults: dict[str, Any] = {
        "tag-of-version-1": {"tag": b"SMEFRAM1"}, "size": {"size": 913},
        "size-of-version-1": {"size": 896}, "signal-0": {"signal": 0}, "signal-63": {"signal": 63},
        "flags-bit-27": {"nzcv": 1 << 27}, "svcr-bit-2": {"svcr": 4}, "length": {"length": 32},
        "array": {"array": 32},
        "mask-bit-0": {"mask": 1}, "mask-bit-63": {"mask": 1 << 63}, "mask-of-all": {"mask": ALL},
        "depth-as-it-is": {"depth": 1}, "depth-above": {"depth": 2},
        "depth-of-32-bits": {"depth": (1 << 32) - 1}, "zeros-first-bit": {"zeros": 1},
        "zeros-last-bit": {"zeros": 1 << 31}}
    for name, fields in faults.items():
        yield f"frame-at-fault-{name}", returns_to(frame(**fields), whole), options
        yield f"frame-at-fault-{name}-over-a-page-end", returns_to(frame(**fields), HEAD), options
    # the first byte that cannot be read is told before a field of the head, where it is in the head
    for name in ("mask-bit-0", "mask-bit-63", "depth-as-it-is", "zeros-last-bit"):
        for before in (320, 328, 332, 335, 337, 880, 911):
            yield f"frame-at-fault-{name}-over-a-page-end-after-{before}", returns_to(
                frame(**faults[name]), before), options
    yield "frame-at-fault-in-two-fields", returns_to(frame(mask=1, zeros=1), HEAD), options
    yield "frame-at-fault-with-a-head-over-a-page-end", returns_to(frame(mask=1, depth=1),
                                                                   335), options
    for name, mask in (("bit-1", 2), ("bit-62", 1 << 62), ("all", (1 << 63) - 2)):
        yield f"frame-with-mask-{name}", returns_to(frame(mask=mask), whole), options
    past = frame()[336 + 34 * LENGTH:]
    for name, offset in (("first", 2), ("last", 31)):
        body = frame()[HEAD:HEAD + 34 * LENGTH] + past[:offset] + b"\1" + past[offset + 1:]
        yield f"frame-with-a-byte-past-ffr-{name}", returns_to(frame(body=body), whole), options
    # nothing can be executed at its PC, so what came back is seen as it is
    yield "frame-of-another-state", returns_to(frame(
        signal=62, x=[k << 32 for k in range(31)], sp=TOP_OF_STACK - 63, pc=0x1234, nzcv=0xF << 28, svcr=3, tpidr2=0x1230, tpidr=ALL, mask=signals(1, 61)),
        1168), {**options, "vl": 256}
    yield "frame-in-a-mode-with-another-length", returns_to(frame(svcr=0), whole), {**options,
                                                                                    "vl": 256}
    yield "frame-of-version-1", returns_to(old_frame(), 896), options
    # where the thread is in no handler the depth of a frame is not below its own
    outside = lambda content, before: build([
        Segment(TEXT, text_of([*constant(9, AT_FRAME + PAGE - before), add(31, 9, 0), *RETURNS])),
        Segment(AT_FRAME, bytes(PAGE - before) + content[:before], flags=6, memory=PAGE)])[0]
    for name, content, before in (("whole", good, whole), ("over-a-page-end", good, HEAD),
                                  ("with-a-head-over-a-page-end", good, 335)):
        yield f"return-of-no-handler-by-a-frame-{name}", outside(content, before), options
    at_top = [*constant(9, ALL - 15), add(31, 9, 0), *RETURNS]
    yield "return-at-the-last-addresses", simple(*sets(s5="five"), *posts(5), *FOR_EVER, "five",
                                                 *at_top), SOON


def masked_and_nested() -> Iterator[tuple[str, bytes, dict[str, int]]]:
    """All of these: the name of each program, its file and the options of its run."""
    for kind in (mask_programs, nested_programs, streaming_programs, deep_programs, frame_programs):
        yield from kind()

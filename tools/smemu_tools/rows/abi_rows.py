"""The list data/abi.txt: what `abi-check` tells of runs with calls behind which the tail of the
lazy saving scheme stands, by marked_calls.py.

The lines are those of changed.py. The programs of lazy.py whose callees keep, save or lose ZA stand
there already; those here have each kind of fault, two in one turn, returns at another depth and SP,
calls within one another, in handlers, handlers within handlers and by BLR, tails at the end of a
page or changed after the call, and threads of which one has a fault.
"""
from __future__ import annotations

from typing import Any, Iterator
from smemu_tools.model.elf import Segment, build, text_of
from smemu_tools.model.expected import report
from smemu_tools.model.world import run
from smemu_tools.rows.changed import case
from smemu_tools.rows.instructions import EXIT, add, calls, laid_out, movz, subs, to
from smemu_tools.rows.lazy import (CLEAR_BLOCK, KEEPS_LINK, LINK, LOAD, NOP, RET, ROUTINES,
                                   SET_BLOCK, SMSTART_ZA, SMSTOP_ZA, TAIL)
from smemu_tools.rows.marked_calls import abi_check
from smemu_tools.rows.nested import RETURNS, posts, sets
from smemu_tools.rows.world_programs import CBNZ, copy

TEXT, BLOCK, BUFFER, PATTERN = 0x400000, 0x500000, 0x501000, 0x510000
ADR_X19, SUB_SP, MOV_SP = 0x10000013, 0xD10003FF, 0x9100001F
NE, EQ, ALWAYS = 1, 0, 14
# str x30, [sp, #-16]!; ldr x30, [sp], #16; blr x9; br x9; mov x19, x1; mov sp, x22; mov x22, sp;
# mov sp, x26; mov x26, sp
PUSH, POP, BLR_X9, BR_X9, SP_FROM_X22, X22_FROM_SP = (0xF81F0FFE, 0xF84107FE, 0xD63F0120,
                                                      0xD61F0120, 0x910002DF, 0x910003F6)
SP_FROM_X26, X26_FROM_SP = 0x9100035F, 0x910003FA
OPTIONS = {"svl": 128}


def block(slices: int = 16, buffer: int = BUFFER, reserved: Any = bytes(6)) -> bytes:
    return buffer.to_bytes(8, "little") + slices.to_bytes(2, "little") + reserved


def at(rd: int, address: int) -> list[int]:
    """A multiple of 4,096 below 2^32, or one with 12 bits more."""
    return [movz(rd, address >> 16, 1),
            *[add(rd, rd, address >> 12 & 15, True)] * bool(address >> 12 & 15),
            *[add(rd, rd, address & 4095)] * bool(address & 4095)]


SETS = [*at(19, BLOCK), SMSTART_ZA, *at(2, PATTERN), movz(12, 3), LOAD, SET_BLOCK]


def program(*parts: Any, data: Any = block(), flags: Any = 5, text_memory: Any = None,
            more: Any = (), place: Any = TEXT) -> Any:
    text = text_of(laid_out(*parts, *ROUTINES))
    return build([Segment(place, text, flags=flags, memory=text_memory),
                  Segment(BLOCK, data, flags=6, memory=8192),
                  Segment(PATTERN, bytes(range(1, 65)), flags=4), *more], entry=place)[0]


def calling(*body: Any, before: Any = (), data: Any = block(), **parts: Any) -> Any:
    """A program that makes one marked call."""
    return program(*SETS, *before, calls("callee"), *TAIL, *EXIT, "callee", *body, data=data,
                   **parts)


def shortest(*body: Any) -> Any:
    """A call with its tail, and nothing else but the exit; the block and its buffer stand in the
    page behind the text."""
    text = text_of(laid_out(0x10000013 | 0x1000 >> 2 << 5, SMSTART_ZA, SET_BLOCK, calls("callee"),
                            *TAIL, *EXIT[1:], "callee", *body, *ROUTINES))
    return build([Segment(TEXT, text),
                  Segment(TEXT + 0x1000, block(32, TEXT + 0x1010) + bytes(1024), flags=6)])[0]


def yes_and_no() -> Iterator[Any]:
    """Callees and callers of each kind."""
    yield "shortest-that-saves", shortest(to("disable"))
    yield "shortest-that-loses", shortest(SMSTOP_ZA, RET)
    disables = [KEEPS_LINK, calls("disable"), LINK, RET]
    yield "disables", calling(to("disable"))
    yield "keeps", calling(RET)
    yield "loses", calling(SMSTOP_ZA, RET)
    yield "no-call", program(*SETS, *EXIT)
    yield "call-without-its-tail", program(*SETS, calls("callee"), *TAIL[:3], NOP, *TAIL[4:], *EXIT,
                                           "callee", RET)
    yield "call-with-a-tail-to-another-routine", program(*SETS, calls("callee"), *TAIL[:4],
                                                         calls("disable"), TAIL[5], *EXIT, "callee",
                                                         RET)
    yield "call-with-the-tail-one-word-later", program(*SETS, calls("callee"), NOP, *TAIL, *EXIT,
                                                       "callee", RET)
    yield "exits-in-the-callee", calling(*EXIT)
    yield "raises-in-the-callee", calling(9)
    yield "twice", program(*SETS, calls("callee"), *TAIL, SET_BLOCK, calls("callee"), *TAIL, *EXIT,
                           "callee", *disables)
    yield "second-loses", program(*SETS, calls("callee"), *TAIL, SET_BLOCK, calls("loses"), *TAIL,
                                  *EXIT, "callee", *disables, "loses", SMSTOP_ZA, RET)
    yield "by-blr", program(*SETS, 0x10000009 | 2 << 5 | 0, add(9, 9, 0), BLR_X9, *TAIL, *EXIT)
    yield "by-blr-to-a-callee", program(*SETS, (0x10000009, "callee"), BLR_X9, *TAIL, *EXIT,
                                        "callee", *disables)
    yield "by-blr-to-one-that-loses", program(*SETS, (0x10000009, "callee"), BLR_X9, *TAIL, *EXIT,
                                              "callee", SMSTOP_ZA, RET)
    yield "by-br", program(*SETS, (0x10000009, "callee"), (0x1000001E, "behind"), BR_X9, "behind",
                           *TAIL, *EXIT, "callee", SMSTOP_ZA, RET)


def undormant() -> Iterator[Any]:
    """Calls whose ZA is not dormant: a state, a block or a buffer that is none."""
    yield "za-off", calling(RET, before=[SMSTOP_ZA])
    yield "no-pointer", calling(RET, before=[CLEAR_BLOCK])
    yield "pointer-of-another-block", calling(RET, before=[add(19, 19, 16)], data=block() + block())
    yield "block-at-no-multiple-of-16", calling(RET, before=[add(19, 19, 8), SET_BLOCK],
                                                data=bytes(8) + block())
    yield "block-where-nothing-is", calling(RET, before=[movz(19, 0x70, 1), SET_BLOCK])
    yield "block-in-the-shared-region", calling(RET, before=[movz(19, 0x7F00, 2), SET_BLOCK])
    for byte in range(6):
        yield f"block-with-byte-{10 + byte}", calling(RET,
                                                      data=block(reserved=bytes(byte) + b"\1"
                                                                 + bytes(5 - byte)))
    for slices in (0, 1, 15, 16, 17, 65535):
        yield f"block-of-{slices}", calling(RET, data=block(slices))
        yield f"block-of-{slices}-without-a-buffer", calling(RET, data=block(slices, 0))
    for name, buffer in {"over-the-block": BLOCK, "up-to-the-block": BLOCK - 256,
                         "behind-the-block": BLOCK + 16, "of-its-last-byte": BLOCK + 15,
                         "at-a-page-end": BLOCK + 8192 - 256, "past-a-page-end": BLOCK + 8192 - 255,
                         "that-cannot-be-written": PATTERN, "over-the-text": TEXT,
                         "where-nothing-is": 0x700000, "in-the-shared-region": 0x7F0000000000,
                         "before-the-shared-region": 0x7F0000000000 - 256,
                         "past-the-end": (1 << 64) - 255,
                         "of-no-slice-past-the-end": (1 << 64) - 1}.items():
        yield f"buffer-{name}", calling(RET, data=block(0 if "no-slice" in name else 16, buffer))


# the callee is there again until X20 is zero; each has 16 bytes of the stack
DEEPER = ["callee", PUSH, subs(20, 20, 1), to("last", EQ), calls("callee"), *TAIL, SET_BLOCK,
          "last", POP, RET]


def deep(times: Any) -> Any:
    """Calls within one another, of which so many are open at once; all come back."""
    return program(*SETS, movz(20, times), calls("callee"), *TAIL, *EXIT, *DEEPER)


def never_back(times: Any, last: Any = ()) -> Any:
    """So many calls that never come back."""
    return program(*SETS, movz(20, times), "again", *last, calls("callee"), *TAIL, *EXIT, "callee",
                   subs(20, 20, 1), to("again", NE), *EXIT)


def depths() -> Iterator[Any]:
    for times in (1, 2, 255, 256, 257):
        yield f"{times}-open", deep(times)
        yield f"{times}-never-back", never_back(times)
    # of two faults in one turn that of a return comes first, and then that the call is not dormant
    yield "257th-is-not-dormant", program(*SETS, movz(20, 257), "again", calls("callee"), *TAIL,
                                          *EXIT, "callee", subs(20, 20, 1), to("off", EQ),
                                          subs(31, 20, 1), to("again", NE), CLEAR_BLOCK,
                                          to("again"), "off", *EXIT)
    back = [SMSTOP_ZA, calls("tail"), *TAIL, *EXIT]
    yield "return-and-call-in-one-turn", program(*SETS, calls("callee"), "tail", *TAIL, *EXIT,
                                                 "callee", *back)
    yield "lawful-return-and-call-in-one-turn", program(*SETS, calls("callee"), "tail", *TAIL,
                                                        *EXIT, "callee", *back[1:])
    yield "return-and-call-that-is-not-dormant", program(*SETS, calls("callee"), "tail", *TAIL,
                                                         *EXIT, "callee", KEEPS_LINK,
                                                         calls("disable"), *back[1:])


def returns() -> Iterator[Any]:
    """A tail that is reached with another SP, and in a handler at another depth."""
    yield "return-with-another-sp", calling(SMSTOP_ZA, add(31, 31, 16) | 1 << 30, RET)
    yield "return-with-another-sp-and-then-its-own", program(*SETS, movz(21, 0), calls("callee"),
                                                             "tail", *TAIL, add(31, 31, 16),
                                                             to("tail"), "callee",
                                                             add(31, 31, 16) | 1 << 30, RET)
    begins = [*sets(s5="handler"), X22_FROM_SP, *SETS]
    at_tail = ["handler", SP_FROM_X22, to("tail")]
    yield "return-at-another-depth", program(*begins, calls("callee"), "tail", *TAIL, *EXIT,
                                             "callee", *posts(5), "wait", to("wait"), *at_tail)
    handler = [KEEPS_LINK, *SETS, calls("inner"), *TAIL, LINK, *RETURNS]
    inner: list[Any]
    for name, inner in {"lawful": [KEEPS_LINK | 1 << 1, calls("disable"), LINK | 2 << 16, RET],
                        "losing": [SMSTOP_ZA, RET]}.items():
        yield f"call-in-a-handler-that-is-{name}", program(*sets(s5="handler"), *posts(5),
                                                           *[NOP] * 80, *EXIT, "handler", *handler,
                                                           "inner", *inner)
    for name, last in {"lawful": [RET], "losing": [SMSTOP_ZA, RET]}.items():
        yield f"call-in-a-second-handler-that-is-{name}", within_others(last)
    yield "callee-over-a-handler", program(*begins, calls("callee"), *TAIL, *EXIT, "callee",
                                           *posts(5), *[NOP] * 60, RET, "handler", SMSTART_ZA,
                                           CLEAR_BLOCK, SMSTOP_ZA, *RETURNS)


def within_others(last: Any) -> Any:
    """A call in a handler within a handler. While it is open a third handler makes a call of its
    own at the same place and with the same SP, by another block, which returns; then the third
    handler returns, and the first call's callee ends by the last words."""
    return program(
        *sets(s3="one", s5="two", s7="three"), *posts(3), *[NOP] * 200, *EXIT,
        "one", *posts(5), *[NOP] * 200, *RETURNS,
        "two", *SETS, X22_FROM_SP, movz(25, 0), *posts(7), "again", calls("callee"), *TAIL,
        (CBNZ | 25, "end"), *RETURNS,
        "callee", (CBNZ | 25, "inner"), *[NOP] * 200, *last, "inner", RET,
        "three", X26_FROM_SP, SP_FROM_X22, movz(25, 1), *at(19, BLOCK + 256), SMSTART_ZA, SET_BLOCK,
        to("again"), "end", SP_FROM_X26, *RETURNS,
        data=block() + bytes(240) + block(buffer=BUFFER + 512))


def several_at_once(*between: Any, last: Any = (RET,), data: Any = block()) -> Any:
    """Two calls at one place and with one SP, which come back in one state; the words between them
    are the callee's."""
    return program(*SETS, movz(20, 2), "again", calls("callee"), *TAIL, *EXIT, "callee",
                   subs(20, 20, 1), to("last", EQ), *between, to("again"), "last", *last, data=data)


def returns_at_once() -> Iterator[Any]:
    """Calls that come back in one state: all lawful, none, the first alone, or the second alone."""
    other, two = [*at(19, BLOCK + 256),
                  SET_BLOCK], block() + bytes(240) + block(buffer=BUFFER + 512)
    yield "two-return-at-once", several_at_once()
    yield "two-return-at-once-and-lose", several_at_once(last=[SMSTOP_ZA, RET])
    yield "second-of-two-at-once-is-lawful", several_at_once(*other, data=two)
    yield "first-of-two-at-once-is-lawful", several_at_once(*other,
                                                            last=[*at(19, BLOCK), SET_BLOCK, RET],
                                                            data=two)


def small_changes() -> Iterator[Any]:
    """Callees that change one vector of ZA and leave it on; polls before each instruction; runs
    whose last state is the return, or that after the call."""
    for vector in (0, 1, 14, 15):
        yield f"vector-{vector}-changes", calling(movz(12, vector), LOAD, RET)
    yield "keeps-and-polls-before-each", calling(RET)
    yield "loses-and-polls-before-each", calling(SMSTOP_ZA, RET)
    yield "loses-in-its-last-state", shortest(SMSTOP_ZA, RET)
    yield "ends-before-it-loses", shortest(SMSTOP_ZA, RET)
    yield "ends-after-a-call-that-is-not-dormant", calling(RET, before=[SMSTOP_ZA])


def moved(to_end: Any, flags: Any) -> Any:
    """A program whose tail ends so many bytes before the end of a page; the rest of its text goes
    on there."""
    start = 0x401000 - to_end - 4 * (len(SETS) + 1 + len(TAIL))
    return program(*SETS, calls("callee"), *TAIL, *EXIT, "callee", RET, place=start, flags=flags)


def tail_in_data(*body: Any) -> Any:
    """A program whose tail, with all behind it, stands in a page that can be read and not
    executed."""
    front = [to("go"), "callee", *body, "go", *SETS, calls("callee")]
    words = text_of(laid_out(*front, *TAIL, *EXIT, *ROUTINES))
    size = 4 * sum(not isinstance(part, str) for part in front)
    start = 0x401000 - size
    return build([Segment(start, words[:size], flags=5), Segment(0x401000, words[size:], flags=4),
                  Segment(BLOCK, block(), flags=6, memory=8192),
                  Segment(PATTERN, bytes(range(1, 65)), flags=4)], entry=start)[0]


# ldr w9, [x10]; str w9, [x10]; str w11, [x10]
LOADS, STORES, STORES_OTHER = 0xB9400149, 0xB9000149, 0xB900014B


def words() -> Iterator[Any]:
    """Tails at the end of a page, and words that change after the call."""
    for to_end in (0, 4, 8, 12, 16, 20, 24, 28):
        yield f"tail-{to_end}-before-a-page-end", moved(to_end, 7)
        yield f"tail-{to_end}-before-a-fixed-page-end", moved(to_end, 5)
    yield "tail-that-cannot-be-executed", tail_in_data(RET)
    yield "tail-that-cannot-be-executed-and-loses", tail_in_data(SMSTOP_ZA, RET)
    tail_at = (0x1000000A, "tail")
    changes = {"tail": "tail", "routine": "restore", "disable": "disable"}
    for name, place in changes.items():
        yield f"{name}-changes-after-the-call", program(*SETS, calls("callee"), "tail", *TAIL,
                                                        *EXIT, "callee", (0x1000000A, place),
                                                        movz(11, 9), STORES_OTHER, RET, flags=7)
        yield f"{name}-changes-and-is-as-before", program(*SETS, calls("callee"), "tail", *TAIL,
                                                          *EXIT, "callee", (0x1000000A, place),
                                                          LOADS, movz(11, 9), STORES_OTHER, STORES,
                                                          RET, flags=7)
    yield "tail-comes-after-the-call", program(*SETS, calls("callee"), "tail", NOP, *TAIL[1:],
                                               *EXIT, "callee", tail_at, movz(11, 0x457F),
                                               0x72BAA06B, STORES_OTHER, SMSTOP_ZA, RET, flags=7)
    yield "text-that-cannot-be-read", calling(RET, flags=1)


def programs() -> Iterator[Any]:
    for kind in (yes_and_no, undormant, depths, returns, returns_at_once, small_changes, words):
        yield from kind()


def losing(number: Any) -> Any:
    """A program whose callee loses ZA in the thread of that number, and in no other one."""
    return program(copy(28, 0), *SETS, calls("callee"), *TAIL, *EXIT, "callee",
                   subs(31, 28, number), to("keeps", NE), SMSTOP_ZA, "keeps", RET)


def of_threads() -> Iterator[Any]:
    """Programs that several threads run."""
    for number in range(2):
        yield f"thread-{number}-of-2-loses", losing(number), 2
    yield "thread-2-of-4-loses", losing(2), 4


def own_options(name: Any) -> Any:
    """The slice of a program with a handler: the signal comes while the callee, or the handler's,
    is under way. The shortest ones run at the usual length."""
    ends = {"loses-in-its-last-state": 6, "ends-before-it-loses": 5,
            "ends-after-a-call-that-is-not-dormant": len(SETS) + 2}
    if name in ends:
        return {"svl": 256 if "loses" in name else 128, "budget": ends[name]}
    if "polls-before-each" in name:
        return {"slice": 1}
    return ({"slice": 60} if "handler" in name or "depth" in name else {"svl": 256}
            if "shortest" in name else {})


def abi_rows(contents: Any, lazy_names: Any) -> Any:
    """The programs and their reports by names, and the list; of the programs of lazy.py the files
    are there."""
    files, reports, lines = {}, {}, []
    for name, file in programs():
        options = {**OPTIONS, "budget": 20_000, **own_options(name)}
        name = f"abi-{name}"
        files[name], reports[f"{name}.report"] = file, report(file, **options)
    checks = [(name, file, f"{name}.report", reports[f"{name}.report"].encode(), 0)
              for name, file in files.items()]
    for name, file, threads in of_threads():
        name = f"abi-{name}"
        files[name], reports[f"{name}.report"] = file, run(file, **OPTIONS, budget=20_000,
                                                           threads=threads)
        checks += [(name, file, f"{name}.report", reports[f"{name}.report"].encode(), thread)
                   for thread in range(threads)]
    checks += [(name, contents[f"{name}.elf"], f"{name}.elf.txt", contents[f"{name}.elf.txt"], 0)
               for name in lazy_names]
    # files that are refused, and journals from which the run parts
    checks += [(program, contents[f"{program}.elf"], reported, contents[reported], thread)
               for program, reported, thread
               in (("answer", "answer.elf.txt", 0), ("answer", "answer.elf.txt", 1),
                   ("shared-cas", "answer.elf.txt", 0), ("answer", "replay-answer-empty.report", 0),
                   ("answer", "replay-answer-with-a-count-more.report", 0),
                   ("answer", "replay-answer-with-count-2.report", 0),
                   ("answer", "replay-answer-with-another-sp.report", 0),
                   ("shared-cas", "replay-shared-cas-without-its-last-event.report", 0),
                   ("shared-cas", "replay-shared-cas-with-an-event-more.report", 0),
                   ("shared-cas", "replay-shared-cas-with-another-place.report", 0),
                   ("shared-cas", "replay-shared-cas-with-another-answer.report", 0))]
    for name, file, reported, text, thread in checks:
        lines += [f"{reported} abi-check {name}.elf @ {thread}\n",
                  case(text, [], lambda changed: abi_check(file, changed, thread))]
    return files, reports, "".join(lines)

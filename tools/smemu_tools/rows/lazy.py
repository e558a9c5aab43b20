"""Programs with the support routines of AAPCS64 that save ZA lazily, and the tail of a call: how
many instructions each takes, what it stores and loads, and signals and moves to another core
between any two of them. Their words are written out here, as they are in
crates/sm_types/specs/Routines.antt."""
from __future__ import annotations

import struct
from typing import Any, Iterator

from smemu_tools.model.elf import Segment, build, text_of
from smemu_tools.model.expected import Thread, report
from smemu_tools.model.world import sim
from smemu_tools.rows.instructions import EXIT, add, calls, laid_out, movz, subs, to
from smemu_tools.rows.nested import RETURN, posts, sets
from smemu_tools.rows.world_programs import (DATA, EQ, LDR, NE, PTRUE_P0_B, SMOPA_ZA0_Z0_Z1,
                                             SMSTART, STR, TEXT, ask, at, dup, index)

SAVE = [0xD53BD0AE, 0xB40001EE, 0x794015CF, 0xB9400DD0, 0x2A1001EF, 0x3500018F, 0xF94001D0,
        0xB4000130, 0x794011CE, 0x340000EE, 0x5280000F, 0xE1206200, 0x04305830, 0x110005EF,
        0x4B0E01F1, 0x35FFFF91, 0xD65F03C0, 0xD4200020]
# two instructions more, after the last slice, clear TPIDR2_EL0 and turn ZA off, so the branch to
# the end is longer
DISABLE = [*SAVE[:5], 0x350001CF, *SAVE[6:16], 0xD51BD0BF, 0xD503447F, 0xD65F03C0, 0xD4200020]
RESTORE = [0xD53BD0AE, 0xB500020E, 0x7940140F, 0xB9400C10, 0x2A1001EF, 0x3500018F, 0xF9400010,
           0xB4000130, 0x7940100E, 0x340000EE, 0x5280000F, 0xE1006200, 0x04305830, 0x110005EF,
           0x4B0E01F1, 0x35FFFF91, 0xD65F03C0, 0xD4200020]
ROUTINES = ["save", *SAVE, "disable", *DISABLE, "restore", *RESTORE]
TAIL = [0xD503457F, 0xD53BD0AE, 0xB500006E, 0xAA1303E0, calls("restore"), 0xD51BD0BF]
# the words of other instructions: msr tpidr2_el0, x19; rdsvl x9, #1; cmp x12, x9; ldr and str of
# za[w12, 0] at X2; add x2, x2, x9
SET_BLOCK, CLEAR_BLOCK, READ_LENGTH, COMPARE, LOAD, STORE, ON_BY_LENGTH = (0xD51BD0B3, 0xD51BD0BF,
                                                                           0x04BF5829, 0xEB09019F,
                                                                           0xE1000040, 0xE1200040,
                                                                           0x8B090042)
SMSTART_ZA, SMSTOP_ZA, SMSTOP_SM = 0xD503457F, 0xD503447F, 0xD503427F

# the block, what ZA is filled from, where it is stored at the end, and its buffer, which is
# followed by a page that cannot be written
BLOCK, PATTERN, STORED, BUFFER = DATA, DATA + 0x1000, 0x500000, 0x520000
LENGTHS = (128, 256, 512, 1024, 2048)


def block(slices: Any, buffer: Any = BUFFER, reserved: Any = bytes(6)) -> Any:
    return buffer.to_bytes(8, "little") + slices.to_bytes(2, "little") + reserved


def over_za(word: int, step: int, name: str) -> list[int | str | tuple[int, str]]:
    """A loop over the vectors of ZA at X2, which moves on by a step after each."""
    return [movz(12, 0), READ_LENGTH, name, word, step, add(12, 12, 1), COMPARE, to(name, NE)]


def place(rd: int, value: int) -> list[int]:
    """A multiple of 65,536, and 4,096 added where it is said."""
    return [movz(rd, value >> 16, 1),
            *[add(rd, rd, value >> 12 & 15, True)] * bool(value >> 12 & 15)]


FILLS = [SMSTART_ZA, *place(2, PATTERN), *over_za(LOAD, add(2, 2, 1), "fill"), *place(19, BLOCK)]
# ZA is stored, so that the digest of the memory has it, and turned off
STORES = [*place(2, STORED), *over_za(STORE, ON_BY_LENGTH, "store"), SMSTOP_ZA]


def program(parts: Any, data: Any, buffer: Any = BUFFER, more: Any = ()) -> Any:
    """The program: the block and other data, the pattern, and 65,536 bytes for ZA and for its
    buffer each."""
    pattern = bytes((3 * k * k + 7 * k) % 251 + 1 for k in range(512))
    return build([Segment(TEXT, text_of(laid_out(*parts, *EXIT, *ROUTINES))),
                  Segment(DATA, data, flags=6, memory=4096), Segment(PATTERN, pattern, flags=4),
                  Segment(STORED, b"", flags=6, memory=65536),
                  Segment(buffer & ~4095, b"", flags=6, memory=65536), *more])[0]


# what is called, and how many instructions that is: with slices in a buffer, with none, and with a
# null buffer
KINDS: dict[str, Any] = {"save": ([calls("save")], (12, 11, 9)),
                         "disable": ([calls("disable")], (14, 13, 11)),
                         "tail": ([calls("disable"), *TAIL], (14 + 18, 13 + 17, 11 + 15))}


def takes(kind: Any, slices: Any, buffer: Any = BUFFER) -> Any:
    """The instructions of a kind, without the first call."""
    some, none, null = KINDS[kind][1]
    return null if not buffer else none if not slices else some + 5 * slices * (2 if kind == "tail"
                                                                                else 1)


def counted(kind: Any, slices: Any, svl: Any, buffer: Any = BUFFER) -> Any:
    """A program that calls one kind and stores what ZA is then, where it is on; and the count of
    its run."""
    called, stores = KINDS[kind][0], STORES if kind != "disable" else []
    vectors = svl // 8
    count = len(FILLS) - 1 - 5 + 5 * vectors + 1 + 1 + takes(kind, slices,
                                                             buffer) + (len(stores)
                                                                        and len(stores) - 1 - 5
                                                                        + 5 * vectors) + 3
    return program([*FILLS, SET_BLOCK, *called, *stores], block(slices, buffer)), count


def counts() -> Iterator[Any]:
    """Each kind with as many slices as may be at each length, and with no buffer."""
    for svl in LENGTHS:
        for slices in sorted({0, 1, 16, svl // 8, *[255] * (svl == 2048)}):
            for kind in KINDS:
                yield f"lazy-{kind}-of-{slices}-at-{svl}", *counted(kind, slices, svl), {"svl": svl}
    for kind in KINDS:
        for slices in (0, 1, 32, 65535):
            yield f"lazy-{kind}-of-{slices}-without-a-buffer", *counted(kind, slices, 256, 0), {}


def stops() -> Iterator[Any]:
    """Calls where there is no block, a block that is none, and memory that cannot be accessed."""
    ends = lambda *parts: [*FILLS, *parts]
    yield "lazy-save-of-no-block", program(ends(CLEAR_BLOCK, calls("save")), block(32)), {}
    yield "lazy-disable-of-no-block", program(ends(CLEAR_BLOCK, calls("disable")), block(32)), {}
    yield "lazy-tail-of-za-that-was-kept", program(ends(SET_BLOCK, *TAIL, *STORES), block(32)), {}
    yield "lazy-tail-of-no-block-and-za-on", program(ends(CLEAR_BLOCK, *TAIL, *STORES),
                                                     block(2)), {}
    yield "lazy-restore-while-za-is-dormant", program(ends(SET_BLOCK, 0xAA1303E0, calls("restore")),
                                                      block(32)), {}
    for byte in range(10, 16):
        reserved = bytes(byte - 10) + b"\1" + bytes(15 - byte)
        yield f"lazy-save-of-a-block-with-byte-{byte}", program(ends(SET_BLOCK, calls("save")),
                                                                block(32, reserved=reserved)), {}
        yield f"lazy-disable-of-a-block-with-byte-{byte}", program(ends(SET_BLOCK,
                                                                        calls("disable")),
                                                                   block(32, reserved=reserved)), {}
        yield f"lazy-restore-of-a-block-with-byte-{byte}", program(ends(CLEAR_BLOCK, *TAIL),
                                                                   block(32, reserved=reserved)), {}
    # all of ZA is seen after it: 32 slices of 32, and 31
    for slices in (32, 31):
        yield f"lazy-tail-with-{slices}-slices-seen", program(ends(SET_BLOCK, calls("disable"),
                                                                   *TAIL), block(slices)), {}
    # a block whose second half is in another page, which is there or not
    for name, memory in (("over-two-pages", 4096), ("over-a-page-end", 0)):
        halves = ([Segment(0x600000, bytes(4088) + block(32)[:8], flags=6)]
                  + [Segment(0x601000, block(32)[8:], flags=4, memory=4096)] * bool(memory))
        for kind in KINDS:
            yield f"lazy-{kind}-of-a-block-{name}", program(
                [*FILLS, *place(19, 0x600000), add(19, 19, 4088), SET_BLOCK, *KINDS[kind][0]],
                block(32), more=halves), {}
    # a buffer that ends where nothing is mapped, up to its last byte and past it
    for name, buffer in (("up-to-a-page-end", BUFFER + 65536 - 1024),
                         ("over-a-page-end", BUFFER + 65536 - 1008),
                         ("of-no-page", BUFFER + 65536)):
        for kind in ("save", "tail"):
            yield f"lazy-{kind}-to-a-buffer-{name}", program(ends(SET_BLOCK, *KINDS[kind][0]),
                                                             block(32, buffer), BUFFER), {}
    read_only = [Segment(0x600000, b"", flags=4, memory=4096)]
    yield "lazy-disable-to-a-buffer-that-cannot-be-written", program(ends(SET_BLOCK,
                                                                          calls("disable")),
                                                                     block(32, 0x600000),
                                                                     more=read_only), {}


# ---- functions that are called while ZA is dormant

# mov x21, x30; mov x30, x21; ret; strh w9, [x19, #8]; str x9, [x2]
KEEPS_LINK, LINK, RET, SET_SLICES, SET_BYTES = (0xAA1E03F5, 0xAA1503FE, 0xD65F03C0, 0x79001269,
                                                0xF9000049)
# vector 1 of ZA becomes other bytes of the pattern
CHANGES_ZA = [*place(2, PATTERN), add(2, 2, 0x80), movz(12, 1), LOAD]


def callees() -> Iterator[Any]:
    """A program for each way in which a function that is called gives ZA back or loses it: the tail
    brings back what there is, and ZA is stored. Two functions are lawful; each of the others breaks
    one rule of those."""
    saves = lambda *then: [KEEPS_LINK, calls("disable"), *then, LINK, RET]
    for name, body in {
        "saves-and-has-its-own": saves(SMSTART_ZA, *CHANGES_ZA, SMSTOP_ZA),
        "keeps": [add(5, 5, 1), RET],
        "changes-what-it-kept": [*CHANGES_ZA, RET],
        "turns-za-off-unsaved": [SMSTOP_ZA, RET],
        "clears-the-pointer-unsaved": [CLEAR_BLOCK, RET],
        "saves-and-sets-the-pointer": saves(SET_BLOCK),
        "saves-and-leaves-za-on": [KEEPS_LINK, calls("save"), CLEAR_BLOCK, *CHANGES_ZA, LINK, RET],
        "saves-and-turns-za-on": saves(SMSTART_ZA, *CHANGES_ZA),
        "saves-and-changes-the-block": saves(movz(9, 1), SET_SLICES),
        "saves-and-changes-the-buffer": saves(*place(2, BUFFER), movz(9, 0x1234), SET_BYTES),
        "saves-and-changes-x19": saves(add(19, 19, 16)),
    }.items():
        for slices in (16, 1):
            yield f"lazy-callee-{name}-{slices}-of-16", program([*FILLS, SET_BLOCK, calls("callee"),
                                                                 *TAIL, *STORES, *EXIT, "callee",
                                                                 *body],
                                                                block(slices)), {"svl": 128}


# ---- signals and moves

# the handler has ZA of its own, which it lets DISABLE save and the tail bring back, and posts the
# signal again, until it was there so many times. Its block is
# behind the program's, and behind that are how often it was there, and the first vector of its ZA
NOP, OWN_BLOCK, TIMES = 0xD503201F, 16, 16
OWN = [SMSTART, PTRUE_P0_B, index(0, 1, 1), dup(1, 3), SMOPA_ZA0_Z0_Z1, SMSTOP_SM,
       *place(19, BLOCK), add(19, 19, OWN_BLOCK), SET_BLOCK]


def again(times: Any) -> Any:
    """Posts the signal again."""
    return [at(LDR, 9, 19, TIMES), add(9, 9, 1), at(STR, 9, 19, TIMES), subs(31, 9, times),
            to("enough", EQ), *posts(5), "enough"]


def handled(slices: Any, times: Any, pads: Any = (0, 0)) -> Any:
    """A program that posts a signal, then calls DISABLE and makes the tail, where the block says so
    many slices; there are so many instructions more at its start, and in its handler."""
    handler = ["handler", *[NOP] * pads[1], *OWN, calls("disable"), *TAIL, movz(12, 0),
               add(2, 19, 32), STORE, *again(times), *ask(RETURN)]
    begins = [*[NOP] * pads[0], *sets(s5="handler"), *FILLS, SET_BLOCK, *posts(5)]
    return program([*begins, calls("disable"), *TAIL, *STORES, *EXIT, *handler],
                   block(slices) + block(2, BUFFER + 0x8000))


# the slice at which a handler returns one instruction before the next poll, and the instructions
# that make it so
EACH, PADS = 40, (24, 3)


def begun_before(file: Any) -> Any:
    """The places before whose instruction a handler begins, and those of DISABLE's instructions and
    of the tail's as they are executed without signals."""
    thread, begun, before = Thread(file, 1_000_000, 128, 128, EACH), [], (0, 0)
    while thread.turn() is None:
        if thread.depth > before[0]:
            begun.append(before[1])
        before = thread.depth, thread.pc
    alone, executed = Thread(file, 1_000_000, 128, 128, 1_000_000), []
    while alone.turn() is None:
        executed.append(alone.pc)
    start = executed.index(place_of(file, DISABLE))
    return begun, executed[start:executed.index(place_of(file, TAIL[:4]) + 4 * len(TAIL))]


def place_of(file: Any, words: Any) -> Any:
    """The address at which the text, which is the first load, has these words."""
    at, = struct.unpack_from("<Q", file, struct.unpack_from("<Q", file, 32)[0] + 8)
    return TEXT + file.index(text_of(words), at) - at


def interrupted() -> Iterator[Any]:
    """That program with a poll each so many instructions, and with a handler before each
    instruction of DISABLE and of the tail."""
    for interval in range(1, 41):
        yield f"lazy-3-slices-with-signals-each-{interval}", handled(3, 12), {"svl": 128,
                                                                              "slice": interval}
    for slices, times in ((3, 70), (16, 210)):
        file = handled(slices, times, PADS)
        begun, executed = begun_before(file)
        assert begun[:len(executed)] == executed and len(executed) == takes("tail", slices)
        yield f"lazy-{slices}-slices-with-a-signal-at-each-instruction", file, {"svl": 128,
                                                                                "slice": EACH}


def programs() -> Iterator[Any]:
    """All of these: the name of each, the file and the options of its run; of those whose
    instructions are known the report has the number."""
    for name, file, count, options in counts():
        yield name, file, options, count
    for name, file, options in [*stops(), *callees(), *interrupted()]:
        yield name, file, options, None


def lazy_rows() -> Any:
    """Rows as make_rows.py has them. The number of instructions of each kind is asked for by
    itself, beside the report."""
    rows, files = [], {}
    for name, file, options, count in programs():
        files[name], text = file, report(file, **options)
        assert count is None or f"\ncount {count}\n" in text, name
        rows.append((f"{name}.elf", 0, file, text, {"run": "", **options}))
    for name, program_name, options, plan in moves():
        status, text = sim(files[program_name], plan.encode(), **options)
        rows.append((f"plan-{name}.plan", status, plan.encode(), text,
                     {"sim": "", f"{program_name}.elf": "", **options}))
    return rows


def moves() -> Iterator[Any]:
    """The name of each plan, its program, the options and the plan: a thread is moved to another
    core between two instructions of DISABLE and of the tail, and between all of them."""
    begun = len(FILLS) - 1 - 5 + 5 * 16 + 2
    for turns in range(begun, begun + takes("tail", 1) + 1):
        yield (f"lazy-moves-after-{turns - begun}", "lazy-tail-of-1-at-128",
               {"svl": 128, "cores": 2}, f"fetch 0\nrun 0 {turns}\noffer 0\nfetch 1\nrun 1 10000\n")
    for svl in (128, 512):
        turns = 400 if svl == 128 else 1000
        yield f"lazy-moves-after-each-at-{svl}", f"lazy-tail-of-16-at-{svl}", {"svl": svl, "cores": 2}, "".join(
            f"fetch {core}\nrun {core} 1\noffer {core}\n"
            for core in (0, 1) * (turns // 2)) + "fetch 0\nrun 0 10000\n"

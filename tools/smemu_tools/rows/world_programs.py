"""Programs of several threads. Each thread starts with its number in X0 and the number of threads
in X1."""
from __future__ import annotations

from smemu_tools.model.elf import Segment, build, elf, text_of
from smemu_tools.rows.instructions import EXIT, SVC, add, address, laid_out, movz, subs, to, unless

EQ, NE = 0, 1
TEXT, DATA = 0x400000, 0x410000
AT_TEXT = (TEXT >> 16, 1)
LDR, STR, STUR, LDUR = 0xF9400000, 0xF9000000, 0xF8000000, 0xF8400000
LDADD, SWP, CAS, STLR = 0xF8200000, 0xF8208000, 0xC8A07C00, 0xC89FFC00
STR_AT_INDEX, ADD_REGISTERS, COMPARE = 0xF8207800, 0x8B000000, 0xEB00001F
SMSTART, SMSTOP, SETFFR = 0xD503477F, 0xD503467F, 0x252C9000
SMSTART_SM, SMSTOP_SM = 0xD503437F, 0xD503427F
PTRUE_P0_B, PTRUE_P0_B_VL4, PTRUE_P1_B, ADD_Z1_Z1_Z0, SMOPA_ZA0_Z0_Z1, SMOPA_ZA1_Z0_Z0 = (
    0x2518E3E0, 0x2518E080, 0x2518E3E1, 0x04200021, 0xA0810000, 0xA0802401)
BRK, CBNZ, BR_XZR, SUB_SP_4096, DUP_REGISTER = (0xD4200000, 0xB5000000, 0xD61F03E0, 0xD14007FF,
                                                0x05203800)
SIGNAL = 7


def shared_words(rd: int) -> int:
    """The address of the first shared word."""
    return movz(rd, 0x7F00, 2)


def number(name: int, *registers: int) -> int:
    """The word with registers at its lowest bits, at 9:5 and at 20:16, as many as are given."""
    return name | sum(register << at for register, at in zip(registers, (0, 5, 16)))


def at(name: int, rt: int, rn: int, offset: int = 0) -> int:
    """A load or a store of 64 bits at an offset in bytes."""
    return number(name, rt, rn) | offset // 8 << 10


def index(zd: int, start: int, step: int) -> int:
    return 0x04204000 | (step & 31) << 16 | (start & 31) << 5 | zd


def dup(zd: int, value: int) -> int:
    return 0x2538C000 | (value & 255) << 5 | zd


def copy(rd: int, rn: int) -> int:
    return add(rd, rn, 0)


def ask(service: int) -> tuple[int, int]:
    """A call whose arguments are there."""
    return movz(8, service), SVC


# each thread adds 1 to shared word 0 that often
def adds(times: int) -> bytes:
    return elf(laid_out(shared_words(0), movz(1, 1), movz(3, times), "loop", number(LDADD, 2, 0, 1),
                        subs(3, 3, 1), to("loop", NE), *EXIT))


# each thread draws a ticket from the last shared word, and stores its number and 100 in the word of
# its number, which is its status
NUMBERS = elf(laid_out(shared_words(3), movz(4, 1), *ask(178), add(5, 0, 100),
                       number(STR_AT_INDEX, 5, 3, 0), add(7, 3, 0xFF8), number(LDADD, 6, 7, 4),
                       movz(8, 93), SVC))

# each thread draws three tickets and yields after each; what it stores in its stack and its data
# stays its own; X0 after a yield is zero
YIELDS = build([Segment(TEXT,
                        text_of(laid_out(copy(20, 0), shared_words(3), movz(4, 1), movz(9, 3),
                                         movz(10, DATA >> 16, 1), add(21, 20, 40),
                                         number(STUR, 21, 31) | 0x1F8 << 12, at(STR, 20, 10, 16),
                                         "loop", number(LDADD, 6, 3, 4), add(11, 0, 1), *ask(124),
                                         add(12, 0, 1), subs(9, 9, 1), to("loop", NE),
                                         number(LDUR, 13, 31) | 0x1F8 << 12, at(LDR, 14, 10, 16),
                                         copy(0, 6), movz(8, 93), SVC))),
                Segment(DATA, bytes(range(64)), flags=6)])[0]

# each thread takes a lock five times, which is shared word 0, and adds 1 to word 1 while it has it;
# where it is taken it yields
LOCK = elf(laid_out(shared_words(3), movz(5, 1), movz(9, 5), "take", movz(4, 0),
                    number(CAS, 5, 3, 4), (CBNZ | 4, "wait"), at(LDR, 6, 3, 8), add(6, 6, 1),
                    at(STR, 6, 3, 8), number(STLR, 31, 3), subs(9, 9, 1), to("take", NE), *EXIT,
                    "wait", *ask(124), to("take")))

# thread 0 posts to each other thread, and once to a thread that is not there; thread 1 has no
# handler, thread 2 exits at once, and each
# other one waits for its handler, which puts the signal where the frame keeps X9; their statuses
# are their numbers and that
POSTS = elf(laid_out(copy(20, 0), copy(21, 1), unless(0, "post"), subs(31, 0, 1), to("wait", EQ),
                     subs(31, 0, 2), to("leave", EQ), movz(0, SIGNAL), address(1, "handler"),
                     *ask(134), "wait", add(11, 11, 1), unless(9, "wait"), "leave",
                     number(ADD_REGISTERS, 0, 20, 9), movz(8, 93), SVC, "post", movz(22, 1), "next",
                     copy(0, 22), movz(1, SIGNAL), *ask(131), add(22, 22, 1),
                     number(COMPARE, 31, 22, 21), to("next", NE), copy(0, 21), movz(1, SIGNAL),
                     *ask(131), copy(23, 0), to("leave"), "handler", at(STR, 0, 1, 16 + 8 * 9),
                     *ask(139)))

# each thread ends in a way of its own, and before it writes as many bytes of the text as its number
# and 5
ENDS = elf(laid_out(copy(20, 0), add(2, 0, 5), movz(0, 1), movz(1, *AT_TEXT), *ask(64),
                    shared_words(3), movz(4, 3),
                    *[part
                      for n, name
                      in enumerate(("exit", "break", "kill", "loop", "full", "frame", "data",
                                    "fetch", "sp", "stream"))
                      for part in (subs(31, 20, n), to(name, EQ))], "exit", number(LDADD, 5, 3, 4),
                    movz(0, 300), movz(8, 93), SVC, "break", number(SWP, 5, 3, 4), BRK | 9 << 5,
                    "kill", copy(0, 20), movz(1, 62), *ask(131), "loop", add(11, 11, 1), to("loop"),
                    "full", movz(0, 1), movz(2, 0x10, 1), *ask(64), "frame", SUB_SP_4096, *ask(139),
                    "data", at(STR, 4, 31, 8), "fetch", BR_XZR, "sp", add(31, 31, 8),
                    at(LDR, 4, 31, 8), "stream", SMSTART, SETFFR))

# each of two threads adds outer products of its own to tile 0, and draws a ticket after each
PRODUCTS = elf(laid_out((CBNZ | 0, "other"), SMSTART, PTRUE_P0_B, index(0, 1, 1), dup(1, 1),
                        to("begin"), "other", SMSTART, PTRUE_P0_B, index(0, -3, 2), dup(1, 7),
                        "begin", movz(9, 4), shared_words(3), movz(4, 1), "loop", SMOPA_ZA0_Z0_Z1,
                        ADD_Z1_Z1_Z0, number(LDADD, 5, 3, 4), subs(9, 9, 1), to("loop", NE),
                        copy(0, 5), movz(8, 93), SVC))

# each thread has a handler with ZA of its own, posts the signal to itself, and adds two outer
# products while it waits in streaming mode; the
# handler tells X9 of the frame
HANDLES = elf(laid_out(copy(20, 0), movz(0, SIGNAL), address(1, "handler"), *ask(134), copy(0, 20),
                       movz(1, SIGNAL), *ask(131), SMSTART, PTRUE_P0_B, index(0, 1, 3),
                       number(DUP_REGISTER, 1, 20), ADD_Z1_Z1_Z0, SMOPA_ZA0_Z0_Z1, "wait",
                       add(11, 11, 1), unless(9, "wait"), SMOPA_ZA0_Z0_Z1, copy(0, 9), movz(8, 93),
                       SVC, "handler", SMSTART, PTRUE_P1_B, dup(0, 9), SMOPA_ZA1_Z0_Z0,
                       at(STR, 0, 1, 16 + 8 * 9), SMSTOP, *ask(139)))

# each thread posts a signal to itself, whose handler posts another one, and that one's handler a
# third; each of them and the thread itself has ZA of
# its own, adds an outer product before it waits for the inner one and another after it, and hands
# on by a register in a frame what it was given
NESTS = elf(laid_out(copy(20, 0),
                     *[part for signal, name in ((5, "five"), (6, "six"), (7, "seven"))
                       for part in (movz(0, signal), address(1, name), *ask(134))], copy(0, 20),
                     movz(1, 5), *ask(131), SMSTART, PTRUE_P0_B, index(0, 1, 3),
                     number(DUP_REGISTER, 1, 20), ADD_Z1_Z1_Z0, SMOPA_ZA0_Z0_Z1, "wait",
                     add(11, 11, 1), unless(9, "wait"), SMOPA_ZA0_Z0_Z1, copy(0, 9), movz(8, 93),
                     SVC,
                     *[part for value, own, inner, signal in ((9, 9, 10, 6), (6, 10, 12, 7))
                       for part
                       in ({9: "five", 6: "six"}[value], copy(20 + own, 1), SMSTART, PTRUE_P1_B,
                           dup(0, value), SMOPA_ZA1_Z0_Z0, copy(0, 20), movz(1, signal), *ask(131),
                           f"wait-{own}", add(11, 11, 1), unless(inner, f"wait-{own}"), SMSTART,
                           PTRUE_P1_B, dup(0, value + 1), SMOPA_ZA1_Z0_Z0,
                           at(STR, inner, 20 + own, 16 + 8 * own), SMSTOP, *ask(139))], "seven",
                     copy(24, 1), SMSTART, PTRUE_P1_B, dup(0, 7), SMOPA_ZA1_Z0_Z0, movz(13, 77),
                     at(STR, 13, 24, 16 + 8 * 12), *ask(139)))

# thread 0 loads a shared word for ever, and the others add to it
FOREVER = elf(laid_out(shared_words(3), movz(4, 1), unless(0, "load"), number(LDADD, 2, 3, 4),
                       number(LDADD, 2, 3, 4), *EXIT, "load", at(LDR, 1, 3), to("load")))

# threads that use vectors in ways of their own: thread 1 not at all; thread 2 has a handler of
# scalar instructions, posts the signal to itself and
# waits for it; thread 3 enters streaming mode after scalar turns, and leaves it; thread 0 and those
# from 4 on add outer products of one element
BANKS = elf(laid_out(copy(20, 0), subs(31, 0, 1), to("scalar", EQ), subs(31, 0, 2),
                     to("handles", EQ), subs(31, 0, 3), to("enters", EQ), SMSTART, PTRUE_P0_B_VL4,
                     index(0, 1, 1), number(DUP_REGISTER, 1, 20), ADD_Z1_Z1_Z0, movz(9, 6), "sums",
                     SMOPA_ZA0_Z0_Z1, subs(9, 9, 1), to("sums", NE), copy(0, 20), movz(8, 93), SVC,
                     "scalar", movz(9, 20), "count", subs(9, 9, 1), to("count", NE), movz(0, 21),
                     movz(8, 93), SVC, "handles", movz(0, SIGNAL), address(1, "handler"), *ask(134),
                     copy(0, 20), movz(1, SIGNAL), *ask(131), "wait", add(11, 11, 1),
                     unless(9, "wait"), copy(0, 9), movz(8, 93), SVC, "enters", movz(9, 10),
                     "before", subs(9, 9, 1), to("before", NE), SMSTART_SM, PTRUE_P0_B_VL4,
                     index(2, 3, 5), add(11, 11, 1), SMSTOP_SM, movz(9, 5), "after", subs(9, 9, 1),
                     to("after", NE), movz(0, 23), movz(8, 93), SVC, "handler", add(12, 12, 1),
                     at(STR, 0, 1, 16 + 8 * 9), *ask(139)))

# each thread adds outer products of one element, and yields after each, which leaves streaming
# mode; it asks nothing of the others
TURNS = elf(laid_out(copy(20, 0), movz(9, 4), "loop", SMSTART, PTRUE_P0_B_VL4, index(0, 1, 1),
                     number(DUP_REGISTER, 1, 20), ADD_Z1_Z1_Z0, SMOPA_ZA0_Z0_Z1, *ask(124),
                     subs(9, 9, 1), to("loop", NE), copy(0, 20), movz(8, 93), SVC))

"""The loops whose instructions of the processor tools/smemu-tools count counts, each by its
name."""
from __future__ import annotations

import typing
from typing import Any

from smemu_tools.gate.times import (ACCESSES, GROWN, MATRIX_LOOPS, MIXED, TWELVE, matrix_source,
                                    paged, vector_source)
from smemu_tools.model.elf import elf


class Loop(typing.NamedTuple):
    """A loop: its program, as a file or a source, two budgets that are whole turns apart, and the
    command that runs it, with its options."""
    code: bytes | str
    budgets: tuple[int, int]
    options: tuple = ()
    command: str = "run"


def source_of(body: Any, first: Any = "", after: Any = "") -> Any:
    """A source of 65,535 turns of lines, which are parted by semicolons, with `subs` and `b.ne`. X1
    is the middle of a page of zeros, X9 is 8, and SP is a page below its first place."""
    parts = lambda text: "\n    ".join(part.strip() for part in text.split(";"))
    return f"""    .text
_start:
    {parts("movz x3, #65535; adr x1, page; movz x9, #8; sub sp, sp, #1, lsl #12" + (first and "; ") + first)}
next:
    {parts(body + (body and "; ") + "subs x3, x3, #1; b.ne next")}
    movz x8, #93
    svc #0
{after}    .data
    .zero 2048
page:
    .zero 2048
"""


# Where a loop has no system call a thread polls at each multiple of a thousand instructions, so no
# budget is one.
TURNS = {turn: (2_503, 2_503 + more) for turn, more in
         {2: 10_000, 3: 12_000, 4: 12_000, 5: 10_000, 7: 7_000, 10: 10_000, 18: 18_000}.items()}

RETURNS, ADDS = "one:\n    ret\n", "one:\n    add x5, x5, #1\n    ret\n"
# a slot of a stack frame by an index
SLOT = "and x5, x4, #0xff8; ldr x6, [sp, x5]; add x6, x6, #1; str x6, [sp, x5]; add x4, x4, #8"
# what a search over bytes is made of
MIX = ("add z1.b, z0.b, z2.b; mla z3.s, p1/m, z0.s, z2.s; zip1 z4.h, z0.h, "
       "z1.h; cmphs p2.b, p1/z, z4.b, z0.b; uaddv d5, p1, z1.b")
MIX_FIRST = "ptrue p1.b, all; index z0.b, #1, #3; index z2.b, #2, #5"

# eight instructions of a group, beside `subs` and `b.ne`
GROUPS = {
    "sums of 32 bits": "add w5, w5, #1; sub w6, w5, #3; adds w7, w5, w6; subs w10, "
    "w7, w5; add w11, w10, w7, lsl #2; sub w5, w11, w6; "
                       "adds w6, w5, #9; add w7, w6, w5",
    "other sums": "add x5, x6, x7, lsl #2; sub x6, x5, x7, asr #3; add x7, x5, w6, "
    "sxtw; subs x10, x5, x6, lsr #1; adc x11, x5, x6; "
                  "sbcs x5, x10, x11; add x6, x5, #1, lsl #12; sub x7, x6, w5, uxtb",
    "compares, conditional compares": "subs xzr, x5, #3; ccmp x5, #3, #0, ne; subs "
    "xzr, x5, x6; ccmn x6, x5, #4, eq; subs wzr, w5, #3; "
                                      "ccmp w5, w6, #2, ge; adds xzr, x5, x6; ccmp x5, x6, #8, lt",
    "movz, movk, movn": "movz x5, #1; movk x5, #2, lsl #16; movk x5, #3, lsl #32; "
    "movk x5, #4, lsl #48; movn x6, #5; movz w7, #6; "
                        "movk w7, #7, lsl #16; movn w10, #8",
    "logic with an immediate": "and x5, x4, #0xff8; orr x6, x5, #0x1; eor x7, x6, #0xffff; "
    "ands x10, x7, #0xf0; and w5, w6, #0xff; "
                               "orr w6, w5, #0x80000000; eor w7, w6, #0x3; ands wzr, w7, #0x1",
    "logic with a register": "and x5, x6, x7; orr x6, x5, x7, lsl #3; eor x7, "
    "x6, x5; ands x10, x7, x6; bic x5, x6, x7, lsr #2; orn x6, x5, x7; "
                             "eor w7, w6, w5; bics w10, w7, w6, ror #5",
    "bit-field moves": "ubfm x5, x6, #3, #63; ubfm x6, x5, #60, #59; sbfm x7, "
    "x6, #0, #31; bfm x10, x7, #8, #15; ubfm w5, w6, #4, #11; "
                       "sbfm w6, w5, #0, #7; bfm w7, w6, #16, #3; extr x10, x5, x6, #7",
    "conditional selects": "csel x5, x6, x7, eq; csinc x6, x5, x7, ne; csinv x7, x6, "
    "x5, ge; csneg x10, x7, x6, lt; csel w5, w6, w7, hi; "
                           "csinc w6, wzr, wzr, ne; csinv w7, w6, w5, eq; csneg w10, w7, w6, vs",
    # half of them are taken
    "cbz, tbz": "cbz x9, .+8; cbnz x9, .+4; tbz x9, #3, .+8; tbnz x9, #3, "
    ".+4; cbz w10, .+4; cbnz w10, .+8; tbz x10, #40, .+4; tbnz x10, #0, .+8",
    "products": "madd x5, x6, x7, xzr; msub x6, x5, x7, x6; madd w7, w6, w5, w7; msub "
    "w10, w7, w6, w5; smaddl x5, w6, w7, x5; "
                "umaddl x6, w5, w7, x6; smulh x7, x6, x5; umulh x10, x7, x6",
    "quotients": "udiv x5, x3, x9; sdiv x6, x3, x9; udiv w7, w3, w9; sdiv w10, w3, w9; "
    "udiv x5, x9, x3; sdiv x6, x9, x3; udiv w7, w9, w3; "
                 "sdiv w10, w9, w3",
    "shifts by a register": "lslv x5, x3, x9; lsrv x6, x5, x9; asrv x7, x6, x9; rorv "
    "x10, x7, x9; lslv w5, w3, w9; lsrv w6, w5, w9; "
                            "asrv w7, w6, w9; rorv w10, w7, w9",
    "one source": "rbit x5, x3; rev16 x6, x5; rev32 x7, x6; rev x10, x7; "
    "clz x5, x3; cls x6, x3; rbit w7, w3; clz w10, w3",
    "adr, adrp": "adr x5, .+8; adr x6, .+4096; adrp x7, .+4096; adr x10, .-4; "
    "adr x5, .+12; adrp x6, .-8192; adr x7, .+16; adr x10, .+20",
    "loads of each size": "ldrb w5, [x1, #1]; ldrh w6, [x1, #2]; ldr w7, [x1, #4]; "
    "ldr x10, [x1, #8]; ldrb w5, [x1]; ldrh w6, [x1]; ldr w7, [x1]; "
                          "ldr x10, [sp, #16]",
    "stores of each size": "strb w5, [x1, #1]; strh w6, [x1, #2]; str w7, [x1, #4]; "
    "str x10, [x1, #8]; strb w5, [x1]; strh w6, [x1]; str w7, [x1]; "
                           "str x10, [sp, #16]",
    "loads with the sign": "ldrsb x5, [x1, #1]; ldrsh x6, [x1, #2]; ldrsw x7, [x1, #4]; "
    "ldrsb w10, [x1]; ldrsh w5, [x1]; ldrsb x6, [x1]; "
                           "ldrsh x7, [x1]; ldrsw x10, [x1]",
    "accesses by a register": "ldr x5, [x1, x9]; str x6, [x1, x9, lsl #3]; ldr w7, "
    "[x1, w9, uxtw #2]; str w10, [x1, w9, sxtw]; ldrb w5, [x1, x9]; "
                              "strb w6, [x1, x9]; ldrh w7, [x1, x9, lsl #1]; ldr x10, "
                              "[x1, x9, lsl #3]",
    "unscaled accesses": "ldur x5, [x1, #-8]; stur x6, [x1, #-16]; ldur w7, [x1, #-4]; "
    "stur w10, [x1, #-12]; ldurb w5, [x1, #-1]; "
                         "sturb w6, [x1, #-3]; ldurh w7, [x1, #-2]; ldursw x10, [x1, #-4]",
    "indexed accesses": "ldr x5, [x1], #8; str x6, [x1, #8]!; ldr w7, [x1, #-4]!; str "
    "w10, [x1], #-4; ldrb w5, [x1], #1; strb w6, [x1, #-1]!; "
                        "ldr x7, [x1], #8; str x10, [x1, #-16]!",
    "pairs": "stp x5, x6, [x1]; ldp x7, x10, [x1]; stp x5, x6, [x1, #-16]!; "
    "ldp x7, x10, [x1], #16; stp w5, w6, [x1, #8]; ldp w7, w10, [x1, #8]; "
             "stp x5, x6, [sp, #32]; ldp x7, x10, [sp, #32]",
    "literals": "ldr x5, .+40; ldr w6, .+36; ldrsw x7, .+32; ldr x10, .+28; "
    "ldr x5, .+24; ldr w6, .+20; ldrsw x7, .+16; ldr x10, .+12",
}
LITTLE = {
    "subs, b.ne": Loop(elf(GROWN), TURNS[2]),
    "add, eor, madd, subs, b.ne": Loop(elf(MIXED), TURNS[5]),
    "bl, add, ret, subs, b.ne": Loop(source_of("bl one", after=ADDS), TURNS[5]),
}
# more loops, whose replays and checks of marked calls are measured beside these
CHECKED = {
    **LITTLE,
    "add, subs, b.ne": Loop(source_of("add x5, x5, #1"), TURNS[3]),
    "b, subs, b.ne": Loop(source_of("b .+4"), TURNS[3]),
    "bl, ret, subs, b.ne": Loop(source_of("bl one", after=RETURNS), TURNS[4]),
    "adr, blr, ret, subs, b.ne": Loop(source_of("adr x6, one; blr x6", after=RETURNS), TURNS[5]),
    "a call in each 18": Loop(source_of("bl one; "
                                        + "; ".join(f"add x{5 + n % 3}, x{6 + n % 2}, #{n}"
                                                    for n in range(13)), after=ADDS), TURNS[18]),
    "mrs of TPIDR2_EL0, subs, b.ne": Loop(source_of("mrs x5, tpidr2_el0"), TURNS[3]),
    "svc of no call, subs, b.ne": Loop(source_of("svc #0", "movz x8, #1"), TURNS[3]),
    "smstart, add, smstop, subs, b.ne": Loop(source_of("smstart; add x5, x5, #1; smstop"),
                                             TURNS[5]),
}
REPLAYED, ABI_CHECKED = ", replay", ", abi-check"
# the loop that the debugger goes through, to its first answer and to an address of no instruction
SEARCHED, ANSWERED, UNMET = ("subs, b.ne", ", debug up to its first answer",
                             ", break at an address that is not met")
MIXED_VECTORS = "add, mla, zip1, cmphs, uaddv, subs, b.ne"

LOOPS = {
    **LITTLE,
    "ldr, add, str, subs, b.ne over a page": Loop(paged(ACCESSES),
                                                  (2_500, 2_500 + 4 * (512 * 5 + 4))),
    "and, ldr, add, str, add, subs, b.ne by an index": Loop(source_of(SLOT), TURNS[7]),
    "ld1w, 10 others, st1w, 128 bits": Loop(vector_source(TWELVE), (2_500, 16_500), ("--vl", 128)),
    **{f"{MIXED_VECTORS}, {vl} bits": Loop(source_of(MIX, MIX_FIRST), TURNS[7], ("--vl", vl))
       for vl in (128, 2048)},
    "8 smopa of bytes, subs, b.ne, 2048 bits": Loop(matrix_source(MATRIX_LOOPS["8 smopa of bytes"],
                                                                  200), (500, 1_500),
                                                    ("--svl", 2048)),
    **{name: Loop(source_of(body), TURNS[10]) for name, body in GROUPS.items()},
    **{name + how: loop._replace(command=how[2:]) for name, loop in CHECKED.items()
       for how in (REPLAYED, ABI_CHECKED)},
    "subs, b.ne, ckpt before the end": LITTLE["subs, b.ne"]._replace(command="ckpt"),
    SEARCHED + ANSWERED: LITTLE[SEARCHED]._replace(command="debug"),
    SEARCHED + UNMET: LITTLE[SEARCHED]._replace(command="break"),
}

# instructions of vectors and predicates, of which eight make a loop with `subs` and `b.ne`; these
# are printed where it is asked for
VECTORS = {
    "add": "add z1.b, z0.b, z2.b", "add, merging": "add z1.s, p1/m, z1.s, z2.s",
    "mla": "mla z3.s, p1/m, z0.s, z2.s", "zip1": "zip1 z4.h, z0.h, z1.h",
    "sel": "sel z5.s, p1, z4.s, z3.s", "eor": "eor z3.d, z1.d, z2.d", "asr": "asr z3.s, z3.s, #3",
    "cmphs": "cmphs p2.b, p1/z, z4.b, z0.b",
    "ptrue": "ptrue p2.b, all", "whilelo": "whilelo p2.b, xzr, x9", "uaddv": "uaddv d5, p1, z1.b",
    "ld1w": "ld1w {z1.s}, p1/z, [x10]",
    "st1w": "st1w {z1.s}, p1, [x10]", "ldr of a vector": "ldr z1, [x10]",
    "str of a vector": "str z1, [x10]",
}
ZA = {"mova from ZA": "mova z1.s, p1/m, za0h.s[w12, 0]",
      "smopa of bytes": "smopa za0.s, p1/m, p1/m, z0.b, z2.b",
      "smopa of halfwords": "smopa za0.d, p1/m, p1/m, z0.h, z2.h"}
MORE = {f"{name}, {length} bits": Loop(source_of("; ".join([line] * 8), first + "adr x10, page"),
                                       TURNS[10], (option, length))
        for several, first, option
        in ((VECTORS, f"{MIX_FIRST}; ", "--vl"), (ZA, f"smstart; {MIX_FIRST}; ", "--svl"))
        for name, line in several.items() for length in (128, 2048)}

"""Programs of loops: of words that change, of pages that share places, of branches and accesses
that raise after some turns, of shared words between other accesses, and of each form of scalar
instruction and of load and store with all registers that are read apart.

Their reports come from tools/smemu_tools/model/expected.py with all instructions that its
interpreters know.
"""
from __future__ import annotations

import random
import re
from typing import Any, Iterator

from smemu_tools.model.elf import Segment, build, text_of
from smemu_tools.model.expected import Thread
from smemu_tools.model.expected_others import KnowsAll
from smemu_tools.rows.instructions import (BL, EXIT, SVC, add, address, calls, laid_out, movz, subs,
                                           to)
from smemu_tools.rows.vector_edges import accesses as vector_accesses
from smemu_tools.rows.word_steps import number, words

CODE, DATA, SHARED, PAGE = 0x400000, 0x410000, 0x7F0000000000, 4096
NE, NOP, RET, ZERO = 1, 0xD503201F, 0xD65F03C0, 31
STR_X, STR_W, STRB, STP_W, LDR_X, LDR_W, LDRB = (0xF9000000, 0xB9000000, 0x39000000, 0x29000000,
                                                 0xF9400000, 0xB9400000, 0x39400000)
STR_X_AFTER, LDR_X_AFTER, LDR_W_AFTER, LDRB_AFTER, STP_X_AFTER, LDP_X_AFTER = (0xF8000400,
                                                                               0xF8400400,
                                                                               0xB8400400,
                                                                               0x38400400,
                                                                               0xA8800000,
                                                                               0xA8C00000)
BR, BLR, RETURN, EOR, ADD_REGISTER, CSEL, MADD, MRS_NZCV = (0xD61F0000, 0xD63F0000, 0xD65F0000,
                                                            0xCA000000, 0x8B000000, 0x9A800000,
                                                            0x9B000000, 0xD53B4200)
READ, READ_AND_EXECUTE, READ_AND_WRITE, ALL = 4, 5, 6, 7
NUMBERS = bytes(k * 37 & 255 for k in range(512))
# X9 counts the turns
TURN, ONE_MORE = [subs(9, 9, 1), to("next", NE)], add(5, 5, 1)


class KnowsAllWords(KnowsAll, Thread):
    """The interpreter's thread, with all instructions."""


def at(word: Any, target: Any, base: Any, offset: Any = 0) -> Any:
    """An access of a register by another one; the offset is the field of its word."""
    return word | offset << 10 | base << 5 | target


def after(word: Any, target: Any, base: Any, amount: Any) -> Any:
    """An access that adds an amount to its base then; of a pair X6 is the second."""
    return word | (6 << 10 | amount // 8 << 15 if word & 0x3E000000 == 0x28000000
                   else amount << 12) | base << 5 | target


def value(register: Any, given: Any) -> Any:
    """MOVZ and MOVK that give a register a number."""
    return [(0xF2800000 if k else 0xD2800000) | k << 21 | (given >> 16 * k & 0xFFFF) << 5 | register
            for k in range(4) if k == 0 or given >> 16 * k & 0xFFFF]


def file_of(code: Any, *others: Any, start: Any = CODE, flags: Any = READ_AND_EXECUTE) -> Any:
    return build([Segment(start, text_of(code), flags=flags), *others], entry=start)[0]


def data(flags: Any = READ_AND_WRITE, address: Any = DATA) -> Any:
    """A page of data, whose last bytes are not zero."""
    return Segment(address + PAGE - 256, NUMBERS[:256], flags=flags)


def next_page(flags: Any) -> Any:
    return Segment(DATA + PAGE, NUMBERS[256:], flags=flags)


# ---- words that change


def rewritten() -> Iterator[Any]:
    """Loops with a word that is written over by another one in each turn, which stands at the place
    `changed`: X2 and X3 are both words in turn."""
    swap = [EOR | 3 << 16 | 2 << 5 | 2, EOR | 3 << 16 | 2 << 5 | 3, EOR | 3 << 16 | 2 << 5 | 2]
    begin = [movz(9, 6), address(1, "changed"), *value(2, add(5, 5, 1)), *value(3, add(5, 5, 16))]
    store, end = at(STR_W, 2, 1), [*swap, *TURN, *EXIT]
    yield "next", [*begin, "next", store, "changed", add(5, 5, 0), *end]
    yield "further-on", [*begin, "next", store, *[add(6, 6, 1)] * 9, "changed", add(5, 5, 0), *end]
    yield "before", [*begin, "next", "changed", add(5, 5, 0), add(6, 6, 1), store, *end]
    yield "store-itself", [*begin, "next", add(6, 6, 1), "changed", store, *end]
    yield "first-of-the-turn", [*begin, to("next"), "next", "changed", add(5, 5, 0), *swap, store,
                                *TURN, *EXIT]
    yield "with-its-neighbour", [*begin, "next", at(STP_W, 2, 1) | 3 << 10, add(6, 6, 1), "changed",
                                 add(5, 5, 0), add(5, 5, 0), *end]
    yield "as-a-doubleword", [*begin, "next", ADD_REGISTER | 3 << 16 | 32 << 10 | 2 << 5 | 4,
                              at(STR_X, 4, 1), "changed", add(5, 5, 0), add(5, 5, 0), *end]
    # the second byte has the low six bits of the number that is added
    yield "in-one-byte", [movz(9, 6), address(1, "changed"), "next", add(2, 2, 4),
                          at(STRB, 2, 1, 1), add(6, 6, 1), "changed", add(5, 5, 0), *TURN, *EXIT]
    yield "by-an-atomic-sum", [movz(9, 6), address(1, "changed"), movz(2, 1 << 10), "next",
                               0xB8220024, add(6, 6, 1), "changed", add(5, 5, 0), *TURN, *EXIT]
    # dup z0.s, w2; ptrue p0.s, all; st1w {z0.s}, p0, [x1]
    yield "by-a-vector", [movz(9, 6), address(1, "changed"), *value(2, add(5, 5, 1)), 0x05A03840,
                          0x2598E3E0, "next", 0xE540E020, add(6, 6, 1), "changed",
                          *[add(5, 5, 0)] * 4, *TURN, *EXIT]
    yield "by-none-in-the-last-turn", [*begin, movz(3, 0), movz(9, 3), "next", store, add(6, 6, 1),
                                       "changed", add(5, 5, 0), *end]
    yield "by-a-branch", [*begin, *value(3, 0x14000002), "next", store, add(6, 6, 1), "changed",
                          add(5, 5, 0), add(5, 5, 64), *end]
    yield "to-leave", [*begin, *value(3, 0x54000001), *value(2, 0x54000000), "next", store,
                       add(6, 6, 1), *swap, subs(9, 9, 1), "changed", to("next", NE), *EXIT]


def rewritten_elsewhere() -> Iterator[Any]:
    """Loops that change a function of another page, one after the other by its own page and by the
    page below it."""
    function = CODE + PAGE
    begin = [movz(9, 6), *value(1, function), *value(2, add(5, 5, 1)), *value(3, add(5, 5, 16))]
    swap = [EOR | 3 << 16 | 2 << 5 | 2, EOR | 3 << 16 | 2 << 5 | 3, EOR | 3 << 16 | 2 << 5 | 2]
    page = Segment(function, text_of([add(5, 5, 0), RET]), flags=ALL, memory=PAGE)
    yield "in-another-page", [*begin, "next", at(STR_W, 2, 1), BLR | 1 << 5, *swap, *TURN,
                              *EXIT], [page]
    # the bytes before are the last of the page of the loop
    yield "over-the-end-of-the-page", [*begin, subs(4, 1, 4), "next",
                                       ADD_REGISTER | 2 << 16 | 32 << 10 | ZERO << 5 | 6,
                                       at(STR_X, 6, 4), BLR | 1 << 5, *swap, *TURN, *EXIT], [page]


def changing() -> Iterator[Any]:
    for name, parts in rewritten():
        yield f"word-changes-{name}", file_of(laid_out(*parts), flags=ALL), {}
    for name, parts, others in rewritten_elsewhere():
        code = laid_out(*parts)
        yield f"word-changes-{name}", file_of(code + [NOP] * (1024 - len(code)), *others,
                                              flags=ALL), {}
    for budget in range(12, 19):
        yield f"word-changes-until-{budget}", file_of(laid_out(*dict(rewritten())["next"]),
                                                      flags=ALL), {"budget": budget}


# ---- pages


def paged() -> Iterator[Any]:
    """Loops that leave their page and come back, whose places in a page are those of others, and at
    the ends of pages."""
    other = lambda address, *code: Segment(address, text_of(code), flags=READ_AND_EXECUTE)
    # the second words of the pages are executed in turn, so their places are the same; of the far
    # ones the pages' numbers are alike in their low bits too
    for name, distance in (("next", PAGE), ("after-4-mib", 1 << 22), ("after-16-mib", 1 << 24),
                           ("after-1-gib", 1 << 30)):
        code = laid_out(movz(9, 5), "next", add(5, 5, 1), BLR | 1 << 5, *TURN, *EXIT)
        yield f"same-places-{name}", file_of([*value(1, CODE + distance + 4),
                                              to("here")[0] | 1 << 5, *code],
                                             other(CODE + distance, NOP, add(5, 5, 16),
                                                   add(6, 5, 2), RET)), {}
    pages = [other(CODE + k * PAGE, NOP, add(5, 5, 1 << k), RET if k == 3 else add(1, 1, 1, True),
                   BR | 1 << 5) for k in (1, 2, 3)]
    code = laid_out("again", *value(1, CODE + PAGE + 4), BLR | 1 << 5, *TURN[:1], to("again", NE),
                    *EXIT)
    yield "same-places-of-four-pages", file_of([movz(9, 5), *code], *pages), {}
    same = [add(5, 5, 1), add(6, 5, 2), RET]
    yield "same-places-with-the-same-words", file_of(laid_out(movz(9, 5),
                                                              *value(1, CODE + 2 * PAGE),
                                                              *value(2, CODE + 3 * PAGE), "next",
                                                              BLR | 1 << 5, BLR | 2 << 5, *TURN,
                                                              *EXIT), other(CODE + 2 * PAGE, *same),
                                                     other(CODE + 3 * PAGE, *same)), {}
    for place in range(1016, 1026):
        code = laid_out(movz(9, 4), "next", add(5, 5, 1), calls("one"), add(6, 6, 2),
                        at(STR_X, 5, 31), at(LDR_X, 7, 31), *TURN, *EXIT, "one", add(7, 7, 3), RET)
        yield f"loop-from-place-{place}", file_of([add(31, 31, 0), (0xD10043FF),
                                                   0x14000000 | place - 2, *[NOP] * (place - 3),
                                                   *code]), {}
    forms = {"branch": [0x14000001], "conditional": [0x54000021 | 1],
             "call": [BL | 2, 0x14000002, RET], "load": [at(LDR_X, 6, 31)],
             "store": [at(STR_X, 6, 31)], "svc": [SVC], "literal": [0x58000006],
             "adr": [0x10000026], "tbz": [0x36000025], "compare": [0xEB05003F]}
    for name, words_of_form in forms.items():
        code = laid_out("next", add(5, 5, 1), *words_of_form, *TURN, *EXIT)
        # the form's first word is the last one of its page
        begin = [movz(9, 4), 0xD10043FF, movz(8, 124), 0x14000000 | 1022 - 3]
        yield f"last-of-its-page-{name}", file_of([*begin, *[NOP] * (1022 - len(begin)), *code]), {}
    for name, words_of_form in (("sum", [ONE_MORE]), ("untaken", [0x54000001]),
                                ("store", [at(STR_X, 5, 31, 0)])):
        begin = [0xD10043FF, movz(3, 7), subs(3, 3, 1), 0x54FFFFE1, 0x14000000 | 1023 - 4]
        yield f"falls-off-its-page-{name}", file_of([*begin, *[NOP] * (1023 - len(begin)),
                                                     *words_of_form]), {}


def raising() -> Iterator[Any]:
    """Loops that raise in their third turn: a branch to another address, and each kind of access at
    the end of its page."""
    targets = {"no-multiple-of-4": CODE + 6, "odd": CODE + 1, "no-page": CODE + 2 * PAGE,
               "data": DATA, "0": 0, "last-word": (1 << 64) - 4, "shared-word": SHARED}
    for name, target in targets.items():
        for kind, word in (("br", BR), ("blr", BLR), ("ret", RETURN)):
            begin = [movz(9, 3), address(1, "good"), *value(2, target)]
            choose = [subs(9, 9, 1), CSEL | 1 << 16 | 0 << 12 | 2 << 5 | 4]  # csel x4, x2, x1, eq
            code = laid_out(*begin, "next", add(5, 5, 1), *choose, word | 4 << 5, "good",
                            add(6, 6, 1), to("next"))
            yield f"third-{kind}-to-{name}", file_of(code, data()), {}
    accesses = {"ldr-x": after(LDR_X_AFTER, 4, 1, 8), "ldr-w": after(LDR_W_AFTER, 4, 1, 4),
                "ldrb": after(LDRB_AFTER, 4, 1, 1), "str-x": after(STR_X_AFTER, 4, 1, 8),
                "str-w": after(0xB8000400, 4, 1, 4), "strb": after(0x38000400, 4, 1, 1),
                "ldrsw": after(0xB8800400, 4, 1, 4), "ldrh": after(0x78400400, 4, 1, 2),
                "strh": after(0x78000400, 4, 1, 2), "ldp": after(LDP_X_AFTER, 4, 1, 16),
                "stp": after(STP_X_AFTER, 4, 1, 16), "ldr-x-before": 0xF8408C24,
                "str-x-before": 0xF8008C24, "ldr-by-index": 0xF8656824, "str-by-index": 0xF8256824,
                "ldur": 0xF8401024, "stur": 0xF8001024}
    sizes = {"ldr-x": 8, "ldr-w": 4, "ldrb": 1, "str-x": 8, "str-w": 4, "strb": 1, "ldrsw": 4,
             "ldrh": 2, "strh": 2, "ldp": 16, "stp": 16}
    for name, word in accesses.items():
        size = sizes.get(name, 8)
        for how, others, short in (("end", [data()], 2 * size),
                                   ("within-the-end", [data()], 3 * size - 1),
                                   ("read-only", [data(), next_page(READ)], 2 * size),
                                   ("next-page", [data(), next_page(READ_AND_WRITE)],
                                    3 * size - 1)):
            if short == 3 * size - 1 and size == 1:
                continue
            start = DATA + PAGE - short - {"ldr-x-before": 8, "str-x-before": 8}.get(name, 0) - {
                "ldur": 1, "stur": 1}.get(name, 0)
            moves = [] if name in sizes or "before" in name else [add(5, 5,
                                                                      8)] if "index" in name else [
                add(1, 1, 8)]
            yield f"third-{name}-at-{how}", file_of(laid_out(movz(9, 4), *value(1, start),
                                                             movz(4, 77), "next", word, *moves,
                                                             ADD_REGISTER | 4 << 16 | 7 << 5 | 7,
                                                             *TURN, *EXIT), *others), {}
    # SP goes down by 8 in each turn: the second access finds it at no multiple of 16
    for name, word in (("ldr", at(LDR_X, 4, 31)), ("str", at(STR_X, 4, 31)), ("ldp", 0xA94017E4),
                       ("strb", at(STRB, 4, 31)),
                       ("ldr-by-index", 0xF86568E4 & ~(31 << 5) | 31 << 5)):
        yield f"second-{name}-at-sp", file_of(laid_out(movz(9, 4), 0xD10083FF, "next", word,
                                                       0xD10023FF, *TURN, *EXIT)), {}


def with_shared_words() -> Iterator[Any]:
    """Loops of accesses of shared words between others, with as many operations as a journal's room
    allows and fewer."""
    base = value(1, SHARED) + value(2, DATA)
    # ldadd x6, x4, [x1]
    loads = [at(STR_X, 9, 1), at(LDR_X, 4, 2), at(LDR_X, 5, 1), at(STR_X, 5, 2, 1), 0xF8260024,
             at(LDR_X, 7, 1)]
    yield "shared-words-in-a-loop", file_of(laid_out(movz(9, 5), movz(6, 3), *base, "next", *loads,
                                                     *TURN, *EXIT), data()), {}
    yield "shared-words-in-a-loop-of-slices", file_of(laid_out(movz(9, 5), movz(6, 3), *base,
                                                               "next", *loads, *TURN, *EXIT),
                                                      data()), {"slice": 3}
    # from the last words of the region on
    yield "shared-words-up-to-the-end", file_of(laid_out(movz(9, 5), *value(1, SHARED + PAGE - 24),
                                                         *base[len(value(1, SHARED)):], "next",
                                                         after(STR_X_AFTER, 9, 1, 8),
                                                         at(LDR_X, 4, 2), *TURN, *EXIT), data(),
                                                Segment(SHARED + PAGE, NUMBERS,
                                                        flags=READ_AND_WRITE)), {}
    for name, word in (("word", at(LDR_W, 4, 1)), ("byte-store", at(STRB, 4, 1)),
                       ("pair", 0xA9401424), ("unaligned", at(LDR_X, 4, 1) & ~0x1000000 | 4 << 12)):
        yield f"shared-words-then-a-{name}", file_of(laid_out(movz(9, 5), *base, "next",
                                                              at(STR_X, 9, 1), at(LDR_X, 6, 1),
                                                              subs(31, 9, 3), 0x54000041, word,
                                                              *TURN, *EXIT)), {}


# ---- each form

# what is folded is X20 times an odd number, and what was written; X10 to X19 are read alone
FOLDED, FACTOR, FLAGS = 20, 21, 22
ENDS = [0, (1 << 64) - 1, 1 << 63, (1 << 63) - 1, 0xFFFFFFFF, 0x80000000, 0x7FFFFFFF, 63,
        0xFFFFFFFF00000001, 0x8000000080000000]
FOLD = lambda register: MADD | FACTOR << 16 | register << 10 | FOLDED << 5 | FOLDED
SUMS = re.compile("(add|sub|and|orr|eor|bic|orn|eon|adc|sbc)s?$|(adds|ands|subs|bics|csel|csinc|csinv|csneg|lslv|lsrv|asrv|rorv|udiv|sdiv|extr|smulh|umulh|madd|msub|smaddl|smsubl|umaddl"
                  "|umsubl|rbit|rev16|rev32|rev|clz|cls|sbfm|bfm|ubfm|movz|movn|movk|adr|adrp|ccmp|ccmn)$")


def with_registers(chance: Any, word: Any, text: Any) -> Any:
    """The word with other registers where its text has some: X0 to X8 are written, and X10 to X19
    read, or any of these is register 31."""
    name, operands = text.split(" ", 1)
    fields = [low
              for low, operand
              in zip({"madd": (0, 5, 16, 10), "msub": (0, 5, 16, 10)}.get(name, (0, 5, 16, 10)),
                     re.findall(r"\b[xw](?:[0-9]+|zr)\b|\bw?sp\b", operands))]
    if name in ("ccmp", "ccmn"):
        fields = [5, 16][:len(fields)]
    for low in fields:
        chosen = (ZERO if chance.random() < 0.2 else chance.randrange(9) if low == 0
                  else chance.choice((*range(9), *range(10, 20))))
        word = word & ~(31 << low) | chosen << low
    return word


def forms(chance: Any, known: Any) -> Iterator[Any]:
    """Instructions of registers, each with what it wrote folded, and the flags."""
    for word, text in known:
        word = with_registers(chance, word, text)
        written = word & 31
        yield word
        if not text.startswith("ccm"):
            yield FOLD(written) if written != ZERO else add(FLAGS, 31, 0)
        if re.match("adds|subs|ands|bics|adcs|sbcs|ccm", text):
            yield from (MRS_NZCV | FLAGS, FOLD(FLAGS))


def of_registers() -> Iterator[Any]:
    """Programs of all words of the tables that read and write general registers alone, three turns
    each; each word comes twice."""
    chance = random.Random(51)
    known = [(word, text) for word, text in words().items()
             if SUMS.match(text.split(" ")[0]) and not re.search(r"\b[zp][0-9]|za", text)] * 2
    chance.shuffle(known)
    for part in range(8):
        begin = [word for k, end in enumerate(ENDS) for word in value(10 + k, end)] + [
            word for k in range(9) for word in value(k, number(chance))]
        body = [*forms(chance, known[part::8]), add(31, 31, 0)]
        count = len(body) + 1
        code = [*begin, *value(FACTOR, 0x9E3779B97F4A7C15), movz(23, 3), *body, subs(23, 23, 1),
                0xB4000000 | 2 << 5 | 23, 0x14000000 | -count - 1 & 0x3FFFFFF, *EXIT]
        yield f"forms-of-registers-{part}", file_of(code), {}


def accesses(chance: Any) -> Iterator[Any]:
    """Loads and stores of each form and size near the border of two pages, each with its base and
    what it loaded folded."""
    cases = []
    for size in range(4):
        for operation in range(4):
            if (size, operation) in ((3, 2), (3, 3), (2, 3)):
                continue
            head = size << 30 | operation << 22
            cases += [0x39000000 | head | chance.randrange(4) << 10,
                      0x38000000 | head | (chance.randrange(-9, 9) & 0x1FF) << 12,
                      0x38000400 | head | (chance.randrange(-9, 9) & 0x1FF) << 12,
                      0x38000C00 | head | (chance.randrange(-9, 9) & 0x1FF) << 12]
            cases += [0x38200800 | head | option << 13 | scaled << 12 | (10 + index) << 16
                      for option, index in ((2, 0), (2, 7), (3, 1), (3, 7), (6, 1), (6, 7), (7, 1))
                      for scaled in (0, 1)]
    cases += [0x28000000 | wide << 31 | mode << 23 | loads << 22 | (chance.randrange(-2, 3) & 0x7F)
              << 15 | 8 << 10 for wide in (0, 1) for mode in (1, 2, 3) for loads in (0, 1)]
    for case in cases * 2:
        base, target = chance.choice((24, 24,
                                      31)), ZERO if chance.random() < 0.15 else chance.randrange(8)
        short = chance.randrange(0, 80)
        if base == 31:
            # SP is a multiple of 16 below the stack's end
            yield from (add(25, 31, 0), 0xD10003FF | 16 * chance.randrange(64, 128) << 10)
        else:
            yield add(24, 26, 4095 - short)
        yield case | base << 5 | target
        yield add(FLAGS, base, 0)
        yield FOLD(FLAGS)
        if target != ZERO:
            yield FOLD(target)
        if base == 31:
            yield add(31, 25, 0)


def of_accesses() -> Iterator[Any]:
    chance = random.Random(52)
    everything = list(accesses(chance))
    body = [*everything]
    # X10 is 0, X11 is -1, X17 is 63 as an index
    begin = [word for k, end in enumerate(ENDS) for word in value(10 + k, end)] + [
        word for k in range(9) for word in value(k, number(chance))]
    code = [*begin, *value(FACTOR, 0x9E3779B97F4A7C15), *value(26, DATA), movz(23, 3), *body,
            subs(23, 23, 1), 0xB4000000 | 2 << 5 | 23, 0x14000000 | -len(body) - 2 & 0x3FFFFFF,
            *EXIT]
    both = data(), Segment(DATA + PAGE, NUMBERS * 4, flags=READ_AND_WRITE)
    yield "forms-of-accesses", file_of(code, *both), {}
    yield "forms-of-accesses-in-slices-of-7", file_of(code, *both), {"slice": 7}


# ---- vectors at borders

# the words of vectors; X1 is the base, X26 the end of two pages, X25 the border between them, X28
# the length of a vector in bytes, X27 where results go
LSR, SUB_REGISTER, SUB, RDVL_1, COUNT, PTRUE_ALL, PFALSE, WHILELO, EOR_PREDICATES, ADDVL = (
    0xD340FC00, 0xCB000000, 0xD1000000, 0x04BF5020, 0x0420E3E0, 0x2518E3E0, 0x2518E400, 0x25201C00,
    0x25004200, 0x04205000)
STR_Z0_AT_X27, STR_P0_AT_X27, INDEX_Z0, RESULTS = 0xE5804360, 0xE5800360, 0x04204C00, 0x600000
# P1 is the predicate of the access, P2 has all elements
ALL_OF = lambda size: PTRUE_ALL | size << 22


def predicate_of(kind: Any, size: Any) -> Any:
    """P1 of elements of a size: all, none, all but the last or the first, and the first or the last
    alone."""
    count = COUNT | size << 22 | 4
    return {"all": [ALL_OF(size) | 1], "none": [PFALSE | 1],
            "not-last": [count, SUB | 1 << 10 | 4 << 5 | 4,
                         WHILELO | size << 22 | 4 << 16 | ZERO << 5 | 1],
            "first": [movz(4, 1), WHILELO | size << 22 | 4 << 16 | ZERO << 5 | 1],
            "not-first": [movz(4, 1), WHILELO | size << 22 | 4 << 16 | ZERO << 5 | 1,
                          ALL_OF(size) | 2, EOR_PREDICATES | 1 << 16 | 2 << 10 | 2 << 5 | 1],
            "last": [count, SUB | 1 << 10 | 4 << 5 | 4,
                     WHILELO | size << 22 | 4 << 16 | ZERO << 5 | 1, ALL_OF(size) | 2,
                     EOR_PREDICATES | 1 << 16 | 2 << 10 | 2 << 5 | 1]}[kind]


def borders(word: Any, text: Any) -> Iterator[Any]:
    """The access of a vector so that what it reads or writes ends at the end of the pages, or
    begins at their start, and lies over the border between them."""
    found = re.match(r"(?:ld1s?|st1)([bhwd]) \{z[0-9]+\.([bhsd])", text)
    narrow, wide = ("bhwd".index(found[1]), "bhsd".index(found[2])) if found else (0, 0)
    total, element, step = LSR | wide - narrow << 16 | 28 << 5 | 2, 1 << narrow, lambda up: (
        add if up > 0 else lambda d, n, k: SUB | k << 10 | n << 5 | d)(1, 1, abs(up))
    from_end = [total, SUB_REGISTER | 2 << 16 | 26 << 5 | 1]
    over = [total, SUB_REGISTER | 2 << 16 | 25 << 5 | 1]
    cases = [("all", from_end), ("not-last", [*from_end, step(element)]),
             ("first", [SUB | element << 10 | 26 << 5 | 1]), ("none", [add(1, 26, 0)]),
             ("not-first", [SUB | 2 << 10 | 1 << 22 | 26 << 5 | 1, step(-element)]),
             ("last",
              [SUB | 2 << 10 | 1 << 22 | 26 << 5 | 1, total, SUB_REGISTER | 2 << 16 | 1 << 5 | 1,
               step(element)]), ("all", [*over, step(1)]), ("all", over),
             ("not-first", [*over, step(3)]), ("last", [*over, step(element)])]
    for kind, base in cases if found else [("all", from_end), ("all", over),
                                           ("all", [*over, step(1)])]:
        yield from [*predicate_of(kind, wide), *base, movz(2, 0), word]
        if text.startswith("ld"):
            yield from (STR_P0_AT_X27 if re.match("ldr p", text) else STR_Z0_AT_X27,
                        ADDVL | 27 << 16 | 1 << 5 | 27)


def of_vectors() -> Iterator[Any]:
    """A program of the accesses of vectors of each form at the borders of pages, two turns of it,
    at each length."""
    known = sorted({word & ~31: (word & ~31, text) for word, text in vector_accesses()}.values())
    body = [word for access, text in known for word in borders(access, text)]
    # Z0 is other numbers in each turn, since what was loaded last is stored
    code = [*value(26, DATA + 2 * PAGE), *value(25, DATA + PAGE), *value(27, RESULTS), RDVL_1 | 28,
            movz(23, 2), INDEX_Z0 | 23 << 16 | 23 << 5, *body, subs(23, 23, 1),
            0xB4000000 | 2 << 5 | 23, 0x14000000 | -len(body) - 3 & 0x3FFFFFF, *EXIT]
    pages = Segment(DATA, bytes((k * 37 + k // 256) & 255 for k in range(2 * PAGE)),
                    flags=READ_AND_WRITE), Segment(RESULTS, b"", memory=600 * 256,
                                                   flags=READ_AND_WRITE)
    for vl in (128, 256, 512, 1024, 2048):
        yield f"forms-of-vector-accesses-{vl}", file_of(code, *pages), {"vl": vl}


def loop_rows() -> Iterator[Any]:
    """The programs, and the options of their runs."""
    for kind in (changing, paged, raising, with_shared_words, of_registers, of_accesses,
                 of_vectors):
        yield from kind()

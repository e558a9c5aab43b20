"""Sources, and what `asm` is to answer to them: refusals, which are written out, and program files,
whose bytes other assemblers and linkers put, but for a few that are short and written out.
"""
from __future__ import annotations

from typing import Any, Iterator
from smemu_tools import TOP
from smemu_tools.model.elf import assembled, mapping_symbols, sections_of, text_of
from smemu_tools.rows import HERE

TEXT = 0x400000


def line_faults() -> Iterator[Any]:
    """Sources with a line that is not in the grammar: the line, its number and what is wrong there.
    Columns count characters from 1."""
    # no instruction and no directive has the name
    yield "unknown-first", "foo x0", 1, "unknownname 1"
    yield "unknown-after-a-label", "_start: frob", 1, "unknownname 9"
    yield "unknown-after-good-lines", "_start:\n svc #0\n\tsvc2 #0\n", 3, "unknownname 2"
    yield "unknown-directive", "_start: svc #0\n  .long 1\n", 2, "unknownname 3"
    yield "unknown-in-capitals", "_start: SVC #0\n", 1, "unknownname 9"
    yield "unknown-with-a-bad-number", "frob #00\n", 1, "unknownname 1"
    yield "unknown-name-before-its-colon", "loop : svc #0\n", 1, "unknownname 1"
    yield "unknown-directive-of-more-letters", "_start: .sme_abis\n", 1, "unknownname 9"
    yield "unknown-of-two-lines", "_start: svc #0\n\nfrob\nfrab\n", 3, "unknownname 1"
    # a number of another form or in another range
    yield "number-too-large", "_start: svc #65536\n", 1, "badnumber 13"
    yield "number-without-its-sign", "_start: svc 0\n", 1, "badnumber 13"
    yield "number-with-a-leading-zero", "_start: svc #00\n", 1, "badnumber 13"
    yield "number-below-0", "_start: svc #-1\n", 1, "badnumber 13"
    yield "number-without-digits", "_start: svc #\n", 1, "badnumber 13"
    yield "number-of-64-bits-and-one", "_start: svc #18446744073709551616\n", 1, "badnumber 13"
    yield "number-in-the-middle", "add x0, x1, #4096, lsl #12\n", 1, "badnumber 13"
    yield "number-at-the-end", "add x0, x1, #1, lsl #13\n", 1, "badnumber 21"
    yield "distance-of-no-multiple-of-4", "b .+3\n", 1, "badnumber 3"
    yield "distance-too-far", "b .+134217728\n", 1, "badnumber 3"
    yield "distance-without-its-point", "b 8\n", 1, "badnumber 3"
    yield "byte-of-256", ".byte 256\n", 1, "badnumber 7"
    yield "third-byte-of-300", ".byte 1, 2, 300, 400\n", 1, "badnumber 13"
    yield "byte-with-a-sign-before", ".byte #1\n", 1, "badnumber 7"
    yield "byte-of-no-digits", ".byte 0x\n", 1, "badnumber 7"
    yield "word-of-33-bits", ".word 4294967296\n", 1, "badnumber 7"
    yield "quad-of-65-bits", ".quad 0x10000000000000000\n", 1, "badnumber 7"
    yield "zero-of-65-bits", ".zero 18446744073709551616\n", 1, "badnumber 7"
    yield "align-of-13", ".align 13\n", 1, "badnumber 8"
    # a whole line stands before it
    yield "extra-first", "_start: svc #0\n5\n", 2, "extra 1"
    yield "extra-comma-first", ", x0\n", 1, "extra 1"
    yield "extra-after-an-instruction", "_start: svc #0 #1\n", 1, "extra 16"
    yield "extra-after-a-register", "br x1 x2\n", 1, "extra 7"
    yield "extra-carriage-return", "_start: svc #0\r\n", 1, "extra 15"
    yield "extra-after-text", ".text 1\n", 1, "extra 7"
    yield "extra-after-data", ".data x\n", 1, "extra 7"
    yield "extra-after-a-byte", ".byte 1 2\n", 1, "extra 9"
    yield "extra-after-zero", ".zero 1, 2\n", 1, "extra 8"
    yield "extra-after-align", ".align 2 3\n", 1, "extra 10"
    yield "extra-after-global", ".global _start, loop\n", 1, "extra 15"
    yield "extra-after-sme-abi", "_start: .sme_abi 1\n", 1, "extra 18"
    yield "extra-after-sme-tail", ".sme_tail x19 // the block\n", 1, "extra 11"
    yield "extra-comment-of-another-language", "# start\n", 1, "extra 1"
    yield "extra-label-of-a-digit", "1loop: svc #0\n", 1, "extra 1"
    # all else, and a token that is missing: just past the end of the line, with its comment
    yield "operand-first", "add , x0, x1\n", 1, "badoperand 5"
    yield "operand-of-no-register", "add x0, x32, #1\n", 1, "badoperand 9"
    yield "operand-without-a-comma", "add x0 x1, #1\n", 1, "badoperand 8"
    yield "operand-of-another-width", "add w0, x1, #1\n", 1, "badoperand 9"
    yield "operand-second-label", "a: b: svc #0\n", 1, "badoperand 5"
    yield "operand-of-byte", ".byte x0\n", 1, "badoperand 7"
    yield "operand-of-zero-is-a-name", ".zero size\n", 1, "badoperand 7"
    yield "operand-of-global-is-a-number", ".global 5\n", 1, "badoperand 9"
    yield "operand-of-align-is-a-sign", ".align -1\n", 1, "badoperand 8"
    yield "missing-all", "svc\n", 1, "badoperand 4"
    yield "missing-last", "add x0, x1\n", 1, "badoperand 11"
    yield "missing-after-a-comma", "add x0, x1,\n", 1, "badoperand 12"
    yield "missing-before-a-comment", "add x0, x1, // sum\n", 1, "badoperand 19"
    yield "missing-in-characters", "add x0, x1, // \u00e9\u4e00\n", 1, "badoperand 18"
    yield "missing-in-the-last-line", "_start: svc #0\nadd x0, x1,", 2, "badoperand 12"
    yield "missing-value-of-byte", ".byte\n", 1, "badoperand 6"
    yield "missing-value-after-a-comma", ".byte 1,\n", 1, "badoperand 9"
    yield "missing-value-of-zero", ".zero\n", 1, "badoperand 6"
    yield "missing-value-of-align", ".align\n", 1, "badoperand 7"
    yield "missing-value-of-global", ".global\n", 1, "badoperand 8"
    # instructions at no multiple of 4
    yield "instruction-after-a-byte", ".byte 1\n_start: svc #0\n", 2, "badoperand 9"
    yield ("instruction-after-6-bytes-of-data", "_start: svc #0\n.data\n.zero 6\nsvc #0\n", 4,
           "badoperand 1")
    yield ("instruction-after-blanks-and-a-label", ".byte 1\n  loop: add x0, x1, #4095 // and on\n",
           2, "badoperand 9")
    yield "instruction-after-a-tab", ".byte 1\n\tcbz w7, done\n", 2, "badoperand 2"
    yield "routines-after-a-byte", ".byte 1\n_start: .sme_abi\n", 2, "badoperand 9"
    yield ("routines-misplaced-and-doubled",
           "_start: svc #0\n__arm_za_disable: .byte 1\n.sme_abi\n", 3, "badoperand 1")
    yield ("tail-after-6-bytes-of-data",
           "_start: svc #0\n.data\n.zero 6\n  .sme_tail // of no call\n", 4, "badoperand 3")
    yield ("instruction-misplaced-and-doubled", "_start: svc #0\n.byte 1\n_start: svc #0\n", 3,
           "badoperand 9")


def source_faults() -> Iterator[Any]:
    """Sources that are refused for more than a line by itself."""
    yield "empty", b"", 0, "nostart"
    yield "no-start", b"begin: svc #0\n", 0, "nostart"
    yield "start-past-the-text", b"svc #0\n_start:\n", 0, "nostart"
    yield "start-alone", b"_start:\n", 0, "nostart"
    yield "start-in-data", b"svc #0\n.data\n_start: .quad 0\n", 0, "nostart"
    yield "start-at-no-multiple-of-4", b".byte 1\n_start: .byte 2\n", 0, "nostart"
    yield "start-in-a-comment", b"svc #0 // _start:\n", 0, "nostart"
    yield "doubled", b"_start: svc #0\n_start:\n", 2, "doubled"
    yield ("doubled-after-blanks", b"  loop: add x0, x1, #4095 // and on\nloop: svc #0\n", 2,
           "doubled")
    yield ("doubled-in-another-part", b"_start: svc #0\n.data\na: .byte 1\n.text\na: svc #0\n", 5,
           "doubled")
    yield "doubled-and-too-large", b"_start: svc #0\n_start: .zero 5000000\n", 2, "doubled"
    yield "doubled-before-a-bad-line", b"a: svc #0\na: svc #0\nfrob\n", 2, "doubled"
    yield "doubled-routines", b"_start: .sme_abi\n.sme_abi\n", 2, "doubled"
    yield ("doubled-routines-in-another-part", b"_start: svc #0\n.sme_abi\n.data\n.sme_abi\n", 4,
           "doubled")
    yield ("doubled-label-of-the-first-routine", b"__arm_tpidr2_save: svc #0\n_start: .sme_abi\n",
           2, "doubled")
    yield ("doubled-label-of-the-last-routine", b"__arm_tpidr2_restore: svc #0\n_start: .sme_abi\n",
           2, "doubled")
    yield ("doubled-label-after-the-routines", b"_start: .sme_abi\n svc #0\n__arm_za_disable:\n", 3,
           "doubled")
    yield ("doubled-label-on-the-line-of-the-routines",
           b"_start: svc #0\n__arm_za_disable: .sme_abi\n", 2, "doubled")
    yield ("doubled-routines-that-are-too-large", b"_start: .sme_abi\n.zero 4194076\n.sme_abi\n", 3,
           "doubled")
    yield "undefined-target", b"_start: svc #0\n b nowhere\n", 2, "undefined"
    yield "undefined-target-after-a-register", b"_start: svc #0\n\tcbz w7, done\n", 2, "undefined"
    yield "undefined-in-other-capitals", b"_start: b Loop\nloop: svc #0\n", 1, "undefined"
    yield "undefined-value", b"_start: svc #0\n.quad 1, _start, nowhere\n", 2, "undefined"
    yield "undefined-first-of-two", b"_start: svc #0\n.quad nowhere\n b nowhere\n", 2, "undefined"
    yield "undefined-and-no-start", b"b nowhere\n", 1, "undefined"
    yield "undefined-of-a-tail", b"_start: svc #0\n .sme_tail\n", 2, "undefined"
    yield "undefined-of-a-tail-and-no-start", b".sme_tail\n", 1, "undefined"
    yield (
        "undefined-of-a-tail-with-other-routines",
        b"_start: .sme_tail\n__arm_tpidr2_save:\n__arm_za_disable:\n__arm_tpidr2_Restore: svc #0\n",
        1, "undefined")
    yield "undefined-before-a-bad-line", b"_start: b nowhere\nfrob\n", 2, "line unknownname 1"
    yield "undefined-before-a-doubled-label", b"_start: b nowhere\n_start:\n", 2, "doubled"
    yield ("tbz-too-far-forward", b"_start: tbz x0, #0, far\n.zero 32764\nfar: svc #0\n", 1,
           "toofar 32768")
    yield "tbz-too-far-back", b"far: .zero 32772\n_start: tbz x0, #0, far\n", 2, "toofar -32772"
    yield ("cbz-too-far-forward", b"_start: cbz x0, far\n.zero 1048572\nfar: svc #0\n", 1,
           "toofar 1048576")
    yield "cbz-too-far-back", b"far: .zero 1048580\n_start: cbz x0, far\n", 2, "toofar -1048580"
    yield "condition-too-far-back", b"far: .zero 1048580\n_start: b.eq far\n", 2, "toofar -1048580"
    yield ("adr-too-far-forward", b"_start: adr x0, far\n.zero 1048572\nfar: svc #0\n", 1,
           "toofar 1048576")
    yield "adr-too-far-back", b"far: .zero 1048580\n_start: adr x0, far\n", 2, "toofar -1048580"
    yield "branch-to-no-multiple-of-4", b"_start: b odd\n.byte 1\nodd:\n", 1, "toofar 5"
    yield ("branch-back-to-no-multiple-of-4", b".byte 1\nodd: .byte 1, 1, 1\n_start: b odd\n", 3,
           "toofar -3")
    yield ("tail-to-no-multiple-of-4", b"_start: .sme_tail\n.byte 1\n__arm_tpidr2_restore:\n", 1,
           "toofar 9")
    yield ("tail-back-to-no-multiple-of-4",
           b".byte 1\n__arm_tpidr2_restore: .byte 1, 1, 1\n_start: .sme_tail\n", 3, "toofar -19")
    yield "toofar-before-undefined", b"_start: b odd\n b nowhere\n.byte 1\nodd:\n", 1, "toofar 9"
    yield "text-too-large", b"_start: svc #0\n.zero 4194301\n", 2, "toolarge"
    yield "text-too-large-by-a-byte", b".zero 4194300\n_start: svc #0\n.byte 1\n", 3, "toolarge"
    yield "text-too-large-by-an-instruction", b".zero 4194304\n_start: svc #0\n", 2, "toolarge"
    yield "text-too-large-by-far", b".zero 18446744073709551615\n", 1, "toolarge"
    yield "text-too-large-by-the-routines", b".zero 4194084\n_start: .sme_abi\n", 2, "toolarge"
    yield ("data-too-large-by-a-tail", b"_start: svc #0\n.data\n.zero 4194284\n.sme_tail\n", 4,
           "toolarge")
    yield "data-too-large", b"_start: svc #0\n.data\n.zero 4194305\n", 3, "toolarge"
    yield ("data-too-large-before-a-bad-line", b".data\n.zero 4194304\n.byte 0\n.text\nfrob\n", 3,
           "toolarge")
    yield "not-text-at-0", b"\x80_start: svc #0\n", 0, "nottext 0"
    yield "not-text-in-the-second-line", b"_start: svc #0\n\xff\n", 0, "nottext 15"
    yield "not-text-cut-short", b"// \xe4\xb8", 0, "nottext 3"
    yield "not-text-too-long-a-form", b"// \xc0\x80\n", 0, "nottext 3"
    yield "not-text-half-a-pair", b"// \xc3\xa9 \xed\xa0\x80\n", 0, "nottext 6"
    yield "not-text-after-a-bad-line", b"frob\n\xff", 0, "nottext 5"


def source_refusals() -> Iterator[Any]:
    for name, source, line, fault in line_faults():
        yield name, source.encode(), f"bad source: line {line}: line {fault}\n"
    for name, source, line, fault in source_faults():
        yield name, source, f"bad source: line {line}: {fault}\n"


def linked(path: Any) -> tuple[bytes, bytes, int, list[tuple[int, bool]]]:
    """The text, the data, the entry and the mapping symbols of a file that a linker made."""
    file = path.read_bytes()
    sections = sections_of(file)
    of = lambda name: sections[name][1] if name in sections else b""
    return of(".text"), of(".data"), int.from_bytes(file[24:32], "little"), mapping_symbols(file)


# movz x8, #93 and svc #0
EXIT = [0xD2800BA8, 0xD4000001]
# a text with a word of data in it and two bytes past it, data, the entry, and where words of code
# and of data begin
WITH_DATA = (text_of([0xD2800020, 0xDEADBEEF, *EXIT]) + b"\xaa\xbb", b"hello", TEXT + 8,
             [(TEXT, True), (TEXT + 4, False), (TEXT + 8, True)])


def assemblies() -> Iterator[tuple[str, bytes, bytes]]:
    """Sources and their files: the bytes are those that another assembler and linker put, or are
    written out, laid out as docs/ASSEMBLY.md says."""
    for path in sorted((HERE / "real" / "linked").glob("*.elf")):
        example = TOP / "examples" / f"{path.stem}.s"
        source = example if example.exists() else HERE / "real" / f"{path.stem}.s"
        yield path.stem, source.read_bytes(), assembled(*linked(path))
    yield "move-of-65536", b"_start:\n    mov x0, #65536\n", assembled(text_of([0xD2A00020]), b"",
                                                                       TEXT, [(TEXT, True)])
    yield "data-in-its-text", (b"// exits\n movz x0, #1\n .word 0xdeadbeef\n_start: "
                               b"movz x8, #93\n svc #0\n.byte 0xaa, 0xbb\n"
                               b".data\n.byte 104, 101, 108, "
                               b"108, 111\n"), assembled(*WITH_DATA)
    numbers = text_of([1, 0xFFFFFFFF, 0]) + b"\0\xff\0\0"
    yield "lists-of-numbers", (b"table: .word 1, 0xFFFFFFFF,0\n.byte 0, 255\n.align 2\n_start: mov x8, #93\n svc #0\n"), assembled(
        numbers + text_of(EXIT), b"", TEXT + 16, [(TEXT, False), (TEXT + 16, True)])


# a source with the support routines of lazy saving and the tail of a call, each instruction a line
WRITTEN_OUT = (HERE / "real" / "za-lazy-saving.s").read_text()
TAIL_WORDS = [0xD503457F, 0xD53BD0AE, 0xB500006E, 0xAA1303E0, None, 0xD51BD0BF]
ROUTINES = ("__arm_tpidr2_save:", "__arm_za_disable:", "__arm_tpidr2_restore:")
TAIL = """\
    smstart za
    mrs x14, tpidr2_el0
    cbnz x14, .+12
    orr x0, xzr, x19
    bl __arm_tpidr2_restore
    msr tpidr2_el0, xzr
"""


def routine_lines() -> Any:
    """The lines of the three routines, each with its word, as another assembler has it."""
    rest = WRITTEN_OUT[WRITTEN_OUT.index(ROUTINES[0]):]
    texts = [line.strip() for line in rest[:rest.index("\n\n")].splitlines()
             if line not in ROUTINES]
    text = linked(HERE / "real" / "linked" / "za-lazy-saving.elf")[0]
    words = [int.from_bytes(text[at:at + 4], "little")
             for at in range(len(text) - 4 * len(texts), len(text), 4)]
    return list(zip(words, texts))


def lazy_savings() -> Iterator[Any]:
    """Sources with `.sme_abi` and `.sme_tail`, and their files: one whose instructions another
    assembler has put, and others that are written out."""
    written_out = HERE / "real" / "linked" / "za-lazy-saving.elf"
    routines = WRITTEN_OUT[
        WRITTEN_OUT.index(ROUTINES[0]):WRITTEN_OUT.index("\n\n", WRITTEN_OUT.index(ROUTINES[0]))]
    assert WRITTEN_OUT.count(TAIL) == 1
    source = WRITTEN_OUT.replace(TAIL, "    .sme_tail\n").replace(routines, "    .sme_abi")
    yield "lazy-saving-by-directives", source.encode(), assembled(*linked(written_out))
    words = [word for word, _ in routine_lines()]
    yield "routines-alone", b"_start: .sme_abi\n", assembled(text_of(words), b"", TEXT,
                                                             [(TEXT, True)])
    yield "routines-between-data", (b".word 1\nfirst:.sme_abi // the three\n.byte "
                                    b"1, 2, 3\n.align 2\n_start: b __arm_tpidr2_save\n "
                                    b"b __arm_za_disable\n"
                                    b" b first\n"), assembled(text_of([1, *words, 0x00030201,
                                                                       0x17FFFFC7, 0x17FFFFD8,
                                                                       0x17FFFFC5]), b"",
                                                              TEXT + 232,
                                                              [(TEXT, False), (TEXT + 4, True),
                                                               (TEXT + 228, False),
                                                               (TEXT + 232, True)])
    yield "routines-in-the-data", b"_start: .sme_tail\n svc #0\n.data\n.sme_abi\n", assembled(
        text_of([*TAIL_WORDS[:4], 0x94000422, TAIL_WORDS[5], 0xD4000001]), text_of(words), TEXT,
        [(TEXT, True)])
    yield "tail-to-a-routine-of-its-own", b"__arm_tpidr2_restore: ret\n_start: .sme_tail\n.sme_tail\n", assembled(
        text_of([0xD65F03C0, *TAIL_WORDS[:4], 0x97FFFFFB, TAIL_WORDS[5], *TAIL_WORDS[:4],
                 0x97FFFFF5, TAIL_WORDS[5]]), b"", TEXT + 4, [(TEXT, True)])

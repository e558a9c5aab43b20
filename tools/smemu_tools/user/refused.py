"""Lists all code words of a file that are not listed: address, word, function, source line, and
objdump's text where it is installed.

    smemu refused PROGRAM [--smemu SMEMU]

It asks `smemu vectors` of each word whether it means an instruction, and then `smemu dis` of the
file with a NOP in the place of each that does not, so it has no table of its own. A file that is
refused for another reason, as an object file or one with a library of C, has its words listed too,
as far as it has a section table; of an object file the addresses are those within a section, which
is named. Below stands of each mnemonic how often it is there and what docs/FROM_C.md says to write.
The last lines say how many words there are, and what else the file is refused for; then the status
is 1. Where there is no section table, so that no word was looked at, it is 3. SMEMU may name the
emulator.
"""
from __future__ import annotations

import argparse
import bisect
import collections
import os
import pathlib
import re
import shutil
import struct
import subprocess
import sys
import tempfile
from typing import Any, Iterator

from smemu_tools import TOP
from smemu_tools.user import emulator

NOP = 0xD503201F
# the lines of a file of vectors
MOST_LINES = 2048
SYMTAB, PROGBITS, EXECINSTR, OBJECT, AARCH64 = 2, 1, 4, 1, 183
# each with what it needs to know all instructions, the best first
DUMPS: list[tuple[str,
                  list[str]]] = [*((f"llvm-objdump-{n}", ["--mattr=+all"])
                                   for n in range(30, 15, -1)), ("aarch64-linux-gnu-objdump", []),
                                 ("llvm-objdump", [])]
FROM_C = TOP / "docs" / "FROM_C.md"
# what objdump's text looks like, and with what the row of FROM_C.md begins that says what to write;
# the first that fits
ROWS = [(re.compile(pattern), row) for pattern, row in (
    (r"fmov w1[2-5], s(1[6-9]|[23]\d)", "`fmov w14, s27`"),
    (r"fmov [wx]\d+, [hsd]\d+", "`fmov x0, d0`"),
    (r"(stp|ldp) d(8|9|1[0-5]), ", "`stp d15, d14, ..`"),
    (r"incp x", "`incp x2, p0.b`"),
    (r"n?match p", "`match`"),
    (r"ld1rq[bhwd]", "`ld1rqb`"),
    (r"rdffrs? p\d+\.b, p", "`rdffr p0.b, p1/z`"),
    (r"[us]h(add|sub) z", "`uhadd`"),
    (r"[us]rhadd z", "`urhadd`"),
    (r"movprfx z\d+\.[bhsd], p", "`movprfx z0.s, p0/z, z1.s`"),
    (r"[us]qxtu?n[bt] z", "`sqxtunb`"),
    (r"([us]q)?r?shru?n[bt] z", "`sqrshrnb`"),
    (r"[us]adalp z", "`uadalp`"),
    (r"[us](add|sub)w[bt] z", "`uaddwb`"),
    (r"[us]shll[bt] z", "`ushllb`"),
    (r"[us]subl[bt] z", "`usublb`"),
    (r"[us]q?r?shlr? z", "`srshl`"),
    (r"(asr|lsl|lsr)r z", "`asrr`"),
    (r"(mad|msb) z", "`mad`"),
    (r"adr z", "`adr z0.s"),
    (r"last[ab] [bhsd]\d", "`lastb s0"),
    (r"dupm |(and|orr|eor|bic|orn|eon|mov|[us]q(add|sub)|sub|subr|mul|[us](max|min)) z.*, #", "`and z0.s, z0.s, #0xff`"),
    (r"ld1r[bhwdsqo]", "`ld1rw`"),
    (r"([us]|us|su)dot z", "`sdot`"),
    (r"rev[bhw] z", "`revb`"),
    (r"(ld|st)[234][bhwdq] \{ ?z", "`ld2b` to `ld4d`"),
    (r"(ld|st)\w+ \{ ?z[^[]*\[(\w+, )?z", "gathers"),
    (r"ld[fn]f1|brk[abnp]", "`ldff1b`"),
    (r"prf", "`prfm`"),
    (r"(ld|st)l?a?xp?[rb]|(ld|st)l?a?x[rp]|ldapu?r|stlu?r|ldlar|stllr", "`ldaxr`"),
    (r"crc32|(abs|cnt|ctz|[us]max|[us]min) [wx]", "`crc32b`"),
    (r"(f|[us]cvtf)\w* |.*\b[vbhsdq]\d+(\.|\b)|.*\{ ?v\d", "all of Advanced SIMD"),
)]


class Section(collections.namedtuple("Section", "name number kind flags address offset size link")):
    """A header of the section table."""


def sections_of(image: bytes) -> list[Section]:
    """The sections of a file, none where it is no ELF64 file for AArch64 with a section table that
    is whole."""
    if image[:6] != b"\x7fELF\x02\x01" or len(image) < 64 or image[18:20] != bytes((AARCH64, 0)):
        return []
    start, = struct.unpack_from("<Q", image, 40)
    size, count, names = struct.unpack_from("<HHH", image, 58)
    if not start or size != 64 or start + size * count > len(image):
        return []
    headers = [struct.unpack_from("<IIQQQQII", image, start + size * at) for at in range(count)]
    text = headers[names][4] if names < count else 0
    return [Section(name_at(image, text + it[0]), at, it[1], it[2], it[3], it[4], it[5], it[6])
            for at, it in enumerate(headers)]


def name_at(image: bytes, place: int) -> str:
    end = image.find(0, place)
    return bytes(image[place:end]).decode(errors="replace") if 0 <= place < end else ""


def symbols_of(image: bytes, sections: list[Section]) -> Iterator[tuple[int, str, int, int]]:
    """Each symbol of the symbol tables: its value, its name, its type and its section's number, in
    the order of the tables."""
    for table in sections:
        if table.kind == SYMTAB and table.link < len(sections) and table.offset + table.size <= len(
                image):
            for at in range(table.offset, table.offset + table.size // 24 * 24, 24):
                name, info, _, section, value, _ = struct.unpack_from("<IBBHQQ", image, at)
                yield value, name_at(image, sections[table.link].offset + name), info & 15, section


def functions_of(image: bytes, number: Any = None) -> list[tuple[int, str]]:
    """The addresses of functions and labels with a name, in order, and the names; of one section,
    or all."""
    return sorted((value, name)
                  for value, name, kind, section in symbols_of(image, sections_of(image))
                  if kind in (0, 2) and section and name and not name.startswith("$")
                  and number in (None, section))


def code_words(image: bytes) -> Iterator[tuple[Section, int, int, int]]:
    """The code words of a file, by docs/PROGRAM_FILE.md: section, address, place in the file and
    word."""
    sections = sections_of(image)
    marks = collections.defaultdict(dict)
    for value, name, _, section in symbols_of(image, sections):
        if re.match(r"\$[xd](\.|$)", name):
            # of several with one value the last decides
            marks[section][value] = name[1] == "x"
    for section in sections:
        if (section.kind == PROGBITS and section.flags & EXECINSTR
                and section.offset + section.size <= len(image)):
            values = sorted(marks[section.number])
            for address in range((section.address + 3) // 4 * 4, section.address + section.size - 3,
                                 4):
                before = bisect.bisect(values, address)
                if not before or marks[section.number][values[before - 1]]:
                    place = section.offset + address - section.address
                    yield section, address, place, struct.unpack_from("<I", image, place)[0]


def without_meaning(smemu: str, words: set[int]) -> set[int]:
    """Those of these words that mean no instruction: `vectors` answers that they are undefined."""
    found, words = set(), sorted(words)
    for at in range(0, len(words), MOST_LINES):
        part = words[at:at + MOST_LINES]
        answers = emulator.call([smemu, "vectors", "/dev/stdin"],
                                "".join(f"{word:08x}\n"
                                        for word in part).encode()).decode().splitlines()
        # UDF is an instruction, which is to be undefined: its upper half is zero
        found |= {word for word, answer in zip(part, answers)
                  if answer.startswith("raise undefined") and word >> 16}
    return found


def fault_of(smemu: str, image: bytearray) -> str:
    """What `dis` says in the place of a listing of a file with these bytes, or nothing."""
    with tempfile.NamedTemporaryFile() as copy:
        copy.write(image)
        copy.flush()
        ended = subprocess.run([smemu, "dis", copy.name], stdout=subprocess.PIPE,
                               env={**os.environ, "SMEMU_QUIET": "1"})
    return (ended.stdout.decode(errors="replace").partition("\n")[0]
            or f"smemu ended with status {ended.returncode}" if ended.returncode else "")


def refused(smemu: str, image: bytes) -> tuple[list[tuple[Section, int, int, int]], str]:
    """The words that mean no instruction, each as `code_words` has it, and what else the file is
    refused for, or nothing."""
    words = list(code_words(image))
    meaningless = without_meaning(smemu, {it[3] for it in words})
    found, patched = [it for it in words if it[3] in meaningless], bytearray(image)
    for _, _, place, _ in found:
        struct.pack_into("<I", patched, place, NOP)
    return found, fault_of(smemu, patched)


def texts_of(name: str) -> dict[tuple[str, int], str] | None:
    """What objdump says of each address of each section, where one is installed, or None."""
    for dump, options in DUMPS:
        if shutil.which(dump):
            text = subprocess.run([dump, "-d", "--no-show-raw-insn", *options, name],
                                  capture_output=True, text=True).stdout
            found, section = {}, ""
            for head, at, line in re.findall(
                    r"(?m)^Disassembly of section (.*):$|^ *([0-9a-f]+):\s+(.*)", text):
                section = head or section
                if at:
                    found[section, int(at, 16)] = " ".join(line.partition("//")[0].split())
            return found
    return None


def advice() -> dict[str, str]:
    """The last cell of each row of FROM_C.md about what is not listed, by the first one."""
    part = (FROM_C.read_text().partition("\n## What is not listed")[2].partition("\n## ")[0]
            if FROM_C.is_file() else "")
    rows = [line.strip("| ").split(" | ") for line in part.splitlines() if line.startswith("| ")]
    return {row[0]: re.sub(r"\[([^]]*)\]\([^)]*\)", r"\1", row[-1]) for row in rows[1:]}


def row_of(text: str) -> str:
    """With what the row begins that says what to write for an instruction, or nothing."""
    return next((row for pattern, row in ROWS if pattern.match(text)), None)


def what_to_write(texts: Any) -> Iterator[str]:
    """A line for each mnemonic and each row of FROM_C.md: how often it is there, and what to
    write."""
    counts = collections.Counter((text.partition(" ")[0], row_of(text)) for text in texts)
    cells = advice()
    for (mnemonic, row), count in sorted(counts.items(), key=lambda it: (-it[1], it[0][0])):
        said = next((cell for first, cell in cells.items() if row and first.startswith(row)), "")
        yield f"{mnemonic} {count}" + (f": {said}" if said else "")


def where(section: Section, address: int, functions: Any, known: Any) -> str:
    """The section of an object file, the function and the line of a word, as far as they are known;
    `functions` has those of each of its sections."""
    is_object = functions is not None
    named = functions[section.number] if is_object else known.functions
    before = bisect.bisect(named, (address, chr(0x10FFFF)))
    function = named[before - 1][1] if before else "-"
    # the lines of an object file are asked for by addresses that several sections have
    return " ".join(it
                    for it
                    in (section.name if is_object else "", function,
                        "" if is_object else known.lines[address]) if it)


def show(name: str, image: bytes, found: list[tuple[Section, int, int, int]]) -> None:
    """Shows the words that were found, and what to write in their places."""
    # places asks this module for functions
    from smemu_tools.user import places

    known, texts = places.Places(name), texts_of(name) if found else {}
    known.learn(address for _, address, _, _ in found)
    if texts is None:
        print("no objdump is there, so what the words are is not known: "
              "binutils-aarch64-linux-gnu or llvm has one", file=sys.stderr)
    is_object = image[16:18] == bytes((OBJECT, 0))
    functions = {number: functions_of(image, number)
                 for number in {it[0].number for it in found}} if is_object else None
    said = [(texts or {}).get((section.name, address), "") for section, address, _, _ in found]
    for (section, address, _, word), text in zip(found, said):
        print(f"{address:#018x} {word:#010x} {where(section, address, functions, known)}"
              + (f": {text}" if text else ""))
    for line in what_to_write(filter(None, said)):
        print(line)


def main() -> int:
    parser = argparse.ArgumentParser(description=__doc__.partition("\n\n")[0])
    parser.add_argument("program", metavar="PROGRAM")
    parser.add_argument("--smemu", metavar="SMEMU", help="the emulator")
    words = parser.parse_args()
    try:
        image = pathlib.Path(words.program).read_bytes()
    except OSError as error:
        sys.exit(f"{words.program}: {error.strerror}")
    found, fault = refused(words.smemu or emulator.find(), image)
    show(words.program, image, found)
    if not fault and not sections_of(image):
        print("not looked at: any word, since the file has no section table")
        return emulator.NOT_ALL
    print(f"not listed: {len(found)}", *[fault] * bool(fault), sep="\n")
    return 1 if fault else 0

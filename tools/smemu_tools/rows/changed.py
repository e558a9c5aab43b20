"""The list data/changed.txt: program files, a source, plans, scripts and vectors, each with
changes, and what the command is to answer to them.

A line without a tab begins a group: the file that is changed, and the words of the command, among
which `@` is the changed file and each other word with a `.` a file. Each other line is a case: for
each change the range of the file's bytes that is changed and the bytes that take its place in
hexadecimal or `-`; the status; and past a tab the text with `|` for each line feed, or `#`, its
length, and the first 16 digits of its SHA-256. What is at fault in a program file says
tools/smemu_tools/model/program_faults.py, in a source source_lines.py, in a plan world.py, in a
script tools/smemu_tools/model/expected_debug.py, and of vectors
tools/smemu_tools/model/expected_answers.py, which share nothing with the emulator.
"""
from __future__ import annotations

import hashlib
import random
import re
import struct
from typing import Any, Iterator

from smemu_tools.model.expected import report
from smemu_tools.model.expected_answers import answers, read_vectors
from smemu_tools.model.expected_debug import debug
from smemu_tools.model.program_faults import Refused, loaded
from smemu_tools.model.world import sim

SHORT = 80  # the longest text that stands in the list as it is
# what a text of numbers and words may get: a digit, a blank, a letter, an end of line, and bytes
# that are no text
BYTES = b"019 x-\n\r\t\0\xff\xc3"
# numbers inside and outside of what they may be
NUMBERS = [b"0", b"1", b"00", b"01", b"7", b"8", b"63", b"64", b"255", b"256", b"4096", b"4097",
           b"65535", b"4294967295", b"4294967296", b"18446744073709551615", b"18446744073709551616",
           b"99999999999999999999999", b"-1", b"+1", b"1.0", b"0x1", b""]
ADDRESSES = [b"0x0", b"0xffffffffffffffff", b"0x10000000000000000", b"0X0", b"0x",
             b"0x7dffffffffff", b"0x7e0000000000", b"0x7f0000000000", b"0x7fffffffffff", b"00x1"]
REPEATED = re.compile(rb"(.)\1{31,}", re.DOTALL)


class Unknown(Exception):
    """The models say nothing of this file."""


# ---- changes


def of_bytes(content: Any, places: Any, others: Any) -> Iterator[Any]:
    """At each of the places a byte that is changed to others."""
    for at in places:
        for byte in others(content[at]):
            if byte != content[at]:
                yield at, at + 1, bytes([byte])


def cuts(content: Any, places: Any) -> Iterator[Any]:
    """The file cut at each of the places."""
    for at in places:
        yield at, len(content), b""


def of_text(content: Any) -> Iterator[Any]:
    """Changes of a text of lines: its bytes, its words, its numbers and its lines."""
    yield from of_bytes(content, range(len(content)), lambda _: BYTES)
    yield from cuts(content, range(len(content)))
    yield len(content), len(content), content
    yield len(content), len(content), b"\n"
    for number in re.finditer(rb"(?<= )[0-9]+", content):
        yield from ((*number.span(), new) for new in NUMBERS)
    for number in re.finditer(rb"0x[0-9a-f]+", content):
        yield from ((*number.span(), new) for new in ADDRESSES)
    for word in re.finditer(rb"[^ \n]+", content):
        start, end = word.span()
        yield from ((start, end, new)
                    for new
                    in (b"", word.group() * 2, word.group() + b" " + word.group(),
                        word.group().upper(), b"run", b"goto"))
    starts = [0] + [i + 1 for i, byte in enumerate(content) if byte == 10]
    for start, end in zip(starts, starts[1:]):
        line = content[start:end]
        yield start, end, b""
        yield start, end, line * 2
        yield start, end, b"\n" + line
        yield start, end, line[:-1] + b"\r\n"


def of_vectors(content: Any) -> Iterator[Any]:
    """Changes of which most leave vectors: a digit of a value, a field or a line left out, a line
    doubled, and lines in another order."""
    for field in re.finditer(rb" ([a-z0-9]+)=([0-9a-f]+)", content):
        digits = {b"nzcv": b"01", b"svcr": b"0123"}.get(field[1], b"0123456789abcdef")
        yield from of_bytes(content, range(*field.span(2)), lambda _: digits)
        yield *field.span(), b""
    lines = content.splitlines(keepends=True)
    places = [sum(map(len, lines[:k])) for k in range(len(lines) + 1)]
    for at, end, line in zip(places, places[1:], lines):
        yield at, end, b""
        yield at, end, line * 2
        yield from ((other, other, line) for other in places)


HEADER = "16s2H" "I" "3Q" "I" "6H"
TABLES = {"program": "2I6Q", "section": "2I4Q2I2Q", "symbol": "I2BH2Q"}


def fields(form: Any, at: int) -> Iterator[tuple[int, int]]:
    """The places and the sizes of the fields of a form."""
    for count, kind in re.findall("([0-9]*)([sHIQB])", form):
        for _ in range(1 if kind == "s" else int(count or 1)):
            size = int(count) if kind == "s" else struct.calcsize(kind)
            yield at, size
            at += size


def fields_of(file: bytes) -> Iterator[tuple[int, int]]:
    """All fields of the header, of both tables and of the symbols."""
    heads, sections = struct.unpack_from("<2Q", file, 32)
    count, _, section_count = struct.unpack_from("<3H", file, 56)
    tables = [("program", heads, count), ("section", sections, section_count)]
    for k in range(section_count):
        kind, offset, size = struct.unpack_from("<4xI16x2Q", file, sections + 64 * k)
        if kind == 2:
            tables.append(("symbol", offset, size // 24))
    yield from fields(HEADER, 0)
    for name, at, many in tables:
        for k in range(many):
            yield from fields(TABLES[name], at + k * struct.calcsize("<" + TABLES[name]))


def of_numbers(file: Any, at: Any, size: Any) -> Iterator[Any]:
    """A field at the ends of its range, and beside what it is and beside the file's size."""
    old = int.from_bytes(file[at:at + size], "little")
    top = 1 << 8 * size
    for value in dict.fromkeys([0, 1, 2, 3, 4, 7, old - 1, old + 1, old + 4, 2 * old, len(file),
                                len(file) - 1, len(file) + 1, top // 2 - 1, top // 2, top - 64,
                                top - 2, top - 1, 0xFFFF, 1 << 46, (1 << 47) - 1, 1 << 47,
                                0x7DFFFFFC0000, 0x7F0000000FFF]):
        if value != old and 0 <= value < top:
            yield at, at + size, value.to_bytes(size, "little")


def of_program(file: Any) -> Iterator[Any]:
    """Changes of a program file: its fields, its bytes, its tables, and the file cut and
    doubled."""
    places = list(fields_of(file))
    for at, size in places:
        if size <= 8:
            yield from of_numbers(file, at, size)
    inside = sorted({at + k for at, size in places for k in range(size)})
    yield from of_bytes(file, inside, lambda byte: (byte ^ 1, byte ^ 0x80, 0, 255))
    yield from cuts(file, range(64))
    yield from cuts(file, [at for at, _ in places])
    yield len(file), len(file), file[:64]
    for at, size in places:
        yield at, at, file[at:at + size]
        yield at, at + size, b""
    others = [at for at in range(len(file)) if at not in set(inside)]
    yield from of_bytes(file, others, lambda byte: (byte ^ 1, 255))


def after(content: bytes, changes: list[tuple[int, int, bytes]]) -> bytes:
    """The file after the changes, one after the other."""
    for start, end, new in changes:
        content = content[:start] + new + content[end:]
    return content


# ---- answers


def listing(file: bytes, texts: dict[str, str]) -> tuple[int, str]:
    """What `dis` answers."""
    def means(word: int) -> bool:
        text = texts.get(f"{word:08x}")
        if text is None:
            raise Unknown
        return text != "none"

    try:
        words = loaded(file, means)
    except Refused as line:
        return 6, f"bad file: {line}\n"
    return 0, "".join(f"{at:016x} {word:08x} {texts[f'{word:08x}']}\n" for at, word in words)


def ran(file: bytes, texts: dict[str, str], options: dict[str, int]) -> tuple[int, str]:
    """What `run` answers; nothing of many pages, or of words that no table has."""
    status, text = listing(file, texts)
    if status:
        return status, text
    heads, count = struct.unpack_from("<Q", file, 32)[0], struct.unpack_from("<H", file, 56)[0]
    if sum(struct.unpack_from("<Q", file, heads + 56 * k + 40)[0] for k in range(count)) > 1 << 20:
        raise Unknown
    text = report(file, **options)
    word = re.search("^stop raised undefined [0-9a-f]+ ([0-9a-f]+)$", text, re.MULTILINE)
    if word and texts.get(word.group(1)) != "none":
        raise Unknown
    return 0, text


def shortened(text: Any) -> Any:
    """A text as it stands in the list."""
    content = text if isinstance(text, bytes) else text.encode()
    if len(content) <= SHORT and text and content.endswith(b"\n") and not set(content) & set(
            b"|\t\r"):
        return content.decode().replace("\n", "|")
    return f"#{len(content)} {hashlib.sha256(content).hexdigest()[:16]}"


def answered_vectors(file: bytes, texts: dict[str, str]) -> tuple[int, str]:
    """What `vectors` answers; nothing of words that no table has."""
    vectors, fault = read_vectors(file, 128, 256)
    if fault is None and any(f"{word:08x}" not in texts for word, _ in vectors):
        raise Unknown
    return answers(file)


def packed(content: Any) -> Any:
    """Bytes as they stand in a case: a long run of one byte is said by its length."""
    at, parts = 0, []
    for run in REPEATED.finditer(content):
        parts += [content[at:run.start()].hex(), f"{run[1].hex()}*{len(run[0])}"]
        at = run.end()
    return "+".join(part for part in [*parts, content[at:].hex()] if part) or "-"


def case(content: Any, changes: Any, answer: Any) -> Any:
    """The line of a case."""
    status, text = answer(after(content, changes))
    changed = "".join(f"{start} {end} {packed(new)} " for start, end, new in changes)
    return f"{changed}{status}\t{shortened(text)}\n"


def group(base: Any, words: Any, content: Any, changes: Any, answer: Any, most: Any,
          seed: Any = 1) -> Any:
    """A group of at most so many cases, which are chosen evenly; each has one change or several."""
    changes = list(dict.fromkeys(changes))
    random.Random(seed).shuffle(changes)
    lines = []
    for change in changes:
        if len(lines) == most:
            break
        try:
            lines.append(case(content, change if isinstance(change[0], tuple) else [change],
                              answer))
        except Unknown:
            continue
    return f"{base} {words}\n" + "".join(sorted(lines)), len(lines)


# ---- groups

# the files that `dis` is asked of, and those that run, with the number of cases; of one each length
# below that of a header
LISTED = {"hint-note-stack-and-sections": 420, "data-in-the-text": 300,
          "section-over-touching-loads": 200, "real-gnu": 300, "real-lld": 300, "answer": 180}
SHORTEST = "answer-with-budget-3.elf"
RUN = {"loads-that-share-a-page": 150, "loads-in-any-order": 150}
# the plans and the scripts of rows, with the number of cases of each
PLANS = {"plan-has-every-refusal.plan": 500, "plan-of-the-example.plan": 400,
         "plan-runs-part-of-the-answer.plan": 298, "plan-moves-on-in-a-handler.plan": 400,
         "plan-nested-is-moved-and-goes-on-to-the-end-at-128.plan": 350}
SCRIPTS = {"debug-shows-all-in-the-middle.script": 500,
           "debug-goes-back-over-a-delivery.script": 500,
           "debug-nested-goes-over-each-return.script": 400, "debug-breaks-in-a-loop.script": 300,
           "debug-slices-as-za-is-filled.script": 300}
# the files of vectors, at the lengths that are taken without options, with the number of cases of
# each sort of changes
VECTORS = {"mixed-lines-128-256.vectors": {of_text: 800, of_vectors: 1200}}


def programs(contents: Any, texts: Any) -> Iterator[Any]:
    yield group(SHORTEST, "run @", contents[SHORTEST],
                cuts(contents[SHORTEST], range(64)), lambda file: listing(file, texts), 64)
    for name, most in LISTED.items():
        yield group(f"{name}.elf", "dis @", contents[f"{name}.elf"],
                    of_program(contents[f"{name}.elf"]), lambda file: listing(file, texts), most)
    for name, most in RUN.items():
        yield group(f"{name}.elf", "run @ --budget 50", contents[f"{name}.elf"],
                    of_program(contents[f"{name}.elf"]),
                    lambda file: ran(file, texts, {"budget": 50}), most)


def options_in(words: list[str]) -> dict[str, int]:
    """The options among the words of a command."""
    return {name[2:]: int(value) for name, value in zip(words, words[1:]) if name.startswith("--")}


def plans(rows: Any, contents: Any) -> Iterator[Any]:
    """The rows of plans are words by names; there is the content of each file by its name."""
    for name, most in PLANS.items():
        _, program, _, *options = words = rows[name].split()
        yield group(name, " ".join(words), contents[name], of_text(contents[name]),
                    lambda plan: sim(contents[program], plan, **options_in(options)), most)


def scripts(rows: Any, contents: Any, texts: Any) -> Iterator[Any]:
    for name, most in SCRIPTS.items():
        _, program, reported, number, _ = words = rows[name].split()

        def answer(script: Any) -> Any:
            try:
                return debug(contents[program], contents[reported], int(number), script, texts)
            except KeyError:
                raise Unknown from None  # a word that no table has

        yield group(name, " ".join(words), contents[name], of_text(contents[name]), answer, most)


def vectors(contents: Any, texts: Any) -> Iterator[Any]:
    for name, sorts in VECTORS.items():
        for changes, most in sorts.items():
            yield group(name, "vectors @ --cores 2", contents[name],
                        changes(contents[name]), lambda file: answered_vectors(file, texts), most)


def changed_list(rows: Any, contents: Any, texts: Any, source: Any) -> Any:
    """The whole list; the group of a source is made beside it."""
    groups = [*programs(contents, texts), source, *plans(rows, contents),
              *scripts(rows, contents, texts), *vectors(contents, texts)]
    return "".join(text for text, _ in groups)

"""Says of a program file which check of docs/PROGRAM_FILE.md fails first, or what the loader makes
of it; tools/smemu_tools/rows/changed.py asks it.

It shares nothing with the emulator. `loaded` gives the listing of a file's code words as pairs of
an address and a word, or raises Refused with the line that is written. Which words mean an
instruction is asked for by a function, since the tables of crates/smemu_rows/data say it of theirs
alone.
"""
from __future__ import annotations

import struct
from typing import Any, Callable, Iterable

FILE_LIMIT, PAGE, STACK_PAGES, PAGE_LIMIT = 67_108_864, 4096, 64, 4096
RESERVED = range(0x7DFFFFFC0000, 0x7F0000001000)
PROGRAM_HEADER, SECTION_HEADER, SYMBOL = "<IIQQQQQQ", "<IIQQQQIIQQ", "<IBBHQQ"
NOT_STATIC = {2, 3, 7}
LOAD, PROGBITS, SYMTAB, EXECUTE, EXECINSTR = 1, 1, 2, 1, 4


class Refused(Exception):
    """The line that a refused file gives, after `bad file: `."""


class Load:
    """A segment that is loaded: its index, its addresses, its flags and its bytes in the file."""

    def __init__(self, index: int, flags: int, address: int, memory: int, content: bytes) -> None:
        self.index, self.flags, self.address, self.end, self.content = (index, flags, address,
                                                                        address + memory, content)

    def byte(self, address: int) -> int:
        at = address - self.address
        return self.content[at] if at < len(self.content) else 0

    def pages(self) -> Iterable[Any]:
        return range(self.address // PAGE, (self.end - 1) // PAGE + 1)


def truncated(file: bytes) -> None:
    raise Refused(f"truncated {len(file)}")


def bad_table(place: int) -> None:
    raise Refused(f"badtable {place}")


def check_header(file: bytes) -> tuple[int, ...]:
    """The header's fields that are looked at later: entry, places, sizes and numbers of both
    tables, in the order of the header."""
    if len(file) > FILE_LIMIT:
        raise Refused("toolong")
    if len(file) < 64:
        truncated(file)
    if file[:7] != b"\x7fELF\x02\x01\x01":
        raise Refused("notelf")
    kind, machine, _, entry, heads, sections, _, _, size, count, section_size, section_count, _ = (
        struct.unpack_from("<HHIQQQIHHHHHH", file, 16))
    if machine != 183:
        raise Refused(f"notthismachine {machine}")
    if kind != 2:
        raise Refused(f"notstatic {kind}")
    end = heads + 56 * count
    if size != 56 or count in (0, 65535) or end >= 1 << 64:
        bad_table(heads)
    if end > len(file):
        truncated(file)
    return entry, heads, count, sections, section_size, section_count


def load_of(file: bytes, index: int, place: int) -> Load | None:
    """The load of a program header; None of one that is passed over."""
    kind, flags, offset, address, _, size, memory, _ = struct.unpack_from(PROGRAM_HEADER, file,
                                                                          place)
    if kind in NOT_STATIC:
        raise Refused(f"notstatic {kind}")
    if kind != LOAD:
        return None
    if size > memory:
        bad_table(place)
    if memory == 0:
        return None
    if address + memory > 1 << 47 or offset + size >= 1 << 64:
        bad_table(place)
    if size and offset + size > len(file):
        truncated(file)
    if address < RESERVED.stop and address + memory > RESERVED.start:
        raise Refused(f"inshared {index}")
    return Load(index, flags & 7, address, memory, file[offset:offset + size])


def check_together(loads: Any, entry: int) -> None:
    """The checks on all loads."""
    for i, a in enumerate(loads):
        for b in loads[i + 1:]:
            if a.address < b.end and b.address < a.end:
                raise Refused(f"overlap {a.index} {b.index}")
    # the pages of loads that have no address in common: of two neighbours one page at most is the
    # same
    ordered = sorted(loads, key=lambda load: load.address)
    pages = sum(len(load.pages()) for load in ordered)
    pages -= sum(a.pages()[-1] == b.pages()[0] for a, b in zip(ordered, ordered[1:]))
    if pages + STACK_PAGES > PAGE_LIMIT:
        raise Refused(f"toomanypages {pages + STACK_PAGES}")
    if entry % 4 or not any(load.flags & EXECUTE and load.address <= entry < load.end
                            for load in loads):
        raise Refused(f"entryoutside 0x{entry:016x}")


def covered(loads: list[Load], start: int, end: int) -> bool:
    """Tells whether each address from `start` to `end` is in a load."""
    while start < end:
        load = next((load for load in loads if load.address <= start < load.end), None)
        if load is None:
            return False
        start = load.end
    return True


def inside(file: bytes, header: tuple[int, ...]) -> bool:
    return header[4] + header[5] <= len(file)


def marks_of(file: bytes, headers: list[tuple[int, ...]], header: tuple[int, ...],
             place: int) -> list[tuple[int, int, bool]]:
    """The mapping symbols of a symbol table: section, value and whether code begins."""
    if header[9] != 24 or header[6] >= len(headers):
        bad_table(place)
    names = headers[header[6]]
    count = header[5] // 24
    if (count and not (inside(file, header) and inside(file, names)) or header[5]
            and not inside(file, header) or names[5] and not inside(file, names)):
        bad_table(place)
    strings, marks = file[names[4]:names[4] + names[5]], []
    for k in range(count):
        name_at, _, _, section, value, _ = struct.unpack_from(SYMBOL, file, header[4] + 24 * k)
        end = strings.find(b"\0", name_at)
        if name_at >= len(strings) or end < 0:
            bad_table(place)
        name = strings[name_at:end]
        if name in (b"$x", b"$d") or name[:3] in (b"$x.", b"$d."):
            marks.append((section, value, name[1:2] == b"x"))
    return marks


def check_sections(file: bytes, loads: list[Load], at: int, size: int,
                   count: int) -> tuple[list[tuple[int, int, int]], list[tuple[int, int, bool]]]:
    """The code sections, each with its number, and the mapping symbols in the order in which a
    later one wins."""
    if at == 0:
        return [], []
    if size != 64 or count == 0 or at + 64 * count >= 1 << 64:
        bad_table(at)
    if at + 64 * count > len(file):
        truncated(file)
    headers = [struct.unpack_from(SECTION_HEADER, file, at + 64 * i) for i in range(count)]
    code, marks = [], []
    for number, header in enumerate(headers):
        place = at + 64 * number
        if header[1] == SYMTAB:
            marks += marks_of(file, headers, header, place)
        if header[1] == PROGBITS and header[2] & EXECINSTR:
            if not covered(loads, header[3], header[3] + header[5]):
                bad_table(place)
            code.append((number, header[3], header[3] + header[5]))
    return code, marks


def is_code(marks: list[tuple[int, int, bool]], section: int, address: int) -> bool:
    """What the mapping symbols of a section say of an address."""
    values = [value for of, value, _ in marks if of == section and value <= address]
    if not values:
        return True
    return [begins for of, value, begins in marks if of == section and value == max(values)][-1]


def word_at(loads: list[Load], address: int) -> int:
    return sum(next(load for load in loads if load.address <= at < load.end).byte(at) << 8 * k
               for k, at in enumerate(range(address, address + 4)))


def loaded(file: bytes, means: Callable[..., Any]) -> list[tuple[int, int]]:
    """The code words of a file in the order of their addresses."""
    entry, heads, count, sections_at, section_size, section_count = check_header(file)
    loads = [load for i in range(count) if (load := load_of(file, i, heads + 56 * i))]
    check_together(loads, entry)
    code, marks = check_sections(file, loads, sections_at, section_size, section_count)
    places = {at for number, start, end in code for at in range(-(-start // 4) * 4, end - 3, 4)
              if is_code(marks, number, at)}
    words = [(at, word_at(loads, at)) for at in sorted(places)]
    for at, word in words:
        if not means(word):
            raise Refused(f"unlisted 0x{at:016x} 0x{word:08x}")
    return words

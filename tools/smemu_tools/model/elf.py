"""ELF64 executables for AArch64, built from their parts, so that each field can be set to what a
file should not have."""
from __future__ import annotations

import struct
from typing import Any

ADDRESS = 0x400000
LOAD, DYNAMIC, INTERP, NOTE, TLS, STACK = 1, 2, 3, 4, 7, 0x6474E551
PROGBITS, SYMTAB, STRTAB, NOBITS = 1, 2, 3, 8
ALLOC, EXECINSTR = 2, 4
NAMES = {PROGBITS: ".text", SYMTAB: ".symtab", STRTAB: ".strtab", NOBITS: ".bss"}


def text_of(words: Any) -> bytes:
    return b"".join(struct.pack("<I", word) for word in words)


class Segment:
    """A program header and its bytes in the file."""

    def __init__(self, address: int = ADDRESS, data: bytes = b"", flags: int = 5, kind: int = LOAD,
                 memory: int | None = None, size: Any = None, offset: int | None = None) -> None:
        self.address, self.data, self.flags, self.kind, self.offset = (address, data, flags, kind,
                                                                       offset)
        self.size = len(data) if size is None else size
        self.memory = self.size if memory is None else memory


class Section:
    """A section header, over the bytes of a segment or over its own."""

    def __init__(self, kind: int = PROGBITS, flags: int = 0, address: int = 0,
                 data: bytes | None = None, size: int = 0, offset: int = 0, link: int = 0,
                 entry_size: int = 0) -> None:
        self.kind, self.flags, self.address, self.data = kind, flags, address, data
        self.size = size if data is None else len(data)
        self.offset, self.link, self.entry_size = offset, link, entry_size


def symbols(*entries: tuple[str, int, int]) -> tuple[bytes, bytes]:
    """A symbol table and its string table: each entry is a name, a section's number and a value."""
    strings, table = b"\0", bytes(24)
    for name, section, value in entries:
        table += struct.pack("<IBBHQQ", len(strings), 0, 0, section, value, 0)
        strings += name.encode() + b"\0"
    return table, strings


def build(segments: list[Segment], sections: list[Section] | None = None,
          entry: int = ADDRESS) -> tuple[bytes, list[int], list[int]]:
    """The bytes of the file, the places of its program headers and those of its section headers."""
    body = bytearray(64 + 56 * len(segments))
    heads = b""
    for segment in segments:
        body += bytes(-len(body) % 16)
        offset = len(body) if segment.offset is None else segment.offset
        body += segment.data
        heads += struct.pack("<IIQQQQQQ", segment.kind, segment.flags, offset, segment.address,
                             segment.address, segment.size, segment.memory, 1)
    body[64:64 + len(heads)] = heads
    sections_at = 0
    if sections is not None:
        names, table = b"\0", bytes(64)
        for section in sections:
            if section.data is not None:
                body += bytes(-len(body) % 8)
                section.offset = len(body)
                body += section.data
            table += struct.pack("<IIQQQQIIQQ", len(names), section.kind, section.flags,
                                 section.address, section.offset, section.size, section.link, 0, 1,
                                 section.entry_size)
            names += NAMES.get(section.kind, ".other").encode() + b"\0"
        body += bytes(-len(body) % 8)
        table += struct.pack("<IIQQQQIIQQ", len(names), STRTAB, 0, 0, len(body), len(names) + 10, 0,
                             0, 1, 0)
        body += names + b".shstrtab\0"
        body += bytes(-len(body) % 8)
        sections_at = len(body)
        body += table
    count = 0 if sections is None else len(sections) + 2
    body[:64] = b"\x7fELF" + bytes([2, 1, 1, 0]) + bytes(8) + struct.pack(
        "<HHIQQQIHHHHHH", 2, 183, 1, entry, 64, sections_at, 0, 64, 56, len(segments),
        64 if count else 0, count, max(count - 1, 0))
    return bytes(body), [64 + 56 * i for i in range(len(segments))], [sections_at + 64 * i
                                                                      for i in range(count)]


def elf(words: list[int], address: int = ADDRESS, entry: Any = None) -> bytes:
    """One load that can be read and executed, with a section of the same words."""
    text = text_of(words)
    section = Section(flags=ALLOC | EXECINSTR, address=address, size=len(text), offset=128)
    return build([Segment(address, text)], [section], address if entry is None else entry)[0]


def sections_of(file: bytes) -> dict[str, tuple[tuple[int, ...], bytes]]:
    """The sections of a file by their names: each has its header and its bytes."""
    table, count, names = struct.unpack_from("<Q", file, 40)[0], *struct.unpack_from("<HH", file,
                                                                                     60)
    headers = [struct.unpack_from("<IIQQQQIIQQ", file, table + 64 * i) for i in range(count)]
    strings = headers[names][4]
    name = lambda header: file[strings + header[0]:file.index(b"\0", strings + header[0])].decode()
    return {name(header): (header,
                           b"" if header[1] == NOBITS else file[header[4]:header[4] + header[5]])
            for header in headers}


def mapping_symbols(file: bytes) -> list[tuple[int, bool]]:
    """The mapping symbols of a linked file's text: pairs of an address and whether code begins
    there."""
    sections = sections_of(file)
    start, size = sections[".text"][0][3], sections[".text"][0][5]
    strings = sections[".strtab"][1]
    table = sections[".symtab"][1]
    found = []
    for at in range(0, len(table), 24):
        name_at, _, _, _, value, _ = struct.unpack_from("<IBBHQQ", table, at)
        name = strings[name_at:strings.index(b"\0", name_at)]
        kind = name.split(b".")[0]
        if kind in (b"$x", b"$d") and start <= value < start + size:
            found.append((value, kind == b"$x"))
    return sorted(found)


def assembled(text: bytes, data: bytes, entry: int, marks: list[tuple[int, bool]]) -> bytes:
    """The file of a program of that text and data, laid out as docs/ASSEMBLY.md says."""
    page = lambda place: -(-place // 4096) * 4096
    data_at, data_address = page(4096 + len(text)), page(ADDRESS + len(text))
    symbols_at = -(-(data_at + len(data)) // 8) * 8
    table = bytes(24) + b"".join(struct.pack("<IBBHQQ", 1 if code else 4, 0, 0, 1, value, 0)
                                 for value, code in marks)
    segment = lambda flags, at, address, size: struct.pack("<IIQQQQQQ", LOAD, flags, at, address,
                                                           address, size, size, 4096)
    section = lambda name, *fields: struct.pack("<IIQQQQIIQQ", name, *fields)
    head = b"\x7fELF" + bytes([2, 1, 1, 0]) + bytes(8) + struct.pack(
        "<HHIQQQIHHHHHH", 2, 183, 1, entry, 64, 176, 0, 64, 56, 2 if data else 1, 64, 6, 5)
    head += segment(5, 4096, ADDRESS,
                    len(text)) + (segment(6, data_at, data_address, len(data)) if data
                                  else bytes(56))
    head += bytes(64) + section(1, PROGBITS, ALLOC | EXECINSTR, ADDRESS, 4096, len(text), 0, 0, 4,
                                0)
    head += section(7, PROGBITS, 3, data_address, data_at, len(data), 0, 0, 8, 0)
    head += section(13, SYMTAB, 0, 0, symbols_at, len(table), 4, 1 + len(marks), 8, 24)
    head += section(21, STRTAB, 0, 0, 560, 7, 0, 0, 1, 0) + section(29, STRTAB, 0, 0, 568, 39, 0, 0,
                                                                    1, 0)
    head += b"\0$x\0$d\0\0" + b"\0.text\0.data\0.symtab\0.strtab\0.shstrtab\0"
    to = lambda body, size: body + bytes(size - len(body))
    return to(to(to(head, 4096) + text, data_at) + data, symbols_at) + table

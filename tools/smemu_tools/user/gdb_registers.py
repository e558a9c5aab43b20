"""The registers of a thread as gdb is told of them: the description of the target, and the bytes of each register at a count.

Vectors are as long as the greater of the two lengths of the report, and ZA is S vectors of S bytes, S being its streaming length; what is past the
length in force, or off, is zero. A tile is a vector of its rows, under the name that gdb 14 and later give it: za0b, za0h to za1h, .. to za15q.
Vectors, predicates and vg have the names and types that gdb has for SVE, svg those for SME.
"""
SIZES = {"b": 1, "h": 2, "s": 4, "d": 8, "q": 16}
# of each size of elements what they may be: floating point, unsigned and signed numbers
KINDS = {
    "q": {"u": "uint128", "s": "int128"},
    "d": {"f": "ieee_double", "u": "uint64", "s": "int64"},
    "s": {"f": "ieee_single", "u": "uint32", "s": "int32"},
    "h": {"f": "ieee_half", "u": "uint16", "s": "int16"},
    "b": {"u": "uint8", "s": "int8"},
}
FLAGS = {"N": 31, "Z": 30, "C": 29, "V": 28}
# the registers that gdb gets at each stop; the others it asks for when they are wanted
AT_A_STOP = 34


class Register:
    """A register: its name, its bits, the type that gdb shows it by, and its bytes of a state."""

    def __init__(self, name, bits, kind, group, bytes_of):
        self.name, self.bits, self.kind, self.group, self.bytes_of = name, bits, kind, group, bytes_of

    def text(self, number):
        """Its line in the description."""
        return f'<reg name="{self.name}" bitsize="{self.bits}" regnum="{number}" type="{self.kind}" group="{self.group}"/>'


def number_of(name):
    """Reads a number of eight bytes, of which zero has no line."""
    return lambda thread, count: int(thread.state(count).registers.get(name, "0"), 16).to_bytes(8, "little")


def flags(thread, count):
    return (int(thread.state(count).registers["nzcv"], 2) << 28).to_bytes(4, "little")


def bytes_of(name, length):
    """Reads a vector or a predicate, of which zero has no line, and which may be shorter."""
    return lambda thread, count: bytes.fromhex(thread.state(count).registers.get(name, "")).ljust(length, b"\0")


def row_of(row):
    """Reads a vector of ZA."""
    return lambda thread, count: thread.za(count).get(row, bytes(thread.rows))


def tile_of(size, tile):
    """Reads a tile, its rows one after the other."""
    def read(thread, count):
        za = thread.za(count)
        return b"".join(za.get(row, bytes(thread.rows)) for row in range(tile, thread.rows, size))
    return read


def core():
    found = [Register(f"x{n}", 64, "int", "general", number_of(f"x {n}")) for n in range(31)]
    found += [Register("sp", 64, "data_ptr", "general", number_of("sp")), Register("pc", 64, "code_ptr", "general", number_of("pc"))]
    return [*found, Register("cpsr", 32, "cpsr_flags", "general", flags)]


def granules(thread, count):
    """The length in force, in units of 64 bits."""
    is_streaming = thread.state(count).registers["svcr"] in ("1", "3")
    return ((thread.report.svl if is_streaming else thread.report.vl) // 64).to_bytes(8, "little")


def of_the_thread():
    found = [Register("count", 64, "int", "general", lambda thread, count: count.to_bytes(8, "little"))]
    return found + [Register(name, 64, "int", "general", number_of(name)) for name in ("svcr", "tpidr", "tpidr2")]


def vectors(length):
    names = [f"p {n}" for n in range(16)] + ["ffr"]
    found = [Register(f"z{n}", 8 * length, "svev", "vector", bytes_of(f"z {n}", length))
             for n in range(32)]
    found += [Register(name.replace(" ", ""), length, "svep", "vector", bytes_of(name, length // 8))
              for name in names]
    streaming = lambda thread, count: (thread.rows // 8).to_bytes(8, "little")
    return [*found, Register("vg", 64, "int", "vector", granules),
            Register("svg", 64, "int", "vector", streaming)]


def of_za(rows):
    found = [Register(f"za{n}", 8 * rows, "zav", "vector", row_of(n)) for n in range(rows)]
    return found + [Register(f"za{tile}{letter}", 8 * rows * rows // size, f"tile_{letter}", "vector", tile_of(size, tile))
                    for letter, size in SIZES.items() for tile in range(size)]


def vector_types(name, length):
    """The type of a vector: the same bytes as elements of each size, and of each kind."""
    text, sizes = "", ""
    for letter, size in reversed(SIZES.items()):
        kinds = KINDS[letter]
        text += "".join(f'<vector id="{name}{letter}{kind}" type="{it}" count="{length // size}"/>'
                        for kind, it in kinds.items())
        fields = (f'<field name="{kind}" type="{name}{letter}{kind}"/>' for kind in kinds)
        text += f'<union id="{name}n{letter}">{"".join(fields)}</union>'
        sizes += f'<field name="{letter}" type="{name}n{letter}"/>'
    return f'{text}<union id="{name}">{sizes}</union>'


def tile_types(rows):
    return "".join(f'<vector id="tile_{letter}" type="zav{letter}u" count="{rows // size}"/>'
                   for letter, size in SIZES.items())


def flag_type():
    fields = "".join(f'<field name="{name}" start="{bit}" end="{bit}"/>' for name, bit in FLAGS.items())
    return f'<flags id="cpsr_flags" size="4">{fields}</flags>'


class Description:
    """All registers in gdb's order, and the text that says so."""

    def __init__(self, longest, rows):
        predicate = f'<vector id="svep" type="uint8" count="{longest // 8}"/>'
        features = [
            ("org.gnu.gdb.aarch64.core", flag_type(), core()),
            ("org.smemu.thread", "", of_the_thread()),
            ("org.smemu.vectors", vector_types("svev", longest) + predicate, vectors(longest)),
            ("org.smemu.za", vector_types("zav", rows) + tile_types(rows), of_za(rows)),
        ]
        self.registers = [register for _, _, registers in features for register in registers]
        text, number = "", 0
        for name, types, registers in features:
            text += f'<feature name="{name}">{types}'
            for register in registers:
                text, number = text + register.text(number), number + 1
            text += "</feature>"
        self.text = f'<?xml version="1.0"?><!DOCTYPE target SYSTEM "gdb-target.dtd"><target><architecture>aarch64</architecture>{text}</target>'

    def at_a_stop(self, thread, count):
        """The digits of the registers that gdb gets at each stop."""
        return "".join(register.bytes_of(thread, count).hex() for register in self.registers[:AT_A_STOP])

    def one(self, number, thread, count):
        """The digits of a register, or None where there is none of this number."""
        if number >= len(self.registers):
            return None
        return self.registers[number].bytes_of(thread, count).hex()

"""Writes files of vectors with each field there and absent, and with the most lines, none, and
words of no row: data/NAME-VL-SVL.vectors with their answers.

    tools/smemu-tools vector-lines

The lists that make_rows.py writes come from here too, in the form of those of changed.py: of lines
that are in the grammar of docs/VECTORS.md and lines that are not, each at several places of a file,
of files with more lines and bytes than there may be, and of steps whose answers were altered by
hand. What is to be answered is said by tools/smemu_tools/model/expected_answers.py; of each line at
fault it is also written here that it is.
"""
from __future__ import annotations

import itertools
import random
from typing import Any, Iterator

from smemu_tools import parser
from smemu_tools.rows import random_bytes
from smemu_tools.rows.vector_files import DATA, put

from smemu_tools.model.expected_answers import DONE, MOST_BYTES, PAGE, answers, read_vectors
from smemu_tools.rows.changed import case

NOP, VALUE = "d503201f", "0123456789abcdef"
PAIRS = ((128, 256), (256, 512), (512, 1024), (1024, 2048), (2048, 128))
# files without lines, with the most lines, and with three that are replaced in turn
NONE, MOST, THREE, MIXED = ("no-lines-128-128.vectors", "most-lines-128-128.vectors",
                            "three-lines-128-256.vectors", "mixed-lines-128-256.vectors")
# words that the tables have: adds, ldr, svc, hint, zero, and one of no row
MIXED_LINES = f"""\
b13ac92b x9=7fffffffffffffff
f94003fc x28={VALUE} sp=0000000000010000 nzcv=0110 tpidr=0000000000000001 tpidr2=00000000000000ff svcr=0 z3={"5a" * 16} m=0011223344556677
d4000001 x30=00000000000000aa nzcv=1000
d5032fff x0={VALUE} x9={VALUE} x10={VALUE} svcr=3 z0={"12" * 32} z31={"34" * 32} p0=01020304 p15=50607080 ffr=ffffffff za0={"9a" * 32} za31={"bc" * 32} m=01
c00800a5 svcr=2 za1={"de" * 32} za5={"0f" * 32}
1e604000 sp=ffffffffffffffff
"""


# ---- fields


def values(chance: Any, vl: Any, svl: Any, svcr: Any) -> Any:
    """Each field with a value that is not zero, by its key, in the order of a line."""
    length = (svl if svcr & 1 else vl) // 8
    number = lambda: f"{chance.randrange(1, 1 << 64):016x}"
    some = lambda count: (random_bytes(chance, count - 1) + b"\x80").hex()
    found = {f"x{n}": number() for n in range(31)}
    found.update(sp=number(), nzcv=f"{chance.randrange(1, 16):04b}", tpidr=number(),
                 tpidr2=number())
    if svcr:
        found["svcr"] = str(svcr)
    found.update((f"z{n}", some(length)) for n in range(32))
    found.update((f"p{n}", some(length // 8)) for n in range(16))
    found["ffr"] = some(length // 8)
    if svcr & 2:
        found.update((f"za{n}", some(svl // 8)) for n in range(svl // 8))
    return {**found, "m": some(chance.choice((1, 8, 100)))}


def line_of(fields: Any) -> Any:
    return " ".join([NOP, *(f"{key}={value}" for key, value in fields.items())])


def kind_of(key: Any) -> Any:
    return key.rstrip("0123456789") if key != "tpidr2" else key


def of_fields(chance: Any, vl: Any, svl: Any) -> Iterator[Any]:
    """Lines with none of the fields, with each one alone, of ZA some, with all but those of a kind,
    and with fields that are zero."""
    yield NOP
    for svcr in range(4):
        fields = values(chance, vl, svl, svcr)
        mode = {"svcr": str(svcr)} if svcr else {}
        yield line_of({"svcr": str(svcr)})
        if svcr in (0, 3):
            rows = chance.sample(range(svl // 8), min(svl // 8, 16))
            alone = [key for key in fields
                     if key != "svcr" and (kind_of(key) != "za" or int(key[2:]) in rows)]
            yield from (line_of({key: value for key, value in fields.items()
                                 if key in ("svcr", one)}) for one in alone)
        # of each file the first and the last register
        ends = {key: value for key, value in fields.items()
                if key in ("x0", "x30", "z0", "z31", "p0", "p15", "za0", f"za{svl // 8 - 1}")
                or not key[-1].isdigit() or key == "tpidr2"}
        yield line_of(ends)
        for kind in dict.fromkeys(map(kind_of, ends)):
            if kind != "svcr":
                yield line_of({key: value for key, value in ends.items() if kind_of(key) != kind})
        yield line_of({key: value if key == "svcr" else "0" * len(value)
                       for key, value in ends.items()})
        yield from (line_of({**mode, "m": data})
                    for data in ("00", "0100", "ff" * 4095, "5a" * 4096, "00" * 4095 + "01"))
    yield line_of(fields)


def subsets(chance: Any) -> Iterator[Any]:
    """A line with each set of fields of the kinds, at the least lengths: 2,048."""
    kinds = ("x", "sp", "nzcv", "tpidr", "tpidr2", "z", "p", "ffr", "m")
    every: tuple[dict[str, Any], ...] = ({}, {"svcr": "1"}, {"svcr": "2"},
                                         {"svcr": "3", "za": None})
    for modes in every:
        for there in itertools.product((False, True), repeat=len(kinds)):
            fields = values(chance, 128, 128, int(modes.get("svcr", 0)))
            chosen = [f"x{chance.randrange(31)}", f"z{chance.randrange(32)}",
                      f"p{chance.randrange(16)}", f"za{chance.randrange(16)}"]
            named = {kind for kind, is_there in zip(kinds, there) if is_there} | modes.keys()
            yield line_of({key: value for key, value in fields.items()
                           if kind_of(key) in named
                           and (not key[-1].isdigit() or key == "tpidr2" or key in chosen)})


# ---- lines in the grammar and lines that are not, at VL 128 and SVL 256

GOOD = [NOP, f"{NOP} x0={VALUE}",
        f"{NOP} x30={VALUE} sp={VALUE} nzcv=1010 tpidr={VALUE} tpidr2={VALUE} svcr=0",
        f"{NOP} nzcv=0000", f"{NOP} x7={'0' * 16}",
        f"{NOP} svcr=1 z31={'ab' * 32} p15={'cd' * 4} ffr={'ef' * 4}",
        f"{NOP} z0={'ab' * 16} p0=cdef ffr=0123", f"{NOP} svcr=2 za0={'01' * 32} za31={'23' * 32}",
        f"{NOP} svcr=3 z0={'45' * 32} za7={'67' * 32} m=89", f"{NOP} m=00",
        f"{NOP} m={'5a' * 4096}", f"{NOP} svcr=2", "00000000",
        f"{NOP} x1={VALUE} x2={VALUE} x10={VALUE}"]
# of each kind of fault: what a line begins with, blanks, keys, signs, values, orders, and lengths
# that are others'
BAD = ["", " ", f" {NOP}", f"{NOP} ", f"{NOP}  sp={VALUE}", f"{NOP}\t", f"{NOP}\tsp={VALUE}",
       f"\t{NOP}", f"{NOP}\r", f"{NOP} sp={VALUE}\r", f"{NOP}\0", f"{NOP}\f", f"{NOP}\v", "d503201",
       "d503201f0", "D503201F", "0xd503201f", "d503201g", "+503201f", "zz", f"sp={VALUE}",
       f"{NOP} {NOP}", f"word={NOP}", f"#{NOP}", f"// {NOP}", f"{NOP} x31={VALUE}",
       f"{NOP} x01={VALUE}", f"{NOP} x00={VALUE}", f"{NOP} x={VALUE}", f"{NOP} x256={VALUE}",
       f"{NOP} x4294967296={VALUE}", f"{NOP} x18446744073709551616={VALUE}", f"{NOP} x-1={VALUE}",
       f"{NOP} x+1={VALUE}", f"{NOP} x1a={VALUE}", f"{NOP} X1={VALUE}", f"{NOP} w1={VALUE}",
       f"{NOP} xzr={VALUE}", f"{NOP} x1={VALUE[1:]}", f"{NOP} x1={VALUE}0",
       f"{NOP} x1=0123456789ABCDEF", f"{NOP} x1=0x23456789abcdef", f"{NOP} x1=+123456789abcdef",
       f"{NOP} x1=", f"{NOP} x1", f"{NOP} x1:{VALUE}", f"{NOP} x1=={VALUE}", f"{NOP} x1={VALUE}=",
       f"{NOP} x1 ={VALUE}", f"{NOP} x1= {VALUE}", f"{NOP} =x1", f"{NOP} ={VALUE}", f"{NOP} =",
       f"{NOP} x1={VALUE},x2={VALUE}", f"{NOP} x2={VALUE} x1={VALUE}",
       f"{NOP} x10={VALUE} x9={VALUE}", f"{NOP} x1={VALUE} x1={VALUE}",
       f"{NOP} sp={VALUE} x1={VALUE}", f"{NOP} sp={VALUE} sp={VALUE}", f"{NOP} sp={VALUE[2:]}",
       f"{NOP} Sp={VALUE}", f"{NOP} s={VALUE}", f"{NOP} spp={VALUE}", f"{NOP} sp0={VALUE}",
       f"{NOP} nzcv=101", f"{NOP} nzcv=10101", f"{NOP} nzcv=1012", f"{NOP} nzcv=", f"{NOP} nzcv=a",
       f"{NOP} nzcv={VALUE}", f"{NOP} nzcv=0000 sp={VALUE}", f"{NOP} nzcv=0000 nzcv=0000",
       f"{NOP} tpidr={VALUE[:-1]}", f"{NOP} tpidr2={VALUE} tpidr={VALUE}", f"{NOP} tpidr1={VALUE}",
       f"{NOP} tpidr2={VALUE}0", f"{NOP} tpidr={VALUE} tpidr={VALUE}",
       f"{NOP} tpidr2={VALUE} tpidr2={VALUE}", f"{NOP} svcr=4", f"{NOP} svcr=01", f"{NOP} svcr=",
       f"{NOP} svcr=-1", f"{NOP} svcr=a", f"{NOP} svcr=1 svcr=1", f"{NOP} svcr=0 tpidr2={VALUE}",
       f"{NOP} z0={'ab' * 32}", f"{NOP} z0={'ab' * 15}", f"{NOP} z0={'ab' * 15}a",
       f"{NOP} z0={'AB' * 16}", f"{NOP} z32={'ab' * 16}", f"{NOP} z00={'ab' * 16}",
       f"{NOP} svcr=1 z0={'ab' * 16}", f"{NOP} svcr=2 z0={'ab' * 32}", f"{NOP} z0=",
       f"{NOP} z={'ab' * 16}", f"{NOP} z1={'ab' * 16} z0={'ab' * 16}",
       f"{NOP} z0={'ab' * 16} z0={'ab' * 16}", f"{NOP} z0={'ab' * 16} svcr=0",
       f"{NOP} z0={'ab' * 32} svcr=1", f"{NOP} p16=cdef", f"{NOP} p0=cdef01", f"{NOP} p0=cd",
       f"{NOP} svcr=1 p0=cdef", f"{NOP} p0=cdef z0={'ab' * 16}", f"{NOP} p0=cdeg",
       f"{NOP} p1=cdef p0=cdef", f"{NOP} p0=", f"{NOP} p=cdef", f"{NOP} ffr=01",
       f"{NOP} ffr=012345", f"{NOP} svcr=3 ffr=0123", f"{NOP} ffr=0123 p0=cdef",
       f"{NOP} ffr=0123 ffr=0123", f"{NOP} ffr0=0123", f"{NOP} ffr=", f"{NOP} za0={'01' * 32}",
       f"{NOP} svcr=0 za0={'01' * 32}", f"{NOP} svcr=1 za0={'01' * 32}",
       f"{NOP} svcr=2 za0={'01' * 16}", f"{NOP} svcr=2 za32={'01' * 32}",
       f"{NOP} svcr=2 za256={'01' * 32}", f"{NOP} svcr=2 za0={'01' * 31}0",
       f"{NOP} svcr=2 za={'01' * 32}", f"{NOP} svcr=2 za00={'01' * 32}",
       f"{NOP} svcr=2 za1={'01' * 32} za0={'01' * 32}",
       f"{NOP} svcr=2 za0={'01' * 32} za0={'01' * 32}", f"{NOP} svcr=2 za0={'01' * 32} ffr=0123",
       f"{NOP} za0={'01' * 32} svcr=2", f"{NOP} m=", f"{NOP} m=0", f"{NOP} m=000",
       f"{NOP} m={'5a' * 4097}", f"{NOP} m=5A", f"{NOP} m=0x5a", f"{NOP} m=00 m=00", f"{NOP} m0=00",
       f"{NOP} m=00 x0={VALUE}", f"{NOP} m=00 svcr=2", f"{NOP} pc={VALUE}", f"{NOP} q0={'ab' * 16}",
       f"{NOP} v0={'ab' * 16}", f"{NOP} é={VALUE}", f"{NOP} x1=\xff", "\xff",
       "next pc=0000000000020004", "call 0", "shared"]


def encoded(line: Any) -> Any:
    """The bytes of a line, of which those above 127 are no text."""
    return line.encode("latin-1")


def list_of(base: Any, words: Any, content: Any, cases: Any, vl: Any = 128, svl: Any = 256) -> Any:
    """A group of cases, each of which has one change or several."""
    answer = lambda file: answers(file, vl, svl)
    return f"{base} {words}\n" + "".join(case(content, changes, answer) for changes in cases)


def replaced_lines() -> Iterator[Any]:
    """Each line in the place of the only line, of one between two, and of the last, without its
    line feed; and which line is then at fault."""
    size = len(NOP) + 1
    for line, is_bad in [*((line, False) for line in GOOD), *((line, True) for line in BAD)]:
        new = encoded(line)
        # what is empty at the end is no line
        at_end = 3 if is_bad and new else None
        yield [(0, 3 * size, new + b"\n")], 1 if is_bad else None
        yield [(size, 2 * size, new + b"\n")], 2 if is_bad else None
        yield [(2 * size, 3 * size, new)], at_end


def joined_lines() -> Iterator[Any]:
    """Line feeds where a line is to be."""
    size = len(NOP) + 1
    for at, new, line in ((0, b"\n", 1), (size, b"\n", 2), (3 * size, b"\n", 4),
                          (3 * size, b"\n\n", 4), (3 * size, NOP.encode(), None),
                          (size - 1, b"\r", 1)):
        yield [(at, at, new)], line
    yield [(size - 1, size, b"")], 1
    yield [(0, 3 * size, b"")], None
    yield [(0, 3 * size, b"\n")], 1
    yield [(0, 3 * size, NOP.encode())], None


def lines_list(contents: Any) -> Iterator[Any]:
    """The lists of lines, for each number of workers where a file is in the grammar."""
    content, found = contents[THREE], [*replaced_lines(), *joined_lines()]
    for changes, line in found:
        (start, end, new), = changes
        assert read_vectors(content[:start] + new + content[end:], 128, 256)[1] == line, (changes,
                                                                                          line)
    yield list_of(THREE, "vectors @", content, [changes for changes, _ in found])
    for workers in (2, 64):
        yield list_of(THREE, f"vectors @ --cores {workers}", content,
                      [changes for changes, line in found if line is None])
    # a field of one length is at fault at another
    for vl, svl in PAIRS:
        length, other = vl // 8, svl // 8
        cases = [f"{NOP} z0={'ab' * size} p0={'cd' * (size // 8)} ffr={'ef' * (size // 8)}"
                 for size in (length, other)]
        cases += [f"{NOP} svcr=3 z0={'ab' * size} za{other - 1}={'01' * other}"
                  for size in (length, other)] + [f"{NOP} svcr=2 za{n}={'01' * other}"
                                                  for n in (other - 1, other)]
        yield list_of(THREE, f"vectors @ --svl {svl} --vl {vl}", content,
                      [[(0, 27, f"{line}\n".encode())] for line in cases], vl, svl)


def counted_list(contents: Any) -> Iterator[Any]:
    """The most lines and one more, whatever it is, and a line at fault among them."""
    content = contents[MOST]
    end, last, middle = len(content), content.rindex(b"\n") + 1, content.index(b"\n",
                                                                               len(content)
                                                                               // 2) + 1
    after = content.index(b"\n", middle)
    cases = [[(end, end, new)]
             for new
             in (b"\n", b"\n\n", b"\nzz", b"\n" + NOP.encode(), b"\n" + NOP.encode() + b"\n",
                 b"\n\xff", b"\n" + content)]
    cases += [[(last - 1, end, b"")], [(last, end, b"")], [(last, end, b"zz")],
              [(last, last, b"\n")], [(middle, after, b"zz")],
              [(end, end, b"\n" + NOP.encode()), (middle, after, b"zz")]]
    yield list_of(MOST, "vectors @ --vl 128 --svl 128 --cores 64", content, cases, 128, 128)


def longest_list() -> Iterator[Any]:
    """A file with as many bytes as there may be, whose first line is at fault, and one with one
    byte more, where nothing else is looked at."""
    piece = b"\n" * PAGE
    for more, line in (b"", "line 1"), (b"\n", "toolong"):
        assert answers(piece * (MOST_BYTES // PAGE) + more) == (14, f"bad vectors: {line}\n")
        yield (f"{NONE} vectors @\n0 0 {piece.hex()}*{MOST_BYTES // PAGE}{'+0a' * len(more)} "
               f"14\tbad vectors: {line}|\n")


def lists(contents: Any) -> Any:
    return "".join([*lines_list(contents), *counted_list(contents), *longest_list()])


# ---- steps whose answers were altered


# VL, SVL, a step, and an answer of which one field is not what the instruction gives
ALTERED = DATA.parent / "altered_steps.tsv"


def altered_steps() -> Any:
    """Each of the steps with its altered answer, which is not to come."""
    lines = []
    for vl, svl, line, altered in (step.split("\t") for step in ALTERED.read_text().splitlines()):
        status, given = answers(line.encode(), int(vl), int(svl))
        assert status == DONE and given != f"{altered}\n" and given.split()[0] in ("next",
                                                                                   "raise"), line
        lines.append(f"{NONE} vectors @ --vl {vl} --svl {svl}\n0 0 {line.encode().hex()} "
                     f"{DONE}\t{altered}|\n")
    return "".join(lines)


def main() -> None:
    parser(__doc__).parse_args()
    chance = random.Random(7)
    for vl, svl in PAIRS:
        lines = [*of_fields(chance, vl, svl)]
        put(f"fields-{vl}-{svl}.vectors", lines,
            answers("\n".join(lines).encode(), vl, svl)[1].splitlines())
    most = [*subsets(chance)]
    assert len(set(most)) == 2048
    put(MOST, most, answers("\n".join(most).encode(), 128, 128)[1].splitlines(), ends=False)
    put(NONE, [], [])
    put(THREE, [NOP] * 3, answers(f"{NOP}\n".encode() * 3)[1].splitlines())
    put(MIXED, MIXED_LINES.splitlines(), answers(MIXED_LINES.encode())[1].splitlines())
    words = (DATA / "no_row.tsv").read_text().split()
    put("no-row-128-256.vectors", words, [f"raise undefined {word}" for word in words])

"""Makes the lines of files of vectors, and reads them and their answers back (docs/VECTORS.md).

    tools/smemu-tools vectors line             a line for each object of JSON on the standard input
    tools/smemu-tools vectors state            an object for each line, of a file of vectors or of its answers
    tools/smemu-tools vectors compare A B      the fields in which two files of answers differ
    tools/smemu-tools vectors check FILE [--vl BITS] [--svl BITS]
                                      the first line of a file of vectors that `smemu vectors` refuses, with its field at fault and why

An object has "word" (a number) or, of an answer, "end" ("next", or "call", "raise" or "shared" with
"values"), and of the state what is not zero: "pc", "sp", "nzcv" (a number, N in bit 3), "tpidr",
"tpidr2" and "svcr" as numbers; "x" as numbers by register; "z", "p" and "za" as hexadecimal by
register; "ffr" and "m" as hexadecimal, the byte at the lowest address first. Numbers may be text
with 0x. The status is 0, 1 where `compare` finds a difference or `check` a fault, 2 for what cannot
be read. How many bytes a vector, a predicate or a vector of ZA has is looked at by `check` alone,
since the lengths are options of the emulator.
"""
from __future__ import annotations

import argparse
import json
import re
import sys
from typing import Any

MOST_LINES = 2048
LENGTHS = (128, 256, 512, 1024, 2048)
FILES = {"x": 31, "z": 32, "p": 16, "za": 256}
ORDER = ["x", "sp", "nzcv", "tpidr", "tpidr2", "svcr", "z", "p", "ffr", "za", "m"]
# of each kind of value the digits in a line, and their base, where it is a number; the others are
# bytes
NUMBERS = {**{key: ("[0-9a-f]{16}", 16) for key in ("x", "pc", "sp", "tpidr", "tpidr2")},
           "nzcv": ("[01]{4}", 2), "svcr": ("[0-3]", 10)}
BYTES = "([0-9a-f]{2})+"
FIELD = re.compile(
    r"(?:(x|za|z|p)(0|[1-9][0-9]{0,2})|(pc|sp|nzcv|tpidr2|tpidr|svcr|ffr|m))=([0-9a-f]+)")


class Unread(ValueError):
    """A line or an object that is not as docs/VECTORS.md says."""


def number(value: int | str, most: int = (1 << 64) - 1) -> int:
    value = int(value, 0) if isinstance(value, str) else value
    if not 0 <= value <= most:
        raise Unread(f"{value} is no number up to {most}")
    return value


def value_text(key: str, value: Any) -> str:
    """The text of a value, or nothing where it is zero."""
    if key == "nzcv":
        return f"{number(value, 15):04b}" if number(value) else ""
    if key == "svcr":
        return str(number(value, 3)) if number(value) else ""
    if key in NUMBERS:
        return f"{number(value):016x}" if number(value) else ""
    digits = bytes.fromhex(value).hex()
    return digits.rstrip("0") and digits


def fields(state: Any) -> list[str]:
    """The fields of a state that are not zero, in the order of a line."""
    said = []
    for key in ORDER:
        held = state.get(key, {} if key in FILES else 0)
        numbered: list[Any] = [("", held)] if held else []
        if key in FILES:
            numbered = sorted((int(n), value) for n, value in held.items())
        if key in FILES and any(not 0 <= n < FILES[key] for n, _ in numbered):
            raise Unread(f"a number of {key} is not below {FILES[key]}")
        said += [f"{key}{n}={value_text(key, value)}" for n, value in numbered
                 if value_text(key, value)]
    return said


def line(state: Any) -> str:
    """The line of a vector, from its word and its state, or that of an answer, whose data end with
    their last byte that is not zero."""
    if "end" not in state:
        return " ".join([f"{number(state['word'], (1 << 32) - 1):08x}", *fields(state)])
    if state["end"] != "next":
        return " ".join([state["end"], *state.get("values", [])])
    data = bytes.fromhex(state.get("m", "")).rstrip(bytes(1)).hex()
    return " ".join([f"next pc={number(state.get('pc', 0)):016x}", *fields({**state, "m": data})])


def read(text: str) -> dict[str, Any]:
    """The object of a line of vectors or of answers."""
    first, *words = text.split(" ")
    if first in ("call", "raise", "shared"):
        return {"end": first, "values": words}
    state: dict[str, Any]
    if first == "next":
        state = {"end": "next"}
    elif re.fullmatch("[0-9a-f]{8}", first):
        state = {"word": int(first, 16)}
    else:
        raise Unread(f"{first!r} is neither a word nor what an answer begins with")
    for word in words:
        said = FIELD.fullmatch(word)
        file, n, single, value = said.groups() if said else (None,) * 4
        key = file or single
        digits, base = NUMBERS.get(key, (BYTES, None))
        if not said or not re.fullmatch(digits, value) or file and int(n) >= FILES[file]:
            raise Unread(f"{word!r} is no field")
        value = int(value, base) if base else value
        if file:
            state.setdefault(file, {})[n] = value
        else:
            state[key] = value
    return state


def flat(state: dict[str, Any]) -> dict[str, int | list[str] | str]:
    """The fields of an object, by the names of a line."""
    said = {}
    for key, value in state.items():
        said.update({f"{key}{n}": it for n, it in value.items()} if key in FILES else {key: value})
    return said


def differences(first: list[str], second: list[str]) -> Any:
    """What two files of answers differ in: the line from 1 on, the field, and its value in either,
    0 where it is absent."""
    found = []
    for number_of_line in range(max(len(first), len(second))):
        sides = [flat(read(lines[number_of_line])) if number_of_line < len(lines)
                 else {"end": "none"} for lines in (first, second)]
        values = [(key, *(side.get(key) or 0 for side in sides))
                  for key in {**sides[0], **sides[1]}]
        found += [(number_of_line + 1, key, first_value, other)
                  for key, first_value, other in values if first_value != other]
    return found


# a file of vectors


def key_of(name: str) -> tuple[int, int] | None:
    """The place of a field's key in the order of a line, or None."""
    said = re.fullmatch(r"(x|za|z|p)(0|[1-9][0-9]{0,2})", name)
    if said and int(said[2]) < FILES[said[1]]:
        return ORDER.index(said[1]), int(said[2])
    return (ORDER.index(name), 0) if name in ORDER and name not in FILES else None


def value_fault(name: str, value: str, svcr: int, vl: int, svl: int) -> str:
    """What is wrong with the value of a field, by the lengths in bytes, or nothing."""
    if re.search("[A-F]", value):
        return "digits that are letters are in lower case"
    key = re.match("tpidr2?|[a-z]+", name)[0]
    length = svl if svcr & 1 else vl
    if key in ("x", "sp", "tpidr", "tpidr2"):
        return "" if re.fullmatch("[0-9a-f]{16}", value) else "a number has 16 hexadecimal digits"
    if key == "nzcv":
        return "" if re.fullmatch("[01]{4}", value) else "the flags are four digits 0 or 1"
    if key == "svcr":
        return "" if re.fullmatch("[0-3]", value) else "SVCR is 0 to 3"
    if key == "za" and (not svcr & 2 or int(name[2:]) >= svl):
        return (f"ZA has {svl} vectors, za0 to za{svl - 1}" if svcr & 2
                else "ZA is there where svcr has bit 1, as svcr=2 before it")
    wanted = {"z": length, "p": length // 8, "ffr": length // 8, "za": svl, "m": None}[key]
    if not re.fullmatch("([0-9a-f]{2})+", value):
        return "bytes have two hexadecimal digits each"
    if wanted is None:
        return "" if len(value) <= 2 * 4096 else "the data have at most 4,096 bytes"
    return (
        "" if len(value) == 2 * wanted
        else f"{name} has {wanted} bytes here, {2 * wanted} digits, and this is {len(value) / 2:g}")


def fault(text: str, number: int, vl: int, svl: int) -> tuple[int, str] | None:
    """The column of a line of vectors, from 0, at which it is at fault, and why; None where it is
    not. The lengths are in bytes."""
    if number > MOST_LINES:
        return 0, f"a file has at most {MOST_LINES:,} lines"
    if not re.match("[0-9a-f]{8}( |$)", text.rstrip("\r")):
        return (0,
                "a line begins with a word of 8 hexadecimal digits, letters in lower case" if text
                else "an empty line is no vector")
    column, before, svcr = 8, None, 0
    for word in text.split(" ")[1:]:
        column += 1
        name, equal, value = word.partition("=")
        key = key_of(name)
        if not word:
            return column, "between two fields stands one space, and none at the end"
        if not equal or key is None:
            return (column,
                    f"a field is KEY=VALUE, and a key one of x0 to x30, "
                    f"sp, nzcv, tpidr, tpidr2, svcr, z0 to z31, p0 to p15, ffr, "
                    f"za0 to za{svl - 1}, m")
        if before is not None and key <= before[0]:
            return (column,
                    f"{name} stands twice" if key == before[0]
                    else f"{name} is to stand before {before[1]}: the order is "
                    f"{', '.join(ORDER)}, by their numbers")
        why = value_fault(name, value.rstrip("\r"), svcr, vl, svl)
        if why:
            return column + len(name) + 1, why
        before, column = (key, name), column + len(word)
        svcr = int(value[0]) if name == "svcr" else svcr
    return ((len(text) - 1, "a line ends with a line feed alone, without a carriage return")
            if text.endswith("\r") else None)


def check(name: Any, vl: int, svl: int) -> tuple[int, int, str, str] | None:
    """The first line of a file of vectors that is at fault, its column from 0, the line and why;
    None where there is none. The lengths are in bits."""
    with open(name, errors="replace", newline="\n") as file:
        lines = file.read().split("\n")
    for number, text in enumerate(lines[:-1] if not lines[-1] else lines, 1):
        found = fault(text, number, vl // 8, svl // 8)
        if found:
            return number, found[0], text, found[1]
    return None


def check_words(words: list[str]) -> argparse.Namespace:
    """The words after `check`: a name and the lengths, 128 and 256 where they are not given."""
    parser = argparse.ArgumentParser(
        prog="smemu-tools vectors check",
        description="Says which line of a file of vectors is at fault, in which field, and why.")
    parser.add_argument("file", metavar="FILE")
    parser.add_argument("--vl", type=int, choices=LENGTHS, default=128)
    parser.add_argument("--svl", type=int, choices=LENGTHS, default=256)
    return parser.parse_args(words)


def shown(value: int | list[str] | str) -> str:
    return (f"{value:x}" if isinstance(value, int) else " ".join(value) if isinstance(value, list)
            else value)


def asked(words: list[str]) -> int:
    """Does what the words ask for, and gives the status."""
    if words == ["line"]:
        for state in (json.loads(text) for text in sys.stdin if text.strip()):
            print(line(state))
    elif words == ["state"]:
        for text in sys.stdin:
            print(json.dumps(read(text.rstrip("\n"))))
    elif len(words) == 3 and words[0] == "compare":
        found = differences(*(open(name).read().splitlines() for name in words[1:]))
        for at, key, first, second in found:
            print(f"line {at}: {key} {shown(first)} {shown(second)}")
        return 1 if found else 0
    elif words[:1] == ["check"]:
        given = check_words(words[1:])
        found = check(given.file, given.vl, given.svl)
        if found:
            number, column, text, why = found
            print(f"line {number}, column {column + 1}: {why}", text.rstrip("\r"),
                  " " * column + "^", sep="\n")
        return 1 if found else 0
    elif words in (["-h"], ["--help"]):
        print("usage: smemu-tools vectors line|state|compare|check ..", "", __doc__.strip(),
              sep="\n")
    else:
        print(__doc__.strip(), file=sys.stderr)
        return 2
    return 0


def main() -> int:
    try:
        return asked(sys.argv[1:])
    except (Unread, KeyError, TypeError, ValueError, OSError) as error:
        print(f"vectors: {error}", file=sys.stderr)
        return 2

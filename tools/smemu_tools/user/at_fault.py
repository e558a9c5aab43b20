"""Shows what is at fault in words or in a file that the emulator refuses: the word, or the line,
with a mark, and what may stand there.

    tools/smemu-tools at-fault EMULATOR WORDS

`./smemu` starts it where a command was refused and its standard error is a terminal. It asks the
emulator with the words once more, and writes nothing where the answer is none of `usage`, `bad
report`, `bad plan`, `bad vectors` and `bad source`, or where a file is none that can be read again.
Of a source it shows the lines at fault that come after the first, at most 20 in all: it asks again
with each that was found taken out.
"""
from __future__ import annotations

import argparse
import pathlib
import re
import subprocess
import tempfile
from typing import Any, Iterator

from smemu_tools import parser
from smemu_tools.user import reports, vectors

NUMBER, ADDRESS = r"0|[1-9]\d*", r"0x[0-9a-fA-F]{1,16}"
MOST = (1 << 32) - 1
# of each line of a plan and of a script what follows its name: numbers up to one, an address, or
# one of some words
PLAN = {"fetch": [MOST], "offer": [MOST], "next": [MOST], "run": [MOST, (1, MOST)]}
SCRIPT = {"step": [MOST], "back": [MOST], "goto": [MOST], "break": [ADDRESS], "where": [],
          "regs": [], "za": [], "mem": [ADDRESS, 4096],
          "slice": [("b", "h", "s", "d", "q"), MOST, ("h", "v"), MOST]}
# the values of words that are no options
PLACES = {"THREAD": "0 to 31", "COUNT": "0 to 4294967295", "N": "1 to 20000"}
# files that are read again, and lines of a source that are shown
MOST_BYTES, MOST_LINES = 64 << 20, 20


def marked(text: str, column: int) -> str:
    """A line, with a mark below its column, which counts from 0."""
    plain = "".join(it if it.isprintable() or it == "\t" else "?" for it in text)
    return (
        f"{plain}\n{''.join(it if it == chr(9) else ' ' for it in plain[:column]).ljust(column)}^")


# words


def commands_of(text: str) -> tuple[dict[str, list[str]], dict[str, str]]:
    """Each command of the emulator's help with the words that follow it, and each option with its
    values."""
    commands, _, rest = text.partition("\n\n")[2].partition("\n\n")
    options = {name: values
               for name, values in re.findall(r"(?m)^  (--\w+) [A-Z]+ +.*?: (.*?)(?:;.*)?$", rest)}
    return {name: words.split()
            for name, words
            in re.findall(r"(?m)^  ([a-z][a-z-]*)((?: [A-Z]+)*)(?:  |$)", commands)}, options


def usage_text(words: list[str], place: int, kind: str, help_text: str, options_of: Any) -> str:
    """The words with a mark below the one at fault, and what may stand there."""
    commands, options = commands_of(help_text)
    shown = ["smemu", *(re.sub(r"\s", "?", it) or "''" for it in words)]
    column = len(" ".join(shown[:place + 1])) + 1
    taken = [it for it in options if it in options_of.get(words[0] if words else "", "")]
    name = commands.get(words[0], []) if words else []
    before = words[place - 1] if 0 < place <= len(words) else ""
    what = name[place - 1] if 0 < place <= len(name) else ""
    if place == 0 or not words or words[0] not in commands:
        said = f"a command is one of {', '.join([*commands, '--help', '--version'])}"
    elif kind == "missing":
        said = (f"{what} is to stand here" if what
                else f"{before} is one of {options.get(before, '')}")
    elif kind == "repeated":
        said = f"{words[place]} stands before, as word {words.index(words[place], len(name) + 1)}"
    elif kind in ("badnumber", "outofrange"):
        said = f"{what or before} is {PLACES[what] if what else options.get(before, '')}" + (
            ", in decimal digits without a sign and a leading zero" if kind == "badnumber" else "")
    elif kind == "extra":
        said = f"nothing is to stand after `{' '.join([words[0], *name])}`"
    else:
        said = f"an option is one of {', '.join(taken)}"
    return f"{marked(' '.join(shown), column)}\n{said}"


# lines


def shape_fault(line: str, shapes: Any) -> tuple[int, str, str] | None:
    """The column of the word at fault of a line of a plan or of a script, its kind, and what may
    stand there; None where there is none."""
    words = line.split(" ")
    starts = [len(" ".join(words[:at])) + bool(at) for at in range(len(words) + 1)]
    if not line or words[0] not in shapes:
        return (0, "unknown",
                f"a line is one of {', '.join(shapes)}, and what follows it") if line else None
    for at, wanted in enumerate(shapes[words[0]], 1):
        if at == len(words):
            return len(line), "missing", f"the line ends where {said_of(wanted)} is to stand"
        if not fits(words[at], wanted):
            return (starts[at], "unknown" if is_choice(wanted) else "badnumber",
                    f"{said_of(wanted)} is to stand here")
    count = len(shapes[words[0]]) + 1
    return (starts[count], "extra", "nothing is to stand here") if len(words) > count else None


def is_choice(wanted: Any) -> bool:
    return isinstance(wanted, tuple) and isinstance(wanted[0], str)


def fits(word: str, wanted: Any) -> bool:
    if isinstance(wanted, str):
        return bool(re.fullmatch(wanted, word))
    if is_choice(wanted):
        return word in wanted
    least, most = wanted if isinstance(wanted, tuple) else (0, wanted)
    return bool(re.fullmatch(NUMBER, word)) and least <= int(word) <= most


def said_of(wanted: Any) -> str:
    if isinstance(wanted, str):
        return "an address, as 0x400000,"
    if is_choice(wanted):
        return f"one of {', '.join(wanted)}"
    least, most = wanted if isinstance(wanted, tuple) else (0, wanted)
    return f"a number from {least} to {most}"


def report_fault(name: str, number: int, kind: str) -> str:
    """What is wrong with a line of a report, as far as it is known."""
    if kind == "nothread":
        return "the report has no such thread"
    try:
        reports.read(name)
    except reports.NoReport as fault:
        line = re.search(r": line (\d+): (.*)", str(fault))
        if line and int(line[1]) == number:
            return line[2]
    return ("the report is of another program" if kind == "image"
            else f"a line of the part `{kind}` is expected here")


def file_text(words: list[str], said: str) -> str:
    """The line of a file that is refused, with a mark, and why."""
    sort, number, kind = re.match(r"bad (report|plan|vectors): line (\d+)(?:: (\w+))?",
                                  said).groups()
    name = words[{"report": 2, "plan": 2 if words[0] == "sim" else 4, "vectors": 1}[sort]]
    path, number = pathlib.Path(name), int(number)
    if not path.is_file() or path.stat().st_size > MOST_BYTES:
        return ""
    lines = path.read_bytes().split(b"\n")
    line = lines[number - 1].decode(errors="replace") if 0 < number <= len(lines) else ""
    if sort == "plan":
        found = shape_fault(line, PLAN if words[0] == "sim" else SCRIPT)
        column, why = (found[0], found[2]) if found and kind == found[1] else (
            0, "the line is no UTF-8" if kind == "nottext" else "the line is at fault")
    elif sort == "vectors":
        lengths = {option: int(value) for option, value in zip(words[2::2], words[3::2])}
        column, why = vectors.fault(line, number, lengths.get("--vl", 128) // 8,
                                    lengths.get("--svl", 256) // 8) or (0, "the line is at fault")
    else:
        column, why = 0, report_fault(name, number, kind)
    return f"{marked(line, column)}\n{why}"


# sources


def more_lines(smemu: str, name: str) -> Iterator[str]:
    """Of a source that is refused the other lines that are at fault: each is found with those
    before it taken out, but for their labels."""
    path = pathlib.Path(name)
    if not path.is_file() or path.stat().st_size > MOST_BYTES:
        return
    lines = path.read_bytes().split(b"\n")
    with tempfile.NamedTemporaryFile(suffix=".s") as copy:
        for tried in range(MOST_LINES + 1):
            pathlib.Path(copy.name).write_bytes(b"\n".join(lines))
            said = subprocess.run([smemu, "asm", copy.name], stdin=subprocess.DEVNULL,
                                  stdout=subprocess.PIPE).stdout.split(b"\n")[0].decode(
                errors="replace")
            found = re.match(r"bad source: line ([1-9]\d*): ([a-z]+)(?: ([a-z]+) (\d+))?", said)
            # a label that stands twice is no fault of one line alone
            if not found or found[2] in ("doubled", "toolarge"):
                return
            if tried == MOST_LINES:
                yield "and more"
                return
            number = int(found[1])
            line = lines[number - 1].decode(errors="replace")
            if tried == 1:
                yield "with the lines at fault taken out one after the other:"
            if tried:
                yield said[len("bad source: "):]
                yield marked(line, int(found[4]) - 1) if found[3] else line
            label = re.match(rb"\s*[A-Za-z_.$][\w.$]*:", lines[number - 1])
            lines[number - 1] = label[0] if label else b""


def main() -> None:
    asked_for = parser(__doc__)
    asked_for.add_argument("program", metavar="PROGRAM")
    asked_for.add_argument("words", nargs=argparse.REMAINDER, metavar="WORD",
                           help="the words of the command that ended")
    smemu, words = vars(asked_for.parse_args()).values()
    if words[:1] == ["asm"] and len(words) == 2:
        print("".join(f"{line}\n" for line in more_lines(smemu, words[1])), end="")
        return
    asked = lambda *it: subprocess.run([smemu, *it], stdin=subprocess.DEVNULL,
                                       stdout=subprocess.PIPE).stdout.decode(errors="replace")
    said = asked(*words)
    usage = re.match(r"usage: word (\d+): (\w+)", said)
    if usage:
        help_text = asked("--help")
        # each option is taken by the commands that the head of their list names
        both = commands_of(help_text)[1]
        options_of = {"run": both, "sim": both, "vectors": ["--vl", "--svl", "--cores"],
                      "bench": ["--cores"]}
        print(usage_text(words, int(usage[1]), usage[2], help_text, options_of))
    elif re.match(r"bad (report|plan|vectors): line \d+", said):
        text = file_text(words, said)
        if text:
            print(text)

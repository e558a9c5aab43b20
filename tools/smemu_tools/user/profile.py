"""Says where the instructions of a recorded run went: how many each function, source line and
address executed, and by which calls.

    smemu profile PROGRAM REPORT [THREAD] [--by function|line|address] [--most N]
    smemu profile PROGRAM REPORT [THREAD] --never | --lcov
    smemu profile PROGRAM REPORT [THREAD] --folded | --callgrind | --page
    smemu profile PROGRAM REPORT [THREAD] --trace FIRST-LAST

All threads are counted together, or the one that is named. Without --by it is the functions and, of
a program that was compiled with -g, the lines; --most N shows the first N of each, 20 where nothing
is said and all with 0. --never lists the functions and lines of which no instruction was executed;
--lcov writes all lines with their counts in the format of lcov. --folded writes each stack of
functions with its count, as flame graph scripts read it, --callgrind a file for KCachegrind or
callgrind_annotate, --page a page with a flame graph and the source lines. --trace shows the
instructions of one thread from a count to another, each with what it changed. SMEMU may name the
emulator.
"""
from __future__ import annotations

import argparse
import collections
import os
import pathlib
import re
import struct
from typing import Any, Callable, Iterator

from smemu_tools.user import counted, emulator, places, profile_page, progress, reports, traced

MOST = 20
NO_LINE = "no line"


def named_functions(image: bytes) -> set[int]:
    """The addresses of the symbols that are functions, or that other files may name: a label within
    a function is neither."""
    start, = struct.unpack_from("<Q", image, 40)
    _, number = struct.unpack_from("<HH", image, 58)
    sections = [struct.unpack_from("<IIQQQQ", image, start + 64 * at)
                for at in range(number if start else 0)]
    symbols = [struct.unpack_from("<IBBHQQ", image, at) for _, kind, _, _, offset, size in sections
               if kind == 2 for at in range(offset, offset + size, 24)]
    return {value for _, info, _, section, value, _ in symbols
            if section and (info & 15 == 2 or info >> 4 and info & 15 == 0)}


class Code:
    """The instructions of a program, with their functions and lines."""

    def __init__(self, program: str) -> None:
        self.program = program
        self.texts = counted.listing(program)
        self.is_listed = bool(self.texts)
        self.known = places.Places(program, is_whole=True)

    def find_functions(self, entries: Iterator[Any] | set[int] | tuple[Any, ...] = ()) -> None:
        """Leaves of the names those of functions: such symbols, the entry, and what is called.
        Where there are no names it is their addresses."""
        image = pathlib.Path(self.program).read_bytes()
        called = {address + int(text[4:]) for address, text in self.texts.items()
                  if text.startswith("bl .")}
        called.update(struct.unpack_from("<Q", image, 24), entries)
        if self.known.functions:
            kept = named_functions(image) | called
            self.known.functions = [it for it in self.known.functions if it[0] in kept]
        else:
            self.known.functions = sorted((address, f"{address:016x}") for address in called)

    def function(self, address: int) -> str:
        """The function at an address."""
        return self.known.function(address) or f"{address:016x}"

    def line(self, address: int) -> tuple[str, int] | None:
        """The file and the line of an address, or None."""
        text = self.known.lines.get(address)
        if not text:
            return None
        file, _, number = text.rpartition(":")
        return os.path.normpath(file), int(number)

    def learn_lines(self) -> None:
        self.known.learn(self.texts)

    def functions(self) -> dict[str, list[int]]:
        """Each function with the addresses of its instructions."""
        found = collections.defaultdict(list)
        for address in sorted(self.texts):
            found[self.function(address)].append(address)
        return found

    def lines(self) -> dict[tuple[str, int], list[int]]:
        """The addresses of each line that has any, by file and number."""
        found = collections.defaultdict(list)
        for address in sorted(self.texts):
            if self.line(address):
                found[self.line(address)].append(address)
        return found


def short(line: tuple[str, int]) -> str:
    """A file and a line without the folder."""
    return f"{pathlib.PurePath(line[0]).name}:{line[1]}"


class Sources:
    """The texts of source lines, where their files are there."""

    def __init__(self) -> None:
        self.files = {}

    def lines(self, file: str) -> list[str]:
        if file not in self.files:
            try:
                self.files[file] = pathlib.Path(file).read_text(errors="replace").splitlines()
            except OSError:
                self.files[file] = []
        return self.files[file]

    def text(self, line: tuple[str, int]) -> str:
        file, number = line
        lines = self.lines(file)
        return lines[number - 1].strip() if number <= len(lines) else ""


# tables


def rows(counts: dict[int | str | tuple[tuple[str, int], str], int], most: int) -> Any:
    """The greatest counts with their names, and what is left of them."""
    ordered = sorted(counts.items(), key=lambda it: (-it[1], it[0]))
    shown = ordered[:most or None]
    return shown, ordered[len(shown):]


def table(title: str, counts: Any, most: int, name_of: Callable[..., Any]) -> Iterator[str]:
    """The lines of a table."""
    total = sum(counts.values()) or 1
    shown, left = rows(counts, most)
    yield title
    for name, count in shown:
        yield f"  {count:>12} {100 * count / total:5.1f}%  {name_of(name)}"
    if left:
        count = sum(it[1] for it in left)
        yield f"  {count:>12} {100 * count / total:5.1f}%  {len(left)} more"


def by_function(code: Code, counts: dict[int, int]) -> dict[str, int]:
    found = collections.Counter()
    for address, count in counts.items():
        found[code.function(address)] += count
    return found


def by_line(code: Code, counts: dict[int, int]) -> dict[tuple[tuple[str, int], str], int]:
    """The count of each line with its function, and of each function that has no lines."""
    found = collections.Counter()
    for address, count in counts.items():
        found[code.line(address) or ("", 0), code.function(address)] += count
    return found


def tables(code: Any, counts: Any, words: Any) -> Iterator[str]:
    """The lines of all tables that are asked for."""
    sources = Sources()

    def line_name(key: tuple[tuple[str, int], str]) -> str:
        line, function = key
        return (f"{short(line)} {function}: {sources.text(line)}".rstrip(": ") if line[0]
                else f"{NO_LINE} {function}")

    def address_name(address: int) -> str:
        line = code.line(address)
        return " ".join(it
                        for it
                        in (f"{address:016x}", code.function(address), short(line) if line else "")
                        if it) + f": {code.texts[address]}"

    if words.by in (None, "function"):
        yield from table("by function", by_function(code, counts), words.most, str)
    if words.by == "line" or words.by is None and any(map(code.line, counts)):
        yield from table("by line", by_line(code, counts), words.most, line_name)
    if words.by == "address":
        yield from table("by address", counts, words.most, address_name)


# what was not executed


def spans(numbers: list[int]) -> str:
    """Numbers in order as a text, with what follows one another as a range."""
    found = []
    for number in numbers:
        if found and number == found[-1][1] + 1:
            found[-1][1] = number
        else:
            found.append([number, number])
    return ", ".join(f"{low}" if low == high else f"{low}-{high}" for low, high in found)


def never(code: Any, counts: Any) -> Iterator[str]:
    """The lines that say which functions and lines were not executed."""
    functions, lines = code.functions(), code.lines()
    idle = [name for name, held in functions.items() if not any(it in counts for it in held)]
    yield f"functions that were not executed: {len(idle)} of {len(functions)}"
    for name in idle:
        line = code.line(functions[name][0])
        yield f"  {functions[name][0]:016x} {name}" + (f" {short(line)}" if line else "")
    left = [line for line, held in lines.items() if not any(it in counts for it in held)]
    by_file = collections.defaultdict(list)
    for file, number in left:
        by_file[file].append(number)
    yield f"lines that were not executed: {len(left)} of {len(lines)}"
    for file, numbers in sorted(by_file.items()):
        yield f"  {pathlib.PurePath(file).name}: {spans(sorted(numbers))}"


def lcov(code: Any, counts: Any) -> Iterator[str]:
    """The lines of a file of lcov: a line's count is that of its instruction that was executed most
    often."""
    files = collections.defaultdict(dict)
    for (file, number), held in code.lines().items():
        files[file][number] = max(counts.get(it, 0) for it in held)
    entries = collections.defaultdict(list)
    for name, held in code.functions().items():
        line = code.line(held[0])
        if line:
            entries[line[0]].append((line[1], name, counts.get(held[0], 0)))
    for file, lines in sorted(files.items()):
        here = sorted(entries[file])
        yield from ("TN:", f"SF:{file}")
        yield from (f"FN:{number},{name}" for number, name, _ in here)
        yield from (f"FNDA:{count},{name}" for _, name, count in here)
        yield from (f"FNF:{len(here)}", f"FNH:{sum(count > 0 for _, _, count in here)}")
        yield from (f"DA:{number},{count}" for number, count in sorted(lines.items()))
        yield from (f"LF:{len(lines)}", f"LH:{sum(count > 0 for count in lines.values())}",
                    "end_of_record")


# stacks


def stacks(code: Code, runs: list[tuple[int, counted.Calls]]) -> dict[tuple[str, ...], int]:
    """The count of each stack of functions, outermost first; of several threads the thread stands
    before it."""
    found = collections.Counter()
    for number, calls in runs:
        for node, own in enumerate(calls.own):
            path = calls.path(node)
            callers = [code.function(calls.sites[it]) for it in path[1:]]
            for name, count in by_function(code, own).items():
                found[(*[f"thread {number}"] * (len(runs) > 1), *callers, name)] += count
    return found


def folded(code: Any, runs: Any) -> Iterator[str]:
    """A line for each stack."""
    clean = lambda name: name.replace(";", ":")
    yield from sorted(f"{';'.join(map(clean, stack))} {count}"
                      for stack, count in stacks(code, runs).items())


def callgrind(code: Any, runs: Any, program: Any) -> Iterator[str]:
    """The lines of a file in callgrind's format, version 1."""
    own, calls = collections.defaultdict(collections.Counter), collections.defaultdict(
        lambda: collections.defaultdict(lambda: [0, 0]))
    for _, held in runs:
        whole = held.whole()
        for node, counts in enumerate(held.own):
            for address, count in counts.items():
                own[code.function(address)][address] += count
            if node:
                site, entry = held.sites[node], held.entries[node]
                entry_of_call = calls[code.function(site)][site, entry]
                entry_of_call[0] += held.numbers[node]
                entry_of_call[1] += whole[node]
    files = {name: next((line[0] for line in map(code.line, held) if line), "???")
             for name, held in code.functions().items()}
    place = lambda address: code.line(address) or (files[code.function(address)], 0)
    yield from ("# callgrind format", "version: 1", "creator: smemu profile", f"cmd: {program}",
                "positions: instr line", "events: Instructions",
                f"summary: {sum(sum(it.values()) for it in own.values())}", "", f"ob={program}")
    for name in sorted(set(own) | set(calls)):
        first = min([*own[name], *(site for site, _ in calls[name])])
        file = place(first)[0]
        yield from (f"fl={file}", f"fn={name}")
        for address, count in sorted(own[name].items()):
            here, number = place(address)
            if here != file:
                file = here
                yield f"fi={file}"
            yield f"{address:#x} {number} {count}"
        for (site, entry), (times, inclusive) in sorted(calls[name].items()):
            here, number = place(site)
            if here != file:
                file = here
                yield f"fi={file}"
            yield from (f"cob={program}", f"cfi={files[code.function(entry)]}",
                        f"cfn={code.function(entry)}",
                        f"calls={times} {entry:#x} {place(entry)[1]}",
                        f"{site:#x} {number} {inclusive}")
        yield ""


# all of it


def arguments() -> argparse.Namespace:
    parser = argparse.ArgumentParser(description=__doc__.partition("\n\n")[0])
    parser.add_argument("program", metavar="PROGRAM")
    parser.add_argument("report", metavar="REPORT")
    parser.add_argument("thread", metavar="THREAD", type=int, nargs="?")
    parser.add_argument("--by", choices=("function", "line", "address"))
    parser.add_argument("--most", type=int, default=MOST, metavar="N",
                        help="show the first N of each table; all of them with 0 (20)")
    form = parser.add_mutually_exclusive_group()
    for name, text in (("never", "the functions and lines of which no instruction was executed"),
                       ("lcov", "all lines with their counts, in lcov's format"),
                       ("folded", "stacks, as flame graph scripts read them"),
                       ("callgrind", "a file for KCachegrind"),
                       ("page", "a flame graph and the source lines as one page")):
        form.add_argument(f"--{name}", action="store_true", help=text)
    form.add_argument("--trace", metavar="FIRST-LAST", type=between,
                      help="each instruction from a count to another, with what it changed")
    words = parser.parse_args()
    if words.most < 0:
        parser.error("--most is 0 or more")
    if words.by and (words.trace
                     or any(getattr(words, name)
                            for name in ("never", "lcov", "folded", "callgrind", "page"))):
        parser.error("--by is for the tables alone")
    return words


def between(text: str) -> tuple[int, int]:
    """Two counts, or one that is both."""
    found = re.fullmatch(r"(0|[1-9]\d{0,9})(?:-(0|[1-9]\d{0,9}))?", text)
    if not found or found[2] and int(found[1]) > int(found[2]):
        raise argparse.ArgumentTypeError(f"{text} is not FIRST-LAST")
    return int(found[1]), int(found[2] or found[1])


def title(total: int, numbers: list[int]) -> str:
    """How many instructions these are, and of which threads."""
    return f"instructions {total}, of " + (f"thread {numbers[0]}" if len(numbers) == 1
                                           else f"threads {numbers[0]} to {numbers[-1]}")


def threads_of(report: reports.Report, asked: int | None) -> tuple[list[int], dict[int, int]]:
    """The numbers of the threads that are looked at, and of their instructions."""
    there = {thread.number: thread.count for thread in report.threads}
    if asked is not None and asked not in there:
        raise emulator.Refused(f"there is no thread {asked}: these are 0 to {len(there) - 1}", 2)
    return [asked] if asked is not None else list(there), there


def main() -> int:
    words = arguments()
    code = Code(words.program)
    numbers, there = threads_of(reports.read(words.report, journals=False), words.thread)
    if words.trace:
        if len(numbers) > 1:
            raise emulator.Refused("--trace goes over one thread: name it after the report", 2)
        return traced.show(words.program, words.report, numbers[0], code, *words.trace)
    if not code.is_listed and (words.never or words.lcov):
        raise emulator.Refused("the program has no section table, so its instructions "
                               "are not known before they are executed", 2)
    told, runs, total = progress.Progress(), [], sum(there[it] for it in numbers)
    for number in numbers:
        before = sum(calls_of.total for _, calls_of in runs)
        show = lambda count: told.show(f"instruction {before + count} of {total}")
        runs.append((number,
                     counted.follow(words.program, words.report, number, code.texts, show)[1]))
    told.clear()
    code.find_functions(it for _, calls in runs for it in calls.entries)
    code.learn_lines()
    counts = collections.Counter()
    for _, calls in runs:
        counts.update(calls.by_address())
    if words.never or words.lcov:
        lines: Any = (never if words.never else lcov)(code, counts)
    elif words.folded:
        lines = folded(code, runs)
    elif words.callgrind:
        lines = callgrind(code, runs, words.program)
    elif words.page:
        lines = [profile_page.page(code, counts, stacks(code, runs), Sources(),
                                   title(total, numbers))]
    else:
        lines = [title(total, numbers), *tables(code, counts, words)]
    for line in lines:
        print(line)
    return 0

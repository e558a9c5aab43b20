"""Tests the program that `./smemu` starts, with all that needs no toolchain and no proof.

    ./smemu --test [--jobs N] [--only PART]..

    rows       the programs, sources, plans, reports, scripts, checkpoints and files of vectors of
    crates/smemu_rows, with what each command answers changes    files of these with changes, with
    the refusals, the differences and the blocks that they give words      words with their texts,
    both ways, words that mean none, and lines of sources that are refused pages      the commands
    of the documents, with what stands below them scripts    the tests of the scripts, of the
    wrapper, and of what the system does to a run

N parts run at once, as many as there are processors where it is not given. A failure is shown with
the command that shows it again. What is not tried is said: the rows of failing reads and writes,
which the gate tries within the program, and what needs a tool that is not there. The last line is
`N passed, N failed`; the status is 1 where something failed. SMEMU names the emulator.
"""
from __future__ import annotations

import argparse
import concurrent.futures
import hashlib
import os
import pathlib
import re
import shlex
import subprocess
import sys
import tempfile
from typing import Any, Callable, Iterator

from smemu_tools import TOOL, TOP
from smemu_tools.tests import doc_tests
from smemu_tools.user import emulator, progress

DATA = TOP / "crates" / "smemu_rows" / "data"
CHANGES = ("altered.txt", "changed.txt", "frames.txt", "vector_lines.txt", "abi.txt",
           "checkpoints.txt")
# of these each case is to come to its status, and to another text than the one that stands there
DIFFERING = "altered_steps.txt"
FAILING = "failing.txt"
# the cases of a task
CASES = 200
SCRIPTS = ("script-tests", "beside-tests", "command-tests", "install-tests", "host-tests")


class Result:
    """How many checks passed, and of those that failed what to show; and what was not tried."""

    def __init__(self) -> None:
        self.passed, self.failures, self.untried = 0, [], []

    def check(self, is_right: bool, lines: Callable[..., Any]) -> None:
        if is_right:
            self.passed += 1
        else:
            self.failures.append("\n".join(f"  {line}" if at else line
                                           for at, line in enumerate(lines())))


def answer(smemu: str, words: list[str]) -> tuple[int, bytes]:
    """The status and the output of a command, in the folder of the data."""
    ended = subprocess.run([smemu, *words], cwd=DATA, stdin=subprocess.DEVNULL,
                           stdout=subprocess.PIPE)
    return ended.returncode, ended.stdout


def again(smemu: str, words: list[str]) -> str:
    """The command that shows an answer again."""
    return f"again: cd {shlex.quote(str(DATA))} && {shlex.join([smemu, *words])}"


def brief(status: int, text: bytes) -> str:
    """A status and the beginning of a text."""
    line = text.decode(errors="replace").replace("\n", "|")
    return f"status {status}, {line[:100]}{'..' if len(line) > 100 else ''} ({len(text)} bytes)"


# rows and changed files


def try_rows(smemu: str, rows: list[str]) -> Result:
    """Rows: a file, the status, and the words of a command, among which @ is the file; the answer
    is the file with .txt behind its name."""
    result = Result()
    for row in rows:
        name, status, words = row.split(" ", 2)
        words = [name if word == "@" else word for word in words.split()]
        found, wanted = answer(smemu, words), (int(status), (DATA / f"{name}.txt").read_bytes())
        shown = lambda: [f"rows: {name}", again(smemu, words),
                         f"wanted: {brief(*wanted)}, as in {name}.txt", f"found:  {brief(*found)}"]
        result.check(found == wanted, shown)
    return result


def bytes_of(text: str) -> bytes:
    """Bytes of a change: hexadecimal parts, each with how many times it stands there."""
    parts = [it.partition("*") for it in text.split("+")] if text != "-" else []
    return b"".join(bytes.fromhex(digits) * int(times or 1) for digits, _, times in parts)


def after_changes(file: bytes, case: str) -> tuple[bytes, int]:
    """A file after the changes of a case, and the status."""
    words = case.split()
    for at in range(0, len(words) - 1, 3):
        start, end = int(words[at]), int(words[at + 1])
        assert max(start, end) <= len(file), case
        file = file[:start] + bytes_of(words[at + 2]) + file[end:]
    return file, int(words[-1])


def is_text(text: bytes, file: bytes, thread: str, wanted: str) -> bool:
    """Tells whether a text is the one that a case says."""
    if wanted.startswith("#"):
        return wanted == f"#{len(text)} {hashlib.sha256(text).hexdigest()[:16]}"
    if wanted == "block":
        found = re.search(rf"\n(thread {thread}\n.*?\nend-thread\n)", file.decode(errors="replace"),
                          re.DOTALL)
        return bool(found) and text == found[1].encode()
    return text == wanted.replace("|", "\n").encode()


def try_cases(smemu: str, name: str, group: str, cases: list[str]) -> Result:
    """Cases of a group: changes, a status, and past a tab the text."""
    result = Result()
    command, arrow, words = group.partition(" > ")
    if arrow:
        base = answer(smemu, command.split())[1]
    else:
        file, _, words = group.partition(" ")
        base = (DATA / file).read_bytes()
    with tempfile.NamedTemporaryFile(prefix="smemu-", buffering=0) as changed:
        given = [changed.name if word == "@" else word for word in words.split()]
        for case, text in (it.split("\t", 1) for it in cases):
            content, status = after_changes(base, case)
            # written over what is there, since a file that is made empty first is waited for
            changed.seek(0)
            changed.write(content)
            changed.truncate()
            found = answer(smemu, given)
            is_right = found[0] == status and is_text(found[1], content, given[-1],
                                                      text) == (name != DIFFERING)
            result.check(is_right,
                         lambda: failed_case(smemu, name, group, case, content, given, status, text,
                                             found))
    return result


def failed_case(smemu: str, name: str, group: str, case: str, file: bytes, words: list[str],
                status: int, text: str, found: tuple[int, bytes]) -> list[str]:
    """What is shown of a case that failed; its file is kept."""
    with tempfile.NamedTemporaryFile(prefix="smemu-failed-", delete=False) as kept:
        kept.write(file)
    changed = next((word for word in words if os.sep in word), None)
    wanted = f"wanted: status {status}, " + ("another text than " if name == DIFFERING
                                             else "") + text[:100]
    words = [kept.name if word == changed else word for word in words]
    return [f"changes: {name}: {group}: {case[:60]}", again(smemu, words), wanted,
            f"found:  {brief(*found)}"]


def tasks_of_changes(smemu: str) -> Iterator[tuple[Callable[..., Any], str, str, str, list[str]]]:
    """The cases of all lists, some at a time."""
    for name in (*CHANGES, DIFFERING):
        group, cases = "", []
        for line in (DATA / name).read_text().split("\n"):
            if "\t" in line:
                cases.append(line)
            if cases and ("\t" not in line or len(cases) == CASES):
                yield try_cases, smemu, name, group, cases
                cases = []
            if "\t" not in line:
                group = line


# words and texts


def assembled(smemu: str, texts: list[str], result: Result, name: str) -> list[list[str]]:
    """The words and texts of the listing of a source with these lines; a line that is refused
    fails, and is None."""
    left = list(enumerate(texts))
    found: list[Any] = [None] * len(texts)
    with tempfile.TemporaryDirectory() as folder:
        source, program = pathlib.Path(folder, "texts.s"), pathlib.Path(folder, "texts.elf")
        while left:
            source.write_text("_start:\n" + "".join(f"    {text}\n" for _, text in left))
            status, said = answer(smemu, ["asm", str(source)])
            refused = re.match(rb"bad source: line (\d+): ", said)
            if not refused:
                break
            at, text = left.pop(int(refused[1]) - 2)
            line = said.decode().partition("\n")[0]
            command = f"printf '_start:\\n    {text}\\n' | {smemu} asm /dev/stdin"
            result.check(False,
                         lambda: [f"words: {name}: {text}", f"again: {command}", f"found:  {line}"])
        program.write_bytes(said)
        lines = answer(smemu, ["dis", str(program)])[1].decode().splitlines()
    for (at, _), line in zip(left, lines):
        found[at] = line.split(" ", 2)[1:]
    return found


def try_words(smemu: str, name: str) -> Result:
    """Lines with a word and its text, or of an alias one from which it is read."""
    result = Result()
    rows = [line.split("\t") for line in (DATA / name).read_text().splitlines()]
    found = assembled(smemu, [row[-1] for row in rows], result, name)
    for row, it in zip(rows, found):
        wanted = [row[0], row[-1]]
        is_alias = row[1] == "alias"
        if it:
            is_right = it[0] == wanted[0] and (it[1] == wanted[1]) == (not is_alias)
            command = (f"printf '_start:\\n    {row[-1]}\\n' > one.s; {smemu} "
                       f"asm one.s > one.elf; {smemu} dis one.elf")
            result.check(is_right,
                         lambda: [f"words: {name}: {' '.join(row)}", f"again: {command}",
                                  f"found:  {' '.join(it)}"])
    return result


def try_no_row(smemu: str) -> Result:
    """Words that mean none: each is undefined where it is executed."""
    result, words = Result(), (DATA / "no_row.tsv").read_text().split()
    with tempfile.NamedTemporaryFile() as file:
        file.write("".join(f"{word}\n" for word in words).encode())
        file.flush()
        answers = answer(smemu, ["vectors", file.name])[1].decode().splitlines()
    for at, word in enumerate(words):
        found = answers[at] if at < len(answers) else "nothing"
        shown = lambda: [f"words: no_row.tsv: {word}",
                         f"again: echo {word} | {smemu} vectors /dev/stdin", f"found:  {found}"]
        result.check(found == f"raise undefined {word}", shown)
    return result


def try_faults(smemu: str) -> Result:
    """Lines of sources that are refused, each with its fault."""
    result = Result()
    with tempfile.NamedTemporaryFile(suffix=".s") as source:
        for row in (DATA / "faults.tsv").read_text().split("\n")[:-1]:
            fault, _, line = row.partition("\t")
            pathlib.Path(source.name).write_text(f"_start:\n    nop\n{line}\n")
            found = answer(smemu, ["asm", source.name])
            wanted = (7, f"bad source: line 3: line {fault}\n".encode())
            shown = lambda: [f"words: faults.tsv: {line}", f"wanted: {brief(*wanted)}",
                             f"found:  {brief(*found)}"]
            result.check(found == wanted, shown)
    return result


# pages and scripts


def try_page(smemu: Any, page: Any, there: Any) -> Any:
    """The commands of a page."""
    result = Result()
    lines, _ = doc_tests.try_page(page, pathlib.Path(smemu), there)
    ran, passed = map(int,
                      re.search(r": (\d+) commands ran, (\d+) were passed over",
                                lines[-1]).groups())
    failed = [at for at, line in enumerate(lines) if re.match(rf"{re.escape(page)}:\d+: \$ ", line)]
    result.passed = ran - len(failed)
    for at, end in zip(failed, [*failed[1:], len(lines) - 1]):
        result.check(False,
                     lambda: [f"pages: {lines[at]}",
                              f"again: tools/smemu-tools doc-tests {smemu} --page {page}",
                              *(line.strip() for line in lines[at + 1:end])])
    if passed:
        result.untried.append(f"{passed} commands of {page}, which need a tool that is not there")
    return result


def try_script(smemu: Any, name: Any) -> Any:
    """A script that tests others: its last line says how many checks there were, and how many
    failed."""
    result = Result()
    words = [sys.executable, str(TOOL), name, *[smemu] * (name != "script-tests")]
    ended = subprocess.run(words, stdin=subprocess.DEVNULL, stdout=subprocess.PIPE,
                           stderr=subprocess.STDOUT, text=True, errors="replace")
    lines = ended.stdout.splitlines()
    last = re.search(r"(\d+) checks, (\d+) failed$", lines[-1] if lines else "")
    result.untried += [f"{line} ({name})" for line in lines
                       if re.search(r"\bnot there\b|is not tried", line)]
    if not last:
        result.check(False,
                     lambda: [f"scripts: {name} ended with status {ended.returncode}",
                              f"again: {shlex.join(words)}", *lines[-5:]])
        return result
    result.passed = int(last[1]) - int(last[2])
    said = [f"scripts: {name}", f"again: {shlex.join(words)}", *lines[:-1]]
    for number in range(int(last[2])):
        result.check(False, lambda: said if not number
                     else [f"scripts: {name}, and another check of those above"])
    return result


# all


def tasks(smemu: Any, only: Any) -> Any:
    """Each part with what it tries, the longest first."""
    def wanted(part: str) -> bool:
        return not only or part in only

    if wanted("scripts"):
        yield from ((try_script, smemu, name) for name in SCRIPTS)
    if wanted("pages") and doc_tests.has_terminal():
        there = {tool: doc_tests.is_there(tool) for tool in doc_tests.TOOLS}
        yield from ((try_page, smemu, page, there) for page in doc_tests.PAGES)
    if wanted("rows"):
        rows = (DATA / "rows.txt").read_text().splitlines()
        yield from ((try_rows, smemu, rows[at:at + CASES]) for at in range(0, len(rows), CASES))
    if wanted("changes"):
        yield from tasks_of_changes(smemu)
    if wanted("words"):
        yield from ((try_words, smemu, name)
                    for name in ("words.tsv", "vector_words.tsv", "debug_words.tsv", "texts.tsv"))
        yield from ((try_no_row, smemu), (try_faults, smemu))


def main() -> int:
    parser = argparse.ArgumentParser(prog="smemu --test", description=__doc__,
                                     formatter_class=argparse.RawDescriptionHelpFormatter)
    parser.add_argument("--jobs", type=int, default=len(os.sched_getaffinity(0)), metavar="N")
    parser.add_argument("--only", action="append",
                        choices=("rows", "changes", "words", "pages", "scripts"), metavar="PART")
    words = parser.parse_args()
    smemu = str(pathlib.Path(emulator.find()).resolve())
    told, passed, failed, untried = progress.Progress(), 0, 0, []
    with concurrent.futures.ProcessPoolExecutor(max(1, words.jobs)) as pool:
        asked = [pool.submit(*task) for task in tasks(smemu, words.only)]
        for done, it in enumerate(concurrent.futures.as_completed(asked), 1):
            result = it.result()
            passed, failed, untried = (passed + result.passed, failed + len(result.failures),
                                       untried + result.untried)
            if result.failures:
                told.clear()
                print(*result.failures, sep="\n", flush=True)
            told.show(f"{passed} passed, {failed} failed, {done} of {len(asked)} parts")
    told.clear()
    if not words.only or "rows" in words.only:
        rows = sum("\t" not in line for line in (DATA / FAILING).read_text().splitlines())
        untried.append(f"{rows} rows whose reads and writes fail in turn, "
                       f"which the gate tries within the program")
    if (not words.only or "pages" in words.only) and not doc_tests.has_terminal():
        untried.append("the pages, as there is no pseudo-terminal here")
    for line in untried:
        print(f"not tried: {line}")
    print(f"{passed} passed, {failed} failed")
    return 1 if failed else 0

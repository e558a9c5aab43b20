"""Runs the commands of README.md and of the pages below, and compares what they print with what
stands below them.

    tools/smemu-tools doc-tests [PROGRAM] [--page PAGE]

PROGRAM is the emulator, as in crates/smemu_cli/out; where it is not given it is what ./smemu runs
here. A command is a line `    $ ..`; up to the next one or the end of the block stands what a
terminal shows. Those of a page run in its order in a folder of its own, with the wrapper, tools/,
examples/, docs/ and release/. A command that needs a tool which is not installed is passed over,
and so is one that reads a file which that one would have made.
"""
from __future__ import annotations

import argparse
import concurrent.futures
import os
import pathlib
import pty
import re
import shutil
import signal
import subprocess
import sys
import tempfile
import threading

from smemu_tools import TOP

PAGES = ("README.md",
         *(f"docs/{name}.md"
           for name
           in ("TUTORIAL", "FROM_C", "WORLDS", "DEBUGGER", "REPORT", "KERNEL", "GDB", "OUTCOMES",
               "LOST_ZA", "PROFILE", "LAZY_SAVING", "COMMAND", "CHECKPOINT", "VECTORS", "CI",
               "FIND_IT", "INSTALL")))
# tools that a command may need, and of some the least version
TOOLS = {"clang-19": 0, "ld.lld-19": 0, "aarch64-linux-gnu-gcc": 0,
         "aarch64-linux-gnu-gcc-14": 0, "aarch64-linux-gnu-ld": 0, "qemu-aarch64": 10,
         "llvm-symbolizer-19": 0, "parallel": 0, "man": 0, "xz": 0, "gdb-multiarch": 0,
         "cmake": 0, "ctest": 0, "meson": 0,
         "/usr/lib/llvm-19/build/utils/lit/lit.py": 0}
# of these, those that start Clang and lld by files that the command does not show
BUILDERS = {"cmake", "ctest", "meson", "/usr/lib/llvm-19/build/utils/lit/lit.py"}
SECONDS = 60


def is_there(tool: str) -> bool:
    if not shutil.which(tool):
        return False
    version = re.search(r"version (\d+)",
                        subprocess.run([tool, "--version"], capture_output=True, text=True).stdout)
    return not TOOLS[tool] or bool(version) and int(version[1]) >= TOOLS[tool]


def commands(page: str) -> list[tuple[int, str, list[str]]]:
    """Each command of a page: its line, itself and what it is to print."""
    found, block, empty = [], False, 0
    for number, line in enumerate((TOP / page).read_text().splitlines(), 1):
        text = line[4:]
        if not line:
            # it is in the block, if that goes on
            empty += 1
        elif not line.startswith("    "):
            block = False
        elif text.startswith("$ "):
            found.append((number, text[2:], []))
            block, empty = True, 0
        elif block:
            found[-1][2].extend([*[""] * empty, text])
            empty = 0
    return found


def shown(command: str, folder: pathlib.Path) -> list[str]:
    """What a terminal shows of a command: its lines, without what is rewritten in place, as a time
    or how far it is."""
    main, side = pty.openpty()
    shell = subprocess.Popen(["bash", "-c", command], cwd=folder, stdin=subprocess.DEVNULL,
                             stdout=side, stderr=side, start_new_session=True,
                             env={**os.environ, "ROUTINES": ""})
    os.close(side)
    alarm = threading.Timer(SECONDS, os.killpg, (shell.pid, signal.SIGKILL))
    alarm.start()
    said = b""
    try:
        while part := os.read(main, 65536):
            said += part
    except OSError:
        # the other side is closed
        pass
    os.close(main)
    shell.wait()
    alarm.cancel()
    return re.sub(r"[^\n]*\r|\033\[K", "",
                  said.decode(errors="replace").replace("\r\n", "\n")).splitlines()


def has_terminal() -> bool:
    """Tells whether the system gives a pseudo-terminal."""
    try:
        for side in pty.openpty():
            os.close(side)
    except OSError:
        return False
    return True


def make_folder(folder: pathlib.Path, program: pathlib.Path | str) -> None:
    """The wrapper over the program, or with none the one here, the tools and the examples."""
    for name in ("tools", "examples"):
        shutil.copytree(TOP / name, folder / name)
    for name in ("docs", "release"):
        os.symlink(TOP / name, folder / name)
    if not program:
        os.symlink(TOP / "smemu", folder / "smemu")
        return
    shutil.copy(TOP / "smemu", folder)
    (folder / "crates/smemu_cli/out").mkdir(parents=True)
    (folder / "crates/smemu_cli/src").mkdir()
    os.symlink(program, folder / "crates/smemu_cli/out/smemu_cli")


def try_page(page: str, program: pathlib.Path, there: dict[str, bool]) -> tuple[list[str], bool]:
    """The lines to say of a page, and whether all its commands printed what is written."""
    ran, passed, lines, lacking = 0, 0, [], set()
    with tempfile.TemporaryDirectory() as name:
        folder = pathlib.Path(name)
        make_folder(folder, program)
        for number, command, wanted in commands(page):
            words = set(re.findall(r"[\w./-]+", command))
            needed = words & set(TOOLS) | ({"clang-19", "ld.lld-19"} if words & BUILDERS else set())
            if words & lacking or any(not there[tool] for tool in needed):
                passed += 1
                lacking |= {word for word in words
                            if "." in word and not (folder / word).exists()} - set(TOOLS)
                continue
            said = shown(command, folder)
            ran += 1
            if said != wanted:
                lines += [f"{page}:{number}: $ {command}",
                          *(f"  written: {line}" for line in wanted),
                          *(f"  printed: {line}" for line in said)]
    return [*lines, f"{page}: {ran} commands ran, {passed} were passed over"], not lines


def main() -> int:
    words = argparse.ArgumentParser(description=__doc__.partition("\n\n")[0])
    words.add_argument("program", nargs="?", type=pathlib.Path, metavar="PROGRAM")
    words.add_argument("--page", choices=PAGES, action="append",
                       help="this page alone, and others that are named so")
    asked = words.parse_args()
    program = asked.program
    if not program:
        subprocess.run([TOP / "smemu", "--version"], check=True, stdout=subprocess.DEVNULL)
    elif not program.is_file():
        sys.exit(f"doc_tests: there is no {program}")
    if not has_terminal():
        print("doc_tests: there is no pseudo-terminal here, so nothing is tried")
        return 0
    program = program and program.resolve()
    there = {tool: is_there(tool) for tool in TOOLS}
    print("not there: " + (", ".join(tool for tool in TOOLS if not there[tool]) or "none"))
    with concurrent.futures.ThreadPoolExecutor() as pool:
        tried = list(pool.map(lambda page: try_page(page, program, there), asked.page or PAGES))
    print(*(line for lines, _ in tried for line in lines), sep="\n")
    return 0 if all(agree for _, agree in tried) else 1

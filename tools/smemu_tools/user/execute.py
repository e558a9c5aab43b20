"""Runs a program as a program, for scripts and build systems: its output is the output, its exit
status the status.

    smemu exec [OPTIONS] PROGRAM [OPTIONS]

The options are those of `smemu run`: --vl, --svl, --slice, --budget, --threads, --cores, each with
a value, before the program or after it. Other words after the program are refused, since a guest
has no arguments. A build system that puts the program behind the words that it is told takes `smemu
exec --svl 512` as it is.

The outputs of several threads stand one after the other, and the status is that of the first thread
whose status is not 0. Where a thread does not exit, or nothing is run, it is 125, and on standard
error stands each such thread with its stop, or the refusal. SMEMU may name the emulator.
"""
from __future__ import annotations

import os
import re
import signal
import subprocess
import sys

from smemu_tools import TOP
from smemu_tools.user import reports

SMEMU = os.environ.get("SMEMU") or str(TOP / "smemu")
NOT_RUN = 125
OPTIONS = ("--vl", "--svl", "--slice", "--budget", "--threads", "--cores")


class NoWords(Exception):
    """Words that are at fault, which have the status of a program that is not run."""


def parse(words: list[str]) -> tuple[str | None, list[str]]:
    """The program, and the options with their values in the order in which they stand before it and
    after it."""
    program, options, rest = None, [], list(words)
    while rest:
        word = rest.pop(0)
        if word in OPTIONS:
            if not rest:
                raise NoWords(f"{word} has no value")
            options += [word, rest.pop(0)]
        elif word in ("-h", "--help") and program is None:
            return None, []
        elif program is not None:
            raise NoWords(f"{word}: a guest has no arguments, so after the "
                          f"program only options may stand: {' '.join(OPTIONS)}")
        elif word.startswith("-"):
            raise NoWords(
                f"{word} is no option: {' '.join(OPTIONS)}; of a file of that name write ./{word}")
        else:
            program = word
    if program is None:
        raise NoWords("there is no PROGRAM")
    return program, options


def run(words: list[str]) -> tuple[str, int]:
    """What the emulator writes of these words after `run`, and its status."""
    try:
        # the wrapper's own words are for a person at a terminal
        ended = subprocess.run([SMEMU, "run", *words], stdout=subprocess.PIPE,
                               env={**os.environ, "SMEMU_QUIET": "1"})
    except OSError as fault:
        return f"{SMEMU}: {fault.strerror}", NOT_RUN
    return ended.stdout.decode(errors="replace"), ended.returncode


def main() -> int:
    # where it is interrupted, or its output is closed, it ends as other programs do
    for name in (signal.SIGINT, signal.SIGPIPE):
        signal.signal(name, signal.SIG_DFL)
    called = os.path.basename(sys.argv[0])
    usage = f"usage: {called} [OPTIONS] PROGRAM [OPTIONS]"
    try:
        program, options = parse(sys.argv[1:])
    except NoWords as fault:
        print(usage, f"{called}: {fault}", sep="\n", file=sys.stderr)
        return NOT_RUN
    if program is None:
        print(usage, "", __doc__.strip(), sep="\n")
        return 0
    text, status = run([program, *options])
    if status == 2:
        # the place counts in the words of `run`, which are not those that were written here
        place = re.fullmatch(r"usage: word (\d+): (\w+)\n", text)
        at = (int(place[1]) - 2) // 2 * 2 if place else 0
        text = f"{called}: {' '.join(options[at:at + 2])}: {place[2]}" if place else text
    if status:
        print(text.rstrip("\n") or f"smemu ended with status {status}", file=sys.stderr)
        return NOT_RUN
    threads = reports.parse(text, journals=False).threads
    sys.stdout.buffer.write(b"".join(thread.output for thread in threads))
    sys.stdout.flush()
    unended = [thread for thread in threads if thread.stop.status is None]
    for thread in unended:
        print(f"thread {thread.number} stop {thread.stop}", file=sys.stderr)
    return NOT_RUN if unended else next((thread.stop.status for thread in threads
                                         if thread.stop.status), 0)

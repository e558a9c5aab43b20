"""Says when an answer of the debugger changes: the first count from which a turn leads to another
answer, or the last, and the instruction there.

    smemu when PROGRAM REPORT [THREAD] QUESTION [--after COUNT | --before COUNT | --last] [--most N]

QUESTION is `mem ADDRESS LENGTH`, `slice ELEM TILE h N` or za, as in a script of `debug`, or a
register by its name in a report: `x 3`, `z 0`, sp. All threads of the report are looked at, one
after the other, or the one that is named. --after begins at a count (0 where nothing is said),
--before goes back from one, --last from the end. The first change is shown; --most N shows so many
of each thread, and where there are so many the last line says which counts were not looked at. A
line says the count, the address, function and source line of the instruction, and its text; below
are the lines of the answer before it and after it. The status is 1 where nothing changes, and 3
where --most was met. SMEMU may name the emulator.
"""
from __future__ import annotations

import argparse
import sys
from typing import Any, Iterator

from smemu_tools.user import emulator, places, progress, recorded

# the lines of an answer that are shown at most, before a change and after it
SHOWN = 8
# the status of a script that is none
NO_SCRIPT = 11


def changes(thread: Any, question: Any, words: Any) -> Iterator[int]:
    """The counts of the changes that are asked for, one after the other."""
    told = progress.Progress()
    show = lambda count: told.show(f"count {count} of {thread.end}")
    back = words.last or words.before is not None
    count = min(thread.end,
                words.before if words.before is not None
                else thread.end) if back else min(words.after, thread.end)
    for _ in range(words.most or 1):
        found = thread.last_change(count, question,
                                   show=show) if back else thread.next_change(count, question,
                                                                              show=show)
        told.clear()
        if found is None:
            return
        yield found
        count = found if back else found + 1


def shown(before: Any, after: Any) -> Iterator[str]:
    """The lines of two answers that are not in both."""
    for mark, lines, others in (("-", before, after), ("+", after, before)):
        only = [line for line in lines if line not in others]
        yield from (f"  {mark} {line}" for line in only[:SHOWN])
        if len(only) > SHOWN:
            yield f"  {mark} and {len(only) - SHOWN} lines more"


def arguments() -> tuple[argparse.ArgumentParser, argparse.Namespace]:
    parser = argparse.ArgumentParser(
        description=__doc__.partition("\n\n")[0],
        usage="%(prog)s PROGRAM REPORT [THREAD] QUESTION [--after COUNT | --before "
        "COUNT | --last] [--most N]",
        epilog="QUESTION is `mem ADDRESS LENGTH`, `slice ELEM TILE h N` or za, or "
        "a register by its name in a report: `x 3`, `z 0`, sp.")
    parser.add_argument("program", metavar="PROGRAM")
    parser.add_argument("report", metavar="REPORT")
    parser.add_argument("question", metavar="QUESTION", nargs="+")
    start = parser.add_mutually_exclusive_group()
    start.add_argument("--after", type=int, default=0, metavar="COUNT")
    start.add_argument("--before", type=int, metavar="COUNT")
    start.add_argument("--last", action="store_true")
    parser.add_argument("--most", type=int, metavar="N")
    words = parser.parse_args()
    # no question begins with a number
    words.thread = int(words.question.pop(0)) if words.question[0].isdigit() else None
    if not words.question:
        parser.error("there is no QUESTION")
    if words.most is not None and words.most < 1:
        parser.error("--most is 1 or more")
    words.question = " ".join(words.question)
    return parser, words


def unseen(thread: recorded.Recorded, words: argparse.Namespace, found: list[int]) -> str:
    """What the bound on changes left: the counts of a thread that were not looked at, or
    nothing."""
    if words.most is None or len(found) < words.most:
        return ""
    if words.last or words.before is not None:
        return f"counts of thread {thread.block.number} below {found[-1]}" if found[-1] else ""
    return (f"counts of thread {thread.block.number} from {found[-1] + 1} on"
            if found[-1] + 1 < thread.end else "")


def look_at(thread: recorded.Recorded, words: argparse.Namespace,
            known: places.Places) -> list[int]:
    """Shows the changes of an answer; the answer is their counts."""
    found = []
    for count in changes(thread, words.question, words):
        state = thread.state(count)
        text = state.where.split(" ", 3)[3]
        print(f"at {count} {known.text(state.pc)}: {text}",
              *shown(thread.answer(count, words.question),
                     thread.answer(count + 1, words.question)), sep="\n")
        found.append(count)
    if not found:
        first = "".join(thread.answer(0, words.question)[:1])
        print(f"{words.question}: "
              + (f"no memory there: {first}" if first.startswith("fault") else "no change"))
    return found


def main() -> int:
    parser, words = arguments()
    threads = [words.thread] if words.thread is not None else recorded.threads_of(words.program,
                                                                                  words.report)
    known, found, left = places.Places(words.program), [], []
    for number in threads:
        thread = recorded.Recorded(words.program, words.report, number)
        try:
            thread.answer(0, words.question)
        except emulator.Refused as fault:
            sys.exit(f"{parser.prog}: no question: {words.question}" if fault.status == NO_SCRIPT
                     else str(fault))
        if len(threads) > 1:
            print(f"thread {number}")
        here = look_at(thread, words, known)
        found += here
        left += [it for it in [unseen(thread, words, here)] if it]
    if left:
        print(f"not looked at: {', '.join(left)} (--most {words.most})")
    return emulator.NOT_ALL if left else 0 if found else 1

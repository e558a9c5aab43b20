#!/usr/bin/env python3
"""Takes the saves of d8 to d15 out of a compiler's assembly: standard input to standard output.

    clang-19 .. -S -o - modes.c | examples/c/mode_saves.py > modes.s

Compilers save these low halves of Z8 to Z15 where a function changes the mode, since that makes
all vectors zero. Their instructions are not listed. Code without floating point has nothing in
them over a call; the limit is code, as of an asm statement, that does keep something in Z8 to Z15
over a call of a function that changes the mode: it is zero after it. Where a save moves SP, that
remains.
"""
import re
import sys

SAVE = re.compile(r"\s*(?:stp|ldp|str|ldr)\s+d(?:8|9|1[0-5])(?:, ?d(?:8|9|1[0-5]))?, ?\[(?:sp|x29)"
                  r"(?:, ?#?(?P<offset>-?\d+))?\](?P<before>!)?(?:, ?#?(?P<after>-?\d+))?"
                  r"\s*(?://.*)?$")


def moved(distance: int) -> str:
    """The instruction that moves SP by so many bytes."""
    return f"\t{'sub' if distance < 0 else 'add'}\tsp, sp, #{abs(distance)}\n"


def without_save(line: str) -> str:
    save = SAVE.match(line)
    if not save:
        return line
    if save["before"]:
        return moved(int(save["offset"]))
    return moved(int(save["after"])) if save["after"] else ""


if __name__ == "__main__":
    sys.stdout.writelines(without_save(line) for line in sys.stdin)

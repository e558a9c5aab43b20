"""Makes files of vectors at random, and compares what the emulator answers with what an interpreter
says that shares nothing with it.

    tools/smemu-tools random-vectors [PROGRAM] [--files N] [--seed S]

PROGRAM is the emulator; where it is not given it is what ./smemu runs. There are N files of 1,000
vectors each, 100 where it is not said, each at two vector lengths and on one, two or four workers;
the same seed makes the same files. A word is one of the tables of crates/smemu_rows/data, in more
than half of the vectors with one bit changed or several, and its state is made as in
tools/smemu_tools/rows/word_steps.py. The interpreter is
tools/smemu_tools/model/expected_answers.py. Each vector whose answers differ is printed with both
of them; the status is 1 where one does.
"""
from __future__ import annotations

import argparse
import concurrent.futures
import os
import pathlib
import random
import re
import subprocess
import tempfile
from typing import Any


from smemu_tools.model.expected_answers import answer, read_line
from smemu_tools.rows.word_steps import PAGE, START, line_of, state_of, words
from smemu_tools.user import emulator

LENGTHS, LINES, SECONDS = (128, 256, 512, 1024, 2048), 1000, 300


def vector(chance: random.Random, known: list[tuple[int, str]], vl: int, svl: int) -> str:
    """A line of a word, with now and then other bits, and a state."""
    word, text = chance.choice(known)
    if chance.random() < 0.6:
        for _ in range(chance.choice((1, 1, 2, 4))):
            word ^= 1 << chance.randrange(32)
    state = state_of(chance, text, vl, svl)
    base = re.search(r"\[(x[0-9]+|sp)", text)
    if base and chance.random() < 0.5:
        state[base[1]] = f"{START + chance.randrange(0, PAGE, 16):016x}"
    return line_of(word, state)


def compared(smemu: str, seed: str) -> Any:
    """The vectors of a file whose answers differ, with both."""
    chance, known = random.Random(seed), [*words().items()]
    vl, svl, workers = chance.choice(LENGTHS), chance.choice(LENGTHS), chance.choice((1, 2, 4))
    lines = [vector(chance, known, vl, svl) for _ in range(LINES)]
    with tempfile.NamedTemporaryFile("w") as file:
        file.write("\n".join(lines))
        file.flush()
        ended = subprocess.run([smemu, "vectors", file.name, "--vl", str(vl), "--svl", str(svl),
                                "--cores", str(workers)], stdin=subprocess.DEVNULL,
                               stdout=subprocess.PIPE, timeout=SECONDS, text=True)
    given = ended.stdout.splitlines()
    if ended.returncode or len(given) != LINES:
        return [f"seed {seed}: status {ended.returncode} and {len(given)} lines"]
    wanted = [answer(read_line(line, vl, svl), vl, svl) for line in lines]
    return [f"--vl {vl} --svl {svl}: {line}\n  wanted: {right}\n  got:    {got}"
            for line, right, got in zip(lines, wanted, given) if right != got]


def main() -> int:
    asked = argparse.ArgumentParser()
    asked.add_argument("program", nargs="?")
    asked.add_argument("--files", type=int, default=100)
    asked.add_argument("--seed", type=int, default=1)
    given = asked.parse_args()
    smemu = str(pathlib.Path(given.program or emulator.find()).resolve())
    with concurrent.futures.ProcessPoolExecutor(os.cpu_count()) as pool:
        found = [*pool.map(compared, [smemu] * given.files,
                           [f"{given.seed} {number}" for number in range(given.files)])]
    differing = [line for lines in found for line in lines]
    print(*differing, f"{LINES * given.files} vectors, {len(differing)} differ", sep="\n")
    return 1 if differing else 0

"""Changes files of each format at random, and compares what the emulator answers with what models
say that share nothing with it.

    tools/smemu-tools changed-files [PROGRAM] [--cases N] [--seed S] [--formats NAME,..]

PROGRAM is the emulator; where it is not given it is what ./smemu runs. There are N cases of each
format, 1,000 where it is not said, and the same seed makes the same cases. The formats are program,
source, report, plan, script, vectors and checkpoint. The files are those of crates/smemu_rows/data,
and the models those of examples/ and of crates/smemu_rows, but of a source there is none: it is
assembled, and then what comes is listed, or it is refused with a line. A case that differs is
printed with its words and its changes, as the lists of crates/smemu_rows/data have them. The status
is 1 where one differs.
"""
from __future__ import annotations

import argparse
import concurrent.futures
import functools
import os
import pathlib
import random
import re
import subprocess
import tempfile
from typing import Any, Callable

from smemu_tools import TOP
from smemu_tools.model.expected_ckpt import ckpt, read_for, resume
from smemu_tools.model.expected_debug import debug, listed
from smemu_tools.model.world import sim
from smemu_tools.rows import random_bytes
from smemu_tools.rows.altered import answer as replayed
from smemu_tools.rows.changed import (ADDRESSES, BYTES, NUMBERS, PLANS, RUN, SCRIPTS, VECTORS,
                                      Unknown, after, answered_vectors, fields_of, listing,
                                      options_in, ran)
from smemu_tools.user import emulator

ROWS = TOP / "crates" / "smemu_rows"
DATA = ROWS / "data"
SECONDS = 60
CHUNK = 250  # cases that one process makes in a row
REPORTS = {"nested-signals": "nested-signals.elf.txt", "shared-signals": "debug-signals.report",
           "shared-cas": "shared-cas.elf.txt", "answer": "answer.elf.txt"}
LISTED = ("hint-note-stack-and-sections", "data-in-the-text", "section-over-touching-loads",
          "data-by-the-later-symbol", "loads-in-any-order")
CHECKPOINTS = (("answer", "answer.elf.txt", 0, 1),
               ("nested-signals", "nested-signals.elf.txt", 0, 45),
               ("shared-signals", "debug-signals.report", 0, 46),
               ("shared-cas", "shared-cas.elf.txt", 0, 4),
               ("threads-get-a-signal", "debug-four-cores.report", 3, 20))
SOURCES = ("answer.s", "countdown.s", "strlen.s", "za-lazy-saving.s", "threads.s")


def read(name: str) -> bytes:
    return (DATA / name).read_bytes()


ROW_WORDS = {name: words
             for name, _, words
             in (line.split(" ", 2) for line in (DATA / "rows.txt").read_text().splitlines())}


# ---- changes


def change_of_bytes(chance: random.Random, content: bytes) -> tuple[int, int, bytes]:
    """A byte changed, put in or taken away, a part taken away or doubled, or the rest cut."""
    at = chance.randrange(len(content) + 1)
    end = min(len(content), at + chance.choice((1, 1, 1, 2, 4, 8, 64)))
    new = chance.choice((random_bytes(chance, end - at), random_bytes(chance, 1), b"",
                         content[at:end] * 2,
                         bytes([content[at] ^ 1 << chance.randrange(8)]) if at < len(content)
                         else b"\0", bytes(end - at), b"\xff" * (end - at)))
    return at, len(content) if chance.randrange(20) == 0 else end, new


def change_of_text(chance: random.Random, content: bytes) -> tuple[int, int, bytes]:
    """A number, a word or a line changed, or bytes."""
    found = [*re.finditer(chance.choice((rb"0x[0-9a-f]+", rb"[0-9]+", rb"[^ \n=]+", rb"[^\n]*\n")),
                          content)]
    if not found or chance.randrange(3) == 0:
        at = chance.randrange(len(content) + 1)
        return chance.choice(((at, at, bytes([chance.choice(BYTES)])),
                              (at, min(at + 1, len(content)), bytes([chance.choice(BYTES)])),
                              change_of_bytes(chance, content)))
    part, other = chance.choice(found), chance.choice(found)
    new = chance.choice((chance.choice(NUMBERS), chance.choice(ADDRESSES), other.group(),
                         part.group() * 2, b"", str(chance.randrange(200)).encode()))
    return *part.span(), new


def change_of_fields(chance: random.Random, content: bytes) -> tuple[int, int, bytes]:
    """A field of a program file at an end of its range, or near what it is, or bytes."""
    if chance.randrange(3) == 0:
        return change_of_bytes(chance, content)
    try:
        at, size = chance.choice([field for field in fields_of(content) if field[1] <= 8])
    except Exception:
        return change_of_bytes(chance, content)
    old, top = int.from_bytes(content[at:at + size], "little"), 1 << 8 * size
    value = chance.choice((old + chance.randint(-64, 64), chance.randint(-16, 16),
                           len(content) + chance.randint(-64, 64), top // 2 + chance.randint(-2, 2),
                           chance.randrange(top)))
    return at, at + size, (value % top).to_bytes(size, "little")


def change_of_vectors(chance: random.Random, content: bytes) -> tuple[int, int, bytes]:
    """A digit of a value, or another change."""
    found = [*re.finditer(rb"(?<==)[0-9a-f]+", content)]
    if not found or chance.randrange(3) == 0:
        return change_of_text(chance, content)
    at = chance.randrange(*chance.choice(found).span())
    return at, at + 1, b"%x" % chance.choice((0, 1, 2, 3, chance.randrange(16)))


def change_of_checkpoint(chance: random.Random, content: bytes, places: Any) -> tuple[int, int,
                                                                                      bytes]:
    """A field at an end of its range, near what it is, left out or doubled, or bytes near its
    beginning, or the rest cut there."""
    at, size = chance.choice(chance.choice(places))
    if chance.randrange(3) == 0:
        start, end, new = change_of_bytes(chance, content[at:at + 64])
        return at + start, len(content) if chance.randrange(20) == 0 else at + end, new
    old, top = int.from_bytes(content[at:at + size], "little"), 1 << 8 * size
    value = chance.choice((old + chance.randint(-64, 64), chance.randint(-16, 16),
                           top // 2 + chance.randint(-2, 2), chance.randrange(top),
                           1 << chance.randrange(64)))
    return at, at + size, chance.choice((*[(value % top).to_bytes(size, "little")] * 8, b"",
                                         content[at:at + size] * 2))


# ---- formats: the words of a command, the file that is changed, how it is changed, and the answer


def programs(chance: random.Random, texts: dict[str, str]) -> tuple[str, bytes, Callable[..., Any],
                                                                    Callable[..., Any]]:
    name = chance.choice([*LISTED, *RUN])
    if name in RUN:
        return "run @ --budget 50", read(f"{name}.elf"), change_of_fields, lambda file: ran(
            file, texts, {"budget": 50})
    return "dis @", read(f"{name}.elf"), change_of_fields, lambda file: listing(file, texts)


def sources(chance: random.Random, texts: dict[str, str]) -> tuple[str, bytes, Callable[..., Any],
                                                                   None]:
    return "asm @", read(chance.choice(SOURCES)), change_of_text, None


def reports(chance: random.Random, texts: dict[str, str]) -> tuple[str, bytes, Callable[..., Any],
                                                                   Callable[..., Any]]:
    program, name = chance.choice([*REPORTS.items()])
    return f"replay {program}.elf @ 0", read(name), change_of_text, lambda report: replayed(
        read(f"{program}.elf"), report, 0)


def plans(chance: random.Random, texts: dict[str, str]) -> tuple[str, bytes, Callable[..., Any],
                                                                 Callable[..., Any]]:
    name = chance.choice([*PLANS])
    _, program, _, *options = ROW_WORDS[name].split()
    return ROW_WORDS[name], read(name), change_of_text, lambda plan: sim(read(program), plan,
                                                                         **options_in(options))


def scripts(chance: random.Random, texts: dict[str, str]) -> tuple[str, bytes, Callable[..., Any],
                                                                   Callable[..., Any]]:
    name = chance.choice([*SCRIPTS])
    _, program, reported, number, _ = ROW_WORDS[name].split()
    return ROW_WORDS[name], read(name), change_of_text, lambda script: debug(read(program),
                                                                             read(reported),
                                                                             int(number), script,
                                                                             texts)


def vectors(chance: random.Random, texts: dict[str, str]) -> tuple[str, bytes, Callable[..., Any],
                                                                   Callable[..., Any]]:
    return ("vectors @", read(chance.choice([*VECTORS])),
            change_of_vectors, lambda file: answered_vectors(file, texts))


@functools.lru_cache(None)
def made_checkpoint(program: str, reported: str, thread: int, count: int) -> Any:
    """A checkpoint, and where its fields stand: those up to the vectors, the vectors, those from
    there to the first pages, and all."""
    content = ckpt(read(f"{program}.elf"), read(reported), thread, count)[1]
    walk = read_for(content, read(reported))[1]
    vectors, handlers, pages = (walk.parts[name] for name in ("vectors", "handlers", "pages"))
    return content, (walk.places[:vectors], walk.places[vectors:handlers],
                     walk.places[handlers:pages + 7], walk.places)


def checkpoints(chance: random.Random, texts: dict[str, str]) -> tuple[str, bytes,
                                                                       Callable[..., Any],
                                                                       Callable[..., Any]]:
    program, reported, *asked = chance.choice(CHECKPOINTS)
    content, places = made_checkpoint(program, reported, *asked)
    answer = lambda changed: resume(read(f"{program}.elf"), read(reported), changed)
    return (f"resume {program}.elf {reported} @",
            content, lambda chance, content: change_of_checkpoint(chance, content, places), answer)


FORMATS = {"program": programs, "source": sources, "report": reports, "plan": plans,
           "script": scripts, "vectors": vectors, "checkpoint": checkpoints}


def answered(smemu: str, words: str, changed: bytes, folder: str) -> tuple[int, bytes]:
    """The status and the bytes that the emulator writes."""
    path = pathlib.Path(folder) / "changed"
    path.write_bytes(changed)
    named = [str(path) if word == "@" else str(DATA / word) if "." in word else word
             for word in words.split()]
    ended = subprocess.run([smemu, *named], stdin=subprocess.DEVNULL, stdout=subprocess.PIPE,
                           stderr=subprocess.DEVNULL, timeout=SECONDS)
    return ended.returncode, ended.stdout


def is_assembled(smemu: str, got: tuple[int, bytes], folder: str) -> bool:
    """Tells whether a source was assembled to what is listed, or refused with a line."""
    status, text = got
    if status == 7:
        return re.fullmatch(rb"bad source: [a-z0-9 :-]+\n", text) is not None
    return status == 0 and answered(smemu, "dis @", text, folder)[0] == 0


def cases(smemu: str, name: str, seed: str, count: int, texts: dict[str, str]) -> tuple[int,
                                                                                        list[Any]]:
    """How many cases there were, and those that differ."""
    chance, made, differing = random.Random(f"{name} {seed}"), 0, []
    with tempfile.TemporaryDirectory() as folder:
        while made < count:
            words, content, change, answer = FORMATS[name](chance, texts)
            changes, changed = [], content
            for _ in range(chance.choice((1, 1, 1, 2, 3))):
                changes.append(change(chance, changed))
                changed = after(changed, changes[-1:])
            try:
                wanted = answer(changed) if answer else None
            except (Unknown, KeyError):
                continue  # a word that no table has
            made += 1
            got = answered(smemu, words, changed, folder)
            right = is_assembled(smemu, got, folder) if answer is None else got == (
                wanted[0], wanted[1].encode())
            if not right:
                differing.append(f"{words}: "
                                 + " ".join(f"{start} {end} {new.hex() or '-'}"
                                            for start, end, new in changes)
                                 + f": status {got[0]}, wanted {wanted}")
    return made, differing


def main() -> int:
    asked = argparse.ArgumentParser()
    asked.add_argument("program", nargs="?")
    asked.add_argument("--cases", type=int, default=1000)
    asked.add_argument("--seed", type=int, default=1)
    asked.add_argument("--formats", default=",".join(FORMATS))
    given = asked.parse_args()
    smemu, texts, faults = str(pathlib.Path(given.program
                                            or emulator.find()).resolve()), listed(), 0
    with concurrent.futures.ProcessPoolExecutor(os.cpu_count()) as pool:
        for name in given.formats.split(","):
            sizes = [min(CHUNK, given.cases - begun) for begun in range(0, given.cases, CHUNK)]
            found = [*pool.map(cases,
                               *zip(*((smemu, name, f"{given.seed} {k}", size, texts)
                                      for k, size in enumerate(sizes))))]
            differing = [line for _, lines in found for line in lines]
            faults += len(differing)
            print(*differing,
                  f"{name}: {sum(made for made, _ in found)} cases, {len(differing)} differ",
                  sep="\n", flush=True)
    return 1 if faults else 0

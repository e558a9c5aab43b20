"""Makes the released program, which `./smemu` runs where none is built: release/smemu_cli.xz, and
release/SHA256SUMS, which names the SHA-256 of that program, of its packed file and of each source
that it was made of, as `sha256sum --check` reads it.

    tools/smemu-tools release
    tools/smemu-tools release --check [PROGRAM]
    tools/smemu-tools release --unpack

Packs crates/smemu_cli/out/smemu_cli, as `./smemu --build` has made it: it must be there, and no
source may be newer. Two runs write the same bytes.

--check is for the end of the gate: where the sources that stand here are exactly those of the
release, PROGRAM must be the released one byte for byte. Where it is not named it is what was built
here, or where nothing was, what the first start of ./smemu has unpacked. A release of other sources
is no fault, and is told.

--unpack is for ./smemu, and puts the program into release/out, if it is of exactly these sources.
It reads what the system says of each of them, and keeps it there as `state`: while that holds no
source has changed, and no start need ask again.
"""
from __future__ import annotations

import argparse
import contextlib
import fcntl
import hashlib
import os
import pathlib
import subprocess
import sys
import time
from typing import Any

from smemu_tools.gate.build import CRATES, PROGRAM, TOP, below

RELEASE = TOP / "release"
OUT = RELEASE / "out"
BUILT, PACKED, SUMS = (CRATES / PROGRAM / "out" / PROGRAM, RELEASE / f"{PROGRAM}.xz",
                       RELEASE / "SHA256SUMS")
# the packed file has fewer bytes
MOST = 400_000
# no two changes of a file that are so many seconds apart have the same time
TICK = 0.02
# what keeps a release from being unpacked
FAULTS = OSError, ValueError, subprocess.SubprocessError


def name_of(path: pathlib.Path) -> str:
    return path.relative_to(TOP).as_posix()


def shown(path: pathlib.Path) -> Any:
    """A path as it is told: from the top of the repository, where it is below."""
    return name_of(path) if TOP in path.parents else path


def files_under(folder: pathlib.Path) -> list[pathlib.Path]:
    return [pathlib.Path(place) / name for place, _, names in os.walk(folder, followlinks=True)
            for name in names]


def sources() -> list[str]:
    """The names of all files that the build reads."""
    parts = [CRATES / crate / part for crate in [*below(PROGRAM), PROGRAM]
             for part in ("src", "specs", "proofs")]
    return sorted(map(name_of,
                      [TOP / "crates.txt", TOP / "HANDLES",
                       *(file for part in parts for file in files_under(part))]))


def digest_of(content: bytes) -> str:
    return hashlib.sha256(content).hexdigest()


def digests() -> dict[str, str]:
    """The SHA-256 of each source that stands here, by its name."""
    return {name: digest_of((TOP / name).read_bytes()) for name in sources()}


def stated() -> tuple[str, str, dict[str, str]]:
    """The SHA-256 of the released program, that of its packed file, and those of its sources by
    their names."""
    found = {name: digest
             for digest, _, name
             in (line.partition("  ") for line in SUMS.read_text().splitlines())}
    return found.pop(name_of(BUILT), None), found.pop(name_of(PACKED), None), found


def packed(content: bytes) -> bytes:
    """A packed file, which xz unpacks too. Nothing in it is of the machine or the time."""
    import lzma
    filters: list[dict[str, int]] = [{"id": lzma.FILTER_X86},
                                     {"id": lzma.FILTER_LZMA2, "preset": 9 | lzma.PRESET_EXTREME}]
    return lzma.compress(content, lzma.FORMAT_XZ, lzma.CHECK_CRC32, filters=filters)


def unpacked(content: bytes) -> bytes:
    try:
        import lzma
    except ImportError:
        # a Python that was built without it
        return subprocess.run(["xz", "--decompress", "--stdout"], input=content,
                              stdout=subprocess.PIPE, check=True).stdout
    try:
        return lzma.decompress(content)
    except lzma.LZMAError as fault:
        raise ValueError(f"{name_of(PACKED)} is no packed file: {fault}") from fault


def released(program: str, packed_file: str) -> bytes:
    """The released program, whose SHA-256 must be this one, and that of its packed file the
    other."""
    content = PACKED.read_bytes()
    if digest_of(content) != packed_file:
        raise ValueError(f"{name_of(PACKED)} is not the file that {name_of(SUMS)} states")
    content = unpacked(content)
    if digest_of(content) != program:
        raise ValueError(f"{name_of(PACKED)} does not hold the program that {name_of(SUMS)} states")
    return content


def make() -> int:
    """Makes the release, and says what is in it."""
    if not BUILT.is_file():
        sys.exit(f"release: there is no {name_of(BUILT)}; ./smemu --build makes it")
    of, made = digests(), BUILT.stat().st_mtime_ns
    newer = [name for name in of if (TOP / name).stat().st_mtime_ns > made]
    if newer:
        sys.exit(
            f"release: {newer[0]} is newer than {name_of(BUILT)}; ./smemu --build makes it anew")
    program = BUILT.read_bytes()
    content = packed(program)
    if len(content) >= MOST or unpacked(content) != program:
        sys.exit(f"release: the program is packed wrongly, or into {len(content)} "
                 f"bytes, which have to be fewer than {MOST}")
    RELEASE.mkdir(exist_ok=True)
    PACKED.write_bytes(content)
    lines = [(digest_of(program), name_of(BUILT)), (digest_of(content), name_of(PACKED)),
             *((of[name], name) for name in of)]
    SUMS.write_text("".join(f"{digest}  {name}\n" for digest, name in lines))
    print(f"release: {len(program)} bytes, packed into {len(content)}, of {len(of)} "
          f"sources; its SHA-256 is {digest_of(program)}")
    return 0


def found() -> pathlib.Path:
    """The program that was built here, or where none was the unpacked one."""
    return BUILT if BUILT.is_file() or not (OUT / PROGRAM).is_file() else OUT / PROGRAM


def check(path: pathlib.Path) -> int:
    """Compares a program with the released one, where that is of these sources."""
    if not path.is_file():
        print(f"release: there is no {shown(path)}")
        return 1
    if not SUMS.is_file():
        print("release: there is no release")
        return 0
    program, packed_file, of = stated()
    if of != digests():
        print("release: the release is of other sources")
        return 0
    try:
        agree = released(program, packed_file) == path.read_bytes()
    except FAULTS as fault:
        print(f"release: {fault}")
        return 1
    how = ("the released program byte for byte" if agree
           else "not the released program, which is of the same sources")
    print(f"release: {shown(path)} is {how}")
    return 0 if agree else 1


def put(path: pathlib.Path, content: bytes, mode: int) -> None:
    """Puts a file in place at once, for those that start it meanwhile. The lock is held."""
    new = path.with_suffix(".new")
    with open(new, "wb") as file:
        file.write(content)
        file.flush()
        os.fsync(file.fileno())
    new.chmod(mode)
    new.replace(path)


def is_whole(state: bytes, names: dict[str, str]) -> bool:
    """Tells whether a state has a line for each of these sources."""
    return {line.split(b" ", 4)[-1] for line in state.splitlines()} >= {os.fsencode(TOP / name)
                                                                        for name in names}


def unpack_under_lock(state: bytes) -> bool:
    """Puts the released program in place if it is of these sources, and says whether it is."""
    program, packed_file, of = stated()
    if of != digests():
        return False
    file, kept = OUT / PROGRAM, OUT / "state"
    if not file.is_file() or digest_of(file.read_bytes()) != program:
        content = released(program, packed_file)
        OUT.mkdir(exist_ok=True)
        if kept.exists():
            # it is of the program that goes
            kept.unlink()
        put(file, content, 0o755)
        print("smemu: this is the released program, of exactly these sources; "
              "./smemu --build proves and builds it here", file=sys.stderr)
    if is_whole(state, of):
        # where nothing can be written the next start asks again
        with contextlib.suppress(OSError):
            put(kept, state, 0o644)
    return True


def unpack() -> int:
    state = sys.stdin.buffer.read()
    # what changes from here on has another time than the state says
    time.sleep(TICK)
    try:
        held = os.open(RELEASE, os.O_RDONLY)
        fcntl.flock(held, fcntl.LOCK_EX)
        return 0 if unpack_under_lock(state) else 1
    except FAULTS as fault:
        print(f"smemu: the released program is not unpacked: {fault}", file=sys.stderr)
        return 1


def main() -> int:
    words = argparse.ArgumentParser(description=__doc__.partition("\n\n")[0])
    what = words.add_mutually_exclusive_group()
    what.add_argument("--check", nargs="?", const=None, default=False, type=pathlib.Path,
                      metavar="PROGRAM")
    what.add_argument("--unpack", action="store_true")
    asked = words.parse_args()
    if asked.unpack:
        return unpack()
    return make() if asked.check is False else check(asked.check or found())

"""Plants twelve faults, one at a time, in what clang makes of samples/calls/kernels.c, and stores
the programs in samples/faults.tar.xz.

    tools/smemu-tools plant-faults [FOLDER]

Each is an edit of the assembly, as a compiler may get it wrong: clang-19 and ld.lld-19 are needed,
and another clang may write another text, of which an edit does not apply. With FOLDER the programs
stay there too. tools/smemu-tools fault-tests says what is to be told of each.
"""
from __future__ import annotations

import io
import pathlib
import subprocess
import sys
import tarfile
import tempfile
from typing import Any

from smemu_tools import TOP, parser

SAMPLES = pathlib.Path(__file__).resolve().parent / "samples"
CALLS, STORED = SAMPLES / "calls", SAMPLES / "faults.tar.xz"
CLANG = ["clang-19", "--target=aarch64-linux-gnu", "-ffreestanding", "-fno-pic", "-w"]
SME = ["-march=armv8.1-a+sme+sme-i16i64", "-mno-implicit-float"]
SCALAR = ["-march=armv8.1-a", "-mgeneral-regs-only", "-fno-builtin"]
# of each program what main is told; kernels has its own sum
PROGRAMS: dict[str, list[str]] = {"nested": [], "recurse": [], "callback": [], "tails": [],
                                  "kinds": [], "loops": ["-DOFF"], "chains": [],
                                  "signals": ["-DSETUP"], "kernels": []}
# each fault: the function, the text there, which occurrence of it, and what stands in its place
EDITS: dict[str, Any] = {
    "pointer-not-set": ("deep", "\tmsr\tTPIDR2_EL0, x23\n", 3, ""),
    "callee-does-not-save": ("priv", "\tbl\t__arm_tpidr2_save\n", 1, ""),
    "caller-does-not-restore": ("deep", "\tbl\t__arm_tpidr2_restore\n", 3, "\tnop\n"),
    "half-the-slices": ("deep", "\tsturh\tw22, [x29, #-8]\n", 1,
                        "\tlsr w22, w22, #1\n\tsturh\tw22, [x29, #-8]\n"),
    "za-not-turned-on": ("deep", "\tsmstart\tza\n", 3, ""),
    "half-the-buffer": ("deep", "\tmsub\tx8, x8, x8, x9\n", 1,
                        "\tlsr x10, x8, #1\n\tmsub\tx8, x10, x8, x9\n"),
    "callee-leaves-streaming-mode": ("priv", "\tret\n", 1, "\tsmstop sm\n\tret\n"),
    "callee-changes-x19": ("plain", "\tret\n", 1, "\tmov x19, #7\n\tret\n"),
    "callee-leaves-za-on": ("priv", "\tsmstop\tza\n", 1, ""),
    "pointer-not-cleared": ("deep", "\tmsr\tTPIDR2_EL0, xzr\n", 3, ""),
    "callee-clears-the-pointer": ("plain", "\tret\n", 1, "\tmsr TPIDR2_EL0, xzr\n\tret\n"),
    "callee-changes-z8": ("plain", "\tret\n", 1, "\tdup z8.b, #5\n\tret\n"),
}


def run(*words: Any) -> None:
    subprocess.run([str(word) for word in words], check=True)


def assembly(name: Any, level: Any, work: Any) -> Any:
    """The assembly that clang makes of a program's streaming part."""
    path = work / f"{name}.s"
    run(*CLANG, f"-{level}", "-mno-outline", *SME, "-S", CALLS / f"{name}.c", "-o", path)
    return path.read_text()


def linked(name: Any, level: Any, text: Any, program: Any, work: Any) -> None:
    """Makes the program of this assembly."""
    (work / "edited.s").write_text(text)
    run(*CLANG, *SME, "-c", work / "edited.s", "-o", work / "edited.o")
    run(*CLANG, f"-{level}", *SCALAR, *PROGRAMS[name], "-DWANT=0", "-c", CALLS / "main.c", "-o",
        work / "main.o")
    run(*CLANG, "-Wa,--defsym,STACK=2097152", "-c", TOP / "examples/c/start.s", "-o",
        work / "start.o")
    run(*CLANG, "-c", TOP / "examples/c/za.s", "-o", work / "za.o")
    run("ld.lld-19", "-static", "-z", "max-page-size=4096", "-o", program,
        *(work / it for it in ("start.o", "main.o", "edited.o", "za.o")))


def planted(source: Any, function: Any, old: Any, which: Any, new: Any) -> Any:
    """The assembly with another text in the place of one occurrence of it in a function."""
    start = source.index(f"\n{function}:")
    end, at = source.index(".Lfunc_end", start), start
    for _ in range(which):
        at = source.find(old, at + 1, end)
        if at < 0:
            sys.exit(f"plant_faults: {function} has no {old!r}, of which one is edited")
    return source[:at] + new + source[at + len(old):]


def main() -> None:
    words = parser(__doc__)
    words.add_argument("folder", nargs="?", metavar="FOLDER")
    asked = words.parse_args()
    options: dict[str, Any] = {"preset": 9}
    with tempfile.TemporaryDirectory() as name, tarfile.open(STORED, "w:xz", **options) as stored:
        work, folder = pathlib.Path(name), pathlib.Path(asked.folder or name)
        folder.mkdir(exist_ok=True)
        source = assembly("kernels", "O2", work)
        for fault, edit in {"unchanged": None, **EDITS}.items():
            program = folder / f"{fault}.elf"
            linked("kernels", "O2", planted(source, *edit) if edit else source, program, work)
            run("llvm-strip-19", "--strip-debug", program)
            data = program.read_bytes()
            held = tarfile.TarInfo(program.name)
            held.size = len(data)
            stored.addfile(held, io.BytesIO(data))
    print(f"{STORED.name}: {STORED.stat().st_size} bytes")

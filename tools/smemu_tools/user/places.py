"""Says of addresses of a program in which function they are and, where it was compiled with -g and
a symbolizer is installed, of which line.

Functions are those of the symbol table. Lines are asked of llvm-symbolizer or addr2line, whichever
is there.
"""
from __future__ import annotations

import bisect
import pathlib
import shutil
import subprocess
from typing import Any, Iterator

from smemu_tools.user import refused

SYMBOLIZERS = [*(f"llvm-symbolizer-{n}" for n in range(30, 13, -1)), "llvm-symbolizer"]
ADDR2LINES = ["aarch64-linux-gnu-addr2line", "addr2line"]


class Places:
    """The functions and lines of a program. A file is named without its folder, but where
    `is_whole` says otherwise."""

    def __init__(self, program: str, is_whole: bool = False) -> None:
        self.program, self.is_whole = str(program), is_whole
        self.functions = refused.functions_of(pathlib.Path(program).read_bytes())
        self.lines = {}

    def function(self, address: int) -> str:
        """The function or label at or before an address, or an empty text."""
        before = bisect.bisect(self.functions, (address, chr(0x10FFFF)))
        return self.functions[before - 1][1] if before else ""

    def learn(self, addresses: dict[int, str] | Iterator[Any] | list[int]) -> None:
        """Asks for the lines of addresses, all at once."""
        new = sorted(set(addresses) - set(self.lines))
        self.lines.update((it, "") for it in new)
        tool = self.symbolizer()
        if not new or not tool:
            return
        given = "".join(f"{it:#x}\n" for it in new)
        said = subprocess.run([*tool, "-e", self.program], input=given, stdout=subprocess.PIPE,
                              stderr=subprocess.DEVNULL, text=True).stdout
        for address, line in zip(new, said.split("\n")):
            # a line that is not known is ??:0 or ??:?, and GNU's may have words after it
            line = ":".join(line.split(" (")[0].split(":")[:2])
            if not line.startswith("??") and not line.endswith((":0", ":?")):
                self.lines[address] = line

    def symbolizer(self) -> list[str]:
        for tool in SYMBOLIZERS:
            if shutil.which(tool):
                return [tool, *["--basenames"] * (not self.is_whole), "--no-inlines",
                        "--functions=none", "--output-style=GNU"]
        return next(([tool, *["-s"] * (not self.is_whole)] for tool in ADDR2LINES
                     if shutil.which(tool)), None)

    def text(self, address: int) -> str:
        """An address with its function and its line, as far as they are known."""
        self.learn([address])
        return " ".join(it
                        for it in (f"{address:016x}", self.function(address), self.lines[address])
                        if it)

"""A configuration of lit: each test is compiled, linked and run by the emulator, as its lines RUN say.

%smemu runs a program as a program, %asm assembles a source, and %build makes a program of a source of C, as `%build %s -o %t.elf`.
SMEMU_COMMAND is the command, where it is not the one of this repository; what is made stands in the folder lit.out.
"""
import os

import lit.formats

here = os.path.dirname(os.path.abspath(__file__))
top = os.path.abspath(os.path.join(here, "..", "..", ".."))
config.name = "check"
config.test_format = lit.formats.ShTest()
config.suffixes = [".c", ".s"]
config.test_source_root = here
config.test_exec_root = os.path.join(os.getcwd(), "lit.out")
command = os.environ.get("SMEMU_COMMAND", os.path.join(top, "smemu"))
flags = "--target=aarch64-linux-gnu -O2 -ffreestanding -fno-pic -march=armv8.1-a -mgeneral-regs-only -nostdlib -static -fuse-ld=lld -Wl,-z,max-page-size=4096"
config.substitutions += [
    ("%smemu", f"{command} exec"),
    ("%build", f"clang-19 {flags} {os.path.join(top, 'examples/c/start.s')}"),
    ("%asm", f"{command} asm"),
]

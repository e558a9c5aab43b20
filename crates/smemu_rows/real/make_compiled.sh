#!/usr/bin/env bash
# Makes compiled/*.elf, the program of examples/c by two compilers, and compiled/*.out, what QEMU says that it writes (Debian: clang-19, lld-19,
# gcc-aarch64-linux-gnu, and a qemu-user of version 10: 7.2 computes products of bytes in ZA wrongly).
#
#     crates/smemu_rows/real/make_compiled.sh [QEMU]
set -eu
cd "$(dirname "${BASH_SOURCE[0]}")"
qemu=${1:-qemu-aarch64}
../../../examples/c/build.sh clang-19 ld.lld-19 compiled/clang.elf
../../../examples/c/build.sh aarch64-linux-gnu-gcc aarch64-linux-gnu-ld compiled/gcc.elf
for program in compiled/*.elf; do
    for bytes in 16 32 64 128 256; do
        "$qemu" -cpu "max,sve-default-vector-length=$bytes,sme-default-vector-length=$bytes" "$program" > "$program.$bytes" || [ $? = 42 ]
    done
    for bytes in 32 64 128 256; do
        cmp "$program.16" "$program.$bytes"
        rm "$program.$bytes"
    done
    mv "$program.16" "${program%.elf}.out"
    chmod 644 "$program"
done

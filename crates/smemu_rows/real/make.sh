#!/usr/bin/env bash
# Makes the program files real-*.elf of ../data, and linked/*.elf, by two assemblers and two linkers (Debian: binutils-aarch64-linux-gnu, binutils, lld,
# llvm).
#
#     crates/smemu_rows/real/make.sh
set -eu
cd "$(dirname "${BASH_SOURCE[0]}")"
work=$(mktemp -d)
data=$PWD/../data
sources=$PWD
examples=$PWD/../../../examples
trap 'rm -r "$work"' EXIT
for source in sum tls plain shared; do
    aarch64-linux-gnu-as -o "$work/$source.o" "$source.s"
done
as --64 -o "$work/x86.o" x86.s
cd "$work"
# static, with notes, a full section table and mapping symbols for the data in the text
ld.lld -static --build-id=sha1 -o "$data/real-lld.elf" sum.o
aarch64-linux-gnu-ld -static --build-id=sha1 -z max-page-size=4096 -o "$data/real-gnu.elf" sum.o
# one for each reason to refuse; without its mapping symbols the data in the text counts as code
ld.lld -static --strip-all -o "$data/real-stripped.elf" sum.o
ld.lld -pie -o "$data/real-pie.elf" plain.o
aarch64-linux-gnu-ld -shared -o libshared.so shared.o
aarch64-linux-gnu-ld -no-pie -z max-page-size=4096 --dynamic-linker /lib/ld.so --no-as-needed -o "$data/real-interpreter.elf" plain.o libshared.so
aarch64-linux-gnu-ld -static -z max-page-size=4096 -o "$data/real-tls.elf" tls.o
ld -static -o "$data/real-x86-64.elf" x86.o
cp plain.o "$data/real-object.elf"
# the examples, a source with data in the text and those with ZA, at the addresses that the assembler of this project gives them
for path in "$examples"/*.s "$sources"/{marked,za-*}.s; do
    name=$(basename "$path" .s)
    case $name in
    saturate | strlen) llvm-mc -triple=aarch64 -mattr=+sve2 -filetype=obj -o "$name.o" "$path" ;;
    matmul | nested | outer | signals | threads | transpose | za-*)
        # the tiles that are zeroed are names there, and a mask here
        sed -E 's/^( *)zero #([0-9]+)/\1.inst 0xc0080000 + \2/' "$path" |
            aarch64-linux-gnu-as -march=armv9-a+sme+sme-i64 -o "$name.o" -
        ;;
    *) aarch64-linux-gnu-as -o "$name.o" "$path" ;;
    esac
    size=$(aarch64-linux-gnu-size -A "$name.o" | awk '$1 == ".text" { print $2 }')
    aarch64-linux-gnu-ld -static -z noseparate-code -z max-page-size=4096 -Ttext=0x400000 "-Tdata=$(printf '0x%x' $(((0x400000 + size + 4095) / 4096 * 4096)))" \
        -o "$sources/linked/$name.elf" "$name.o"
done

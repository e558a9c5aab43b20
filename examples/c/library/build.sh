#!/bin/sh
# Makes a program of files of C and the library beside it:
#
#     examples/c/library/build.sh clang-19 ld.lld-19 PROGRAM FILE.c ..
#     examples/c/library/build.sh aarch64-linux-gnu-gcc aarch64-linux-gnu-ld PROGRAM FILE.c ..
#
# A file that includes arm_sme.h is compiled with the options for streaming code, and the saves of d8 to d15 are taken out of what is
# made of it; one that includes arm_sve.h with those for intrinsics, and each other one with those for scalar code. Words that
# begin with - go to the compiler, as -g, and -DHEAP=N, the bytes of malloc; -DSTACK=N goes to start.s.
set -eu
compiler=$1 called=$1 linker=$2 program=$3
shift 3
from=$(dirname "$0")
options= files= stack=
for word; do
    case $word in
    -DSTACK=*) stack="-Wa,--defsym,${word#-D}" ;;
    -*) options="$options $word" ;;
    *) files="$files $word" ;;
    esac
done
work=$(mktemp -d)
trap 'rm -r "$work"' EXIT
case $compiler in
*clang*)
    compiler="$compiler --target=aarch64-linux-gnu" vectors=-mno-implicit-float own=
    ;;
*)
    vectors=-fno-tree-vectorize own=-fno-tree-loop-distribute-patterns
    ;;
esac
options="-O2 -ffreestanding -fno-pic -Wall -Wextra -I$from $options"
number=0
# make FILE OPTION ..: compiles a file, with the options for what it includes
make() {
    file=$1
    shift
    number=$((number + 1))
    kind="-march=armv8.1-a -mgeneral-regs-only"
    if grep -qE '^#include ["<]arm_sme\.h' "$file"; then
        $compiler $options -march=armv8.1-a+sve2+sme+sme-i16i64 $vectors "$@" -S "$file" -o "$work/$number.made"
        "$from/../mode_saves.py" < "$work/$number.made" > "$work/$number.s"
        $compiler -march=armv8.1-a+sve2+sme+sme-i16i64 -c "$work/$number.s" -o "$work/$number.o"
        return
    fi
    if grep -qE '^#include ["<](arm_sve|vectors)\.h' "$file"; then kind="-march=armv8.1-a+sve2 $vectors"; fi
    $compiler $options $kind "$@" -c "$file" -o "$work/$number.o"
}
for file in $files; do make "$file"; done
for name in memory strings print heap sort shared; do make "$from/$name.c" -O2 -fno-builtin $own; done
$compiler $stack -c "$from/../start.s" -o "$work/start.o"
objects=$(echo "$work"/*.o)
"$linker" -static --gc-sections -z max-page-size=4096 -o "$program" $objects $("$from/../routines.sh" "$called" "$work")

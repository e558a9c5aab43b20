#!/bin/sh
# Makes the program: with clang, 18 or later, and lld, or with GCC, 14 or later, and GNU ld, all its parts; with GCC 12 or 13 those
# without streaming code.
#
#     examples/c/build.sh clang-19 ld.lld-19 PROGRAM
#     examples/c/build.sh aarch64-linux-gnu-gcc aarch64-linux-gnu-ld PROGRAM
#
# Words after these, as -g, go to the compiler.
set -eu
compiler=$1 called=$1 linker=$2 program=$3
shift 3
from=$(dirname "$0")
work=$(mktemp -d)
trap 'rm -r "$work"' EXIT
options="-O2 -ffreestanding -fno-pic -Wall -Wextra $*"
case $compiler in
*clang*)
    compiler="$compiler --target=aarch64-linux-gnu"
    scalar="-DMATRIX" vectors="-mno-implicit-float"
    ;;
*)
    scalar="" vectors="-fno-tree-vectorize"
    [ "$($compiler -dumpversion | cut -d. -f1)" -lt 14 ] || scalar="-DMATRIX"
    ;;
esac
if [ -n "$scalar" ]; then
    $compiler $options -march=armv8.1-a+sme+sme-i16i64 $vectors -c "$from/matrix.c" -o "$work/matrix.o"
fi
$compiler $options -march=armv8.1-a -mgeneral-regs-only $scalar -c "$from/main.c" -o "$work/main.o"
$compiler $options -march=armv8.1-a+sve2 $vectors -c "$from/vectors.c" -o "$work/vectors.o"
$compiler -c "$from/start.s" -o "$work/start.o"
objects=$(echo "$work"/*.o)
[ -z "$scalar" ] || objects="$objects $("$from/routines.sh" "$called" "$work")"
"$linker" -static --gc-sections -z max-page-size=4096 -o "$program" $objects

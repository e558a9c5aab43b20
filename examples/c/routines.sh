#!/bin/sh
# Makes in FOLDER the objects that streaming code is linked with, and writes their names:
#
#     examples/c/routines.sh COMPILER FOLDER
#
# ROUTINES names LLVM's library, libclang_rt.builtins-aarch64.a; where it is not set, it is where Clang looks for it. Where that is no file,
# za.s has the routines. Those of sc.s are always ours.
set -eu
compiler=$1 folder=$2
from=$(dirname "$0")
case $compiler in
*clang*)
    compiler="$compiler --target=aarch64-linux-gnu"
    routines=${ROUTINES-$($compiler --rtlib=compiler-rt -print-libgcc-file-name)}
    ;;
*) routines=${ROUTINES-} ;;
esac
$compiler -c "$from/sc.s" -o "$folder/sc.o"
if [ -f "$routines" ]; then
    $compiler -ffreestanding -fno-pic -march=armv8.1-a -mgeneral-regs-only -O2 -c "$from/llvm.c" -o "$folder/llvm.o"
    echo "$folder/sc.o $folder/llvm.o $routines"
else
    $compiler -c "$from/za.s" -o "$folder/za.o"
    echo "$folder/za.o $folder/sc.o"
fi

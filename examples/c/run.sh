#!/bin/sh
# Builds libgantry.a and, as C and as C++, the programs here over it; compares what each prints with NAME.txt. CC and CXX pick the
# compilers.
set -eu
here=$(cd "$(dirname "$0")" && pwd)
root=$here/../..
out=$root/target/c

cd "$root"
mkdir -p "$out"
(cd crates/gantry && rt lib --cpu=x86-64) >"$out/lib.log" 2>&1 || { tail -n 20 "$out/lib.log"; exit 1; }

# build NAME STANDARD COMPILER..
build() {
    program=$out/$1-$2
    source=$here/$1.c
    std=$2
    shift 2
    "$@" "-std=$std" -Wall -Wextra -pedantic -Werror -O2 -I include -c "$source" -o "$program.o"
    "$1" "$program.o" crates/gantry/out/libgantry.a -o "$program"
}

# prints NAME STANDARD WORDS..: what NAME.txt has
prints() {
    name=$1
    std=$2
    shift 2
    "$out/$name-$std" "$@" >"$out/$name-$std.txt"
    diff "$here/$name.txt" "$out/$name-$std.txt" || { echo "run.sh: $name as $std printed something else than $name.txt"; exit 1; }
}

# both STANDARD COMPILER..
both() {
    build bore "$@"
    build look "$@"
    build numbers "$@"
    build drive "$@"
    build merge "$@"
    prints bore "$1"
    prints look "$1"
    prints numbers "$1"
    prints drive "$1"
    prints merge "$1" examples/listing/noted.nodes examples/listing/taken.nodes "$out/merged.nodes"
}

both c99 "${CC:-cc}"
both c11 "${CC:-cc}"
both c++11 "${CXX:-c++}" -x c++
both c++17 "${CXX:-c++}" -x c++
echo "run.sh: bore, look, numbers, drive and merge as C99, C11, C++11 and C++17 printed what their .txt files have"

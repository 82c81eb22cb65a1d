#!/usr/bin/env bash
# rounding.sh: the rounding of a position's correction alone, as it is and in the wrong builds of .ci/divisions: instructions and
# nanoseconds a position, three axes, as a Markdown table. Before: rt lib --cpu=x86-64 in crates/gantry.
set -euo pipefail
cd "$(dirname "$0")/../.."
scratch=$(mktemp -d)
trap 'rm -rf "$scratch"' EXIT

# linked NAME [WRONG]: the build as the function NAME, beside the others in one program
linked() {
    bash .ci/divisions/alone.sh "$scratch/$1.a" "${@:2}"
    objcopy --redefine-sym "gantry_correction=$1" "$scratch/$1.a"
}
linked as_it_is
linked remainder_read remainder
linked two_divisions two_divisions
cc -O2 -Wall -Wextra -o "$scratch/rounding" rust/bench/rounding.c "$scratch"/*.a

# total NUMBERS BUILD PASSES: instructions of the whole run
total() {
    valgrind --tool=callgrind --callgrind-out-file=/dev/null "$scratch/rounding" "$@" 2> "$scratch/log"
    sed -n 's/.*Collected : \([0-9]*\).*/\1/p' "$scratch/log"
}

echo "| numbers | a position | as it is | remainder read | two divisions |"
echo "|---|---|---|---|---|"
for bits in 52 20; do
    row="| volumes up to 2^$bits | instructions |"
    for build in 0 1 2; do
        row+=" $((($(total $bits $build 10) - $(total $bits $build 0)) / 10240)) |"
    done
    echo "$row"
done
"$scratch/rounding"

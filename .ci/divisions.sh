#!/usr/bin/env bash
# Holds 'one division on each axis and no remainder operation' (§5) on the machine code of libgantry.a, along every jump and call from
# gantry_correction: three divisions at most on a path, no remainder that one leaves is read, and nothing else in the archive divides.
# Counted by paths: beside each division of 64 bits the back end puts one of 32, for numbers that fit, and takes one of the two.
# Then the same of the rounding alone in an archive, as it is, and of wrong builds of it, .ci/divisions/NAME.patch. Their numbers are
# right, and they are proved: this must refuse them. Before: rt lib --cpu=x86-64 in crates/gantry.
set -uo pipefail
cd "$(dirname "$0")/.." || exit 1
scratch=$(mktemp -d)
trap 'rm -rf "$scratch"' EXIT

count() {
    objdump -dr --no-show-raw-insn "$1" | awk -v check=divisions -f .ci/code.awk -f .ci/divisions.awk
}

# refused NAME WHY: the wrong build NAME is refused, and a line says WHY
refused() {
    bash .ci/divisions/alone.sh "$scratch/wrong.a" "$1" || return 1
    if count "$scratch/wrong.a" > "$scratch/said"; then
        echo "divisions: the wrong build $1 is not refused"
        return 1
    fi
    grep -m 1 "$2" "$scratch/said" > "$scratch/why" || { cat "$scratch/said"; return 1; }
    echo "divisions: the wrong build $1 is refused: $(sed 's/^divisions: //' "$scratch/why")"
}

count crates/gantry/out/libgantry.a || exit 1
bash .ci/divisions/alone.sh "$scratch/right.a" || exit 1
count "$scratch/right.a" > "$scratch/said" || { cat "$scratch/said"; exit 1; }
echo "divisions: the rounding alone: $(tail -n 1 "$scratch/said" | sed 's/^divisions: //')"
refused remainder 'its remainder may be read$' && refused two_divisions 'takes at most 6 of them'

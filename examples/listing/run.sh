#!/usr/bin/env bash
# Runs three programs on each node file here, the proved listing, the command gantry over the archive and the plain build's, and
# compares what each prints with NAME.txt, or, where a listing runs to thousands of lines, with its checksum in NAME.sum. Before: rt
# ci, or rt run in crates/listing; rt lib --cpu=x86-64 in crates/gantry. The status is 0 only where nothing differs.
set -uo pipefail
cd "$(dirname "$0")" || exit 1
. ../../.ci/environment || exit 1
cargo build --offline --quiet --release --manifest-path ../../rust/Cargo.toml -p plain -p gantry-cli || exit 1
built=../../rust/target/release
work=$(mktemp -d)
trap 'rm -r "$work"' EXIT
differ=0
compared=0

proved() { ../../crates/listing/out/listing; }
plain() { "$built/plain_listing"; }

# The command ends with status 1 and a message just where a listing is one of a refusal or a stop.
gantry_list() {
    local status=0 told=0 stopped=0
    "$built/gantry" list - > "$work/listed" 2> "$work/said" || status=$?
    cat "$work/listed"
    [ ! -s "$work/said" ] || told=1
    ! grep -qE '^(refused|stopped) ' "$work/listed" || stopped=1
    [ "$status" -eq "$stopped" ] && [ "$told" -eq "$stopped" ]
}

# same EXPECTED: whether that was printed; else shows where not
same() {
    case $1 in
        *.sum) sha256sum < "$work/printed" | diff "$1" - ;;
        *) diff "$1" "$work/printed" | head -n 5 ;;
    esac
}

# compare INPUT EXPECTED: EXPECTED is a .txt or a .sum
compare() {
    local program
    for program in proved plain gantry_list; do
        compared=$((compared + 1))
        "$program" < "$1" > "$work/printed" && same "$2" && continue
        echo "listing of $1: $program failed, or printed something else than $2"
        differ=$((differ + 1))
    done
}

for input in *.nodes; do
    expected=${input%.nodes}.txt
    [ -e "$expected" ] || expected=${input%.nodes}.sum
    compare "$input" "$expected"
done

# a note that fills the input to 65,536 bytes, and one byte more
size=$(wc -c < lattice.nodes)
head -c $((65536 - size)) /dev/zero | tr '\0' n > "$work/note"
cat "$work/note" lattice.nodes > "$work/65536"
(printf n; cat "$work/65536") > "$work/65537"
compare "$work/65536" lattice.txt
echo 'refused 9' > "$work/refused"
compare "$work/65537" "$work/refused"
compare /dev/null "$work/refused"

echo "listing: $compared compared, $differ differ"
[ "$compared" -ge 60 ] && [ "$differ" -eq 0 ]

#!/usr/bin/env bash
# The checks of rust/ over the archive, a line a step; what a failed step printed comes before its line. Status 0 only where all
# are ok. Before: rt lib --cpu=x86-64 in crates/gantry. Archive, header and target directory are the repository's own, whatever the
# environment says.
set -uo pipefail
cd "$(dirname "$0")" || exit 1
. ../.ci/environment || exit 1
include=../include
archive=../crates/gantry/out/libgantry.a
compare=target/release/compare
replay=target/release/replay
strict=(-Wall -Wextra -pedantic -Werror -fsyntax-only)
log=$(mktemp)
trap 'rm -f "$log"' EXIT
failed=0

# step NAME COMMAND..
step() {
    local start=$SECONDS
    if "${@:2}" > "$log" 2>&1; then
        echo "rust: $1: ok, $((SECONDS - start)) s"
    else
        cat "$log"
        echo "rust: $1: failed"
        failed=1
    fi
}

header() {
    local standard
    for standard in c99 c11; do
        cc -std=$standard "${strict[@]}" -x c $include/gantry.h || return 1
    done
    for standard in c++11 c++17; do
        c++ -std=$standard "${strict[@]}" -x c++ $include/gantry.h || return 1
    done
}

layouts() {
    cc -std=c11 "${strict[@]}" -I $include gantry/tests/layout.c &&
        c++ -std=c++17 "${strict[@]}" -I $include -x c++ gantry/tests/layout.c
}

# has COMMAND: a check whose tool is missing must not pass
has() {
    cargo "$1" --version && return
    echo "cargo $1 is not installed, and the check needs it"
    return 1
}

format() {
    has fmt && cargo fmt --check
}

lints() {
    has clippy && cargo clippy --offline --quiet --release --workspace --all-targets -- -D warnings
}

# The archive and a wrong build: the comparison must end with status 1 and name a difference.
finds() {
    "$compare" --left "$1" --right archive
    [ $? -eq 1 ] && grep -q '^difference: ' "$log"
}

# A history prints what is expected on the plain build and on the archive, and something else on the wrong build of its name.
separates() {
    local history=../examples/histories/$1 wrong
    "$replay" --build plain "$history.calls" | diff "$history.txt" - || return 1
    "$replay" --build archive "$history.calls" | diff "$history.txt" - || return 1
    wrong=$("$replay" --build "$1" "$history.calls") || return 1
    [ "$wrong" != "$(cat "$history.txt")" ]
}

if [ ! -f $archive ]; then
    echo "rust: no $archive: build it with 'rt lib --cpu=x86-64' in crates/gantry"
    exit 1
fi

step "gantry.h as C99, C11, C++11 and C++17" header
step "layouts of gantry.h, as C11 and C++17" layouts
step "format" format
step "build without the archive" env GANTRY_ARCHIVE_DIR=/nowhere cargo check --offline --quiet --release --all-targets
step "lints" lints
step "build" cargo build --offline --quiet --release --workspace
step "tests" cargo test --offline --quiet --release --workspace
for seed in 1 2 3 4; do
    step "plain and archive, 100,000 calls from seed $seed, every refusal" \
        "$compare" --left plain --right archive --seed "$seed" --calls 100000 --all-refusals
done
# How often each call gave each answer, from the last seed.
[ "$failed" -ne 0 ] || sed 1d "$log"
for history in ../examples/histories/*.calls; do
    wrong=$(basename "$history" .calls)
    step "history of $wrong" separates "$wrong"
    step "wrong build $wrong is found" finds "$wrong"
done
exit "$failed"

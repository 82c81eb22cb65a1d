#!/usr/bin/env bash
# count.sh [--plain] [WORK..]: instructions a unit of the archive and of tuned (and plain) on the works of bench, as a Markdown
# table. Counts by valgrind's callgrind, else by perf; they do not depend on what else the machine does. A count is that of
# some passes less that of none, so that setup drops out. Status 1 where a bar is missed.
set -euo pipefail
cd "$(dirname "$0")/.."

# Callgrind counts the C library's one instruction that fills or copies a whole area once a byte: let the library use its loops.
export GLIBC_TUNABLES=${GLIBC_TUNABLES-glibc.cpu.x86_rep_stosb_threshold=1000000000:glibc.cpu.x86_rep_movsb_threshold=1000000000}

builds=(tuned archive)
if [ "${1:-}" = --plain ]; then
    builds=(plain tuned archive)
    shift
fi

cargo build --offline --release --quiet -p bench
bench=${CARGO_TARGET_DIR:-target}/release/bench
scratch=$(mktemp -d)
trap 'rm -rf "$scratch"' EXIT

if command -v valgrind > "$scratch/which"; then
    # total BUILD WORK PASSES: instructions of the whole run
    total() {
        valgrind --tool=callgrind --callgrind-out-file=/dev/null "$bench" run "$@" 2> "$scratch/log" ||
            { cat "$scratch/log" >&2; exit 1; }
        sed -n 's/.*Collected : \([0-9]*\).*/\1/p' "$scratch/log"
    }
elif perf stat -x, -e instructions:u true 2> "$scratch/log" && grep -q '^[0-9]' "$scratch/log"; then
    total() {
        perf stat -x, -e instructions:u "$bench" run "$@" 2> "$scratch/log" || { cat "$scratch/log" >&2; exit 1; }
        sed -n 's/^\([0-9]*\),.*/\1/p' "$scratch/log"
    }
else
    echo "count.sh: neither valgrind nor a perf that counts instructions" >&2
    exit 1
fi

echo "Instructions a unit."
echo
echo "| work | unit |$(printf ' %s |' "${builds[@]}") archive / tuned | bar |"
echo "|---|---|$(printf -- '---|%.0s' "${builds[@]}")---|---|"
missed=0
while read -r work unit units passes bar title; do
    if [ $# -gt 0 ] && [[ " $* " != *" $work "* ]]; then
        continue
    fi
    declare -A count=()
    row="| $title | $unit |"
    for build in "${builds[@]}"; do
        none=$(total "$build" "$work" 0)
        some=$(total "$build" "$work" "$passes")
        count[$build]=$(((some - none) / (passes * units)))
        row+=" ${count[$build]} |"
    done
    ratio=$(awk -v a="${count[archive]}" -v t="${count[tuned]}" 'BEGIN { printf "%.2f", a / t }')
    verdict=-
    if [ "$bar" != - ]; then
        verdict=met
        if awk -v r="$ratio" -v b="$bar" 'BEGIN { exit !(r > b) }'; then
            verdict=missed
            missed=1
        fi
    fi
    echo "$row $ratio | $verdict |"
done < <("$bench" works)
exit "$missed"

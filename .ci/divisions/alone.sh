#!/usr/bin/env bash
# alone.sh ARCHIVE [NAME]: the archive of the rounding alone, of its wrong build NAME where one is named: from a copy of the crates, in
# which corrections_round is a static library. rt takes the crates beneath it as they were built here for gantry, or proves them again.
set -euo pipefail
archive=$(realpath "$1")
cd "$(dirname "$0")/../.."
patches=$PWD/.ci/divisions
scratch=$(mktemp -d)
trap 'rm -rf "$scratch"' EXIT
tar -c --exclude='crates/*/out' crates | tar -x -C "$scratch"
sed 's/^corrections_round:/corrections_round staticlib:/' crates.txt > "$scratch/crates.txt"
cd "$scratch"
export GIT_CEILING_DIRECTORIES=${scratch%/*} # the patches are for this copy, also where it lies inside a repository
for name in alone "${@:2}"; do
    git apply "$patches/$name.patch"
done
cd crates/corrections_round
rt lib --cpu=x86-64 > "$scratch/said" 2>&1 || { cat "$scratch/said"; exit 1; }
cp out/libcorrections_round.a "$archive"

#!/usr/bin/env bash
# Runs the documents' console sessions as a reader would, at the top of a clone, and compares what is printed with what they show.
#
# In a block ```console, '$ ' begins a command and '> ' carries it on; the other lines are its output, standard error too; one line
# '...' may stand for any lines. A command ends with status 0, unless the next one is 'echo $?'. A block ```LANGUAGE FILE is written
# to FILE. Before: rt ci.
set -u
cd "$(dirname "$0")/.." || exit 1
. .ci/environment || exit 1
top=$PWD
work=$(mktemp -d)
trap 'rm -rf "$work"' EXIT
# A place of its own for what a reader installs; README does that, and comes first.
export CARGO_INSTALL_ROOT=$work/installed
export PATH=$CARGO_INSTALL_ROOT/bin:$PATH
documents=(README.md docs/transcripts/*.md docs/MANUAL.md)
# What the sessions use of a clone. Files that a reader has made beside these are not linked, so none is written to.
entries=(crates crates.txt docs examples include rust)

# as_shown: whether $work/printed is as $work/shown says
as_shown() {
    local first last
    if ! grep -qx '\.\.\.' "$work/shown"; then
        diff "$work/shown" "$work/printed"
        return
    fi
    sed '/^\.\.\.$/,$d' "$work/shown" > "$work/first"
    sed '1,/^\.\.\.$/d' "$work/shown" > "$work/last"
    first=$(wc -l < "$work/first")
    last=$(wc -l < "$work/last")
    head -n "$first" "$work/printed" | diff "$work/first" - &&
        tail -n "$last" "$work/printed" | diff "$work/last" - &&
        [ "$(wc -l < "$work/printed")" -ge $((first + last)) ]
}

# wrong WHY: a difference
wrong() {
    echo "transcript: $document: $1"
    differences=$((differences + 1))
}

# Runs the command that was read, if any, in this shell, so that 'cd' and '$?' are a reader's.
step() {
    if [ -z "$command" ]; then
        [ ! -s "$work/shown" ] || wrong "output before a command"
        return
    fi
    [ "$status" -eq 0 ] || [ "$command" = 'echo $?' ] || wrong "status $status is not shown before: $command"
    commands=$((commands + 1))
    eval "(exit $status)
$command" > "$work/printed" 2>&1 < /dev/null
    status=$?
    as_shown > "$work/difference" && return
    wrong "$command"
    cat "$work/difference"
}

end_block() {
    step
    [ "$status" -eq 0 ] || wrong "status $status at the end of a block: $command"
    status=0
    command=''
    blocks=$((blocks + 1))
}

# session DOCUMENT: in a directory that has what the top of a clone has
session() {
    local document=$1 line block='' file='' command='' status=0 commands=0 blocks=0 differences=0
    mkdir "$work/clone" && cd "$work/clone" || return 1
    ln -s "${entries[@]/#/$top/}" . || return 1
    while IFS= read -r line || [ -n "$line" ]; do
        case $block:$line in
            'console:```') end_block; block='' ;;
            *:'```') block='' ;;
            :'```console') block=console; : > "$work/shown" ;;
            :'```'*' '*) block=file; file=${line#* }; mkdir -p "$(dirname "$file")"; : > "$file" ;;
            :'```'*) block=other ;;
            file:*) printf '%s\n' "$line" >> "$file" ;;
            console:'$ '*) step; command=${line#'$ '}; : > "$work/shown" ;;
            console:'> '*) command+=$'\n'${line#'> '} ;;
            console:*) printf '%s\n' "$line" >> "$work/shown" ;;
        esac
    done < "$top/$document"
    [ -z "$block" ] || wrong "a block does not end"
    # However it is written, a block that was passed over shows here.
    [ "$blocks" -eq "$(grep -cE '^[[:space:]>]*(`{3,}|~{3,})[[:space:]]*console' "$top/$document")" ] || wrong "a block was not run"
    echo "transcript: $document: $commands commands, $differences differ"
    [ "$commands" -gt 0 ] && [ "$differences" -eq 0 ] && touch "$work/passed"
}

failed=0
for document in "${documents[@]}"; do
    rm -rf "$work/clone" "$work/passed"
    ( session "$document" )
    # Not the subshell's status: a command that leaves it must not pass.
    [ -e "$work/passed" ] || { echo "transcript: $document: failed"; failed=1; }
done
exit "$failed"

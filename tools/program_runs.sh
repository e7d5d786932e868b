#!/bin/sh
# Runs the program on the stored cases of tools/program_runs/, and compares what comes.
#
#     tools/program_runs.sh [PROGRAM]
#
# PROGRAM is ./clubcard, if left out; a path of one's own begins with `/`. A case is a folder with the files `args` (one
# word a line), `stdout`, and `status` where the exit status isn't 0. The cases run in the order of their names, in one
# new folder that holds the files of tools/program_runs/data/ at first, so that a device which one case makes is there
# for the next. It prints a line for each case that differs, and how many were run. The status is 0 where none differs,
# else 1, and 2 for other words.
set -u
top=$(CDPATH='' cd -- "$(dirname -- "$0")/.." && pwd) || exit 1
case $# in
0) program="$top/clubcard" ;;
1) program=$1 ;;
*)
    echo "usage: $0 [PROGRAM]" >&2
    exit 2
    ;;
esac
cases="$top/tools/program_runs"
work=$(mktemp -d) || exit 1
trap 'rm -rf "$work"' EXIT
trap 'exit 1' HUP INT TERM
mkdir "$work/at" && cp "$cases"/data/* "$work/at" && cd "$work/at" || exit 1
run=0
differing=0

differ() {
    echo "program_runs: $(basename "$1"): $2"
    bad=1
}

for case in "$cases"/[0-9]*; do
    set --
    while IFS= read -r word; do
        set -- "$@" "$word"
    done <"$case/args"
    wanted=0
    [ ! -f "$case/status" ] || wanted=$(cat "$case/status")
    "$program" "$@" >"$work/stdout" 2>/dev/null </dev/null
    status=$?
    run=$((run + 1))
    bad=0
    [ "$status" -eq "$wanted" ] || differ "$case" "status $status and not $wanted"
    cmp -s "$work/stdout" "$case/stdout" || differ "$case" "it prints: $(cat "$work/stdout")"
    differing=$((differing + bad))
done
echo "program_runs: $run run, $differing differing"
[ "$run" -gt 0 ] && [ "$differing" -eq 0 ]

#!/bin/sh
# Prints the path of the program that ./clubcard runs, the first of these that there is: the one in
# crates/clubcard/out/, where it is newer than its sources; the released one, where it is of this tree (tools/release.sh
# --check, or the stamp of an earlier look: tools/stamp.sh) and runs on this machine (Linux on x86-64); the one that the
# toolchain builds, which proves it first.
#
#     tools/program.sh
#     tools/program.sh --built     passes over the released one
#
# The status is 0, or 1 where there is none; a line on standard error then says why. With other words it is 2.

top=$(CDPATH='' cd -- "$(dirname -- "$0")/.." && pwd) || exit 1
program="$top/crates/clubcard/out/clubcard"
released="$top/release/clubcard-x86_64-linux"
log="$top/crates/clubcard/out/build.log"
. "$top/tools/stamp.sh"

# Whether a source, a definition, a proof or the list of crates is newer than the program.
is_stale() {
    [ ! -x "$program" ] && return 0
    [ -n "$(find "$top/crates.txt" "$top"/crates/*/src "$top"/crates/*/specs "$top"/crates/*/proofs \
        -newer "$program" -print -quit 2>/dev/null)" ]
}

# Whether the released program is of this machine and of this tree. Else `why` begins the line that says why not.
# Without words the program ends with status 2; where the machine has another C library it doesn't begin. What was
# found is stamped (tools/stamp.sh) as it was before it was looked at.
is_released() {
    is_stamped && return
    why="release/ is for Linux on x86-64; "
    [ "$(uname -sm)" = "Linux x86_64" ] || return 1
    found=$(state 2>/dev/null)
    why="$(sh "$top/tools/release.sh" --check); " || return 1
    why="the released program doesn't run on this machine; "
    "$released" >/dev/null 2>&1
    [ $? -eq 2 ] || return 1
    # Without a list of files (find is the one of GNU) there is no stamp, nor where it can't be written.
    [ "$(echo "$found" | wc -l)" -gt 1 ] || return 0
    { mkdir -p "${stamp%/*}" && echo "$found" >"$stamp.$$" && mv -f "$stamp.$$" "$stamp"; } 2>/dev/null
    return 0
}

# Shows the build's last line every five seconds, until this script ends. It lets go of the standard output, which a
# caller that wants the path reads up to its end.
show_progress() {
    exec >&2
    while sleep 5 && kill -0 "$$" 2>/dev/null; do
        tail -n 1 "$log" 2>/dev/null | cut -c 1-100 | sed 's/^/clubcard: /'
    done
}

build() {
    command -v rt >/dev/null 2>&1 || {
        echo "clubcard: ${why}the toolchain's command rt, which builds the program, isn't on the path" >&2
        return 1
    }
    echo "clubcard: ${why}proving and building the program; this took 26 minutes on four processors of an Intel Xeon" \
        "at 2.50 GHz" >&2
    mkdir -p "$top/crates/clubcard/out" && : >"$log" || return 1
    show_progress &
    showing=$!
    # rt run proves and builds the program, and runs it without words.
    (cd "$top/crates/clubcard" && rt run >"$log" 2>&1 </dev/null)
    kill "$showing" 2>/dev/null
    wait "$showing" 2>/dev/null
    # Where only the times of files had changed, rt leaves the program as it was.
    grep -q '^rt: nothing has changed' "$log" && touch "$program"
    is_stale || return 0
    echo "clubcard: the build failed; see $log" >&2
    return 1
}

case "$#:$*" in
0:) of_release=yes ;;
1:--built) of_release='' ;;
*)
    echo "usage: $0 [--built]" >&2
    exit 2
    ;;
esac
why=
if is_stale; then
    if [ -n "$of_release" ] && is_released; then
        program="$released"
    else
        build || exit 1
    fi
fi
echo "$program"

# Read by ./clubcard and tools/program.sh, which set `top`, the top of the repository. The stamp says that the released
# program was found to be of this tree and to run on this machine, and of what: it holds the names of the machine and
# of its system, and the size and the times of each file by which that was found. Where all is as it was, nothing is
# read again. It stands in a folder that git ignores; where it can't be written, each start looks anew.
#
# shellcheck shell=sh
# shellcheck disable=SC2154 # top

stamp="$top/crates/clubcard/out/released.stamp"

# What a stamp holds at this moment; to be called in a subshell. A file that is put in another's place has another
# number (%i), and each change of a file's bytes, name or mode moves the last of its times (%C@), which no program sets.
# Which sources git tracks stands in its index, which in a further worktree lies elsewhere.
state() {
    cd -- "$top" || exit 1
    IFS= read -r host </proc/sys/kernel/hostname
    IFS= read -r system </proc/sys/kernel/osrelease
    echo "$host $system"
    index=.git/index
    [ -f .git ] && IFS= read -r line <.git && index="${line#gitdir: }/index"
    LC_ALL=C exec find crates.txt crates/*/src bindings/c/clubcard.h release tools/*.sh "$index" \
        -printf '%i %s %T@ %C@\n'
}

# Whether the stamp is of this moment.
is_stamped() {
    [ -f "$stamp" ] && state 2>/dev/null | LC_ALL=C cmp -s - "$stamp"
}

#!/bin/sh
# The released program and library: makes them, and says whether they are of this tree (release/README.md says what
# stands in release/). VERSION has no part in that.
#
#     tools/release.sh             makes release/ of the program in crates/clubcard/out/ (built where it isn't newer
#                                  than its sources) and of the library for C (tools/library.sh)
#     tools/release.sh --check     says in a line whether release/ is of this tree
#     tools/release.sh --verify    builds the program and the library in a new folder, from nothing, and compares them
#                                  with the released ones
#     tools/release.sh --digest    prints the digest of the sources
#
# The status is 0 where release/ was made, is of this tree, or has the bytes that were built; else it is 1, and a line
# says why. With other words it is 2.

top=$(CDPATH='' cd -- "$(dirname -- "$0")/.." && pwd) || exit 1
release="$top/release"
name=clubcard-x86_64-linux
# All that is released.
names="$name libclubcard.a libclubcard.so clubcard.h"

# The crates that the program and the library stand on, themselves among them.
list_crates() {
    awk '
        function visit(each, words, count, i) {
            if (!(each in needs) || seen[each]++) return
            print each
            count = split(needs[each], words, " ")
            for (i = 1; i <= count; i++) visit(words[i])
        }
        { name = $1; sub(/:$/, "", name); sub(/^[^:]*:/, ""); needs[name] = $0 }
        END { visit("clubcard"); visit("clubcard_c") }' crates.txt
}

# Lists their sources, each name ended by a zero byte: those that git tracks, else (in an unpacked archive) all that are
# there. A commit's hook has variables by which git would look elsewhere.
list_sources() {
    # shellcheck disable=SC2046 # a word for each crate
    set -- $(list_crates)
    [ -e .git ] && (
        unset GIT_DIR GIT_WORK_TREE GIT_INDEX_FILE
        for crate do
            git ls-files -z --error-unmatch -- ":(glob)crates/$crate/src/**" 2>/dev/null || exit 1
        done
    ) && return
    for crate do
        find "crates/$crate/src" -type f -print0
    done
}

# The digest of the sources: the SHA-256 of the lines of crates.txt of these crates, and of those that sha256sum prints
# of the sources, both in the order of their bytes.
digest() (
    cd "$top" || exit 1
    {
        list_crates | sed 's/.*/^&[ :]/' | grep -f - crates.txt | LC_ALL=C sort
        list_sources | LC_ALL=C sort -z -u | xargs -0 sha256sum -- 2>/dev/null
    } | sha256sum | cut -d ' ' -f 1
)

# The lines of SHA256SUMS for the released files in a folder.
sums_of() (
    # shellcheck disable=SC2086 # a word for each name
    cd "$1" && sha256sum -- $names 2>/dev/null
)

# Says whether the released files are those that are stated, and made from the sources of this tree.
check() {
    why=
    for each in $names; do
        [ -f "$release/$each" ] || why="it holds no $each"
    done
    if [ -n "$why" ]; then
        :
    elif [ "$(sums_of "$release")" != "$(cat "$release/SHA256SUMS" 2>/dev/null)" ]; then
        why="its files haven't the SHA-256 that stands beside them"
    elif [ "$(digest)" != "$(cat "$release/SOURCES" 2>/dev/null)" ]; then
        why="it was made from other sources"
    elif ! cmp -s "$top/bindings/c/clubcard.h" "$release/clubcard.h"; then
        why="its clubcard.h isn't the one of bindings/c"
    elif [ ! -x "$release/$name" ]; then
        why="its program can't be executed"
    else
        echo "release/ is of this tree"
        return 0
    fi
    echo "release/ isn't of this tree: $why"
    return 1
}

# A folder that is removed at the end.
new_folder() {
    work=$(mktemp -d) || return 1
    trap 'rm -rf "$work"' EXIT
    trap 'exit 1' HUP INT TERM
}

# Makes release/. The program is put in its place last, so that an older one isn't taken for what the other files state.
make() {
    before=$(digest)
    new_folder || return 1
    program=$(sh "$top/tools/program.sh" --built) || return 1
    sh "$top/tools/library.sh" "$work" || return 1
    python3 "$top/tools/licences.py" >"$work/LICENSES" || return 1
    toolchain=$(rt version) || return 1
    if [ "$(digest)" != "$before" ]; then
        echo "release: the sources were changed while the program was built" >&2
        return 1
    fi
    cp "$program" "$work/$name" && chmod 755 "$work/$name" && mkdir -p "$release" &&
        sums_of "$work" >"$release/SHA256SUMS" &&
        echo "$toolchain" >"$release/TOOLCHAIN" &&
        echo "$before" >"$release/SOURCES" &&
        cp "$work/libclubcard.a" "$work/libclubcard.so" "$work/clubcard.h" "$work/LICENSES" "$release" &&
        cp "$work/$name" "$release/$name.draft" && mv "$release/$name.draft" "$release/$name" && check
}

# Builds the tree's program and library in a new folder, where nothing of an earlier build lies, and compares them byte
# for byte.
verify() {
    if [ ! -f "$release/$name" ]; then
        echo "release/ holds no program"
        return 1
    fi
    new_folder || return 1
    (cd "$top" && tar --exclude=out -cf - bindings crates crates.txt HANDLES tools) | tar -xf - -C "$work" || return 1
    started=$(date +%s)
    program=$(sh "$work/tools/program.sh" --built) || {
        tail -n 20 "$work/crates/clubcard/out/build.log" 2>/dev/null | sed "s/^/clubcard: /" >&2
        return 1
    }
    mkdir "$work/built" && sh "$work/tools/library.sh" "$work/built" && cp "$program" "$work/built/$name" || return 1
    echo "built in $((($(date +%s) - started) / 60)) minutes by $(rt version); released: $(cat "$release/TOOLCHAIN")"
    for each in $names; do
        cmp "$work/built/$each" "$release/$each" || {
            echo "release/ hasn't the bytes of this build"
            return 1
        }
    done
    echo "release/ has the bytes of this build"
}

case "$#:$*" in
0:) make ;;
1:--check) check ;;
1:--verify) verify ;;
1:--digest) digest ;;
*)
    echo "usage: $0 [--check | --verify | --digest]" >&2
    exit 2
    ;;
esac

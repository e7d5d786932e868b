#!/bin/sh
# Puts the program, the library for C, the manual page and the completion of bash where they are looked for. PREFIX is a
# folder such as /usr/local or "$HOME/.local", which is made where it isn't there.
#
#     tools/install.sh PREFIX [--publisher]
#
#     PREFIX/bin/clubcard                                   the program that ./clubcard runs (tools/program.sh)
#     PREFIX/lib/libclubcard.a, libclubcard.so.1            the library of release/, where that is of this tree
#     PREFIX/include/clubcard.h                             (tools/release.sh --check), else of tools/library.sh
#     PREFIX/lib/libclubcard.so                             a link to libclubcard.so.1
#     PREFIX/lib/pkgconfig/clubcard.pc                      for pkg-config, with the version of VERSION
#     PREFIX/share/man/man1/clubcard.1
#     PREFIX/share/bash-completion/completions/clubcard
#     PREFIX/share/doc/clubcard/                            the licences
#
# and with --publisher, for Debian's own Python:
#
#     PREFIX/bin/clubcard-publish, clubcard-update,         which /usr/bin/python3 runs
#     PREFIX/bin/clubcardctl
#     PREFIX/lib/python3.*/*-packages/clubcard/             the package, where /usr/bin/python3 looks for one below
#                                                           PREFIX, where it does
#
# Nothing is downloaded. A line on standard error names those of python/debian-packages.txt that are missing.
#
# Where the variable DESTDIR is set, the files are put below that folder, for a package of what will stand in PREFIX.
# Each file is replaced by one of its name, also by a second run. The status is 0, or 1 where one couldn't be written; a
# line on standard error then names it, and the files before it are in place. With other words it is 2.

publisher=
for word; do
    shift
    case $word in
    --publisher) publisher=yes ;;
    *) set -- "$@" "$word" ;;
    esac
done
case $#:${1-} in
1:-* | 1:) set -- ;;
esac
if [ $# -ne 1 ]; then
    echo "usage: [DESTDIR=FOLDER] $0 PREFIX [--publisher]" >&2
    exit 2
fi
case $1 in
/*) prefix=${1%/} ;;
*) prefix="$(pwd)/${1%/}" ;;
esac
destdir=${DESTDIR-}
top=$(CDPATH='' cd -- "$(dirname -- "$0")/.." && pwd) || exit 1
work=$(mktemp -d) || exit 1
trap 'rm -rf "$work"' EXIT
trap 'exit 1' HUP INT TERM

# Puts a file in its place, with this mode.
place() {
    target="${destdir%/}$prefix/$3"
    install -D -T -m "$1" -- "$2" "$target" 2>"$work/errors" || {
        echo "install: $target can't be written: $(sed 's/^.*: //' "$work/errors" | tail -n 1)" >&2
        exit 1
    }
    echo "$target"
}

# What pkg-config says of the library (bindings/c/clubcard.pc.in). A space in a name is written behind a backslash.
describe() {
    named=$(echo "$prefix" | sed 's/ /\\ /g; s/[&|\\]/\\&/g')
    sed "1d; s|@PREFIX@|$named|; s|@VERSION@|$(cat "$top/VERSION")|" "$top/bindings/c/clubcard.pc.in"
}

# Puts a link in its place, to a file beside it.
place_link() {
    target="${destdir%/}$prefix/$2"
    ln -sfn -- "$1" "$target" || {
        echo "install: $target can't be written" >&2
        exit 1
    }
    echo "$target"
}

program=$(sh "$top/tools/program.sh") || exit 1
library="$top/release"
sh "$top/tools/release.sh" --check >/dev/null || {
    library="$work/library"
    sh "$top/tools/library.sh" "$library" || exit 1
}
describe >"$work/clubcard.pc" || exit 1

place 755 "$program" bin/clubcard
place 644 "$library/libclubcard.a" lib/libclubcard.a
place 755 "$library/libclubcard.so" lib/libclubcard.so.1
place_link libclubcard.so.1 lib/libclubcard.so
place 644 "$library/clubcard.h" include/clubcard.h
place 644 "$work/clubcard.pc" lib/pkgconfig/clubcard.pc
place 644 "$top/docs/clubcard.1" share/man/man1/clubcard.1
place 644 "$top/tools/clubcard.bash" share/bash-completion/completions/clubcard
place 644 "$top/LICENSE-APACHE" share/doc/clubcard/LICENSE-APACHE
place 644 "$top/LICENSE-MIT" share/doc/clubcard/LICENSE-MIT
place 644 "$top/release/LICENSES" share/doc/clubcard/LICENSES
[ -n "$publisher" ] || exit 0

# ---- the package for Python

python=/usr/bin/python3

# The folder of packages below PREFIX, from PREFIX on: one of those where the Python looks, if there is one.
packages() {
    "$python" - "$prefix" <<'PYTHON'
import site
import sys

assert sys.version_info >= (3, 11)
version = f"{sys.version_info.major}.{sys.version_info.minor}"
names = [f"lib/python{version}/dist-packages", f"lib/python{version}/site-packages", "lib/python3/dist-packages"]
looked = {*sys.path, *site.getsitepackages(), site.getusersitepackages()}
print(next((name for name in names if f"{sys.argv[1]}/{name}" in looked), names[1]))
PYTHON
}

# A program of the package, by the module that holds its words.
launcher() {
    cat <<PYTHON
#!$python
"""$1, of the package clubcard."""

import sys

sys.path.insert(0, $("$python" -c 'import sys; print(ascii(sys.argv[1]))' "$prefix/$packages"))
from $2 import main  # noqa: E402

main(prog_name="$1")
PYTHON
}

# What pip and importlib.metadata read of the package.
metadata() {
    printf 'Metadata-Version: 2.1\nName: clubcard\nVersion: %s\n' "$(cat "$top/VERSION")"
}

# The packages of python/debian-packages.txt that aren't there, in one line.
missing() {
    while read -r package; do
        dpkg-query -W -f '${Status}' "$package" 2>/dev/null | grep -q ' installed$' || printf ' %s' "$package"
    done <"$top/python/debian-packages.txt"
}

packages=$(packages) || {
    echo "install: $python isn't a Python 3.11 or later, for which the package is: install Debian's python3" >&2
    exit 1
}
# Of another version, what was installed before would stay beside this one.
rm -rf "${destdir%/}$prefix/$packages/clubcard" "${destdir%/}$prefix/$packages"/clubcard-*.dist-info || exit 1
(cd "$top/python" && find clubcard -type f ! -name '*.pyc' | sort) >"$work/files" || exit 1
while read -r file; do
    place 644 "$top/python/$file" "$packages/$file"
done <"$work/files"
metadata >"$work/METADATA" || exit 1
place 644 "$work/METADATA" "$packages/clubcard-$(cat "$top/VERSION").dist-info/METADATA"
launcher clubcard-publish clubcard.publish.cli >"$work/clubcard-publish" || exit 1
launcher clubcard-update clubcard.update.cli >"$work/clubcard-update" || exit 1
launcher clubcardctl clubcard.ctl.start >"$work/clubcardctl" || exit 1
place 755 "$work/clubcard-publish" bin/clubcard-publish
place 755 "$work/clubcard-update" bin/clubcard-update
place 755 "$work/clubcardctl" bin/clubcardctl
if ! command -v dpkg-query >/dev/null; then
    echo "install: this isn't Debian: see that there is what python/debian-packages.txt names" >&2
elif lacks=$(missing) && [ -n "$lacks" ]; then
    echo "install: these packages are missing, which the publisher or its tests need: apt-get install$lacks" >&2
fi

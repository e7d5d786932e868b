#!/bin/sh
# Makes the library for C of this tree: puts libclubcard.a, libclubcard.so and clubcard.h into a folder, which is made
# where it isn't there. The toolchain builds the code (it proves it first, where it isn't proved yet); ld, objcopy, ar
# and cc make the files of it and of the toolchain's own C code for the heap, the only C that it needs. Both files show
# the names that clubcard.h declares and no others; libclubcard.so has them with the versions of bindings/c/clubcard.map,
# and its soname is libclubcard.so.1, so that programs look for it by that name.
#
#     tools/library.sh FOLDER
#
# The status is 0, or 1 where they aren't made; a line on standard error then says why. With other words it is 2.

if [ $# -ne 1 ]; then
    echo "usage: $0 FOLDER" >&2
    exit 2
fi
top=$(CDPATH='' cd -- "$(dirname -- "$0")/.." && pwd) || exit 1
mkdir -p "$1" || exit 1
folder=$(CDPATH='' cd -- "$1" && pwd) || exit 1
for command in rt ld objcopy ar cc; do
    command -v "$command" >/dev/null 2>&1 || {
        echo "library: there is no $command on the path" >&2
        exit 1
    }
done

# Builds out/libclubcard_c.a, which rt makes anew only where it isn't of the sources.
log="$top/crates/clubcard_c/out/build.log"
mkdir -p "$top/crates/clubcard_c/out" || exit 1
(cd "$top/crates/clubcard_c" && rt lib >"$log" 2>&1 </dev/null) || {
    echo "library: the build failed; see $log" >&2
    exit 1
}

work=$(mktemp -d) || exit 1
trap 'rm -rf "$work"' EXIT
trap 'exit 1' HUP INT TERM
kit=$(dirname "$(rt doc)")

# One object of the library's code and the heap's, in which all names but those of the header are local.
(
    cd "$work" &&
        ld -r --whole-archive -o clubcard.o "$top/crates/clubcard_c/out/libclubcard_c.a" "$kit/c/liblibc_c.a" &&
        objcopy --wildcard --keep-global-symbol='clubcard_*' clubcard.o &&
        ar rcsD libclubcard.a clubcard.o &&
        cc -shared -o libclubcard.so clubcard.o -Wl,-soname,libclubcard.so.1 \
            -Wl,--version-script="$top/bindings/c/clubcard.map" -Wl,--build-id=none -Wl,-z,defs -Wl,-z,text \
            -Wl,-z,relro -Wl,-z,now -Wl,-z,noexecstack &&
        cp "$top/bindings/c/clubcard.h" clubcard.h
) || {
    echo "library: the files couldn't be made" >&2
    exit 1
}
mv "$work/libclubcard.a" "$work/libclubcard.so" "$work/clubcard.h" "$folder"

#!/bin/sh
# Tests bindings/, and the module of python/ that asks through the library: that the bindings have the numbers, the
# structs and the fields' names of the code; the tests of each binding; that nothing is read where nothing is lent; the
# examples, on the store that the repository ships and on one of certificates and CRLs that openssl makes; that threads
# may ask one store; and that all bindings answer as the program does (bindings/compare.py). Then it calls the library
# for C with random bytes for a minute.
#
#     tools/bindings_test.sh [FOLDER]
#
# FOLDER holds libclubcard.a and libclubcard.so; without it the library is made by tools/library.sh, where the
# toolchain is there, else it is that of release/. The commands `clubcard snapshot` and `start` make the store, by the
# program that ./clubcard runs, or by the one that the variable CLUBCARD names. Where cc, make, c++, openssl or its
# headers, python3 or its packages pytest and hypothesis, mypy, black, flake8, cargo, Debian's rustls or go are absent,
# what needs them is skipped with a line that says so; where valgrind is there, programs in C run under it. Nothing is
# downloaded.
#
# It prints a line for each test. The status is 0 exactly where none that ran failed.
set -u

if [ $# -gt 1 ]; then
    echo "usage: $0 [FOLDER]" >&2
    exit 2
fi
top=$(CDPATH='' cd -- "$(dirname -- "$0")/.." && pwd)
shipped="$top/crates/clubcard/data/one_revoked.store"
work=$(mktemp -d) || exit 1
trap 'rm -rf "$work"' EXIT
trap 'exit 1' HUP INT TERM
failed=0

is_there() {
    command -v "$1" >/dev/null 2>&1
}

has_c() {
    is_there cc && is_there make
}

if [ $# -eq 1 ]; then
    library=$(CDPATH='' cd -- "$1" && pwd) || exit 1
elif is_there rt; then
    library="$work/library"
    sh "$top/tools/library.sh" "$library" || exit 1
else
    library="$top/release"
fi
from=$(pwd)
export CLUBCARD_LIBRARY="$library/libclubcard.so" PYTHONPATH="$top/python"
# The tree stays as it is.
export PYTHONDONTWRITEBYTECODE=1

# Says how a test went: its name, what was wanted, and what came.
report() {
    if [ "$2" = "$3" ]; then
        echo "$1: $3"
    else
        echo "$1: $3, and not $2"
        failed=$((failed + 1))
    fi
}

# Says whether two lists are the same: whose they are, the list that was wanted, and the one that came.
compare() {
    if [ -n "$2" ] && [ "$2" = "$3" ]; then
        echo "$1: the same $(echo "$2" | grep -c .)"
    else
        report "$1" "${2:-a list}" "$3"
    fi
}

# Says how a command went, whose lines are shown where it failed: a name for it, and its words.
must_do() {
    tested=$1
    shift
    "$@" >"$work/lines" 2>&1
    status=$?
    [ $status -eq 0 ] || cat "$work/lines" >&2
    report "$tested" 0 $status
}

# Runs a command and says its last line and its status, under valgrind where that is wanted.
ending() {
    "$@" >"$work/lines" 2>"$work/errors"
    status=$?
    # The first status of valgrind's own.
    [ $status -ne 99 ] || cat "$work/errors" >&2
    echo "$(tail -n 1 "$work/lines") ($status)"
}
checked() {
    if is_there valgrind; then
        ending valgrind -q --error-exitcode=99 --leak-check=full --errors-for-leak-kinds=definite "$@"
    else
        ending "$@"
    fi
}

# The numbers of answers, `NAME number` a line in the order of the numbers, as the code, the header and the module have
# them; in the code, the greatest is 112.
numbers_of_code() {
    sed -n 's/^pub const \([A-Z_]*\): u32 = \([0-9]*\);$/\1 \2/p' "$top/crates/lending_core/src/numbers.rt"
}
numbers_of_header() {
    sed -n 's/^ *CLUBCARD_\([A-Z_]*\) = \([0-9]*\),\{0,1\}\( .*\)\{0,1\}$/\1 \2/p' "$top/bindings/c/clubcard.h"
}
numbers_of_module() {
    echo "DONE 0"
    sed -n 's/^    \([A-Z_]*\) = \([0-9]*\)$/\1 \2/p' "$top/python/clubcard/answers.py"
}
# In words of capitals, as the header has them.
capitals() {
    sed 's/\([A-Z]\)/_\1/g; s/^_//' | tr '[:lower:]' '[:upper:]'
}
numbers_of_crate() {
    echo "DONE 0"
    sed -n 's/^    \([A-Za-z]*\) = \([0-9]*\),$/\1 \2/p; s/^ *Refusal::\([A-Za-z]*\) => \([0-9]*\),$/\1 \2/p' \
        "$top/bindings/rust/src/answers.rs" | capitals
}
numbers_of_package() {
    echo "DONE 0"
    sed -n 's/^\t\([A-Za-z]*\)  *[VR][a-z]* *= \([0-9]*\) .*$/\1 \2/p' "$top/bindings/go/answers.go" | capitals
}
for each in header module crate package; do
    compare "numbers of the code and of the $each" "$(numbers_of_code)" "$(numbers_of_$each)"
done

# A copy of the sources, so that the tree stays as it is.
cp -r "$top/bindings/c" "$work/c"
build() {
    make -s -C "$work/c" LIBRARY="$library" "$@" || {
        echo "$* isn't built"
        failed=$((failed + 1))
        return 1
    }
}

# ---- the structs, and the header

# A program of the header alone, and a folder with a header in another layout, which must not be compiled.
echo '#include "clubcard.h"' >"$work/header.c"
mkdir "$work/other"
sed 's/uint64_t time;/uint32_t time;/' "$top/bindings/c/clubcard.h" >"$work/other/clubcard.h"
refuses_layout() {
    ! cmp -s "$top/bindings/c/clubcard.h" "$work/other/clubcard.h" &&
        ! "$@" -fsyntax-only -I"$work/other" "$work/header.c" >/dev/null 2>&1
}

test_header() {
    set -- -pedantic -Wall -Wextra -Werror -fsyntax-only -I"$top/bindings/c"
    for standard in c99 c11 c17; do
        must_do "clubcard.h by $standard" cc -std=$standard "$@" "$work/header.c"
    done
    must_do "clubcard.h in another layout is refused by C" refuses_layout cc -std=c11
    if ! is_there c++; then
        echo "clubcard.h by C++: skipped, since there is no c++"
        return
    fi
    for standard in c++11 c++17; do
        must_do "clubcard.h by $standard" c++ -std=$standard "$@" -x c++ "$work/header.c"
    done
    must_do "clubcard.h in another layout is refused by C++" refuses_layout c++ -std=c++11 -x c++
}

# The names of libclubcard.so with their versions, and those of the list for the linker.
versions_of_library() {
    nm -D --defined-only "$library/libclubcard.so" | sed -n 's/^.* T \(clubcard_.*\)@@\(.*\)$/\1 \2/p' | LC_ALL=C sort
}
versions_of_map() {
    sed -n '/^CLUBCARD_/s/ {$//p; s/^ *\(clubcard_.*\);$/\1/p' "$top/bindings/c/clubcard.map" |
        while read -r name; do
            case $name in
            CLUBCARD_*) version=$name ;;
            *) echo "$name $version" ;;
            esac
        done | LC_ALL=C sort
}
names_of_header() {
    sed -n 's/^uint32_t \(clubcard_[a-z_]*\)(.*$/\1/p' "$top/bindings/c/clubcard.h" | LC_ALL=C sort
}
compare "calls of clubcard.h and of clubcard.map" "$(names_of_header)" "$(versions_of_map | cut -d ' ' -f 1)"
if is_there nm; then
    compare "versions of clubcard.map and of libclubcard.so" "$(versions_of_map)" "$(versions_of_library)"
else
    echo "versions: skipped, since there is no nm"
fi

# The names of the files' fields, a line each.
fields_of_header() {
    sed -n '/names\[\] = {/,/};/p' "$top/bindings/c/clubcard.h" | grep -o '"[a-z._][a-z._]*"' | tr -d '"'
}
fields_of_module() {
    sed -n '/^FIELDS = /,/^"""/p' "$top/python/clubcard/library.py" | tr ' ' '\n' | grep -x '[a-z_]*\.[a-z_]*\|end'
}
fields_of_crate() {
    sed -n '/^const FIELDS/,/^];/p' "$top/bindings/rust/src/answers.rs" | grep -o '"[a-z._]*"' | tr -d '"'
}

layouts_of_header() {
    python3 "$top/bindings/layouts.py" c >"$work/layouts.c" &&
        cc -std=c11 -Wall -Wextra -Werror -I"$top/bindings/c" -o "$work/layouts" "$work/layouts.c" && "$work/layouts"
}

if has_c; then
    test_header
else
    echo "C: skipped, since there is no cc or no make"
fi
if is_there python3; then
    layouts=$(python3 "$top/bindings/layouts.py" code)
    compare "structs and fields of the code and of the module" "$layouts" \
        "$(python3 "$top/bindings/layouts.py" module)"
    ! has_c || compare "structs and fields of the code and of clubcard.h" "$layouts" "$(layouts_of_header)"
    for each in header module crate; do
        compare "names of fields of the code and of the $each" "$(python3 "$top/bindings/layouts.py" fields)" \
            "$(fields_of_$each)"
    done
else
    echo "structs and fields: skipped, since there is no python3"
fi

# ---- the module for Python

# A Python that has these packages: the one on the path, or the system's own.
python_with() {
    for each in python3 /usr/bin/python3; do
        "$each" -c "import $1" >/dev/null 2>&1 && echo "$each" && return
    done
    return 1
}

# Runs the module's tests of a file, in the folder of work, where they may leave what they like.
test_module() {
    must_do "$1" "$tester" -m pytest -q -rs -p no:cacheprovider --rootdir "$top/python" \
        --noconftest "$top/python/tests/$1"
    grep '^SKIPPED' "$work/lines"
    tail -n 1 "$work/lines"
}

# Runs mypy on what needs no package, and on the tests where their packages are there.
test_types() {
    must_do "mypy --strict, the module" mypy --strict --cache-dir "$work/mypy" clubcard/__init__.py clubcard/store.py
    must_do "mypy --strict, its callers" mypy --strict --cache-dir "$work/mypy" examples/ask.py examples/answer.py \
        ../bindings/layouts.py
    cd "$top" || exit 1
    must_do "mypy --strict, compare.py" mypy --strict --cache-dir "$work/mypy2" bindings/compare.py
    cd "$top/python" || exit 1
    if typed=$(python_with "pytest, hypothesis"); then
        must_do "mypy --strict, its tests" mypy --strict --cache-dir "$work/mypy" --python-executable "$typed" \
            tests/test_clubcard.py tests/test_properties.py
    fi
}

cd "$work" || exit 1
if tester=$(python_with pytest); then
    test_module test_clubcard.py
else
    echo "test_clubcard.py: skipped, since python3 has no pytest"
fi
if tester=$(python_with "pytest, hypothesis"); then
    test_module test_properties.py
else
    echo "test_properties.py: skipped, since python3 has no pytest or no hypothesis"
fi
cd "$top/python" || exit 1
if is_there mypy; then
    test_types
else
    echo "types: skipped, since there is no mypy"
fi
if is_there black; then
    must_do "black" black -q -l 120 --check "$top/bindings" "$top/python/examples"
else
    echo "black: skipped, since there is no black"
fi
if is_there flake8; then
    must_do "flake8" flake8 --isolated --max-line-length 120 "$top/bindings" "$top/python/examples"
else
    echo "flake8: skipped, since there is no flake8"
fi

# ---- the crate for Rust, and the package for Go

# What is built for them goes to the folder of work.
export CARGO_TARGET_DIR="$work/rust" CARGO_NET_OFFLINE=true RUSTDOCFLAGS="-D warnings"
export GOCACHE="$work/go" GOPATH="$work/gopath" GOPROXY=off GOFLAGS=-mod=readonly GOTOOLCHAIN=local
export CGO_LDFLAGS="-L$library"
bindings=

test_crate() {
    must_do "cargo test" cargo test -q --locked
    must_do "cargo doc" cargo doc -q --locked --no-deps
    ! cargo fmt --version >/dev/null 2>&1 || must_do "cargo fmt" cargo fmt --check
    ! cargo clippy --version >/dev/null 2>&1 ||
        must_do "cargo clippy" cargo clippy -q --locked --all-targets -- -D warnings
    must_do "the crate's example" cargo build -q --locked --release --example answer
    [ $status -ne 0 ] || bindings="$bindings rust=$work/rust/release/examples/answer"
}

# gofmt names the files that it would write in another way.
is_formatted() {
    [ -z "$(gofmt -l .)" ]
}

test_package() {
    must_do "go vet" go vet ./...
    must_do "go test" go test ./...
    ! is_there gofmt || must_do "gofmt" is_formatted
    must_do "the package's example" go build -o "$work/go_answer" ./examples/answer
    [ $status -ne 0 ] || bindings="$bindings go=$work/go_answer"
}

if is_there cargo && is_there cc; then
    cd "$top/bindings/rust" && test_crate
else
    echo "Rust: skipped, since there is no cargo or no cc"
fi
if is_there go && is_there cc; then
    cd "$top/bindings/go" && test_package
else
    echo "Go: skipped, since there is no go or no cc"
fi

# ---- all bindings, held against the program

program=$(cd "$from" && realpath "${CLUBCARD:-$(sh "$top/tools/program.sh")}")
cd "$work" || exit 1
if has_c && build out/answer; then
    bindings="$bindings c=$work/c/out/answer"
fi
if ! is_there python3; then
    echo "questions: skipped, since there is no python3"
else
    # shellcheck disable=SC2086 # a word for each binding
    must_do "all bindings and the program" python3 "$top/bindings/compare.py" "$program" \
        "python=python3 $top/python/examples/answer.py" $bindings
    [ $status -ne 0 ] || cat "$work/lines"
fi

# ---- certificates that openssl makes

log=aaaaaaaaaaaaaaaaaaaaaaaaaaaaaaaaaaaaaaaaaaaaaaaaaaaaaaaaaaaaaaaa
moment=1700000000000

quiet() {
    openssl "$@" </dev/null >"$work/openssl.log" 2>&1 || {
        cat "$work/openssl.log" >&2
        return 1
    }
}

request() {
    quiet req "$@" -newkey ec -pkeyopt ec_paramgen_curve:P-256 -nodes
}

# Issues the certificate NAME.pem with its key, seen by the log at the time, or with no timestamp where there is none.
issue() {
    timestamps=${2:+$(printf 'DER:04330031002f00%s%016x000004030000' "$log" "$2")}
    host=$1.example
    export timestamps host
    request -new -keyout "$1.key" -out "$1.csr" -subj "/CN=$1.example" &&
        quiet ca -batch -notext -extensions "${2:+seen_}leaf" -in "$1.csr" -out "$1.pem" &&
        cat "$1.pem" ca.pem >"$1.chain"
}

# Makes an authority with four certificates, its CRL, the store of them, and a part that goes on with it.
make_store() {
    cat >openssl.cnf <<'CONFIG'
[req]
distinguished_name = name
[name]
[ca]
default_ca = authority
[authority]
database = index.txt
serial = serial
crlnumber = crlnumber
new_certs_dir = .
certificate = ca.pem
private_key = ca.key
default_md = sha256
default_days = 30
default_crl_days = 30
policy = policy
x509_extensions = leaf
[policy]
commonName = supplied
[authority_certificate]
basicConstraints = critical, CA:true
keyUsage = critical, keyCertSign, cRLSign
[leaf]
basicConstraints = CA:false
subjectAltName = DNS:$ENV::host
[seen_leaf]
basicConstraints = CA:false
subjectAltName = DNS:$ENV::host
1.3.6.1.4.1.11129.2.4.2 = $ENV::timestamps
CONFIG
    export OPENSSL_CONF="$work/openssl.cnf" CLUBCARD_PYTHON timestamps='' host=''
    : >index.txt
    echo 80 >serial
    echo 01 >crlnumber
    request -x509 -keyout ca.key -out ca.pem -subj /CN=elm -days 30 -extensions authority_certificate &&
        request -x509 -keyout other.key -out other.pem -subj /CN=oak -days 30 -extensions authority_certificate &&
        issue good $((moment + 1)) && issue revoked $((moment + 2)) && issue late $((moment + 5000)) &&
        issue plain '' &&
        cat good.pem other.pem >stranger.chain &&
        quiet ca -revoke revoked.pem && quiet ca -gencrl -out crl.pem &&
        "$top/clubcardctl" job --epoch 1 --moment "$moment" --range "$log" "$moment" $((moment + 1000)) \
            --crl ca.pem crl.pem --certificate good.pem ca.pem "$log" $((moment + 1)) \
            --certificate revoked.pem ca.pem "$log" $((moment + 2)) job >"$work/job.log" &&
        "$program" snapshot job part ledger 1 && "$program" start part store &&
        "$top/clubcardctl" job --epoch 2 --moment "$moment" --range "$log" "$moment" $((moment + 2000)) \
            --crl ca.pem crl.pem late_job >"$work/job.log" &&
        "$program" delta late_job ledger late_part late_ledger 1 &&
        quiet x509 -in good.pem -outform DER -out good.der && quiet x509 -in ca.pem -outform DER -out ca.der
}

# What is said of each chain: the file, the word, and the status.
chains() {
    echo "good good 0"
    echo "revoked revoked 4"
    echo "late not-covered 1"
    echo "stranger not-enrolled 2"
}

test_asking() {
    chains >"$work/chains"
    while read -r name word number; do
        report "ask $name" "$word ($number)" "$(checked "$work/c/out/ask" store "$name.chain")"
        report "ask.py $name" "$word ($number)" "$(ending python3 "$top/python/examples/ask.py" store "$name.chain")"
    done <"$work/chains"
    report "ask, the shipped store" "not-enrolled (2)" "$(checked "$work/c/out/ask" "$shipped" good.chain)"
    report "ask.py, the shipped store" "not-enrolled (2)" \
        "$(ending python3 "$top/python/examples/ask.py" "$shipped" good.chain)"
    report "ask plain" "the certificate carries no timestamp (65)" "$(checked "$work/c/out/ask" store plain.chain)"
    report "ask.py plain" "CERT_NO_SCTS (65)" "$(ending python3 "$top/python/examples/ask.py" store plain.chain)"
    report "ask.py, a file that isn't there" " (1)" "$(ending python3 "$top/python/examples/ask.py" store absent.chain)"
    report "ask, a store that is cut" \
        "the store isn't opened: a field isn't all there, part.trailer at $(($(wc -c <short_store) - 31)) (16)" \
        "$(checked "$work/c/out/ask" short_store good.chain)"
}

test_handshakes() {
    done="the handshake is done: ok (0)"
    for name in good late plain; do
        report "handshake $name" "$done" "$(checked "$work/c/out/handshake" store ca.pem "$name.chain" "$name.key")"
    done
    report "handshake, the shipped store" "$done" \
        "$(checked "$work/c/out/handshake" "$shipped" ca.pem good.chain good.key)"
    report "handshake revoked" "the handshake failed: certificate revoked (4)" \
        "$(checked "$work/c/out/handshake" store ca.pem revoked.chain revoked.key)"
    report "handshake by handshake" "the handshake failed: certificate revoked (4)" \
        "$(checked "$work/c/out/handshake" store ca.pem good.chain good.key late.chain late.key \
            revoked.chain revoked.key)"
    report "handshake, a store that is cut" "the store isn't opened: a field isn't all there (1)" \
        "$(checked "$work/c/out/handshake" short_store ca.pem good.chain good.key)"
}

# The crate of rustls, of Debian's crates, on certificates in DER. A server may send another certificate in the issuer's
# name, which must not be taken for the issuer's.
crates=/usr/share/cargo/registry
make_rustls() {
    cp -r "$top/bindings/rust" "$work/crates" && cd "$work/crates/rustls" || return 1
    set -- -q --offline --config 'source.crates-io.replace-with="debian"' \
        --config "source.debian.directory=\"$crates\""
    must_do "cargo test, rustls" cargo test "$@"
    ! cargo fmt --version >/dev/null 2>&1 || must_do "cargo fmt, rustls" cargo fmt --check
    ! cargo clippy --version >/dev/null 2>&1 ||
        must_do "cargo clippy, rustls" cargo clippy "$@" --all-targets -- -D warnings
    must_do "the example of rustls" cargo build "$@" --example handshake
    cd "$work" && [ $status -eq 0 ]
}

test_rustls() {
    request -x509 -keyout forged.key -out forged.pem -subj /CN=elm -days 30 -extensions authority_certificate &&
        quiet x509 -in forged.pem -outform DER -out forged.der || failed=$((failed + 1))
    for name in good revoked late plain; do
        quiet x509 -in $name.pem -outform DER -out $name.der &&
            quiet pkcs8 -topk8 -nocrypt -in $name.key -outform DER -out $name.p8 || failed=$((failed + 1))
    done
    cat revoked.der forged.der >forged.chain
    cat revoked.der ca.der >revoked_ca.chain
    shake="$work/rust/debug/examples/handshake"
    done="the handshake is done (0)"
    revoked="the handshake failed: invalid peer certificate contents: the certificate is revoked (4)"
    for name in good late plain; do
        report "rustls $name" "$done" "$(ending "$shake" store ca.der $name.example $name.der $name.p8)"
    done
    report "rustls, the shipped store" "$done" \
        "$(ending "$shake" "$shipped" ca.der revoked.example revoked.der revoked.p8)"
    for chain in revoked.der revoked_ca.chain forged.chain; do
        report "rustls $chain" "$revoked" "$(ending "$shake" store ca.der revoked.example $chain revoked.p8)"
    done
    report "rustls, handshake by handshake" "$revoked" \
        "$(ending "$shake" store ca.der good.example good.der good.p8 revoked.example revoked.der revoked.p8)"
    report "rustls, another root" \
        "the handshake failed: invalid peer certificate contents: invalid peer certificate: UnknownIssuer (1)" \
        "$(ending "$shake" store forged.der good.example good.der good.p8)"
    report "rustls, a store that is cut" \
        "the store isn't opened: a field isn't all there, part.trailer at $(($(wc -c <short_store) - 31)) (1)" \
        "$(ending "$shake" short_store ca.der good.example good.der good.p8)"
}

fuzzed=$shipped
certificates=
if ! has_c; then
    echo "certificates: skipped, since there is no cc or no make"
elif ! is_there openssl || ! is_there python3; then
    echo "certificates: skipped, since there is no openssl or no python3"
elif ! CLUBCARD_PYTHON=$(sh "$top/tools/python.sh" click cryptography 2>/dev/null); then
    echo "certificates: skipped, since no Python has click and cryptography (python/debian-packages.txt)"
elif ! echo '#include <openssl/ssl.h>' | cc -E - >/dev/null 2>&1; then
    echo "certificates: skipped, since there are no headers of OpenSSL"
elif ! make_store; then
    echo "certificates: there is no store"
    failed=$((failed + 1))
elif build out/ask out/handshake; then
    head -c $(($(wc -c <store) - 1)) store >short_store
    fuzzed="$shipped store late_part good.der ca.der"
    certificates="good.der ca.der"
    test_asking
    test_handshakes
    if ! is_there cargo; then
        echo "rustls: skipped, since there is no cargo"
    elif ! ls -d "$crates"/rustls-0.20.* >/dev/null 2>&1; then
        echo "rustls: skipped, since $crates has no rustls 0.20 (librust-rustls-dev)"
    elif make_rustls; then
        test_rustls
    fi
fi

# ---- threads, nothing, and random bytes

if has_c && build out/threads; then
    threads="$work/c/out/threads"
    report "threads" "8 threads, 0 answers failed (0)" "$(ending "$threads" "$shipped")"
    # Without helgrind a valgrind ends with status 1.
    if is_there valgrind && valgrind -q --tool=helgrind true >/dev/null 2>&1; then
        report "threads under helgrind" "8 threads, 0 answers failed (0)" \
            "$(ending valgrind -q --tool=helgrind --error-exitcode=99 "$threads" "$shipped")"
    else
        echo "threads under helgrind: skipped, since there is no valgrind with helgrind"
    fi
fi

if has_c && build out/empty; then
    # shellcheck disable=SC2086 # a word for each file
    empty=$(checked "$work/c/out/empty" "$shipped" $certificates)
    report "NULL with length 0" "${empty%% *} calls, 0 of them failed (0)" "$empty"
fi
if has_c && build out/fuzz; then
    # shellcheck disable=SC2086 # a word for each file
    "$work/c/out/fuzz" 60 $fuzzed >"$work/lines" 2>&1
    report "random bytes for a minute" 0 $?
    tail -n 2 "$work/lines"
    if is_there valgrind; then
        # shellcheck disable=SC2086
        valgrind -q --error-exitcode=99 --leak-check=full "$work/c/out/fuzz" 10 $fuzzed >"$work/lines" 2>&1
        report "the same under valgrind" 0 $?
        tail -n 1 "$work/lines"
    fi
fi

echo "$failed tests failed"
[ $failed -eq 0 ]

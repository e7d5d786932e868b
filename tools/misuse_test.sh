#!/bin/sh
# Wrong input of the kinds that people give: words that are no command, certificates with an issuer that isn't theirs,
# times in seconds, numbers in place of bytes. Each must be refused with a line that says what to do, and input that only
# looks wrong must not.
#
#     tools/misuse_test.sh
#
# It prints for each case what was tried, the status, and what was said. The status is 0 exactly where each case came to
# what it should. The certificates are made by openssl (3.0 or later); it needs python3 too. Where clubcardctl's packages
# are missing (tools/python.sh), what needs it is skipped with a line. All files lie in a new folder, which is removed.
set -u

if [ $# -gt 0 ]; then
    echo "usage: $0" >&2
    exit 2
fi
top=$(CDPATH='' cd -- "$(dirname -- "$0")/.." && pwd) || exit 1
for tool in openssl python3; do
    command -v $tool >/dev/null || {
        echo "misuse: skipped, since there is no $tool"
        exit 0
    }
done
# The interpreter itself, where python3 is a script that looks for one.
PATH="$(python3 -c 'import os, sys; print(os.path.dirname(sys.executable))'):$PATH"
work=$(mktemp -d) || exit 1
trap 'rm -rf "$work"' EXIT
trap 'exit 1' HUP INT TERM
cd "$work" || exit 1
clubcard="$top/clubcard"
tools="$top/tools"
shipped="$top/crates/clubcard/data/one_revoked.store"
key=1111111111111111111111111111111111111111111111111111111111111111
log=aaaaaaaaaaaaaaaaaaaaaaaaaaaaaaaaaaaaaaaaaaaaaaaaaaaaaaaaaaaaaaaa
moment=1700000000000
cases=0
differing=0

differ() {
    echo "    but $1"
    differing=$((differing + 1))
}

# Tries a call: what is tried, the status that it must have, a text that must be said, and the call.
try() {
    what=$1
    wanted=$2
    text=$3
    shift 3
    "$@" >output 2>errors </dev/null
    status=$?
    cases=$((cases + 1))
    said=$(cat output errors)
    echo "$what: $status: $(echo "$said" | tr '\n' '|' | cut -c 1-240)"
    [ "$status" -eq "$wanted" ] || differ "the status must be $wanted"
    case $said in
    *"$text"*) ;;
    *) differ "it must say: $text" ;;
    esac
}

# ---- words that are no command

usage() {
    what=$1
    text=$2
    shift 2
    try "$what" 2 "$text" "$clubcard" "$@"
    [ "$(cat output)" = usage ] || differ "standard output must be 'usage' alone"
}
query() {
    what=$1
    text=$2
    shift 2
    usage "$what" "$text" query "$shipped" "$@"
}

usage "no words" "no command is given"
usage "--help" "clubcard query STORE ISSUER SERIAL LOG TIME" --help
usage "-h" "read on in README.md" -h
usage "--version" "version $(cat "$top/VERSION")" --version
usage "a command with a typing error" "\`query\` is one" qeury "$shipped"
usage "a command with another mark" "\`query-cert\` is one" query_cert a b c
usage "too few words" "clubcard start PART STORE" start a.part
usage "an option" "clubcard check PART" check --verbose a.part
query "a time without its log" "LOG TIME 1 to 64 times" $key 05 $log
query "a serial with colons" "write it without \`0x\`, colons and spaces: 00d00a" $key 00:d0:0a $log $moment
query "a serial with 0x" "write it without \`0x\`, colons and spaces: 05" $key 0x05 $log $moment
query "a serial of odd length" "write 05" $key 5 $log $moment
query "a serial that isn't hexadecimal" "no hexadecimal digits" $key serial $log $moment
query "a serial of 33 octets" "64 at most" ${key} ${key}11 $log $moment
query "a key of 63 digits" "64 hexadecimal digits are wanted" "${key%1}" 05 $log $moment
query "a log in Base64" "write it in hexadecimal: $log" $key 05 qqqqqqqqqqqqqqqqqqqqqqqqqqqqqqqqqqqqqqqqqqo= $moment
query "a time as a date" "in milliseconds since 1970, which are wanted, it is $moment" $key 05 $log 2023-11-14T22:13:20Z
query "a time with a fraction" "decimal digits alone" $key 05 $log 1700000000.5
query "a time below zero" "decimal digits alone" $key 05 $log -1
usage "WORKERS 0" "isn't a number of 1 to 64" snapshot a.job a.part a.ledger 0
usage "WORKERS 65" "isn't a number of 1 to 64" snapshot a.job a.part a.ledger 65
usage "no WORKERS" "JOB PART LEDGER WORKERS" snapshot a.job a.part a.ledger
usage "one name for two files" "PART and LEDGER are both" snapshot a.job a.part a.part 1
usage "a file without a name" "is empty" check ''
usage "a name with a control character" "control character" check "$(printf 'a\001b')"
try "a name that isn't UTF-8" 2 "word 2 isn't UTF-8" "$clubcard" check "$(printf 'a\377b')"
try "digits in upper case" 0 revoked "$clubcard" query "$shipped" $key 05 AAAAAAAAAAAAAAAAAAAAAAAAAAAAAAAAAAAAAAAAAAAAAAAAAAAAAAAAAAAAAAAA $moment
try "a file that isn't there" 8 "read-fault no.store" "$clubcard" query no.store $key 05 $log $moment

# ---- certificates and issuers

cat >openssl.cnf <<'CONFIG'
[req]
distinguished_name = name
[name]
[ca]
default_ca = authority
[authority]
database = $ENV::authority/index.txt
serial = $ENV::authority/serial
crlnumber = $ENV::authority/crlnumber
new_certs_dir = $ENV::authority
certificate = $ENV::authority/ca.pem
private_key = $ENV::authority/ca.key
default_md = sha256
default_days = 30
default_crl_days = 30
policy = policy
[policy]
commonName = supplied
[authority_certificate]
basicConstraints = critical, CA:true
keyUsage = critical, keyCertSign, cRLSign
[unmarked]
basicConstraints = CA:false
[leaf]
basicConstraints = CA:false
1.3.6.1.4.1.11129.2.4.2 = $ENV::timestamps
CONFIG
# One timestamp of the log at the moment (RFC 6962, 3.3), which isn't signed.
timestamps=$(printf 'DER:04330031002f00%s%016x000004030000' $log $moment)
authority=
export OPENSSL_CONF="$work/openssl.cnf" timestamps authority

quiet() {
    openssl "$@" </dev/null >openssl.log 2>&1 || {
        cat openssl.log >&2
        return 1
    }
}
request() {
    quiet req "$@" -newkey ec -pkeyopt ec_paramgen_curve:P-256 -nodes
}

# Makes an authority: its folder, the name of its certificate, and what marks it.
make_authority() {
    authority=$1
    mkdir "$1" && : >"$1/index.txt" && echo 80 >"$1/serial" && echo 01 >"$1/crlnumber" &&
        request -x509 -keyout "$1/ca.key" -out "$1/ca.pem" -subj "/CN=$2" -days 30 -extensions "$3"
}

# Issues a certificate by the authority in a folder.
issue() {
    authority=$1
    name=$2
    shift 2
    request -new -keyout "$authority/$name.key" -out "$authority/$name.csr" -subj "/CN=$name.example" &&
        quiet ca -batch -notext -extensions leaf "$@" -in "$authority/$name.csr" -out "$authority/$name.pem"
}

# Flips a bit of a signature, in the certificate's last byte.
forge() {
    openssl x509 -in "$1" -outform DER -out forged.der &&
        python3 -c 'import sys; b = bytearray(open(sys.argv[1], "rb").read()); b[-1] ^= 1; open(sys.argv[1], "wb").write(b)' forged.der
}

job() {
    "$top/clubcardctl" job "$@"
}

make_store() {
    make_authority elm elm authority_certificate && make_authority oak oak authority_certificate &&
        make_authority twin elm authority_certificate && make_authority unmarked unmarked unmarked &&
        issue elm site && issue oak site && issue unmarked site &&
        issue elm expired -startdate 20200101000000Z -enddate 20210101000000Z &&
        authority=elm && quiet ca -revoke elm/site.pem && quiet ca -gencrl -out elm/crl.pem &&
        authority=oak && quiet ca -gencrl -out oak/crl.pem && forge elm/site.pem &&
        cat elm/site.pem elm/ca.pem >chain.pem && cat elm/ca.pem oak/ca.pem >authorities.pem &&
        job --epoch 1 --moment $moment --range $log $moment $((moment + 1000)) \
            --crl elm/ca.pem elm/crl.pem --crl oak/ca.pem oak/crl.pem \
            --certificate elm/site.pem elm/ca.pem $log $moment --certificate oak/site.pem oak/ca.pem $log $moment \
            --certificate elm/expired.pem elm/ca.pem $log $moment one.job >job.log &&
        "$clubcard" snapshot one.job one.part one.ledger 1 >line && "$clubcard" start one.part one.store >line
}

pair() {
    try "$1, ask" "$2" "$3" "$top/clubcardctl" ask -i "$5" one.store "$4"
}
# A pair that is refused, by both words.
refused() {
    pair "$1" 5 "$2" "$3" "$4"
    try "$1, identity" 2 "$2" "$top/clubcardctl" identity "$3" "$4"
}

try_certificates() {
    pair "a revoked certificate and its issuer" 1 revoked elm/site.pem elm/ca.pem
    refused "another issuer's certificate" "didn't issue" elm/site.pem oak/ca.pem
    refused "an issuer of the same name with another key" "didn't issue" elm/site.pem twin/ca.pem
    refused "the two the other way round" "it is the other way round" elm/ca.pem elm/site.pem
    refused "a certificate as its own issuer" "didn't issue" elm/site.pem elm/site.pem
    refused "a forged certificate" "didn't issue" forged.der elm/ca.pem
    refused "a key in place of a certificate" "there is no certificate in it" elm/site.key elm/ca.pem
    refused "a CRL in place of an issuer" "there is no certificate in it" elm/site.pem elm/crl.pem
    refused "a certificate that isn't there" "there is no such file" no.pem elm/ca.pem
    pair "a chain, of which the first is asked" 1 revoked chain.pem elm/ca.pem
    pair "several authorities, of which the first is the issuer" 1 revoked elm/site.pem authorities.pem
    pair "a certificate that has expired" 0 good elm/expired.pem elm/ca.pem
    pair "an issuer without an authority's mark" 4 not-enrolled unmarked/site.pem unmarked/ca.pem
    try "a chain with its issuer, ask" 1 "revoked chain.pem" "$top/clubcardctl" ask one.store chain.pem
    try "a certificate without its issuer, ask" 5 "give that of its issuer, CN=elm" \
        "$top/clubcardctl" ask one.store elm/site.pem
    try "a file that is no store, ask" 7 "it isn't a store" "$top/clubcardctl" ask one.part chain.pem
    try "a folder without certificates, ask" 5 "no file holds" "$top/clubcardctl" ask one.store "$top/docs"
    try "no certificate, ask" 2 "Missing argument" "$top/clubcardctl" ask one.store
    try "a word that is none" 2 "No such command" "$top/clubcardctl" identify chain.pem
    try "a chain, identity" 0 " 0080" "$top/clubcardctl" identity chain.pem authorities.pem
}

# ---- times that are no milliseconds

packed() {
    what=$1
    text=$2
    shift 2
    try "$what" 2 "$text" "$top/clubcardctl" job --epoch 1 "$@" other.job
}
try_times() {
    packed "a moment in seconds" "if these are seconds, write 1700000000000" --moment 1700000000
    packed "a moment as a date" "date -d '2023-11-14' +%s000" --moment 2023-11-14
    packed "a range from zero" "milliseconds since 1970 have 13 digits" --moment $moment --range $log 0 $moment
    packed "a range to seconds" "if these are seconds, write 1700000001000" --moment $moment --range $log $moment 1700000001
    packed "a range that ends before it starts" "ends before it starts" --moment $moment --range $log $moment 1600000000000
    packed "a time in seconds" "if these are seconds, write 1700000000000" --moment $moment --range $log $moment $moment \
        --certificate elm/site.pem elm/ca.pem $log 1700000000
    try "a page with a time in seconds" 2 "if these are seconds, write 1700000000000" \
        "$top/clubcardctl" page --certificate elm/site.pem elm/ca.pem 1700000000 one.page
    for file in other.job one.page; do
        [ ! -e $file ] || differ "$file must not be written"
    done
}

if CLUBCARD_PYTHON=$(sh "$tools/python.sh" click cryptography 2>/dev/null); then
    export CLUBCARD_PYTHON
    make_store || {
        echo "misuse: there are no certificates to try" >&2
        exit 1
    }
    try_certificates
    try_times
else
    echo "certificates, times: skipped, since no Python has click and cryptography (python/debian-packages.txt)"
fi

# ---- numbers in place of bytes, in Python

export PYTHONPATH="$top/python" CLUBCARD_LIBRARY="$top/release/libclubcard.so"
cat >asking.py <<'PYTHON'
import sys
from clubcard import Sighting, Store, Verdict

store = Store.from_file(sys.argv[1])
key, log, time = b"\x11" * 32, b"\xaa" * 32, 1700000000000
try:
    print(eval(sys.argv[2]))
except TypeError as error:
    print("TypeError:", error)
PYTHON
python_says() {
    try "$1, from Python" 0 "$2" python3 asking.py "$shipped" "$3"
}
python_says "bytes" REVOKED 'store.query(key, b"\x05", [Sighting(log, time)]).name'
python_says "a serial that is a number" "TypeError: " 'store.query(key, 5, [Sighting(log, time)])'
python_says "a key that is a number" "TypeError: " 'store.query(32, b"\x05", [Sighting(log, time)])'
python_says "a log that is a number" "TypeError: " 'store.query(key, b"\x05", [Sighting(32, time)])'
python_says "a serial that is text" "TypeError: " 'store.query(key, "05", [Sighting(log, time)])'
python_says "a store that is a number" "TypeError: " 'Store(179).query(key, b"\x05", [Sighting(log, time)])'
python_says "a verdict as a number" False 'isinstance(Verdict.REVOKED, int)'
unset PYTHONPATH CLUBCARD_LIBRARY

# ---- a tree that was changed, and places that can't be written

# A copy of what the released program is of, with a toolchain that builds nothing.
copy_tree() {
    mkdir copy bin && printf '#!/bin/sh\nexit 1\n' >bin/rt && chmod +x bin/rt &&
        (cd "$top" && tar -cf - clubcard crates.txt crates/*/src bindings/c/clubcard.h release tools VERSION) |
        tar -xf - -C copy
}
in_copy() {
    PATH="$work/bin:$PATH" copy/clubcard query "$shipped" $key 05 $log $moment
}
if sh "$tools/release.sh" --check >/dev/null && copy_tree; then
    source=copy/crates/word_core/src/words.rt
    cp -p $source before
    try "a tree as it was released" 0 revoked in_copy
    try "the same again" 0 revoked in_copy
    sed '1s/pieces/PIECES/' before >$source
    touch -r before $source
    try "a source that was changed, with its size and its date" 1 "it was made from other sources" in_copy
    cp -p before $source
    try "the source as it was" 0 revoked in_copy
fi
: >file
try "an installation below a file" 1 "$work/file/bin/clubcard can't be written" sh "$tools/install.sh" "$work/file"
try "an installation without a place" 2 "usage: " sh "$tools/install.sh"

echo "$cases cases, $differing differences"
[ $differing -eq 0 ]

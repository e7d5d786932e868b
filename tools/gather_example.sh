#!/bin/sh
# Pages of a log, through the program and back: an authority of openssl issues certificates and revokes some, another
# program (`clubcardctl page`) makes pages of them as a log's get-entries would, `clubcard gather` puts these behind a
# job of the authority's CRL, and what `clubcard query` then says of each certificate is compared with its fate. The job
# is compared with the one that `clubcardctl job` packs of the same certificates. It needs openssl (3.0 or later) and
# what clubcardctl needs (tools/python.sh).
#
#     tools/gather_example.sh
#
# It prints a line for each certificate, and ends with status 0 exactly where all agree. All files lie in a new folder,
# which is removed.
set -eu

log=aaaaaaaaaaaaaaaaaaaaaaaaaaaaaaaaaaaaaaaaaaaaaaaaaaaaaaaaaaaaaaaa
moment=$(($(date +%s) * 1000))

if [ $# -gt 0 ]; then
    echo "usage: $0" >&2
    exit 2
fi
top=$(cd "$(dirname "$0")/.." && pwd)
CLUBCARD_PYTHON=$(sh "$top/tools/python.sh" click cryptography)
export CLUBCARD_PYTHON
work=$(mktemp -d)
trap 'rm -r "$work"' EXIT
trap 'exit 1' HUP INT TERM
cd "$work"

cat >openssl.cnf <<'CONFIG'
[req]
distinguished_name = name
[name]
[ca]
default_ca = authority
[authority]
database = index.txt
serial = serial
crlnumber = crlnumber
new_certs_dir = .
certificate = ca.pem
private_key = ca.key
default_md = sha256
default_days = 30
default_crl_days = 30
policy = policy
x509_extensions = leaf
[policy]
commonName = supplied
[ca_certificate]
basicConstraints = critical, CA:true
keyUsage = critical, keyCertSign, cRLSign
[leaf]
basicConstraints = CA:false
CONFIG
export OPENSSL_CONF="$work/openssl.cnf"

# Runs openssl. What it says is shown only where it fails.
quiet() {
    openssl "$@" </dev/null >openssl.log 2>&1 || {
        cat openssl.log >&2
        return 1
    }
}

# Asks for a certificate on a new key.
request() {
    quiet req "$@" -newkey ec -pkeyopt ec_paramgen_curve:P-256 -nodes
}

: >index.txt
echo 80 >serial
echo 01 >crlnumber
request -x509 -keyout ca.key -out ca.pem -subj /CN=oak -days 30 -extensions ca_certificate
n=0
for fate in good revoked good revoked revoked; do
    n=$((n + 1))
    request -new -keyout leaf.key -out leaf.csr -subj "/CN=$n.oak.example"
    quiet ca -batch -notext -in leaf.csr -out "$n.pem"
    [ "$fate" = good ] || quiet ca -revoke "$n.pem"
    echo "$n $fate $((moment + n))" >>certificates.txt
done
quiet ca -gencrl -out crl.pem

# The head has the coverage and the CRL; the pages have two certificates and three; the whole has them all.
set -- --epoch 1 --moment "$moment" --range "$log" "$moment" "$((moment + 1000))" --crl ca.pem crl.pem
"$top/clubcardctl" job "$@" head.job
"$top/clubcardctl" page --certificate 1.pem ca.pem "$((moment + 1))" \
    --certificate 2.pem ca.pem "$((moment + 2))" first.page
"$top/clubcardctl" page --certificate 3.pem ca.pem "$((moment + 3))" \
    --certificate 4.pem ca.pem "$((moment + 4))" --certificate 5.pem ca.pem "$((moment + 5))" second.page
while read -r n fate time; do
    set -- "$@" --certificate "$n.pem" ca.pem "$log" "$time"
done <certificates.txt
"$top/clubcardctl" job "$@" whole.job

"$top/clubcard" gather head.job "$log" gathered.job first.page second.page
cmp gathered.job whole.job
"$top/clubcard" snapshot gathered.job part ledger 1
"$top/clubcard" start part store

differing=0
while read -r n fate time; do
    identity=$("$top/clubcardctl" identity "$n.pem" ca.pem)
    # shellcheck disable=SC2086 # two words
    verdict=$("$top/clubcard" query store $identity "$log" "$time") || true
    echo "oak $n: clubcard $verdict, openssl $fate"
    [ "$verdict" = "$fate" ] || differing=$((differing + 1))
done <certificates.txt
[ "$differing" -eq 0 ]

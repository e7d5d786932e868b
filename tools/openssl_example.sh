#!/bin/sh
# Certificates, CRLs and keys made by openssl, through the program and back: what `clubcard query` says of each
# certificate is compared with what `openssl verify -crl_check` says of it. It needs openssl (3.0 or later) and what
# clubcardctl needs (tools/python.sh).
#
#     tools/openssl_example.sh
#
# It makes the authorities of the table below, packs their CRLs and certificates into a job (`clubcardctl job`), and
# runs
#
#     clubcard snapshot JOB PART LEDGER 1
#     clubcard start PART STORE
#     clubcard query STORE ISSUER SERIAL LOG TIME      for each certificate (ISSUER and SERIAL by `clubcardctl identity`)
#
# Then each authority issues one more certificate, with the fate of its first one, the first authority revokes its first
# certificate, all make new CRLs, and a second job holds these and the new certificates:
#
#     clubcard delta JOB LEDGER PART NEWLEDGER 1
#     clubcard install STORE PART NEWSTORE
#     clubcard query NEWSTORE ..                       for each certificate, old and new
#     clubcard query-cert NEWSTORE CERT ISSUERCERT     for each new one, which carries its timestamp
#
# The last is asked by `clubcardctl ask` too. Then the two jobs and the same queries (`clubcardctl queries`) go through one
# call, whose verdicts must be those:
#
#     clubcard rehearse QUERIES 1 JOB JOB
#
# Each authority's second certificate is of three days, and the others are of thirty. The chain begins anew without what
# ends within ten days, and a third job goes on from it, whose CRLs revoke the last certificate of the first authority;
# the certificates that are left are asked again:
#
#     clubcard rebase LEDGER MOMENT PART NEWLEDGER 1
#     clubcard start PART STORE
#     clubcard query STORE ..
#     clubcard delta JOB LEDGER PART NEWLEDGER 1
#     clubcard install STORE PART NEWSTORE
#     clubcard query NEWSTORE ..
#
# It prints a line for each certificate that is asked, and ends with status 0 exactly where the two agree on all of
# them. All files lie in a new folder, which is removed.
set -eu

# The authorities: a name, and what becomes of each of its certificates.
authorities() {
    echo "oak good good good"
    echo "elm revoked revoked"
    echo "ash good revoked good"
}

# The log that saw them all, from this moment on, one millisecond after the other.
log=aaaaaaaaaaaaaaaaaaaaaaaaaaaaaaaaaaaaaaaaaaaaaaaaaaaaaaaaaaaaaaaa
moment=$(($(date +%s) * 1000))

if [ $# -gt 0 ]; then
    echo "usage: $0" >&2
    exit 2
fi
top=$(cd "$(dirname "$0")/.." && pwd)
CLUBCARD_PYTHON=$(sh "$top/tools/python.sh" click cryptography)
export CLUBCARD_PYTHON
work=$(mktemp -d)
trap 'rm -r "$work"' EXIT
trap 'exit 1' HUP INT TERM
cd "$work"

cat >openssl.cnf <<'CONFIG'
[req]
distinguished_name = name
[name]
[ca]
default_ca = authority
[authority]
database = index.txt
serial = serial
crlnumber = crlnumber
new_certs_dir = .
certificate = ca.pem
private_key = ca.key
default_md = sha256
default_days = 30
default_crl_days = 30
policy = policy
x509_extensions = leaf
crl_extensions = crl
[policy]
commonName = supplied
[ca_certificate]
basicConstraints = critical, CA:true
keyUsage = critical, keyCertSign, cRLSign
subjectKeyIdentifier = hash
[leaf]
basicConstraints = CA:false
[seen_leaf]
basicConstraints = CA:false
1.3.6.1.4.1.11129.2.4.2 = $ENV::timestamps
[crl]
authorityKeyIdentifier = keyid
CONFIG
export OPENSSL_CONF="$work/openssl.cnf"
# Only a certificate of seen_leaf reads it.
export timestamps=

# Runs openssl. What it says is shown only where it fails.
quiet() {
    openssl "$@" </dev/null >openssl.log 2>&1 || {
        cat openssl.log >&2
        return 1
    }
}

# Asks for a certificate on a new key.
request() {
    quiet req "$@" -newkey ec -pkeyopt ec_paramgen_curve:P-256 -nodes
}

# Issues a certificate, N.pem, with these extensions. The second of an authority is of three days.
issue() {
    days=30
    [ "$1" != 2 ] || days=3
    request -new -keyout leaf.key -out leaf.csr -subj "/CN=$1.$name.example"
    quiet ca -batch -notext -days "$days" -extensions "$2" -in leaf.csr -out "$1.pem"
}

# Makes an authority in a folder of its name: ca.pem, crl.pem and a certificate for each further word. The first serial
# is 80, whose INTEGER has two octets.
make_authority() (
    name=$1
    shift
    mkdir "$name"
    cd "$name"
    : >index.txt
    echo 80 >serial
    echo 01 >crlnumber
    request -x509 -keyout ca.key -out ca.pem -subj "/CN=$name" -days 30 -extensions ca_certificate
    n=0
    for fate in "$@"; do
        n=$((n + 1))
        issue "$n" leaf
        [ "$fate" = good ] || quiet ca -revoke "$n.pem"
    done
    quiet ca -gencrl -out crl.pem
)

# The extension of one timestamp of version 1 (RFC 6962, 3.3), which isn't signed: an OCTET STRING with a list of 49
# bytes, which is one timestamp of 47.
timestamps_of() {
    printf 'DER:04330031002f00%s%016x000004030000' "$log" "$1"
}

# Issues one more certificate, which has the number, a timestamp of this time and this fate, and makes a new CRL.
go_on() (
    name=$1
    timestamps=$(timestamps_of "$3")
    cd "$name"
    issue "$2" seen_leaf
    [ "$4" = good ] || quiet ca -revoke "$2.pem"
    quiet ca -gencrl -out crl.pem
)

# The certificates, one a line: the authority, the number, and the time at which the log saw it.
certificates() {
    time=$moment
    authorities | while read -r name fates; do
        n=0
        for fate in $fates; do
            n=$((n + 1))
            time=$((time + 1))
            echo "$name $n $time"
        done
    done
}

# What openssl says of a certificate.
openssl_verdict() {
    if openssl verify -no-CApath -no-CAstore -crl_check -CAfile "$1/ca.pem" -CRLfile "$1/crl.pem" "$1/$2.pem" \
        >verify.log 2>&1; then
        echo good
    elif grep -q '^error 23 at 0 depth' verify.log; then
        echo revoked
    else
        cat verify.log >&2
        echo unknown
    fi
}

# Compares a verdict on a certificate with openssl's.
differing=0
agree() {
    echo "$1: clubcard $2, openssl $3"
    [ "$2" = "$3" ] || differing=$((differing + 1))
}

# Asks a store about the certificates that are listed, and compares.
compare() {
    : >queries.txt
    : >verdicts.txt
    while read -r name n time; do
        identity=$("$top/clubcardctl" identity "$name/$n.pem" "$name/ca.pem")
        # shellcheck disable=SC2086 # two words
        verdict=$("$top/clubcard" query "$1" $identity "$log" "$time") || true
        echo "$identity $log $time" >>queries.txt
        echo "$verdict" >>verdicts.txt
        agree "$name $n" "$verdict" "$(openssl_verdict "$name" "$n")"
    done <certificates.txt
}

authorities >authorities.txt
certificates >certificates.txt

while read -r name fates; do
    # shellcheck disable=SC2086 # a word for each certificate
    make_authority "$name" $fates
    echo "--crl $name/ca.pem $name/crl.pem" >>crls
done <authorities.txt
while read -r name n time; do
    echo "--certificate $name/$n.pem $name/ca.pem $log $time" >>first
done <certificates.txt
"$top/clubcardctl" job --epoch 1 --moment "$moment" --range "$log" "$moment" "$((moment + 1000))" @crls @first job1
"$top/clubcard" snapshot job1 part1 ledger1 1
"$top/clubcard" start part1 store1
compare store1

(cd oak && quiet ca -revoke 1.pem)
time=$((moment + 1000))
while read -r name fates; do
    # shellcheck disable=SC2086 # a word for each certificate
    set -- $fates
    n=$(($# + 1))
    time=$((time + 1))
    go_on "$name" "$n" "$time" "$1"
    echo "$name $n $time" >>certificates.txt
    echo "$name $n" >>carriers.txt
    echo "--certificate $name/$n.pem $name/ca.pem $log $time" >>second
done <authorities.txt
"$top/clubcardctl" job --epoch 2 --moment "$moment" --range "$log" "$moment" "$((moment + 2000))" @crls @second job2
"$top/clubcard" delta job2 ledger1 part2 ledger2 1
"$top/clubcard" install store1 part2 store2
compare store2
while read -r name n; do
    for each in "$n" ca; do
        openssl x509 -in "$name/$each.pem" -outform DER -out "$name/$each.der"
    done
    truth=$(openssl_verdict "$name" "$n")
    verdict=$("$top/clubcard" query-cert store2 "$name/$n.der" "$name/ca.der") || true
    agree "$name $n, by its file" "$verdict" "$truth"
    answer=$("$top/clubcardctl" ask -i "$name/ca.pem" store2 "$name/$n.pem") || true
    agree "$name $n, by clubcardctl" "${answer%% *}" "$truth"
done <carriers.txt

"$top/clubcardctl" queries queries <queries.txt
"$top/clubcard" rehearse queries 1 job1 job2 >rehearsed
head -n 2 rehearsed
if tail -n +3 rehearsed | cmp -s - verdicts.txt; then
    echo "rehearse: the same verdicts"
else
    echo "rehearse: other verdicts"
    differing=$((differing + 1))
fi

# The certificates that are left: all but the second ones.
grep -v ' 2 ' certificates.txt >kept.txt
wanted="pruned $(($(wc -l <certificates.txt) - $(wc -l <kept.txt)))"
"$top/clubcard" rebase ledger2 "$((moment + 864000000))" part3 ledger3 1 >rebased
cat rebased
grep -q " $wanted\$" rebased || {
    echo "rebase: not $wanted"
    differing=$((differing + 1))
}
"$top/clubcard" start part3 store3
cp kept.txt certificates.txt
compare store3

(cd oak && quiet ca -revoke 4.pem)
while read -r name _; do
    (cd "$name" && quiet ca -gencrl -out crl.pem)
done <authorities.txt
"$top/clubcardctl" job --epoch 3 --moment "$moment" --range "$log" "$moment" "$((moment + 2000))" @crls job3
"$top/clubcard" delta job3 ledger3 part4 ledger4 1
"$top/clubcard" install store3 part4 store4
compare store4

echo "$differing certificates differ"
[ "$differing" -eq 0 ]

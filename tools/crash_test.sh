#!/bin/sh
# Looks at the system calls of `device-install` of the real program over a real file: at their order, and, where the
# program is stopped at each of them in turn, at what is left.
#
#     tools/crash_test.sh [PROGRAM]
#     tools/crash_test.sh --order TRACE
#
# PROGRAM is the program that ./clubcard runs, if left out; a path of one's own begins with `/`. Needs strace and xxd
# (both in Debian), and is skipped where one isn't there.
#
# The order that an install owes is `sync read slot sync gate sync print`: the device is synced before it is read; the
# slot that isn't picked is written, and is synced before the gate byte is; the gate is synced before the line is
# printed. The second form prints the order of such a trace of strace, and its status is 0 where it is this one, else 1.
# So the first form tries some wrong orders too, made of the right trace: each has to be refused.
#
# For each of read, write, lseek, fsync, openat and close, and each number, until a run makes no call of that number:
#
#     killed     the program is killed as it begins that call
#     failed     that call does nothing and answers an error, and the program goes on as it can
#
# It prints how many runs of each kind left the old store, and how many the new one. The device has to hold one of the
# two, the new one behind a run of status 0, and the calls that did something have to be a front of the order above, with
# or without the line. The status is 0 where all this holds, 1 where it doesn't, and 2 where the test can't be made.

set -u
top=$(CDPATH='' cd -- "$(dirname -- "$0")/.." && pwd) || exit 2
order="sync read slot sync gate sync print"

# What a traced install did to the device and to standard output, a word for each run of like calls: `slot` is a write
# inside the second slot of a device with a capacity of 4,096 bytes, and `gate` one of the first byte alone. A call that
# answered an error did nothing.
order_of() {
    awk '
        function say(word) { if (word != last) printf "%s%s", last == "" ? "" : " ", word; last = word }
        { call = $2; sub(/[(].*/, "", call); answer = $0; sub(/.* = /, "", answer) }
        answer !~ /^[0-9]+$/ { next }
        call == "write" && /[(]1</ { say("print"); next }
        !/[(][0-9]+<[^>]*\/device>/ { next }
        call == "lseek" { at = answer; next }
        call == "read" { say("read"); at += answer; next }
        call == "write" {
            if (at == 0 && answer == 1) say("gate")
            else if (at >= 8200 && at + answer <= 12304) say("slot")
            else say("write " answer " at " at)
            at += answer
            next
        }
        call == "fsync" { say("sync"); next }
        call !~ /^close$|stat/ { say(call) }
        END { print "" }' "$1"
}

case $#:${1-} in
2:--order)
    order_of "$2"
    [ "$(order_of "$2")" = "$order" ]
    exit
    ;;
0:) program=$(sh "$top/tools/program.sh") || exit 2 ;;
1:/*) program=$1 ;;
*)
    echo "usage: $0 [PROGRAM], or $0 --order TRACE" >&2
    exit 2
    ;;
esac
for tool in strace xxd; do
    command -v $tool >/dev/null || {
        echo "crash_test: skipped, since there is no $tool"
        exit 0
    }
done
folder=$(mktemp -d) || exit 2
trap 'rm -rf "$folder"' EXIT
cd "$folder" || exit 2

# The store of one part, and the delta behind it, by the tables of docs/FORMATS.md.
key=1111111111111111111111111111111111111111111111111111111111111111
log=aaaaaaaaaaaaaaaaaaaaaaaaaaaaaaaaaaaaaaaaaaaaaaaaaaaaaaaaaaaaaaaa
none=0000000000000000000000000000000000000000000000000000000000000000
first=3c5297690856618bbb3bc14ceaf19ce2d0f4c977bf05c935e445542588879af3
second=d720f255b1870ad1dd8b011598e3d444bd97fc8550a021a271b7d0ce89fddd26
range=0001${log}0000018bcfe56800
mixed=02000000000003000000000000000200000000000000000000000000000000
head=434c55424341524401
echo "434c554253544f520101 ${head}00 0000000000000001 $none ${range}0000018bcfe56be8 00000001 $key 00 $first" |
    xxd -r -p >one.store
echo "${head}01 0000000000000002 $first ${range}0000018bcfe56fd0 00000001 $key $mixed $second" |
    xxd -r -p >two.part
"$program" device-format device 4096 one.store >line && [ "$(cat line)" = "store parts 1 epoch 1" ] || {
    echo "crash_test: the device can't be made" >&2
    exit 2
}
cp device before
bad=0

# Runs an install, and notes its calls on descriptors.
traced() {
    cp before device
    strace -f -qq -y -s 0 -o trace -e trace=%desc "$@" "$program" device-install device two.part >line 2>/dev/null
    status=$?
}

traced
[ $status -eq 0 ] && [ "$(cat line)" = "store parts 2 epoch 2" ] || {
    echo "crash_test: the part can't be installed" >&2
    exit 2
}
cp trace right
echo "order: $(order_of right)"
[ "$(order_of right)" = "$order" ] || {
    echo "crash_test: an install owes the order: $order" >&2
    bad=1
}

# Refuses a wrong trace, or says that it wasn't.
refuse() {
    [ "$(order_of wrong)" != "$order" ] || {
        echo "crash_test: $1: the order isn't told from the right one" >&2
        bad=1
    }
}

for number in 1 2 3; do
    awk -v number=$number '!(/fsync[(]/ && ++seen == number)' right >wrong
    refuse "without sync $number"
    awk -v number=$number '/fsync[(]/ && ++seen == number { sub(/ = 0/, " = -1 EIO") } { print }' right >wrong
    refuse "sync $number fails"
done
grep -v 'fsync(' right >wrong
refuse "without a sync"
awk '/fsync[(]/ { seen++ } seen == 2 && /lseek|write/' right >turned
awk '/lseek.*, 8200, / { while ((getline line <"turned") > 0) print line } { print }' right >wrong
refuse "the gate before the slot"

# Which store the device holds: the certificate is good by the old one, and revoked by the new one.
held() {
    "$program" device-query device $key 05 $log 1700000000000
}

# Runs an install with this done at the call of this name and number. Fails where there is no such call.
run_with() {
    traced -e inject="$1:$3:when=$2"
    grep -q INJECTED trace || { [ $status -gt 128 ] && grep -q KILL trace; }
}

# Tries each number of this call, and counts what is left.
try_call() {
    old=0
    new=0
    number=1
    while run_with "$1" "$number" "$3"; do
        verdict=$(held)
        case "$verdict" in
        good) old=$((old + 1)) ;;
        revoked) new=$((new + 1)) ;;
        *)
            echo "crash_test: $1 $number $2: the device answers: $verdict" >&2
            bad=1
            ;;
        esac
        if [ $status -eq 0 ] && [ "$verdict" != revoked ]; then
            echo "crash_test: $1 $number $2: status 0, and the device answers: $verdict" >&2
            bad=1
        fi
        done=$(order_of trace)
        front=${done:+ $done}
        case " $order " in
        "${front% print} "*) ;;
        *)
            echo "crash_test: $1 $number $2: the order is: $done" >&2
            bad=1
            ;;
        esac
        number=$((number + 1))
    done
    echo "$1 $2: old $old new $new"
}

for call in openat read lseek write fsync close; do
    try_call $call killed signal=KILL
    try_call $call failed error=EIO
done
exit $bad

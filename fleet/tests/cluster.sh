#!/bin/bash
# A Slurm of several hosts on this machine, for slurm_test.py: each host is a network, a UTS, a PID and a mount namespace.
# All lies in the folder CLUSTER. Wants root, and Debian's slurmctld, slurmd, slurm-client, munge and iproute2.
#
#     cluster.sh start N | stop    begins a cluster of N nodes, n1 to nN; ends it
#     cluster.sh exec COMMAND ..   runs a command on the controller's host
#     cluster.sh kill-slurmd NODE  ends the daemon alone; tasks live on
#     cluster.sh kill-node NODE    ends the host, and all that runs there
#     cluster.sh cut NODE | mend NODE   takes the node's network away; gives it back
#     cluster.sh boot NODE         begins the host again, or the daemon alone where the host lives
#
# A command of the cluster asks first whether it is in a network of the cluster, so that no packet leaves the machine.
set -u
root=${CLUSTER:?a folder}
conf=$root/slurm.conf
net=10.77.0
export SLURM_CONF=$conf PATH=/usr/sbin:/usr/bin:/sbin:/bin

die() {
    echo "cluster.sh: $*" >&2
    exit 1
}
held() { cat "$root/pid/$1" 2>/dev/null; }
# Whether a process lives and is ours: another one may have its number by now.
lives() { [ -n "${1:-}" ] && tr '\0' ' ' 2>/dev/null <"/proc/$1/cmdline" | grep -qF "$root/"; }
guard() {
    local wanted
    wanted="net:[$(stat -Lc %i "/run/netns/$1" 2>/dev/null)]"
    [ "$wanted" != "net:[]" ] && [ "$wanted" != "$(readlink /proc/1/ns/net)" ] || die "there is no network $1"
}
on_controller() {
    guard fleet-ctl
    lives "$(held slurmctld)" || die "the controller doesn't run"
    nsenter -t "$(held slurmctld)" -u -m --net=/run/netns/fleet-ctl --wd="$PWD" "$@"
}
files='mount --bind "$R/hosts" /etc/hosts; mount --bind "$R/resolv.conf" /etc/resolv.conf;'
init_of() { lives "$(held "$1")" && ps -o pid= --ppid "$(held "$1")" | tr -d ' '; }
slurmd_of() { ps -o pid=,comm= --ppid "$(init_of "$1")" | awk '$2 == "slurmd" { print $1 }'; }

configure() {
    cat >"$conf" <<CONF
ClusterName=fleet
SlurmctldHost=ctl($net.1)
SlurmctldPort=16817
SlurmdPort=16818
AuthType=auth/munge
CredType=cred/munge
AuthInfo=socket=$root/munge.socket,cred_expire=5
SlurmUser=root
SlurmdUser=root
StateSaveLocation=$root/state
SlurmdSpoolDir=$root/spool/%n
SlurmctldPidFile=$root/pid/slurmctld.own
SlurmdPidFile=$root/pid/slurmd.%n.own
SlurmctldLogFile=$root/log/slurmctld.log
SlurmdLogFile=$root/log/slurmd.%n.log
ProctrackType=proctrack/linuxproc
TaskPlugin=task/none
MpiDefault=none
SwitchType=switch/none
SelectType=select/cons_tres
SelectTypeParameters=CR_CPU
SlurmdParameters=config_overrides
SchedulerType=sched/backfill
SchedulerParameters=bf_interval=1,sched_interval=2,batch_sched_delay=0
JobAcctGatherType=jobacct_gather/none
AccountingStorageType=accounting_storage/none
JobCompType=jobcomp/filetxt
JobCompLoc=$root/log/jobcomp.txt
JobRequeue=1
ReturnToService=2
SlurmctldTimeout=30
SlurmdTimeout=3
MessageTimeout=5
TCPTimeout=2
BatchStartTimeout=10
KillWait=2
UnkillableStepTimeout=20
MinJobAge=300
InactiveLimit=0
PropagateResourceLimits=NONE
CONF
    for i in $(seq "$1"); do
        echo "NodeName=n$i NodeHostname=n$i NodeAddr=$net.$((10 + i)) CPUs=2 RealMemory=4000 State=UNKNOWN"
    done >>"$conf"
    echo "PartitionName=main Nodes=ALL Default=YES MaxTime=INFINITE DefMemPerCPU=100 State=UP" >>"$conf"
    # Else slurmd wants a file system of cgroups.
    printf 'CgroupPlugin=cgroup/v1\nCgroupAutomount=no\n' >"$root/cgroup.conf"
}

connect() {
    : >"$root/resolv.conf"
    printf '127.0.0.1 localhost\n%s ctl\n' "$net.1" >"$root/hosts"
    ip netns add fleet-ctl && ip -n fleet-ctl link set lo up && ip -n fleet-ctl link add br0 type bridge &&
        ip -n fleet-ctl addr add $net.1/24 dev br0 && ip -n fleet-ctl link set br0 up || die "no network can be made"
    for i in $(seq "$1"); do
        mkdir -p "$root/spool/n$i"
        echo "$net.$((10 + i)) n$i" >>"$root/hosts"
        ip netns add "fleet-n$i"
        ip -n "fleet-n$i" link set lo up
        ip -n fleet-ctl link add "v-n$i" type veth peer name eth0 netns "fleet-n$i"
        ip -n fleet-ctl link set "v-n$i" master br0 up
        ip -n "fleet-n$i" addr add "$net.$((10 + i))/24" dev eth0
        ip -n "fleet-n$i" link set eth0 up
    done
}

boot() {
    guard "fleet-$1"
    if lives "$(held "$1")"; then
        nsenter -t "$(init_of "$1")" -u -p -m --net="/run/netns/fleet-$1" slurmd -N "$1" -f "$conf" </dev/null >>"$root/log/$1.out" 2>&1
        return
    fi
    R=$root nsenter --net="/run/netns/fleet-$1" unshare --uts --pid --fork --mount-proc --kill-child=KILL bash -c \
        "$files hostname $1; slurmd -N $1 -f '$conf'; while :; do sleep 3600 & wait \$!; done" </dev/null >>"$root/log/$1.out" 2>&1 &
    echo $! >"$root/pid/$1"
}

start() {
    [ ! -e "$root/pid" ] || die "it runs already"
    mkdir -p "$root"/pid "$root"/log "$root"/state "$root"/spool && chmod 755 "$root"
    echo "$1" >"$root/nodes"
    dd if=/dev/urandom of="$root/munge.key" bs=1024 count=1 status=none && chmod 400 "$root/munge.key"
    configure "$1"
    connect "$1"
    munged --foreground --socket="$root/munge.socket" --key-file="$root/munge.key" --pid-file="$root/pid/munged.own" \
        --log-file="$root/log/munged.log" --seed-file="$root/munge.seed" --num-threads=2 </dev/null >>"$root/log/munged.out" 2>&1 &
    echo $! >"$root/pid/munged"
    for _ in $(seq 50); do [ -S "$root/munge.socket" ] && break || sleep .1; done
    [ -S "$root/munge.socket" ] || die "munged doesn't run: see $root/log"
    guard fleet-ctl
    R=$root nsenter --net=/run/netns/fleet-ctl unshare --uts --mount sh -c \
        "$files hostname ctl; exec slurmctld -D -f '$conf'" </dev/null >>"$root/log/slurmctld.out" 2>&1 &
    echo $! >"$root/pid/slurmctld"
    for _ in $(seq 100); do [ "$(on_controller hostname 2>/dev/null)" = ctl ] && break || sleep .1; done
    for i in $(seq "$1"); do boot "n$i"; done
    while [ "$SECONDS" -lt 60 ]; do
        [ "$(on_controller timeout 3 sinfo -h -N -o %T 2>/dev/null | grep -c '^idle$')" != "$1" ] || return 0
        sleep .1
    done
    die "the nodes aren't idle after 60 s: see $root/log"
}

stop() {
    local process all=
    lives "$(held slurmctld)" && on_controller scancel --state=PENDING,RUNNING -u root 2>/dev/null
    for i in $(seq "$(cat "$root/nodes")"); do
        process=$(init_of "n$i") && [ -n "$process" ] && kill -KILL "$process"
        process=$(held "n$i") && lives "$process" && kill -KILL "$process"
    done
    for name in slurmctld munged; do
        process=$(held $name)
        lives "$process" && kill -TERM "$process" && all="$all $process"
    done
    for _ in $(seq 50); do
        for process in $all; do lives "$process" && continue 2; done
        break
    done
    sleep .5
    for process in $all; do lives "$process" && kill -KILL "$process"; done
    for i in ctl $(seq -f n%g "$(cat "$root/nodes")"); do ip netns del "fleet-$i"; done
    rm -rf "$root/pid"
}

command=${1:-}
[ $# -eq 0 ] || shift
case $command in
start) start "$@" ;;
stop) stop ;;
exec) on_controller "$@" ;;
kill-slurmd) for process in $(slurmd_of "$1"); do kill -KILL "$process"; done ;;
kill-node) process=$(init_of "$1") && [ -n "$process" ] && kill -KILL "$process" ;;
cut) guard fleet-ctl && ip -n fleet-ctl link set "v-$1" down ;;
mend) guard fleet-ctl && ip -n fleet-ctl link set "v-$1" up ;;
boot) boot "$1" ;;
*)
    sed -n 2,14p "$0"
    exit 2
    ;;
esac

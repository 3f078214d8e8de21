#!/bin/sh
# A cluster of Slurm on this machine alone, to try the arrays on: a controller and nodes of one processor each, on loopback, without accounting.
#
#     here.sh start FOLDER NODES     begins it, and prints the line that tells Slurm's commands of it
#     here.sh node FOLDER NAME       begins a node again, as n2
#     here.sh stop FOLDER            ends it
#
# It is run as root, without systemd. Debian: apt-get install slurmctld slurmd slurm-client munge. PORT is the controller's port (16817), the
# nodes have those after it. CPUS says to which processors the nodes are bound in turn, as "0 1" (all processors that there are). ARRAY is one
# more than an array may have tasks (1001).
set -e
[ $# -ge 2 ] || { sed -n '2,11s/^# \{0,1\}//p' "$0"; exit 4; }
mkdir -p "$2"
folder=$(cd "$2" && pwd)
conf=$folder/slurm.conf
port=${PORT:-16817}
host=$(hostname -s)
export SLURM_CONF="$conf"

write_conf() {
    cat <<END
ClusterName=here
SlurmctldHost=$host(127.0.0.1)
SlurmUser=root
SlurmdUser=root
AuthType=auth/munge
AuthInfo=socket=$folder/munge/socket
CredType=cred/munge
StateSaveLocation=$folder/state
SlurmctldPidFile=$folder/slurmctld.pid
SlurmctldPort=$port
SlurmctldLogFile=$folder/log/slurmctld
SlurmdSpoolDir=$folder/spool.%n
SlurmdPidFile=$folder/%n.pid
SlurmdLogFile=$folder/log/%n
SlurmdParameters=config_overrides
ProctrackType=proctrack/linuxproc
TaskPlugin=task/none
SelectType=select/cons_tres
SchedulerType=sched/backfill
SchedulerParameters=batch_sched_delay=0,sched_interval=2
SlurmdTimeout=10
SlurmctldTimeout=10
MessageTimeout=10
KillWait=2
JobRequeue=1
MaxArraySize=${ARRAY:-1001}
ReturnToService=2
MailProg=/bin/true
AccountingStorageType=accounting_storage/none
JobAcctGatherType=jobacct_gather/none
END
    for number in $(seq "$1"); do
        echo "NodeName=n$number NodeHostname=$host NodeAddr=127.0.0.1 Port=$((port + number)) CPUs=1 State=UNKNOWN"
    done
    echo "PartitionName=all Nodes=n[1-$1] Default=YES MaxTime=INFINITE State=UP"
}

# The processor of a node: the nodes take the processors in turn. All that a node starts is bound to it too.
processor() {
    number=${1#n}
    # shellcheck disable=SC2046
    set -- ${CPUS:-$(seq 0 $(($(nproc) - 1)))}
    shift $(((number - 1) % $#))
    echo "$1"
}

start_node() {
    mkdir -p "$folder/spool.$1"
    taskset -c "$(processor "$1")" slurmd -f "$conf" -N "$1"
}

case $1 in
start)
    mkdir -p "$folder/state" "$folder/log" "$folder/munge"
    chmod 755 "$folder" "$folder/munge"
    [ -f "$folder/munge.key" ] || head -c 1024 /dev/urandom >"$folder/munge.key"
    chmod 600 "$folder/munge.key"
    munged --force --socket="$folder/munge/socket" --key-file="$folder/munge.key" --pid-file="$folder/munge.pid" \
        --log-file="$folder/log/munged" --seed-file="$folder/munge/seed"
    write_conf "$3" >"$conf"
    slurmctld -f "$conf"
    for number in $(seq "$3"); do start_node "n$number"; done
    echo "export SLURM_CONF=$conf" ;;
node)
    start_node "$3" ;;
stop)
    for file in "$folder"/n*.pid "$folder/slurmctld.pid" "$folder/munge.pid"; do
        [ -f "$file" ] && kill "$(cat "$file")" 2>/dev/null || true
    done ;;
*)
    echo "here.sh: start, node or stop" >&2
    exit 4 ;;
esac

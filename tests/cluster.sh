#!/usr/bin/env bash
# Runs examples/check-all.sbatch on a cluster of two nodes, which it sets up on this machine: munged, slurmctld and two slurmd, in
# a folder of their own and on ports of their own. By hand, with make test-cluster: it needs root, and Debian's packages
# slurm-wlm and munge. The last line is "N passed, M failed".
#
# LRAT_CHECK, DRAT_FORWARD and MODEL_CHECK name the programs; they are those in bin/ otherwise.
# shellcheck disable=SC2317 # functions that try and within call
set -uo pipefail
cd "$(dirname "$0")/.." || exit 1
root=$PWD

passed=0 failed=0
room=$(mktemp -d)
started=()

end() {
    # the last one that was started first: slurmd before slurmctld, and munged at the end
    for ((i = ${#started[@]} - 1; i >= 0; i--)); do
        kill "${started[i]}" && wait "${started[i]}"
    done 2> /dev/null
    rm -rf "$room"
    echo "$passed passed, $failed failed"
    [ "$failed" -eq 0 ]
    exit
}

# try NAME COMMAND..: the command ends with 0; what it writes, and what the daemons wrote, is shown otherwise
try() {
    local name=$1
    shift
    if "$@" > "$room/log" 2>&1; then
        passed=$((passed + 1))
    else
        echo "FAILED: $name:"
        tail -n 20 "$room/log" "$room"/*.err
        failed=$((failed + 1))
        return 1
    fi
}

# within SECONDS COMMAND..: waits until the command ends with 0
within() {
    local until=$((SECONDS + $1))
    shift
    until "$@"; do
        [ "$SECONDS" -lt "$until" ] || return 1
        sleep 0.5
    done
}

# daemon NAME COMMAND..: starts it
daemon() {
    "${@:2}" > "$room/$1.err" 2>&1 &
    started+=($!)
}

[ "$(id -u)" -eq 0 ] || { echo "FAILED: it needs root"; failed=1; end; }
for program in munged slurmctld slurmd sbatch; do
    command -v $program > /dev/null || { echo "FAILED: $program is not installed"; failed=1; end; }
done

mkdir "$room/bin" "$room/munge" "$room/state" "$room/node1" "$room/node2" "$room/runs"
for program in drat-forward lrat-check model-check; do
    variable=${program^^}
    variable=${variable//-/_}
    path=$(realpath -m "${!variable:-bin/$program}")
    [ -x "$path" ] || { echo "FAILED: there is no program $path"; failed=1; end; }
    ln -s "$path" "$room/bin/$program"
done
unset LRAT_CHECK DRAT_FORWARD MODEL_CHECK
export PATH=$room/bin:$root/examples:$PATH

# free: a port that nobody listens on
free() {
    python3 -c 'import socket; s = socket.socket(); s.bind(("127.0.0.1", 0)); print(s.getsockname()[1])'
}

# ---- The cluster

chmod 755 "$room"
dd if=/dev/urandom of="$room/munge/key" bs=128 count=1 2> /dev/null
chmod 700 "$room/munge"
chmod 600 "$room/munge/key"
export SLURM_CONF=$room/slurm.conf
cat > "$SLURM_CONF" <<CONF
ClusterName=two
SlurmctldHost=$(hostname -s)(127.0.0.1)
SlurmctldPort=$(free)
SlurmUser=root
SlurmdUser=root
AuthType=auth/munge
AuthInfo=socket=$room/munge/socket
CredType=cred/munge
StateSaveLocation=$room/state
SlurmdSpoolDir=$room/%n
SlurmctldPidFile=$room/slurmctld.pid
SlurmdPidFile=$room/%n.pid
ProctrackType=proctrack/linuxproc
TaskPlugin=task/none
JobAcctGatherType=jobacct_gather/none
SwitchType=switch/none
MpiDefault=none
SelectType=select/cons_tres
SelectTypeParameters=CR_CPU
ReturnToService=2
SlurmdParameters=config_overrides
SchedulerParameters=sched_min_interval=100000
NodeName=node1 NodeHostname=$(hostname -s) NodeAddr=127.0.0.1 Port=$(free) CPUs=2
NodeName=node2 NodeHostname=$(hostname -s) NodeAddr=127.0.0.1 Port=$(free) CPUs=2
PartitionName=all Nodes=ALL Default=YES MaxTime=INFINITE State=UP
CONF

daemon munged munged --foreground --force --socket="$room/munge/socket" --key-file="$room/munge/key" \
    --pid-file="$room/munge/pid" --log-file="$room/munge/log" --seed-file="$room/munge/seed"
try "munge answers" within 20 munge -n -S "$room/munge/socket" || end
daemon slurmctld slurmctld -D -i
try "slurmctld answers" within 30 scontrol ping || end
daemon node1 slurmd -D -N node1
daemon node2 slurmd -D -N node2
two_idle() { [ "$(sinfo -h -t idle -o %D)" = 2 ]; }
try "two nodes are idle" within 60 two_idle || { sinfo; end; }

# ---- A job array

for i in $(seq 30); do
    cp examples/e.cnf "$room/runs/drat$i.cnf"
    cp examples/e.drat "$room/runs/drat$i.drat"
    cp examples/e.cnf "$room/runs/lrat$i.cnf"
    cp examples/e.lrat "$room/runs/lrat$i.lrat"
done
cp examples/models.cnf "$room/runs/model.cnf"
cp examples/models.out "$room/runs/model.out"
cd "$room" || end

# the lines of check-all.sbatch, with as many processors for a task as a node has
mapfile -t lines < <(sed -n 's/^#     //p' "$root/examples/check-all.sbatch")
try "check-all.sbatch shows two lines" [ ${#lines[@]} -eq 2 ] || end
array=${lines[0]/ check-all.sbatch/ --array=1-7 --cpus-per-task=2 --exclusive $root/examples/check-all.sbatch}
merge=${lines[1]}

try "a job array" bash -c "$array" || end
merged() { bash -c "$merge" > "$room/table"; [ $? -eq "$1" ] && grep -q "^$2 verified, " "$room/table"; }
try "its verdicts are merged" merged 0 "61 of 61"
totals() { [ "$(cat check-all-[0-9].txt | grep -c ' verified, ')" -eq 7 ]; }
try "each task leaves its table" totals
nodes() { scontrol show jobs | grep -o ' NodeList=node[12]' | sort -u | wc -l; }
both_nodes() { [ "$(nodes)" -eq 2 ]; }
try "both nodes had tasks" both_nodes

# refused: one task fails, and the merge too
cp "$root/examples/g.cnf" runs/drat5.cnf
cp "$root/examples/neither_rup_nor_rat.drat" runs/drat5.drat
not() { ! "$@"; }
try "a job array with a refused proof" not bash -c "$array"
try "the merge finds it" merged 1 "60 of 61"

# a task that is lost: the array ends, and its verdicts are missing
rm runs/*.verdict
cp "$root/examples/e.cnf" runs/drat5.cnf
cp "$root/examples/e.drat" runs/drat5.drat
some=${array/1-7/1-6}
try "a job array of other shards" bash -c "$some"
rm runs/drat2.drat.verdict
try "the merge finds a lost verdict" merged 1 "60 of 61"
try "the same line again does the rest" bash -c "$array"
try "and the merge finds all" merged 0 "61 of 61"
end

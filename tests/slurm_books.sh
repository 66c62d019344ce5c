#!/usr/bin/env bash
# Runs examples/many-machines/collect.sbatch on a Slurm of one node that it starts here, as root, and compares what it opens with `reveal` of
# all records. It isn't part of the gate: it wants Debian's packages slurm-wlm and munge.
#
# usage: tests/slurm_books.sh [PROGRAM]
cd "$(dirname "$0")/.." || exit 1
program=$(realpath "${1:-crates/star_tool/out/star_tool}")
scratch=$(mktemp -d)
daemons=()
stop() {
    for daemon in "${daemons[@]}"; do
        kill "$daemon" 2>/dev/null
    done
    wait
    rm -rf "$scratch"
}
trap stop EXIT

host=$(hostname -s)
export SLURM_CONF=$scratch/slurm.conf
mkdir "$scratch/state" "$scratch/spool" "$scratch/munge" "$scratch/parts"
chmod 755 "$scratch" "$scratch/munge"
head -c 1024 /dev/urandom >"$scratch/munge/key"
chmod 400 "$scratch/munge/key"
cat >"$SLURM_CONF" <<CONF
ClusterName=star
SlurmctldHost=$host
SlurmUser=root
AuthType=auth/munge
AuthInfo=socket=$scratch/munge/socket
CryptoType=crypto/munge
ProctrackType=proctrack/linuxproc
TaskPlugin=task/none
MpiDefault=none
ReturnToService=2
SelectType=select/cons_tres
SelectTypeParameters=CR_Core
SlurmctldPort=26817
SlurmdPort=26818
SlurmctldPidFile=$scratch/slurmctld.pid
SlurmdPidFile=$scratch/slurmd.pid
SlurmctldLogFile=$scratch/slurmctld.log
SlurmdLogFile=$scratch/slurmd.log
StateSaveLocation=$scratch/state
SlurmdSpoolDir=$scratch/spool
NodeName=$host CPUs=$(nproc) RealMemory=4096 State=UNKNOWN
PartitionName=all Nodes=ALL Default=YES MaxTime=INFINITE State=UP
CONF
munged --force --foreground --key-file="$scratch/munge/key" --socket="$scratch/munge/socket" --pid-file="$scratch/munge/pid" \
    --seed-file="$scratch/munge/seed" --log-file="$scratch/munge/log" 2>"$scratch/munge/errors" &
daemons+=($!)
sleep 1
slurmctld -D -f "$SLURM_CONF" >"$scratch/slurmctld.out" 2>&1 &
daemons+=($!)
slurmd -D -f "$SLURM_CONF" >"$scratch/slurmd.out" 2>&1 &
daemons+=($!)
for _ in $(seq 30); do
    sinfo -h -o %T 2>/dev/null | grep -q idle && break
    sleep 1
done
if ! sinfo -h -o %T 2>/dev/null | grep -q idle; then
    echo "no Slurm starts here"
    tail -n 3 "$scratch"/slurmctld.out "$scratch"/slurmd.out "$scratch"/munge/errors
    exit 1
fi

for part in 1 2 3 4 5; do
    "$program" make --epoch 7 --thresholds 3,2 <examples/cities.csv >"$scratch/parts/$part.stream"
done
sbatch --wait --chdir="$scratch" --output="$scratch/job.out" --mem-per-cpu=500 --export=ALL,STAR_COLLECT="$PWD/examples/many-machines" \
    examples/many-machines/collect.sbatch "$program" 7 "$scratch/books" "$scratch"/parts/*.stream || tail -n 20 "$scratch/job.out"
cat "$scratch"/parts/*.stream | "$program" reveal --epoch 7 >"$scratch/wanted"
if cmp -s "$scratch/wanted" "$scratch/books/opened"; then
    echo "1 passed, 0 failed"
else
    echo "0 passed, 1 failed"
    exit 1
fi

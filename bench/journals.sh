#!/bin/sh
# Reads the report of UNITS units of a sum and a branch back, and writes it again, RUNS times (5): milliseconds a run of
# journal_dump, which counts what it reads, or prints it. It wants the programs that `rt ci` left in crates/wfpatch/out
# and crates/journal_dump/out. Run it at the top of the repository: bench/journals.sh UNITS [RUNS]
set -eu
units=$1
runs=${2:-5}
wfpatch=$PWD/crates/wfpatch/out/wfpatch
dump=$PWD/crates/journal_dump/out/journal_dump
folder=$(mktemp -d)
trap 'rm -rf "$folder"' EXIT
cd "$folder"
printf 'again: addi x1, x1, 1\nbne x1, x0, again\nnop\n' >prog.s
"$wfpatch" asm prog.s >prog.elf
printf 'step h0 %s\n' "$units" >steps.txt
"$wfpatch" run prog.elf steps.txt >journal
for what in count print; do
    "$dump" $what journal >out
    start=$(date +%s%N)
    i=0
    while [ "$i" -lt "$runs" ]; do
        "$dump" $what journal >out
        i=$((i + 1))
    done
    end=$(date +%s%N)
    echo "$what, $(grep -c ^h journal) entries, $(wc -c <journal) bytes: $(((end - start) / runs / 1000000)) milliseconds a run over $runs runs"
    if [ $what = print ]; then cmp out journal; fi
done

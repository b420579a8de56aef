#!/bin/sh
# Assembles a source of LINES lines, of which every fifth defines a label that a branch, a call and a word name, RUNS
# times (5): milliseconds a run, the bytes of source and file, and the peak of memory. It wants the program that
# `rt ci` left in crates/wfpatch/out, and GNU time. Run it at the top of the repository: bench/assembling.sh LINES [RUNS]
set -eu
lines=$1
runs=${2:-5}
program=$PWD/crates/wfpatch/out/wfpatch
folder=$(mktemp -d)
trap 'rm -rf "$folder"' EXIT
cd "$folder"
awk -v count="$((lines / 5))" 'BEGIN {
    for (i = 0; i < count; i++) {
        printf "label_%d: addi x5, x5, %d\n", i, i % 2048
        printf "        ld x6, %d(x2)      # a comment\n", i % 256 * 8
        printf "        bne x5, x6, label_%d\n", i
        printf "        call label_%d\n", (i * 7919) % count
        printf "        .word label_%d+%d\n", (i * 104729) % count, i
    }
}' >prog.s
"$program" asm prog.s >prog.elf
start=$(date +%s%N)
i=0
while [ "$i" -lt "$runs" ]; do
    "$program" asm prog.s >prog.elf
    i=$((i + 1))
done
end=$(date +%s%N)
peak=$(/usr/bin/time -f %M "$program" asm prog.s 2>&1 >prog.elf)
echo "$(wc -l <prog.s) lines, $(wc -c <prog.s) bytes: $(((end - start) / runs / 1000000)) milliseconds a run over $runs runs, file $(wc -c <prog.elf) bytes, peak $peak KiB"

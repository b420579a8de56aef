#!/bin/sh
# How long a run and the check of its report take: bench/checks.sh UNITS, at the top of the repository, after `rt ci`.
# The program is a sum and a branch back, without end, so each unit is an instruction with its two entries.
set -eu
units=$1
program=$PWD/crates/wfpatch/out/wfpatch
folder=$(mktemp -d)
trap 'rm -rf "$folder"' EXIT
cd "$folder"
printf '_start: addi x5, x5, 1\n        jal x0, _start\n' > loop.s
"$program" asm loop.s > loop.elf
printf 'step h0 %s\n' "$units" > steps.txt
echo "run:"
time -p "$program" run loop.elf steps.txt > report.txt
echo "check:"
time -p "$program" check loop.elf report.txt

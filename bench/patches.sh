#!/bin/sh
# Patches: microseconds of a run and its peak of memory, for
# functions N     one patch of N functions (1,000), on an image that has them all;
# pages N P       P patches (64), each of one function, on an image with N pages (900) of text;
# units N P       N units (999,936) of a sum and a branch back behind P patches (64), and the same without a patch.
# It wants the program that `rt ci` left in crates/wfpatch/out, which assembles them, and GNU time. Run it at the top of
# the repository: bench/patches.sh functions 1000; bench/patches.sh pages 900 64; bench/patches.sh units 999936 64
set -eu
what=$1
count=$2
patches=${3:-64}
program=$PWD/crates/wfpatch/out/wfpatch
folder=$(mktemp -d)
trap 'rm -rf "$folder"' EXIT
cd "$folder"

# the functions PREFIX0, PREFIX1 and so on, so many
functions() {
    i=0
    while [ "$i" -lt "$2" ]; do
        printf '        .globl %s%s\n%s%s:     addi a0, a0, 1\n        ret\n        .size %s%s\n' "$1" $i "$1" $i "$1" $i
        i=$((i + 1))
    done
}

# patch J: of function fJ alone
one_patch() {
    functions g "$(($1 + 1))" | tail -n 4 >"p$1.s"
    "$program" asm "p$1.s" --object >"p$1.o"
    printf 'wfpatch 1\nobject p%s.o\nreplace f%s g%s\n' "$1" "$1" "$1" >"p$1"
}

some_patches() {
    j=0
    while [ "$j" -lt "$patches" ]; do
        one_patch $j
        printf 'patch p%s\n' $j
        j=$((j + 1))
    done
}

loop='_start: addi x1, x1, 1\n        bne x1, x0, _start\n        nop\n'

measure() {
    start=$(date +%s%N)
    i=0
    while [ "$i" -lt 10 ]; do
        "$program" run prog.elf "$2" --frames 65536 >report
        i=$((i + 1))
    done
    end=$(date +%s%N)
    peak=$(/usr/bin/time -f %M "$program" run prog.elf "$2" --frames 65536 2>&1 >report)
    echo "$1: $(((end - start) / 10000)) microseconds a run over 10 runs, peak $peak KiB, report $(wc -c <report) bytes, $(grep -c '^k born' report || true) generations born"
}

case $what in
functions)
    { printf "$loop"; functions f "$count"; } >prog.s
    functions g "$count" >p.s
    "$program" asm p.s --object >p.o
    {
        printf 'wfpatch 1\nobject p.o\n'
        i=0
        while [ "$i" -lt "$count" ]; do
            printf 'replace f%s g%s\n' $i $i
            i=$((i + 1))
        done
    } >p
    "$program" asm prog.s >prog.elf
    printf 'run 1\n' >none.txt
    printf 'patch p\nrun 1\n' >steps.txt
    measure "no patch, an image of $count functions" none.txt
    measure "a patch of $count functions" steps.txt
    ;;
pages)
    { printf "$loop"; functions f "$patches"; printf '        .zero %s\n' $((4096 * (count - 1))); } >prog.s
    "$program" asm prog.s >prog.elf
    some_patches >steps.txt
    printf 'run 1\n' >none.txt
    measure "no patch, $count pages" none.txt
    measure "$patches patches, $count pages" steps.txt
    ;;
units)
    { printf "$loop"; functions f "$patches"; } >prog.s
    "$program" asm prog.s >prog.elf
    some_patches >steps.txt
    echo "run $count" >>steps.txt
    echo "run $count" >none.txt
    measure "$count units, no patch" none.txt
    measure "$count units behind $patches patches" steps.txt
    ;;
*)
    echo "nothing of the name $what" >&2
    exit 1
    ;;
esac

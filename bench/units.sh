#!/bin/sh
# A program for UNITS units, RUNS times (20): microseconds a run, the report's bytes, and the peak of memory.
# NAME is idle, a program that exits after three instructions, of whose units all but three are idle; loop, a sum and a
# branch back, without end; memory, a store on the stack, a load of it, a sum and a jump back, without end;
# atomic, a load-reserved, a store-conditional and an atomic sum on the stack, and a jump back, without end; or
# pages10 and pages900, a store and a load in each of so many pages of .bss, one after another, without end.
# HARTS harts (1) take turns, all on the same program: with 1 hart the script is `step h0 UNITS`, else `run UNITS`.
# It wants the program that `rt ci` left in crates/wfpatch/out, which assembles them, and GNU time. Run it at the top
# of the repository: bench/units.sh NAME UNITS [RUNS [HARTS]]
set -eu
name=$1
units=$2
runs=${3:-20}
harts=${4:-1}
program=$PWD/crates/wfpatch/out/wfpatch
folder=$(mktemp -d)
trap 'rm -rf "$folder"' EXIT
cd "$folder"

pages() {
    cat <<END
_start: la x9, area
        lui x13, 1
again:  mv x11, x9
        li x12, $1
next:   sd x5, 0(x11)
        ld x6, 0(x11)
        addi x5, x5, 1
        add x11, x11, x13
        addi x12, x12, -1
        bne x12, x0, next
        j again
        .bss
area:   .zero $((4096 * $1))
END
}

case $name in
idle) printf 'li a7, 0\nli a0, 7\necall\n' ;;
loop) printf 'again: addi x1, x1, 1\nbne x1, x0, again\nnop\n' ;;
memory) printf 'again: sd x5, -8(x2)\nld x6, -8(x2)\naddi x5, x5, 1\nj again\n' ;;
atomic) printf 'addi x9, x2, -8\nagain: lr.d x6, (x9)\nsc.d x7, x5, (x9)\namoadd.d x8, x5, (x9)\nj again\n' ;;
pages10) pages 10 ;;
pages900) pages 900 ;;
*)
    echo "no program $name" >&2
    exit 1
    ;;
esac >prog.s
"$program" asm prog.s >prog.elf
if [ "$harts" = 1 ]; then
    printf 'step h0 %s\n' "$units"
else
    printf 'run %s\n' "$units"
fi >steps.txt
run() {
    "$@" "$program" run prog.elf steps.txt --harts "$harts" --frames 4096
}
run >report
start=$(date +%s%N)
i=0
while [ "$i" -lt "$runs" ]; do
    run >report
    i=$((i + 1))
done
end=$(date +%s%N)
peak=$(run /usr/bin/time -f %M 2>&1 >report)
echo "$name, harts $harts, units $units: $(((end - start) / runs / 1000)) microseconds a run over $runs runs, report $(wc -c <report) bytes, peak $peak KiB"

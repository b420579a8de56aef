#!/bin/sh
# Builds the examples that are written in C by each C compiler for RISC-V that is installed, at three levels, and runs
# what was built: a program of one hart, a server of two harts with a patch, and the same with a second patch over the
# first. Compared are the bytes that were put, how each run ended, and what `check` answers; addresses and units differ
# from compiler to compiler. Run it after `rt ci`, which builds `wfpatch`. It is no part of the gate, and does nothing
# where no compiler is installed.
#
# Another program or compiler by the environment: WFPATCH, CLANG, GCC.
set -eu

here=$(cd "$(dirname "$0")/.." && pwd)
program=${WFPATCH:-$here/crates/wfpatch/out/wfpatch}
CLANG=${CLANG:-clang}
GCC=${GCC:-riscv64-unknown-elf-gcc}
if [ ! -x "$program" ]; then
    echo "skipped: $program is not built"
    exit 0
fi
work=$(mktemp -d)
trap 'rm -rf "$work"' EXIT
cd "$work"
cp "$here"/examples/server/*.patch .
failed=0
flags='-march=rv64ima -mabi=lp64 -mno-relax -fno-pic -fno-common -fno-asynchronous-unwind-tables -ffreestanding'

# The patches come before any hart has called grade, and a hart moves when it quiesces behind an answer: so the first answer
# of each hart is the old grade's, for 95 and for 80, and the others are the new one's, for 90, 80 and 71.
answers='41 41 42 43 43'
cat >once.txt <<'END'
run 4
patch fix.patch
run 1000
delete 0
END
cat >twice.txt <<'END'
run 4
patch fix.patch
patch count.patch
run 1000
delete 1
delete 0
END
echo 'run 1000' >alone.txt

# complain WORDS
complain() {
    echo "$*"
    failed=1
}

# expect WHAT IMAGE SCRIPT HARTS BYTES ENDING: runs, and compares the bytes (of several harts sorted) and how each hart ended
expect() {
    "$program" run "$2" "$3" --harts "$4" >report || { complain "$1: refused"; return 0; }
    if [ "$4" = 1 ]; then order=cat; else order=sort; fi
    bytes=$(awk '$2 == "out" { print $3 }' report | $order | paste -sd ' ' -)
    [ "$bytes" = "$5" ] || complain "$1: put $bytes"
    if sed -n 's/^= hart [0-9]* \(gen [0-9]*\) pc [0-9a-f]* /\1 /p' report | grep -vqx "$6"; then
        complain "$1: $(grep '^= hart' report)"
    fi
    answer=$("$program" check "$2" report 2>&1) || true
    [ "$answer" = "ok $(grep -cE '^(h[0-9]+|k) ' report)" ] || complain "$1: check answers $answer"
}

# try NAME LINKING COMPILER: at each level, with these words more where it links
try() {
    for level in O1 O2 Os; do
        link="$flags -$level -nostdlib -static $2 -Wl,-n -T $here/tools/image.ld"
        $3 $link -o hello.elf "$here/examples/hello/hello.c"
        $3 $link -o server.elf "$here/examples/server/server.c" "$here/examples/server/grade.c"
        $3 $flags "-$level" -c -o fix.o "$here/examples/server/fix.c"
        $3 $flags "-$level" -c -o count.o "$here/examples/server/count.c"
        expect "$1 -$level, hello" hello.elf alone.txt 1 '68 65 6c 6c 6f 2c 20 77 6f 72 6c 64 0a' 'gen 0 exit 13'
        expect "$1 -$level, a patch" server.elf once.txt 2 "$answers" 'gen 1 exit [1-4]'
        expect "$1 -$level, two patches" server.elf twice.txt 2 "$answers" 'gen 2 exit [1-4]'
    done
    echo "$1: tried"
}

if command -v "${CLANG%% *}" >/dev/null 2>&1 && command -v ld.lld >/dev/null 2>&1; then
    try clang -fuse-ld=lld "$CLANG --target=riscv64"
else
    echo "skipped: ${CLANG%% *} and ld.lld are not installed"
fi
if command -v "${GCC%% *}" >/dev/null 2>&1; then
    try gcc '' "$GCC"
else
    echo "skipped: ${GCC%% *} is not installed"
fi
exit "$failed"

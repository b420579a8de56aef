#!/bin/sh
# Compiles a few sources to relocatable files, gives each section that is loaded a place, and compares what
# `link_dump` says are its bytes there with those that lld writes of the same file by a linker script with the
# same places. Run it after `rt ci`, which builds `link_dump`. It is no part of the gate, and does nothing
# where the tools aren't installed.
#
# No source calls an undefined weak name: lld writes such a call as one to itself, and `link_dump` as one to
# address 0.
#
# Other tools by the environment: CLANG, LLD, NM, OBJCOPY, READELF; and GCC, whose objects are tried too where
# it is there.
set -eu

here=$(cd "$(dirname "$0")" && pwd)
dump=${LINK_DUMP:-$here/../crates/link_dump/out/link_dump}
CLANG=${CLANG:-clang}
LLD=${LLD:-ld.lld}
NM=${NM:-llvm-nm}
OBJCOPY=${OBJCOPY:-llvm-objcopy}
READELF=${READELF:-llvm-readelf}
GCC=${GCC:-riscv64-unknown-elf-gcc}

for tool in "${CLANG%% *}" "${LLD%% *}" "${NM%% *}" "${OBJCOPY%% *}" "${READELF%% *}" awk od; do
    if ! command -v "$tool" >/dev/null 2>&1; then
        echo "skipped: $tool is not installed"
        exit 0
    fi
done
if [ ! -x "$dump" ]; then
    echo "skipped: $dump is not built"
    exit 0
fi

work=$(mktemp -d)
trap 'rm -rf "$work"' EXIT
cd "$work"

cat >calls.c <<'END'
extern int far_away(const char *, long);
extern long counters[];
static long zeros[100];
long filled[4] = {1, 2, 3, 4};
long *place = &filled[2];
static const char *const words[] = {"one", "two", "three"};
static int twice(int n) { return n * 2; }
static int thrice(int n) { return n * 3; }
int (*const table[])(int) = {twice, thrice, twice};
int choose(int n) {
    switch (n) {
    case 0: return far_away("zero", 1);
    case 1: return far_away("one", counters[3]);
    case 2: return far_away(words[n], zeros[n]);
    case 3: return table[n % 3](n);
    case 4: return (int)(zeros[5]++ + *place);
    case 5: return (int)(filled[1] += n);
    case 6: return far_away("six", 6) + 1;
    default: return twice(n);
    }
}
long loop(long n) {
    long sum = 0;
    for (long i = 0; i < n; i++) {
        if (i % 7 == 3) continue;
        sum += choose((int)i) + zeros[i % 100];
        zeros[i % 100] = sum;
    }
    return sum;
}
END

# the types that compilers write seldom, and labels in other sections and behind
cat >types.s <<'END'
    .text
    .globl first
first:
    beq a0, a1, last
    bnez a0, first
    j last
    jal ra, first
    call far_away
    tail last
1:  auipc a0, %pcrel_hi(counters + 24)
2:  auipc a1, %pcrel_hi(data_here)
    ld a2, %pcrel_lo(1b)(a0)
    sd a3, %pcrel_lo(2b)(a1)
    addi a4, a0, %pcrel_lo(1b)
    lui a5, %hi(data_here + 0x7FF)
    ld a6, %lo(data_here + 0x7FF)(a5)
    sb a7, %lo(data_here - 0x801)(a5)
    lui t0, %hi(counters)
    addi t0, t0, %lo(counters)
    la t1, last
    lla t2, data_end
last:
    ret
    .data
    .globl data_here
data_here:
    .dword first, last + 4, data_end - data_here, far_away - 16
    .word data_end - data_here, first, last - first
    .half data_end - data_here, 7
    .byte data_end - data_here, last - first
    .zero 2
data_end:
    .section .rodata
    .dword data_here, first
    .word last - first
    .section .text.other, "ax"
other:
    call first
    beqz a0, other
    auipc a0, %pcrel_hi(other)
    lw a1, %pcrel_lo(other_label)(a0)
other_label:
    auipc a0, %pcrel_hi(data_end)
    ret
END

# what the objects do not define, far below and far above them
cat >names.s <<'END'
    .text
    .globl far_away, counters, memset, memcpy
far_away:
    ret
memset:
    ret
memcpy:
    ret
    .section .far, "aw"
counters:
    .zero 4096
END
target="--target=riscv64 -march=rv64ima -mabi=lp64 -mno-relax"
$CLANG $target -c -o names.o names.s
echo 'SECTIONS { .text 0x10000 : { *(.text) } .far 0x7F000000 : { *(.far) } }' >names.ld
$LLD --no-relax -T names.ld -e far_away -o names names.o
$NM names | awk '$2 ~ /[A-Z]/ { printf "--defsym %s=0x%s\n", $3, $1 }' >names.defs

# NUMBER NAME SIZE TYPE of each section that is loaded
sections() {
    $READELF -SW "$1" | sed -n 's/^ *\[ *\([0-9]*\)\] \(.*\)$/\1 \2/p' | awk '
        NF >= 11 && $8 ~ /A/ { size = $6; gsub(/^0+/, "", size); if (size != "") print $1, $2, size, $3 }'
}

# one line a section: its number, and its bytes at its place
compare() {
    sections "$1.o" >"$1.sections"
    awk '
        BEGIN { at = 1048576; print "SECTIONS {" }
        { printf "  .out%d 0x%x : { *(%s) }\n", $1, at, $2; at += 262144 }
        END { print "  /DISCARD/ : { *(.comment) *(.note*) *(.riscv.attributes) } }" }' "$1.sections" >"$1.ld"
    awk 'BEGIN { at = 1048576 } { printf "%d=%x\n", $1, at; at += 262144 }' "$1.sections" >"$1.places"
    $LLD -O0 --no-relax -T "$1.ld" -e 0x100000 $(cat names.defs) -o "$1.linked" "$1.o"
    "$dump" "$1.o" names $(cat "$1.places") >"$1.ours"
    while read -r number name size type; do
        if [ "$type" = NOBITS ]; then
            grep "^$number " "$1.ours"
            continue
        fi
        $OBJCOPY -O binary --only-section=".out$number" "$1.linked" "$1.bytes"
        echo "$number $(od -An -v -tx1 "$1.bytes" | tr -d ' \n')"
    done <"$1.sections" >"$1.theirs"
    if ! cmp -s "$1.ours" "$1.theirs"; then
        echo "$1: not the same"
        diff "$1.ours" "$1.theirs" | cut -c1-200 | head -20
        exit 1
    fi
    entries=$($READELF -rW "$1.o" | grep -c R_RISCV_)
    echo "$1: the same, $(wc -l <"$1.sections") sections, $entries entries"
}

for level in O0 O2 Os; do
    for model in medlow medany; do
        name=calls_${level}_$model
        $CLANG $target -mcmodel=$model -$level -ffreestanding -fno-pic -c -o "$name.o" calls.c
        compare "$name"
    done
done
$CLANG $target -O2 -ffreestanding -fno-pic -ffunction-sections -fdata-sections -c -o calls_apart.o calls.c
compare calls_apart
$CLANG $target -O2 -ffreestanding -fno-pic -fasynchronous-unwind-tables -c -o calls_unwind.o calls.c
# under this name lld leaves the records of frames as they stand
$OBJCOPY --rename-section .eh_frame=.frames calls_unwind.o
compare calls_unwind
$CLANG $target -c -o types.o types.s
compare types

if command -v "${GCC%% *}" >/dev/null 2>&1; then
    for level in O0 O2 Os; do
        name=gcc_$level
        $GCC -march=rv64ima -mabi=lp64 -mno-relax -mcmodel=medany -$level -ffreestanding -fno-pic -c -o "$name.o" calls.c
        compare "$name"
    done
else
    echo "skipped: ${GCC%% *} is not installed"
fi

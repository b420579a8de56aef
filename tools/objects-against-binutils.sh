#!/bin/sh
# Hands objects that `wfpatch asm SOURCE --object` puts to other tools. readelf and objdump read
# them; ld and lld link them, with -r and whole with --no-relax; and none of these may say a word of
# warning. A whole link with the sections where `wfpatch asm SOURCE` has them must have that file's
# bytes in .text, .rodata and .data, and its global symbols. Run it after `rt ci`, which builds
# `wfpatch`. It is no part of the gate; tools that aren't installed are skipped.
set -eu

here=$(cd "$(dirname "$0")/.." && pwd)
program=${WFPATCH:-$here/crates/wfpatch/out/wfpatch}
if [ ! -x "$program" ]; then
    echo "skipped: $program is not built"
    exit 0
fi

work=$(mktemp -d)
trap 'rm -rf "$work"' EXIT
cd "$work"

# every type of relocation that the assembler writes, to names of its own and of another file
cat >every.s <<'SOURCE'
        .globl _start
        .globl table
        .globl counter
        .globl room
_start: addi sp, sp, -16
        beq a0, a1, near        # in its section: no relocation
        bne a0, a1, away
        bltu a2, a3, table
        jal ra, away
        j words
near:   la a0, table
        la a1, near
        la a2, .Lp1             # a name like those of the labels at each la
        la a3, far
        call away
        call _start
        call near
        j near
        .size _start
.Lp1:   ret
        .align 3
        .rodata
table:  .dword _start+8
        .dword away-16
        .word table
        .word room+20
words:  .ascii "bytes"
        .align 3
        .data
        .dword table-4096
counter: .word near
        .word far+2047
        .dword far+-9
        .hex 00ff7f
        .align 3
        .bss
room:   .zero 24
SOURCE

# the other file
cat >other.s <<'SOURCE'
        .text
        .globl away
        .globl far
away:   la t0, counter
        lw t1, 0(t0)
        la t2, room
        j _start
        .size away
        .align 3
        .rodata
        .dword table+8
        .data
far:    .dword away
        .dword counter-4
        .bss
        .zero 8
SOURCE

cp "$here/tools/common.s" common.s
cp "$here/examples/letter/letter.s" letter.s
: >empty.s
printf '.data\n.dword nowhere\n' >undefined.s
cat every.s other.s >pair.s
for name in every other common letter empty undefined; do
    "$program" asm "$name.s" --object >"$name.o"
done
for name in pair common letter; do
    "$program" asm "$name.s" >"$name.ours"
done

# where the assembler's executables have their sections
cat >pages.ld <<'SCRIPT'
ENTRY(_start)
SECTIONS {
    . = 0x10000;
    .text : { *(.text) }
    . = ALIGN(4096);
    .rodata : { *(.rodata) }
    . = ALIGN(4096);
    .data : { *(.data) }
    . = ALIGN(8);
    .bss : { *(.bss) }
}
SCRIPT

# NAME..: those of these tools that are installed
installed() {
    for name in "$@"; do
        if command -v "$name" >/dev/null 2>&1; then
            echo "$name"
        else
            echo "skipped: $name is not installed" >&2
        fi
    done
}

# WHAT FILE COMMAND..: the command must succeed and complain of nothing; its output is FILE
silent() {
    what=$1 out=$2
    shift 2
    if ! "$@" >"$out" 2>complaints || [ -s complaints ] || grep -i 'warning\|error' "$out"; then
        echo "$what complains:" >&2
        cat complaints >&2
        exit 1
    fi
}

# READER: reads each object, and counts the entries
reads() {
    for file in *.o; do
        silent "$1 of $file" out "$1" -a -W "$file"
        "$1" -r -W "$file"
    done >all.read
    echo "$1: $(set -- ./*.o && echo $#) objects read, $(grep -c R_RISCV_ all.read) entries"
}

# OBJDUMP: disassembles each object, with its relocations
disassembles() {
    for file in *.o; do
        silent "$1 of $file" out "$1" -d -r "$file"
    done
    echo "$1: disassembled"
}

# the global symbols of an executable, with their addresses
globals() {
    "$reader" -s -W "$1" | awk '$5 == "GLOBAL" { print $2, $8 }' | sort
}

# LINKER NAME OBJECT..: a whole link of the objects is the assembler's executable of this name
links() {
    linker=$1 name=$2
    shift 2
    silent "$linker of $name" out \
        "$linker" --no-relax --fatal-warnings -T pages.ld -o "$name.theirs" "$@"
    for section in .text .rodata .data; do
        for side in ours theirs; do
            rm -f "$side$section"
            "$copier" -O binary --only-section=$section "$name.$side" "$side$section"
        done
        if ! cmp "ours$section" "theirs$section"; then
            echo "$linker of $name: $section differs" >&2
            exit 1
        fi
    done
    globals "$name.ours" >ours.globals
    globals "$name.theirs" >theirs.globals
    if ! [ -s ours.text ] || ! [ -s ours.globals ] || ! cmp ours.globals theirs.globals; then
        echo "$linker of $name: other global symbols, or nothing to compare" >&2
        exit 1
    fi
}

# LINKER: links each object by itself, to another object, and what is whole to an executable
tries() {
    for name in every other common letter empty undefined; do
        silent "$1 -r of $name" out "$1" -r --fatal-warnings -o "$name.r.o" "$name.o"
    done
    silent "$1 -r of two" out "$1" -r --fatal-warnings -o two.r.o every.o other.o
    links "$1" pair every.o other.o
    links "$1" pair two.r.o
    links "$1" common common.o
    links "$1" letter letter.o
    echo "$1: linked, to the bytes and the global symbols of the assembler's executables"
}

unknown=riscv64-unknown-elf linux=riscv64-linux-gnu
readers=$(installed readelf llvm-readelf $unknown-readelf $linux-readelf)
dumpers=$(installed llvm-objdump $unknown-objdump $linux-objdump)
linkers=$(installed ld.lld $unknown-ld $linux-ld)
copiers=$(installed llvm-objcopy $unknown-objcopy $linux-objcopy)
reader=${readers%%[!a-z0-9-]*} copier=${copiers%%[!a-z0-9-]*}

for tool in $readers; do
    reads "$tool"
done
for tool in $dumpers; do
    disassembles "$tool"
done
if [ -z "$reader" ] || [ -z "$copier" ]; then
    echo "skipped: no link can be compared"
    exit 0
fi
for linker in $linkers; do
    tries "$linker"
    for tool in $readers; do
        reads "$tool"
    done
done

#!/bin/sh
# Compares what `wfpatch asm` makes of tools/common.s with what another assembler and linker for RISC-V make of it: the
# bytes of .text, .rodata and .data, with every address in them. And looks at each written file with readelf and
# objdump, which must have nothing to complain of. Run it after `rt ci`, which builds `wfpatch`. It is no part of the
# gate, and does nothing where the tools are missing.
set -eu

here=$(cd "$(dirname "$0")/.." && pwd)
program=${WFPATCH:-$here/crates/wfpatch/out/wfpatch}
if [ ! -x "$program" ]; then
    echo "skipped: $program is not built"
    exit 0
fi
if command -v riscv64-unknown-elf-as >/dev/null 2>&1; then
    assemble='riscv64-unknown-elf-as -march=rv64ima_zifencei -mabi=lp64 -mno-relax'
    link='riscv64-unknown-elf-ld --no-relax'
    copy=riscv64-unknown-elf-objcopy
    read=riscv64-unknown-elf-readelf
    dump=riscv64-unknown-elf-objdump
elif command -v clang >/dev/null 2>&1 && command -v ld.lld >/dev/null 2>&1 && command -v llvm-objcopy >/dev/null 2>&1; then
    assemble='clang --target=riscv64 -march=rv64ima -mabi=lp64 -mno-relax -c'
    link='ld.lld --no-relax'
    copy=llvm-objcopy
    read=llvm-readelf
    dump=llvm-objdump
else
    echo "skipped: neither riscv64-unknown-elf-as nor clang with lld and llvm-objcopy is installed"
    exit 0
fi

work=$(mktemp -d)
trap 'rm -rf "$work"' EXIT

# where this assembler's sections stand: each at the first page behind the one before, and .bss at a multiple of 8
cat >"$work/pages.ld" <<'END'
ENTRY(_start)
SECTIONS {
    . = 0x10000;
    .text : { *(.text) }
    . = ALIGN(4096);
    .rodata : { *(.rodata) }
    . = ALIGN(4096);
    .data : { *(.data) }
    . = ALIGN(8);
    .bss : { *(.bss) }
    /DISCARD/ : { *(.riscv.attributes) *(.comment) }
}
END

# The other assembler reads a section's directive, and nothing else, in another spelling.
sed 's/^ *\.rodata$/        .section .rodata/' "$here/tools/common.s" >"$work/other.s"
"$program" asm "$here/tools/common.s" >"$work/ours.elf"
# shellcheck disable=SC2086
$assemble -o "$work/other.o" "$work/other.s"
# shellcheck disable=SC2086
$link -T "$work/pages.ld" -o "$work/other.elf" "$work/other.o"
for section in .text .rodata .data; do
    for file in ours other; do
        "$copy" -O binary --only-section=$section "$work/$file.elf" "$work/$file$section"
    done
    if ! [ -s "$work/ours$section" ] || ! cmp "$work/ours$section" "$work/other$section"; then
        echo "$section differs"
        exit 1
    fi
    echo "$section: $(wc -c <"$work/ours$section") bytes, as the other assembler's"
done

"$program" asm "$here/examples/letter/letter.s" >"$work/letter.elf"
for file in ours letter; do
    "$read" -a "$work/$file.elf" >"$work/$file.read" 2>"$work/complaints"
    "$dump" -d "$work/$file.elf" >"$work/$file.dump" 2>>"$work/complaints"
    if command -v readelf >/dev/null 2>&1; then
        readelf -a "$work/$file.elf" >>"$work/$file.read" 2>>"$work/complaints"
    fi
    if [ -s "$work/complaints" ] || grep -i 'warning\|error' "$work/$file.read"; then
        cat "$work/complaints"
        exit 1
    fi
done
echo "read without a complaint"

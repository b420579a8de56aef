#!/bin/sh
# Relocates objects with N entries for one section, half of them R_RISCV_PCREL_LO12_I with as many
# R_RISCV_PCREL_HI20, each pair with a label of its own, against an image with N / 2 names, each of which is
# named once: for N of 25,000, 50,000, 100,000 and 200,000. It wants the program that `rt ci` left in
# crates/link_dump/out, and GNU time. Run it at the top of the repository.
set -eu
dump=$PWD/crates/link_dump/out/link_dump
folder=$(mktemp -d)
trap 'rm -rf "$folder"' EXIT
cd "$folder"

# a program in awk that writes numbers of so many bytes, lowest first, and names
common='
    function le(n, k) { while (k-- > 0) { printf "%c", n % 256; n = int(n / 256) } }
    function header(type, flags, at, size, link, info, entry) {
        le(0, 4); le(type, 4); le(flags, 8); le(0, 8); le(at, 8); le(size, 8); le(link, 4); le(info, 4); le(1, 8); le(entry, 8)
    }
    function ident(type, entry, phoff, shoff, phnum, shnum) {
        printf "%cELF", 127; le(2, 1); le(1, 1); le(1, 1); le(0, 9)
        le(type, 2); le(243, 2); le(1, 4); le(entry, 8); le(phoff, 8); le(shoff, 8); le(0, 4); le(64, 2); le(56, 2)
        le(phnum, 2); le(64, 2); le(shnum, 2); le(0, 2)
    }
    function symbol(name, info, section, value) { le(name, 4); le(info, 1); le(0, 1); le(section, 2); le(value, 8); le(0, 8) }
'

# an image with so many names, n0000000 and so on, of eight bytes each with their zero byte behind
image() {
    LC_ALL=C awk -v count="$1" "$common"'
        BEGIN {
            text = 4096; symtab = text + 4096; strtab = symtab + 24 * (count + 1); size = 1 + 9 * count
            ident(2, 65536, 64, strtab + size, 1, 4)
            le(1, 4); le(5, 4); le(text, 8); le(65536, 8); le(65536, 8); le(4096, 8); le(4096, 8); le(4096, 8)
            le(0, text - 120); le(0, 4096)
            symbol(0, 0, 0, 0)
            for (i = 0; i < count; i++) symbol(1 + 9 * i, 16, 65521, 65536 + 8 * (i % 512))
            le(0, 1)
            for (i = 0; i < count; i++) printf "n%07d%c", i, 0
            header(0, 0, 0, 0, 0, 0, 0); header(1, 6, text, 4096, 0, 0, 0)
            header(2, 0, symtab, 24 * (count + 1), 3, 1, 24); header(3, 0, strtab, size, 0, 0, 0)
        }'
}

# an object with so many pairs
object() {
    LC_ALL=C awk -v count="$1" "$common"'
        BEGIN {
            text = 64; symtab = text + 8 * count; strtab = symtab + 24 * (2 * count + 1); size = 1 + 9 * count
            rela = strtab + size
            ident(1, 0, 0, rela + 48 * count, 0, 5)
            for (i = 0; i < count; i++) { le(1303, 4); le(329491, 4) }
            symbol(0, 0, 0, 0)
            for (i = 0; i < count; i++) symbol(0, 0, 1, 8 * i)
            for (i = 0; i < count; i++) symbol(1 + 9 * i, 16, 0, 0)
            le(0, 1)
            for (i = 0; i < count; i++) printf "n%07d%c", i, 0
            # the entries that take their values first, from the last on
            for (i = count - 1; i >= 0; i--) { le(8 * i + 4, 8); le(24, 4); le(1 + i, 4); le(0, 8) }
            for (i = 0; i < count; i++) { le(8 * i, 8); le(23, 4); le(1 + count + i, 4); le(0, 8) }
            header(0, 0, 0, 0, 0, 0, 0); header(1, 6, text, 8 * count, 0, 0, 0)
            header(2, 0, symtab, 24 * (2 * count + 1), 3, count + 1, 24); header(3, 0, strtab, size, 0, 0, 0)
            header(4, 64, rela, 48 * count, 2, 1, 24)
        }'
}

for entries in 25000 50000 100000 200000; do
    image $((entries / 2)) >image.elf
    object $((entries / 2)) >object.o
    "$dump" object.o image.elf 1=100000 >out
    if grep -q group out; then
        echo "refused: $(cut -c1-80 out)"
        exit 1
    fi
    start=$(date +%s%N)
    for run in 1 2 3 4 5; do
        "$dump" object.o image.elf 1=100000 >out
    done
    end=$(date +%s%N)
    peak=$({ /usr/bin/time -f %M "$dump" object.o image.elf 1=100000 2>&1 >out || true; } | tail -n 1)
    echo "$entries entries: $(((end - start) / 5000000)) milliseconds a run over 5 runs, peak $peak KiB"
done

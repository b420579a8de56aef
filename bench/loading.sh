#!/bin/sh
# Reads and loads the largest files that there may be: by `elf_dump`, which then prints a line for each page, and by
# `wfpatch`, which runs one unit of them, or refuses them for their frames.
# `large` has 64 MiB, of which all but a page go into a segment of 65,535 pages; `pages` has 65,535 segments
# of one page each, by falling address; `bytes` has 65,535 segments of one byte each, on 17 pages. It wants
# the programs that `rt ci` left in crates/elf_dump/out and crates/wfpatch/out, and GNU time. Run it at the top
# of the repository.
set -eu
dump=$PWD/crates/elf_dump/out/elf_dump
wfpatch=$PWD/crates/wfpatch/out/wfpatch
folder=$(mktemp -d)
trap 'rm -rf "$folder"' EXIT
cd "$folder"

# an ELF file with a segment of text of 16 bytes and so many others, of which the i-th is given by the rest
headers() {
    LC_ALL=C awk -v count="$1" -v size="$2" -v kind="$3" '
        function le(n, k) { while (k-- > 0) { printf "%c", n % 256; n = int(n / 256) } }
        function segment(flags, offset, at, file, memory) {
            le(1, 4); le(flags, 4); le(offset, 8); le(at, 8); le(at, 8); le(file, 8); le(memory, 8); le(4096, 8)
        }
        BEGIN {
            printf "%cELF", 127; le(2, 1); le(1, 1); le(1, 1); le(0, 9)
            le(2, 2); le(243, 2); le(1, 4); le(65536, 8); le(64, 8); le(0, 8); le(0, 4); le(64, 2); le(56, 2)
            le(count + 1, 2); le(64, 2); le(0, 4)
            segment(5, size - 4096, 65536, 16, 16)
            for (i = 0; i < count; i++) {
                if (kind == "large") segment(6, 4096, 73728, size - 4096, 65535 * 4096)
                if (kind == "pages") segment(6, size - 4096, 73728 + 4096 * (count - 1 - i), 4096, 4096)
                if (kind == "bytes") segment(6, size - 4096, 73728 + i, 1, 1)
            }
        }'
}

make() {
    headers "$1" "$2" "$3" >"$3"
    truncate -s "$2" "$3"
}

make 1 67108864 large
make 65534 3678216 pages
make 65534 3678216 bytes

# five runs of a command, whose exit status is not looked at: milliseconds a run, and the peak of memory
timed() {
    "$@" >out 2>line || true
    start=$(date +%s%N)
    for run in 1 2 3 4 5; do
        "$@" >out 2>line || true
    done
    end=$(date +%s%N)
    peak=$({ /usr/bin/time -f %M "$@" 2>&1 >out || true; } | tail -n 1)
    echo "$(((end - start) / 5000000)) milliseconds a run over 5 runs, peak $peak KiB"
}

echo 'step h0 1' >steps.txt
for name in large pages bytes; do
    echo "elf_dump $name: $(timed "$dump" "$name"), $(grep -c ^page out) pages"
    echo "wfpatch $name: $(timed "$wfpatch" run "$name" steps.txt), $(cat line)"
done

#!/bin/sh
# Builds a few executables with the linker script beside this file, and compares what `elf_dump` says is
# loaded of them with what readelf and objdump say: pages and rights with the PT_LOADs, bytes with the
# sections' contents, names with the symbols. Run it after `rt ci`, which builds `elf_dump`. It is no part
# of the gate, and does nothing where the tools aren't installed.
#
# Other tools by the environment: CC, OBJDUMP, READELF.
set -eu

here=$(cd "$(dirname "$0")" && pwd)
dump=${ELF_DUMP:-$here/../crates/elf_dump/out/elf_dump}
CC=${CC:-riscv64-unknown-elf-gcc}
OBJDUMP=${OBJDUMP:-riscv64-unknown-elf-objdump}
READELF=${READELF:-riscv64-unknown-elf-readelf}

for tool in "${CC%% *}" "${OBJDUMP%% *}" "${READELF%% *}" awk; do
    if ! command -v "$tool" >/dev/null 2>&1; then
        echo "skipped: $tool is not installed"
        exit 0
    fi
done
if [ ! -x "$dump" ]; then
    echo "skipped: $dump is not built"
    exit 0
fi

work=$(mktemp -d)
trap 'rm -rf "$work"' EXIT
cd "$work"

cat >text_only.c <<'END'
__attribute__((naked)) void _start(void) { __asm__("li a7, 0\n li a0, 7\n ecall"); }
END

cat >all_kinds.c <<'END'
static const unsigned long table[3] = {1, 2, 0x8877665544332211};
unsigned long counters[5] = {9, 8, 7, 6, 5};
static unsigned char zeros[5000];
static unsigned int odd = 0x01020304;
const char message[] = "a text";
unsigned long *place = &counters[2];
static unsigned long sum(unsigned long n) {
    for (int i = 0; i < 3; i++) n += table[i] + counters[i] + zeros[n % 5000] + message[i] + *place;
    return n;
}
void _start(void) { odd = sum(odd); for (;;) zeros[odd++ % 5000]++; }
END

# text and data of several pages, which begin and end anywhere in a page
cat >many_pages.c <<'END'
#define NOPS4 __asm__(".rept 1500\n .word 0x00100013, 0x00200093\n .endr");
int data[3000] = {[0] = 1, [1500] = 2, [2999] = 3};
int later[7000];
void far_away(void) { NOPS4 }
void _start(void) { far_away(); data[7]++; later[6999]++; }
END

flags="-march=rv64ima -mabi=lp64 -fno-pic -nostdlib -static -O1 -ffreestanding"

# One line a fact, the same from both sides. Bytes are given as ADDRESS BYTE, without those that are 0.
said_by_dump() {
    "$dump" "$1" >"$1.dump"
    awk '
        function hex(s,  i, n) { n = 0; for (i = 1; i <= length(s); i++) n = 16 * n + index("0123456789abcdef", substr(s, i, 1)) - 1; return n }
        $1 == "entry" || $1 == "page" || $1 == "name" { print; next }
        $1 == "end" { next }
        { for (i = 0; i < 8; i++) { b = substr($2, 2 * i + 1, 2); if (b != "00") printf "byte %d %s\n", hex($1) + i, b } }
    ' "$1.dump" | sort
}

said_by_tools() {
    {
        # llvm's readelf writes capital digits
        $READELF -hW "$1" | tr 'A-F' 'a-f' | sed -n 's/^ *entry point address: *0x\([0-9a-f]*\)$/entry \1/p'
        # a page that an executable PT_LOAD meets is text; any other is data, rw where a writable one meets it
        $READELF -lW "$1" | awk '
            function hex(s,  i, n) { n = 0; for (i = 3; i <= length(s); i++) n = 16 * n + index("0123456789abcdef", substr(s, i, 1)) - 1; return n }
            $1 == "LOAD" && hex($6) > 0 {
                flags = ""; for (i = 7; i < NF; i++) flags = flags $i
                last = int((hex($3) + hex($6) - 1) / 4096)
                for (n = int(hex($3) / 4096); n <= last; n++) { met[n] = 1; if (flags ~ /E/) text[n] = 1; if (flags ~ /W/) write[n] = 1 }
            }
            END { for (n in met) printf "page %x %s\n", n, (n in text) ? "text" : (n in write) ? "rw" : "r" }
        '
        $READELF -sW "$1" | awk '
            $1 ~ /^[0-9]+:$/ && $4 != "SECTION" && NF >= 8 && $7 != "UND" && $7 != "COM" {
                value = $2; sub(/^0+/, "", value); if (value == "") value = "0"
                printf "name %s %d %s %s\n", value, $3, ($5 == "LOCAL") ? "local" : "global", $8
            }
        '
        for section in .text .rodata .data; do
            $OBJDUMP -s -j $section "$1" 2>/dev/null || true
        done | awk '
            function hex(s,  i, n) { n = 0; for (i = 1; i <= length(s); i++) n = 16 * n + index("0123456789abcdef", substr(s, i, 1)) - 1; return n }
            /^ [0-9a-f]+ / {
                line = substr($0, 1, length($1) + 2 + 35); count = split(line, part, " "); at = hex(part[1])
                for (k = 2; k <= count; k++) for (i = 1; i < length(part[k]); i += 2) {
                    b = substr(part[k], i, 2); if (b != "00") printf "byte %d %s\n", at, b; at++
                }
            }
        '
    } | sort
}

for name in text_only all_kinds many_pages; do
    $CC $flags -T "$here/image.ld" -o "$name" "$name.c"
    said_by_dump "$name" >"$name.ours"
    said_by_tools "$name" >"$name.theirs"
    if ! cmp -s "$name.ours" "$name.theirs"; then
        echo "$name: not the same"
        diff "$name.ours" "$name.theirs" | head -20
        exit 1
    fi
    echo "$name: the same, $(wc -l <"$name.ours") lines"
done

# what the linker lays out as one segment that is writable and executable is refused
$CC $flags -Wl,-N -o one_segment all_kinds.c
if "$dump" one_segment >one_segment.out 2>&1 || ! grep -q WriteAndRun one_segment.out; then
    echo "one_segment: not refused for WriteAndRun"
    exit 1
fi
echo "one_segment: WriteAndRun, as it must be"

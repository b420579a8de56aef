#!/bin/sh
# Runs every example on the built files that stand beside its sources, and compares: each report with the stored one, to
# the letter; what `check` answers with `ok` and the number of its entries; what `asm` makes of each source with the built
# file; and, where python3 is, the picture of the patched server. Run it after `rt ci`, which builds `wfpatch`. It is no
# part of the gate.
#
# Another program by the environment: WFPATCH.
set -eu

here=$(cd "$(dirname "$0")/.." && pwd)
program=${WFPATCH:-$here/crates/wfpatch/out/wfpatch}
if [ ! -x "$program" ]; then
    echo "skipped: $program is not built"
    exit 0
fi
work=$(mktemp -d)
trap 'rm -rf "$work"' EXIT
failed=0

# compare WHAT STORED MADE
compare() {
    if ! cmp -s "$2" "$3"; then
        echo "$1: not as it is stored"
        failed=1
    fi
}

for source in "$here"/examples/*/*.s; do
    built=${source%.s}
    cd "$(dirname "$source")"
    if [ -f "$built.elf" ]; then
        "$program" asm "$(basename "$source")" >"$work/built"
        compare "$source" "$built.elf" "$work/built"
    else
        "$program" asm "$(basename "$source")" --object >"$work/built"
        compare "$source" "$built.o" "$work/built"
    fi
done

while read -r folder image script report harts; do
    case $folder in '#'*) continue ;; esac
    cd "$here/examples/$folder"
    if ! "$program" run "$image" "$script" --harts "$harts" >"$work/report"; then
        echo "$folder/$script: refused"
        failed=1
        continue
    fi
    compare "$folder/$report" "$report" "$work/report"
    entries=$(grep -cE '^(h[0-9]+|k) ' "$report")
    if [ "$("$program" check "$image" "$report" 2>&1)" != "ok $entries" ]; then
        echo "$folder/$report: not accepted"
        failed=1
    fi
done <"$here/examples/runs"

if command -v python3 >/dev/null 2>&1; then
    cd "$here/examples/server"
    "$here/tools/timeline" report.txt >"$work/picture"
    compare server/timeline.svg timeline.svg "$work/picture"
fi

[ "$failed" = 0 ] && echo "examples: as they must be"
exit "$failed"

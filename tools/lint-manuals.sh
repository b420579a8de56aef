#!/bin/sh
# Looks for faults in the manual pages of docs/man, by mandoc and by groff; it is no part of the gate, and skips what is not
# installed. To read one: man docs/man/wfpatch.1
set -eu

cd "$(dirname "$0")/../docs/man"
failed=0
for tool in mandoc groff; do
    if ! command -v $tool >/dev/null 2>&1; then
        echo "skipped: $tool is not installed"
        continue
    fi
    for page in *.[15]; do
        case $tool in
        mandoc) complaints=$(mandoc -T lint -W warning "$page" 2>&1) || true ;;
        groff) complaints=$(groff -mdoc -ww -T utf8 "$page" 2>&1 >/dev/null) || true ;;
        esac
        if [ -n "$complaints" ]; then
            echo "$complaints"
            failed=1
        fi
    done
    echo "$tool: read $(ls ./*.[15] | wc -l) pages"
done
exit "$failed"

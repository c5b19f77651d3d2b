#!/usr/bin/env bash
# Programs that the compiler, and not the prover, must refuse.
# Each .txt file of this folder is an edit of a program: 'program:' is the crate to compile, 'error:' the error that it must end in,
# 'file:', 'old:' and 'new:' the edit, whose old text stands once in that file. Without the edit the program must compile.
set -euo pipefail
root=$(cd "$(dirname "$0")/.." && pwd)
work=$(mktemp -d)
trap 'rm -rf "$work"' EXIT

field() { sed -n "s/^$1: //p" "$2"; }

lay_out() {
    rm -rf "$work/copy"
    mkdir "$work/copy"
    tar -C "$root" --exclude=out -c crates.txt crates | tar -C "$work/copy" -x
}

apply() {
    FILE=$work/copy/$(field file "$1") OLD=$(field old "$1") NEW=$(field new "$1") python3 - <<'PYTHON'
import os, sys
path, old, new = os.environ["FILE"], os.environ["OLD"], os.environ["NEW"]
text = open(path, encoding="utf-8").read()
if text.count(old) != 1:
    sys.exit(f"the old text stands {text.count(old)} times in {path}")
open(path, "w", encoding="utf-8").write(text.replace(old, new))
PYTHON
}

# The compiler alone, by `rt try`, which builds and runs the program and proves nothing.
compile() {
    (cd "$work/copy/crates/$1" && rt try </dev/null) >"$work/out" 2>&1
}

failed=0
for program in $(sed -n 's/^program: //p' "$root"/refused/*.txt | sort -u); do
    lay_out
    if compile "$program"; then
        echo "refused/: $program compiles as it stands"
    else
        echo "refused/: $program does not compile as it stands:"
        tail -n 3 "$work/out"
        failed=1
    fi
done
for edit in "$root"/refused/*.txt; do
    lay_out
    apply "$edit"
    want=$(field error "$edit")
    if compile "$(field program "$edit")"; then
        echo "refused/${edit##*/}: NOT REFUSED"
        failed=1
    elif grep -qF "error[$want]" "$work/out"; then
        echo "refused/${edit##*/}: refused, $want"
    else
        echo "refused/${edit##*/}: refused otherwise:"
        grep -m 1 error "$work/out" || tail -n 3 "$work/out"
        failed=1
    fi
done
exit $failed

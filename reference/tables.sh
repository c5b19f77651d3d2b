#!/usr/bin/env bash
# Writes the stored tables of the programs anew, from the reference program:
#
#   gn_show/stdout                       from gn_show/stdin, which stays as it is
#   gn_cases/stdin, gn_cases/stdout      the fixed table of packets, taken apart
#   gn_make/stdin, gn_make/stdout        the fixed table of gn_make's lines
#   gn_forward/stdin, gn_forward/stdout  the fixed table of gn_forward's lines
#
#   reference/tables.sh [DIR]
#
# DIR is the folder of the crates, the repository's crates/ if it is left out.
# A crate that has no folder there is left out.
set -euo pipefail

here=$(cd "$(dirname "${BASH_SOURCE[0]}")" && pwd)
crates=${1:-$here/../crates}
reference=$here/target/gn_reference

has_crate() {
    [[ -d $crates/$1 ]] || { echo "$1: no folder $crates/$1, left out"; return 1; }
}

# Replaces a file by standard input, once all of it has come.
replace() {
    local file=$1
    cat > "$file.new"
    mv "$file.new" "$file"
    echo "$file: $(wc -l < "$file") lines"
}

write_show() {
    if [[ ! -f $crates/gn_show/stdin ]]; then
        echo "gn_show: no file $crates/gn_show/stdin, left out"
        return
    fi
    "$reference" show < "$crates/gn_show/stdin" | replace "$crates/gn_show/stdout"
}

write_cases() {
    "$reference" cases | replace "$crates/gn_cases/stdin"
    "$reference" show < "$crates/gn_cases/stdin" | replace "$crates/gn_cases/stdout"
}

write_make() {
    "$reference" makes | replace "$crates/gn_make/stdin"
    "$reference" make < "$crates/gn_make/stdin" | replace "$crates/gn_make/stdout"
}

write_forward() {
    "$reference" situations | replace "$crates/gn_forward/stdin"
    "$reference" forward < "$crates/gn_forward/stdin" | replace "$crates/gn_forward/stdout"
}

"$here/build.sh"
if has_crate gn_show; then write_show; fi
if has_crate gn_cases; then write_cases; fi
if has_crate gn_make; then write_make; fi
if has_crate gn_forward; then write_forward; fi

#!/usr/bin/env bash
# Compares the proved programs with the reference program on random lines:
# gn_show with `gn_reference show`, gn_make with `gn_reference make`, and
# gn_forward with `gn_reference forward`. Says how many lines had which outcome,
# and fails at the first difference.
#
#   reference/compare.sh [N [SEED]]
#
# N is the number of lines for each program, 20000 if it is left out; a SEED
# that is left out is a random one, and it is printed. The programs are those
# that `rt run` has put into crates/NAME/out/; GN_SHOW, GN_MAKE and GN_FORWARD name
# others.
set -euo pipefail

here=$(cd "$(dirname "${BASH_SOURCE[0]}")" && pwd)
root=$(cd "$here/.." && pwd)
count=${1:-20000}
seed=${2:-$((RANDOM * 32768 + RANDOM))}
gn_show=${GN_SHOW:-$root/crates/gn_show/out/gn_show}
gn_make=${GN_MAKE:-$root/crates/gn_make/out/gn_make}
gn_forward=${GN_FORWARD:-$root/crates/gn_forward/out/gn_forward}
reference=$here/target/gn_reference

need_program() {
    [[ -x $1 ]] || { echo "no program $1: run 'rt run' in its crate first" >&2; exit 2; }
}

# The number of the first line in which two files differ.
first_difference() {
    awk 'FILENAME == ARGV[1] { line[FNR] = $0 ""; lines = FNR; next }
         FNR > lines || line[FNR] != $0 "" { print FNR; found = 1; exit }
         { seen = FNR }
         END { if (!found) print seen + 1 }' "$1" "$2"
}

# The number of the input line that line $2 of the output $1 of gn_show or
# gn_forward is about.
named_input_line() {
    awk -v last="$2" 'NR > last { exit }
         /^line [0-9]+:/ { number = $2; sub(/:/, "", number) }
         END { print number + 0 }' "$1"
}

# The number of the input line that line $2 of gn_make's output is about: each
# line of the input $1 that is not passed over has one line of output.
make_input_line() {
    awk -v wanted="$2" '{ sub(/\r$/, "") }
         /^#/ || /^[ \t]*$/ { next }
         ++answered == wanted { print NR; exit }' "$1"
}

# Each outcome with the number of its lines, from gn_show's output.
show_outcomes() {
    awk '/^  / { next }
         { sub(/^line [0-9]+: /, ""); sub(/ at place .*/, ""); sub(/, [0-9]+ octets$/, "")
           print }' "$1" | sort | uniq -c
}

# Each outcome with the number of its lines, from gn_make's output.
make_outcomes() {
    awk 'BEGIN { kind["10"] = "beacon"; kind["20"] = "unicast"; kind["30"] = "anycast"
                 kind["40"] = "broadcast"; kind["50"] = "single-hop"; kind["51"] = "multi-hop" }
         /^line / { sub(/^line [0-9]+: /, ""); sub(/ at place .*/, ""); print; next }
         { print kind[substr($0, 11, 2)] ", written" }' "$1" | sort | uniq -c
}

# Each outcome with the number of its lines, from gn_forward's output. A line
# that is a situation has a verdict for each ground, policy and link besides.
forward_outcomes() {
    awk '/^line / { sub(/^line [0-9]+: /, ""); sub(/ at place .*/, "")
                    sub(/^[0-9]+ of [0-9]+ stations are neighbours$/, "a situation"); print }
         /^  [a-z]+ and [a-z]+: / {
             sub(/^  /, ""); gsub(/ to [0-9a-f]+| for [0-9]+ ms/, "")
             split($0, part, /: |, /); print part[1] ": " part[2]; print part[1] ": " part[3] }
        ' "$1" | sort | uniq -c
}

# Shows the first difference between the outputs of a program, and fails.
fail() {
    local name=$1 folder=$2
    local place input
    place=$(first_difference "$folder/reference" "$folder/proved")
    case $name in
        gn_show | gn_forward) input=$(named_input_line "$folder/reference" "$place") ;;
        gn_make) input=$(make_input_line "$folder/input" "$place") ;;
    esac
    echo "$name differs from the reference at line $place of the output"
    echo "input line ${input:-unknown}:"
    [[ -z $input ]] || sed -n "${input}p" "$folder/input"
    echo "the reference writes:"
    sed -n "${place}p" "$folder/reference"
    echo "$name writes:"
    sed -n "${place}p" "$folder/proved"
    exit 1
}

# compare NAME PROGRAM RANDOM-SUBCOMMAND SUBCOMMAND OUTCOMES
compare() {
    local name=$1 program=$2 folder=$scratch/$1
    mkdir "$folder"
    "$reference" "$3" "$count" "$seed" > "$folder/input"
    "$reference" "$4" < "$folder/input" > "$folder/reference"
    if ! "$program" < "$folder/input" > "$folder/proved"; then
        echo "$name ended with an error"
        cmp -s "$folder/reference" "$folder/proved" || fail "$name" "$folder"
        exit 1
    fi
    cmp -s "$folder/reference" "$folder/proved" || fail "$name" "$folder"
    echo "$name: $count lines, $(wc -l < "$folder/proved") lines of output, no difference"
    "$5" "$folder/proved"
}

need_program "$gn_show"
need_program "$gn_make"
need_program "$gn_forward"
"$here/build.sh"
scratch=$(mktemp -d)
trap 'rm -rf "$scratch"' EXIT

echo "seed $seed"
compare gn_show "$gn_show" random show show_outcomes
compare gn_make "$gn_make" random-makes make make_outcomes
compare gn_forward "$gn_forward" random-situations forward forward_outcomes

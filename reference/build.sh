#!/usr/bin/env bash
# Builds the reference program with rustc into reference/target/gn_reference.
#
#   reference/build.sh         build
#   reference/build.sh test    build, then build and run its unit tests
set -euo pipefail

here=$(cd "$(dirname "${BASH_SOURCE[0]}")" && pwd)
source=$here/gn_reference.rs
target=$here/target

mkdir -p "$target"
rustc --edition 2021 -O "$source" -o "$target/gn_reference"
if [[ ${1:-} == test ]]; then
    rustc --edition 2021 --test "$source" -o "$target/gn_reference_tests"
    "$target/gn_reference_tests"
fi

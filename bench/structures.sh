#!/bin/sh
# Prints what a call of the base structures takes, beside Rust's BTreeMap in the same run. No part of
# the gate: where a tool is missing it says so and ends.
set -e
cd "$(dirname "$0")/.."
for tool in rt rustc; do
    if ! command -v "$tool" > /dev/null; then
        echo "skipped: $tool is missing"
        exit 0
    fi
done
kit=$(dirname "$(rt doc)")
(cd crates/vi_bench_c && rt lib > out.log 2>&1) || { cat crates/vi_bench_c/out.log; exit 1; }
rm -f crates/vi_bench_c/out.log
program=$(mktemp)
rustc -O --edition 2024 -o "$program" bench/structures.rs \
    -L crates/vi_bench_c/out -l static=vi_bench_c \
    -L "$kit/c" -l static=os_c -l static=libc_c
"$program"
rm -f "$program"

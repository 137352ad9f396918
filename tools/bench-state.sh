#!/bin/sh
# Prints how many nanoseconds a call of each structure that keeps the state of a run costs, at 1,000,
# 10,000 and 100,000 members.
#
# It writes a repository into a new directory beside this one, with copies of the crates and one
# program, and runs the program there by `rt try`, so nothing is proved anew. The directory is removed
# at the end.
set -eu
top=$(cd "$(dirname "$0")/.." && pwd)
copy=$(mktemp -d "$top.bench.XXXXXX")
trap 'rm -rf "$copy"' EXIT

mkdir -p "$copy/crates/bench/src"
for crate in "$top"/crates/*/; do
    name=$(basename "$crate")
    mkdir -p "$copy/crates/$name"
    for part in src specs proofs; do
        if [ -d "$crate/$part" ]; then cp -R "$crate/$part" "$copy/crates/$name/"; fi
    done
done
cp "$top/HANDLES" "$copy/"
cp "$top/crates.txt" "$copy/"
echo "bench: anyhow kom_base kom_env kom_life kom_queues kom_record kom_tree kom_wiring sqlite_items" >> "$copy/crates.txt"
# The program makes environments without a system file.
sed -i 's/pub(crate) fn open/pub fn open/' "$copy/crates/kom_env/src/env.rt"
cp "$top/tools/bench-state.txt" "$copy/crates/bench/src/main.rt"

cd "$copy/crates/bench"
rt try --seconds 900

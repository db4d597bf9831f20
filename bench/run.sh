#!/usr/bin/env bash
# Times the largest advance in Rattle and in C, on this machine, in one run.
set -eu
cd "$(dirname "$0")/.."
out=crates/bench/out
mkdir -p "$out"
(cd crates/bench && rt run) > "$out/bench.log" 2>&1 || { tail -n 20 "$out/bench.log"; exit 1; }
gcc -O3 -o "$out/advance" bench/advance.c
for turn in 1 2 3; do
    "$out/bench" 40
    "$out/advance" 40
done

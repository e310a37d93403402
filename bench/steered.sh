#!/usr/bin/env bash
# Times the built program on scripts of 100,000 calls whose numbers or ids are chosen to meet in one place of a table with
# a fixed hash, beside scripts of the same lines whose numbers aren't chosen. It tells the middle one of three times.
set -euo pipefail
cd "$(dirname "$0")/.." || exit 1
program=crates/brpc_run/out/brpc_run
[ -x "$program" ] || { echo "build the program first: make"; exit 1; }
mkdir -p target
rustc --edition 2024 -O -o target/steered bench/steered.rs
folder=$(mktemp -d)
trap 'rm -rf "$folder"' EXIT

# the milliseconds that one run takes
run() {
    local start
    start=$(date +%s%N)
    "$program" sim <"$folder/script" >"$folder/out" || return 1
    echo $((($(date +%s%N) - start) / 1000000))
}

for kind in numbers any-numbers ids any-ids; do
    target/steered "$kind" 100000 >"$folder/script"
    middle=$({ run && run && run; } | sort -n | sed -n 2p)
    echo "$kind: $(stat -c %s "$folder/script") bytes, $middle ms, $(wc -l <"$folder/out") lines told"
done

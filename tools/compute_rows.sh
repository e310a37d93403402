#!/usr/bin/env bash
# Computes each row of the files that are named over the plain machine, some ten milliseconds a row: a copy of the
# repository's lower crates gets one crate more, whose lemmas are the rows. No gate needs it.
set -eu
cd "$(dirname "$0")/.."

work=$(mktemp -d)
trap 'rm -rf "$work"' EXIT
mkdir -p "$work/crates/rows_computed/src" "$work/crates/rows_computed/proofs"
cp -r crates/rpc_base crates/rpc_model "$work/crates/"
grep -E '^(rpc_base|rpc_model)[ :]' crates.txt >"$work/crates.txt"
echo 'rows_computed: rpc_base rpc_model' >>"$work/crates.txt"
cp HANDLES "$work/"
printf '//! Rows, computed.\n#![tactic(auto)]\n' >"$work/crates/rows_computed/src/lib.rt"

file=0
for rows in "$@"; do
    first=1
    while [ "$first" -le "$(grep -c '^=> ' "$rows")" ]; do
        file=$((file + 1))
        tools/rows_to_lemmas.py "$rows" "$first" 300 >"$work/crates/rows_computed/proofs/Rows$file.antt"
        echo "mod Rows$file" >>"$work/crates/rows_computed/proofs/Lib.antt"
        first=$((first + 300))
    done
done
cd "$work/crates/rows_computed"
rt check

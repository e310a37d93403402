#!/usr/bin/env bash
# Measures marks in the timer wheel and in an ordered map. With a path, that program's `bench marks` runs too.
set -eu
cd "$(dirname "$0")/../crates/marks_bench"
rt run -- run | grep -E '^(rolling|equal) '
if [ $# -gt 0 ]; then
    "$1" bench marks
fi

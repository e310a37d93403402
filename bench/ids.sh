#!/usr/bin/env bash
# Measures lives of ranges of ids, and posts to one range, on one, two and four threads, beside raw atomics. With a path, that
# program's `bench ids` runs too.
set -eu
cd "$(dirname "$0")/../crates/ids_bench"
rt run -- run | grep -E '^[a-z_]+\.[124] '
if [ $# -gt 0 ]; then
    "$1" bench ids
fi

#!/usr/bin/env bash
# Runs the built program on each example and compares what it writes.
set -u
cd "$(dirname "$0")/.." || exit 1

program=crates/brpc_run/out/brpc_run
passed=0
failed=0
for script in examples/*.script examples/*/*.script; do
    if "$program" sim <"$script" | cmp -s - "${script%.script}.out"; then
        passed=$((passed + 1))
    else
        failed=$((failed + 1))
        echo "examples: $script writes something else"
    fi
done
echo "examples: $passed passed, $failed failed"
[ "$failed" = 0 ] && [ "$passed" -gt 0 ]

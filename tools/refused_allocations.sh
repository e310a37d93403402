#!/usr/bin/env bash
# Refuses each allocation of the program in turn, on the example scripts that are named (examples/race.script without a
# name): each run has to end with status 9 and no output, or as ever where the program can do without that allocation.
# It goes on until twelve runs in a row ended as ever. It builds and runs the program unproved for each allocation, about
# ten seconds each; no gate needs it.
set -u
cd "$(dirname "$0")/.." || exit 1

[ "$#" -gt 0 ] || set -- examples/race.script
refused=0
bad=0
for script in "$@"; do
    script=$(realpath "$script")
    number=1
    as_ever=0
    while [ "$as_ever" -lt 12 ]; do
        out=$(cd crates/brpc_run && rt try --fail-alloc "$number" -- sim <"$script" 2>/dev/null)
        status=$?
        if [ "$status" = 9 ] && [ -z "$out" ]; then
            refused=$((refused + 1))
            as_ever=0
        elif [ "$out" = "$(cat "${script%.script}.out")" ]; then
            as_ever=$((as_ever + 1))
        else
            bad=$((bad + 1))
            as_ever=0
            echo "$script: with allocation $number refused the status is $status"
        fi
        number=$((number + 1))
    done
done
echo "refused allocations: $refused ended with status 9 and no output, $bad did not"
[ "$bad" = 0 ] && [ "$refused" -gt 0 ]

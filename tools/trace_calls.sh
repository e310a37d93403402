#!/usr/bin/env bash
# Applies events to calls and compares what each makes its call do with the plain machine by hand (plain_calls.py): with
# rows files the calls of their scripts, without one each event at each node of a tree of depth 4. With the word `refuse`
# it refuses each allocation of five calls in turn: the call has to stand as before, and to go on as if nothing had been.
# The program is interpreted (trace_calls/main.rattle); no gate needs it.
set -eu
cd "$(dirname "$0")/.."
. tools/interpreted.sh

copy=$(mktemp -d)
trap 'rm -rf "$copy"' EXIT
interpreted "$copy" trace_calls rpc_base rpc_model chan_tree call_leaf fan_out call_tree
trace() {
    (cd "$copy/crates/trace_calls" && rt try --steps 100000000000 --seconds 3600 "$@" <"$copy/calls" 2>"$copy/words")
}

if [ "${1-}" != refuse ]; then
    if [ $# = 0 ]; then tools/plain_calls.py each; else tools/plain_calls.py rows "$@"; fi >"$copy/calls"
    trace
    exit
fi

# One more allocation is refused each time, until none is left to refuse.
tools/plain_calls.py five >"$copy/calls"
wanted=$(trace)
stood=0
stopped=0
as_ever=0
bad=0
number=1
while [ "$as_ever" -lt 12 ] && [ "$bad" -lt 5 ]; do
    status=0
    got=$(trace --fail-alloc "$number") || status=$?
    as_ever=$((as_ever + 1))
    if [ "$status" = 0 ] && [ "$got" = "${wanted/ 0 applied again/ 1 applied again}" ]; then
        stood=$((stood + 1)) as_ever=0
    elif [ "$status" = 9 ] && [ -z "$got" ]; then
        stopped=$((stopped + 1)) as_ever=0
    elif [ "$status" != 0 ] || [ "$got" != "$wanted" ]; then
        bad=$((bad + 1)) as_ever=0
        echo "with allocation $number refused: status $status, $got"
    fi
    number=$((number + 1))
done
echo "refused allocations: at $stood the call stood as before and went on, at $stopped there was no memory outside of an event, $bad were bad"
[ "$bad" = 0 ] && [ "$stood" -gt 0 ]

#!/usr/bin/env bash
# Refuses each allocation of an echo server in turn (refused_answers/main.rattle): an answer that met want of memory leaves the
# server as before, and a serving loop that met it has written a front of what it would have. It goes on until twelve runs
# in a row met none. The program is interpreted, some seconds a run; no gate needs it.
set -u
cd "$(dirname "$0")/.." || exit 1
. tools/interpreted.sh

copy=$(mktemp -d)
trap 'rm -rf "$copy"' EXIT
interpreted "$copy" refused_answers rpc_base rpc_model rpc_meta prpc_frames echo_server

answers=0
loops=0
own=0
bad=0
none=0
number=1
while [ "$none" -lt 12 ] && [ "$bad" -lt 5 ]; do
    got=$(cd "$copy/crates/refused_answers" && rt try --fail-alloc "$number" 2>"$copy/words")
    status=$?
    none=$((none + 1))
    case "$status $got" in
    "0 0 0") ;;
    "0 1 0") answers=$((answers + 1)) none=0 ;;
    "0 0 1") loops=$((loops + 1)) none=0 ;;
    "9 ") own=$((own + 1)) none=0 ;;
    *)
        bad=$((bad + 1)) none=0
        echo "with allocation $number refused: status $status, $got"
        head -n 5 "$copy/words"
        ;;
    esac
    number=$((number + 1))
done
echo "refused allocations: $answers in answers and $loops in serving loops stood as said, $own were of the program's own, $bad were bad"
[ "$bad" = 0 ] && [ "$answers" -gt 0 ] && [ "$loops" -gt 0 ]

#!/usr/bin/env bash
# 1,025 calls at once: the last one finds no slot. When one was told, the next finds the free slot.
set -u
cd "$(dirname "$0")/.." || exit 1

script() {
    echo 'leaf x a retry=0 backup=-1 timeout=-1'
    for call in $(seq 1025); do echo "at 0 call $call x hi"; done
    echo 'at 1 reply 7 0#0 0 seven'
    echo 'join 7'
    echo 'at 2 call 1026 x hi'
    echo 'at 3 call 1027 x hi'
    echo 'join 1025'
    echo 'join 1026'
}

wanted='1025 full
7 ok 1 seven
1027 full
1025 gone
1026 open'
if [ "$(script | crates/brpc_run/out/brpc_run sim)" = "$wanted" ]; then
    echo 'full table: 1 passed, 0 failed'
else
    echo 'full table: 0 passed, 1 failed'
    exit 1
fi

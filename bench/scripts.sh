#!/usr/bin/env bash
# Times the built program on scripts of 10,000 and 100,000 calls, each with replies or losses, and a join. It tells the
# middle one of three times and, where /usr/bin/time is there, the most memory.
set -euo pipefail
cd "$(dirname "$0")/.." || exit 1
program=crates/brpc_run/out/brpc_run
[ -x "$program" ] || { echo "build the program first: make"; exit 1; }
folder=$(mktemp -d)
trap 'rm -rf "$folder"' EXIT

# so many calls, one after the other
one_by_one() {
    awk -v n="$1" 'BEGIN {
        print "leaf x a retry=0 backup=-1 timeout=500"
        for (i = 1; i <= n; i++) printf "at %d call %d x hello\nat %d reply %d 0#0 0 abc\njoin %d\n", i, i, i, i, i
    }'
}

# so many calls over three servers, each of which is lost
lost() {
    awk -v n="$1" 'BEGIN {
        print "leaf x a,b,c retry=0 backup=-1 timeout=500"
        for (i = 1; i <= n; i++) printf "at %d call %d x hello\nat %d lose %d 0#0 1009\njoin %d\n", i, i, i, i, i
    }'
}

# so many calls, 4,096 of them open at a time, joined in the order of their lines
many_open() {
    awk -v n="$1" 'BEGIN {
        print "open 4096"
        print "leaf x a retry=0 backup=-1 timeout=500"
        for (i = 1; i <= n; i++) {
            if (i > 4096) printf "at %d reply %d 0#0 0 abc\njoin %d\n", i / 5000, i - 4096, i - 4096
            printf "at %d call %d x hello\n", i / 5000, i
        }
        for (i = (n > 4096 ? n - 4095 : 1); i <= n; i++) printf "at %d reply %d 0#0 0 abc\njoin %d\n", n / 5000, i, i
    }'
}

# so many calls over three servers, one after the other: the first attempt is lost, so a second one is sent; its backup
# request is the third; the second one is lost, and the third one answers
retried() {
    awk -v n="$1" 'BEGIN {
        print "leaf x a,b,c retry=3 backup=1 timeout=500"
        for (i = 1; i <= n; i++) {
            printf "at %d call %d x hello\nat %d lose %d 0#0 1009\n", 2 * i, i, 2 * i, i
            printf "at %d lose %d 0#1 104\nat %d reply %d 0#2 0 abc\njoin %d\n", 2 * i + 1, i, 2 * i + 1, i, i
        }
    }'
}

# the same with 4,096 of them open at a time, joined in the order of their lines
retried_open() {
    awk -v n="$1" 'function last(at, i) {
        printf "at %d lose %d 0#1 104\nat %d reply %d 0#2 0 abc\njoin %d\n", at, i, at, i, i
    }
    BEGIN {
        print "open 4096"
        print "leaf x a,b,c retry=3 backup=2000 timeout=100000"
        for (i = 1; i <= n; i++) {
            if (i > 4096) last(i, i - 4096)
            printf "at %d call %d x hello\nat %d lose %d 0#0 1009\n", i, i, i, i
        }
        for (i = (n > 4096 ? n - 4095 : 1); i <= n; i++) last(n + 4096, i)
    }'
}

# the nanoseconds that one run takes
run() {
    local start
    start=$(date +%s%N)
    "$program" sim <"$folder/script" >"$folder/out" || return 1
    echo $(($(date +%s%N) - start))
}

# the most memory of a run, or nothing where it can't be measured
memory() {
    [ -x /usr/bin/time ] || return 0
    /usr/bin/time -f '%M' -o "$folder/memory" "$program" sim <"$folder/script" >"$folder/out"
    awk '{ printf " %.1f MB at most,", $1 * 1024 / 1000000 }' "$folder/memory"
}

for kind in one_by_one many_open lost retried retried_open; do
    for calls in 10000 100000; do
        "$kind" "$calls" >"$folder/script"
        bytes=$(stat -c %s "$folder/script")
        middle=$({ run && run && run; } | sort -n | sed -n 2p)
        spent=$(awk -v ns="$middle" -v bytes="$bytes" 'BEGIN { printf "%.1f ms, %.1f ns a byte", ns / 1000000, ns / bytes }')
        ended=$(grep -c -E ' (ok 1 abc|ok 3 abc|fail 1009 1)$' "$folder/out")
        echo "$kind $calls: $bytes bytes, $spent,$(memory) $ended calls ended as they should"
    done
done

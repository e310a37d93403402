#!/usr/bin/env bash
# The built program's commands over the generated script: its text, what a replay of it tells, and the line that sums up.
set -u
cd "$(dirname "$0")/.." || exit 1

program=crates/brpc_run/out/brpc_run
passed=0
failed=0
expect() {
    if [ "$1" = "$2" ]; then passed=$((passed + 1)); else
        failed=$((failed + 1))
        echo "generated: $3 gives '$1' in the place of '$2'"
    fi
}

# The script as its document tells it, computed apart.
script() {
    printf '%s\n' 'open 64' 'leaf x a,b,c retry=2 backup=50 timeout=400' 'leaf y b,c retry=1 backup=-1 timeout=300' \
        'par p fail=2 ok=0 timeout=600 x:index:cat y:same:cat x:split:cat' 'sel s retry=1 timeout=-1 p x'
    local draw=$1 channels=(x y p s) codes=(0 1009 2001) call channel leaf
    for ((call = 1; call <= $1; call++)); do
        draw=$(((draw * 1103515245 + 12345) % 2147483648))
        channel=${channels[$((draw / 65536 % 4))]}
        case $channel in x | y) leaf=0 ;; p) leaf=1 ;; s) leaf=$((2 - call % 2)) ;; esac
        printf 'at %d call %d %s u,v,w\nat %d reply %d %d#0 %d t\njoin %d\n' $((10 * call)) "$call" "$channel" \
            $((10 * call + 1)) "$call" "$leaf" "${codes[$((draw / 1024 % 3))]}" "$call"
    done
}

# The line that sums up the output lines of a replay of so many calls.
summary() {
    awk -v calls="$1" '$2 == "ok" { ok++; sum += $3 } $2 == "fail" { fail++; sum += $4 } $2 == "open" { open++ } $2 == "full" { full++ }
        END { printf "calls %d ok %d fail %d open %d full %d attempts %d\n", calls, ok, fail, open, full, sum }'
}

expect "$("$program" gen 1 </dev/null)" "$(grep -v '^#' examples/generated.script)" 'the script of one call'
expect "$("$program" load 1 </dev/null)" 'calls 1 ok 0 fail 1 open 0 full 0 attempts 4' 'the line of one call'
for count in 1 2 3 10 1000; do
    "$program" gen "$count" </dev/null | cmp -s - <(script "$count")
    expect "$?" 0 "the script of $count calls"
    expect "$("$program" load "$count" </dev/null)" "$("$program" gen "$count" | "$program" sim | summary "$count")" "the line of $count calls"
done
expect "$("$program" gen 100000 </dev/null | wc -l)" 300005 'the lines of the greatest script'
expect "$("$program" load 100000 </dev/null | cut -d ' ' -f 1,2)" 'calls 100000' 'the line of the greatest script'

"$program" gen 1000 <&- >/dev/null
expect "$?" 0 'a closed input'
"$program" gen 1000 </dev/null >&-
expect "$?" 4 'a closed output'
"$program" load 1000 </dev/null >&-
expect "$?" 4 'a closed output of a load'
if [ -c /dev/full ]; then
    "$program" gen 1000 </dev/null >/dev/full
    expect "$?" 4 'a full device'
fi
(
    ulimit -v 8000
    "$program" gen 100000 </dev/null
) >/dev/null
expect "$?" 9 'a limit on memory'
echo "generated: $passed passed, $failed failed"
[ "$failed" = 0 ]

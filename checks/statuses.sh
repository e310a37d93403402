#!/usr/bin/env bash
# The built program's statuses over real files and pipes: words, faults of input and output, want of memory, long scripts.
set -u
cd "$(dirname "$0")/.." || exit 1

program=crates/brpc_run/out/brpc_run
passed=0
failed=0
expect() {
    if [ "$1" = "$2" ]; then passed=$((passed + 1)); else
        failed=$((failed + 1))
        echo "statuses: $3 gives '$1' in the place of '$2'"
    fi
}

# Words that name no command: nothing is read and nothing written.
refused() {
    expect "$(printf 'what\n' | "$program" "$@"; echo "status $?")" 'status 2' "the words '$*'"
}
refused
for word in live check help --help -h --version -V '' 'sim ' Sim gen load $'\xff' -; do refused "$word"; done
for word in x 1 '' --help -h $'\xff'; do refused sim "$word"; done
for command in gen load; do
    for count in 0 100001 01 +1 -1 '1 ' ' 1' 1.0 1e3 0x1 '' x 4294967297 18446744073709551617 99999999999999999999 $'\xff' --help -h; do
        refused "$command" "$count"
    done
    refused "$command" 1 1
    for count in 1 100000; do
        "$program" "$command" "$count" </dev/null >/dev/null
        expect "$?" 0 "the words '$command $count'"
    done
done
refused live 2
refused help sim
refused -- sim
refused sim sim sim
"$program" sim <. >/dev/null
expect "$?" 3 'a folder as the script'
"$program" sim <&- >/dev/null
expect "$?" 3 'a closed input'

# 20,000 calls that reach their deadlines: 340 KiB of output.
room=$(mktemp -d)
trap 'rm -rf "$room"' EXIT
long() {
    echo 'leaf x a retry=0 backup=-1 timeout=5'
    seq 20000 | sed 's/.*/at & call & x hi\njoin &/'
}
long >"$room/script"
seq 20000 | sed 's/$/ fail 1008 1/' >"$room/wanted"
"$program" sim <"$room/script" >"$room/out"
expect "$?" 0 'a long script'
cmp -s "$room/out" "$room/wanted"
expect "$?" 0 'the output of a long script'
"$program" sim <"$room/script" | head -c 1 >/dev/null
expect "${PIPESTATUS[0]}" 4 'a pipe that is closed early'
"$program" sim <"$room/script" >&-
expect "$?" 4 'a closed output'
(
    trap '' XFSZ
    ulimit -f 1
    "$program" sim <"$room/script" >"$room/part"
)
expect "$?" 4 'a limit on the size of files'
cmp -s "$room/part" <(head -c "$(wc -c <"$room/part")" "$room/wanted") && [ -s "$room/part" ]
expect "$?" 0 'the front of the output at a limit on the size of files'
(
    ulimit -v 8000
    "$program" sim <"$room/script" >"$room/none"
)
expect "$?" 9 'a limit on memory'
expect "$(wc -c <"$room/none")" 0 'the output at a limit on memory'
if [ -c /dev/full ]; then
    "$program" sim <examples/reply.script >/dev/full
    expect "$?" 4 'a full device'
fi
expect "$(head -c 16777216 /dev/zero | tr '\0' '\n' | "$program" sim; echo "status $?")" 'status 0' 'a script of the greatest length'
expect "$(head -c 16777217 /dev/zero | tr '\0' '\n' | "$program" sim; echo "status $?")" 'refused 0 TooLong
status 5' 'a script of one byte more'
expect "$("$program" sim </dev/null; echo "status $?")" 'status 0' 'the empty script'
echo "statuses: $passed passed, $failed failed"
[ "$failed" = 0 ]

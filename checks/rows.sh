#!/usr/bin/env bash
# Runs the built program on each row of rows/ and compares status and output.
set -u
cd "$(dirname "$0")/.." || exit 1

program=$PWD/crates/brpc_run/out/brpc_run
room=$(mktemp -d)
trap 'rm -rf "$room"' EXIT
passed=0
failed=0

# Each row as three files: NUMBER.script, NUMBER.status, NUMBER.out.
for file in rows/*.rows; do
    rm -f "$room"/*
    awk -v room="$room" '
        function close_row() { if (has_status) { close(name ".script"); close(name ".out"); close(name ".status") } }
        BEGIN { row = 0; fresh = 1 }
        fresh && /^# / { header = 1 }
        header { if ($0 == "") { header = 0 } ; fresh = 1; next }
        fresh { row++; name = sprintf("%s/%05d", room, row); printf "" > (name ".script"); printf "" > (name ".out"); fresh = 0; has_status = 0; front = 1 }
        front && /^#:/ { next }
        { front = 0 }
        has_status && $0 == "" { close_row(); fresh = 1; next }
        !has_status && /^=> / { print $2 > (name ".status"); has_status = 1; next }
        has_status { print > (name ".out"); next }
        { print > (name ".script") }
    ' "$file"
    for script in "$room"/*.script; do
        row=${script%.script}
        "$program" sim <"$script" >"$row.got"
        status=$?
        if [ "$status" = "$(cat "$row.status" 2>/dev/null)" ] && cmp -s "$row.got" "$row.out"; then
            passed=$((passed + 1))
        else
            failed=$((failed + 1))
            echo "rows: $file, row $((10#$(basename "$row"))): status $status and another output, of this script:"
            cat "$script"
        fi
    done
done

# Lines with their causes.
while IFS= read -r row; do
    case $row in '' | '# '*) continue ;; esac
    wanted=${row%% *}
    line=${row#* }
    line=${line//<TAB>/$'\t'}
    line=${line//<CR>/$'\r'}
    line=${line//<US>/$'\x1f'}
    line=${line//<DEL>/$'\x7f'}
    line=${line//<0x80>/$'\x80'}
    got=$(printf '%s\n' 'leaf x a retry=1 backup=-1 timeout=500' 'at 0 call 1 x hi' "$line" | "$program" sim)
    status=$?
    if { [ "$wanted" = accepted ] && [ "$status" = 0 ]; } || { [ "$status" = 5 ] && [ "$got" = "refused 3 $wanted" ]; }; then
        passed=$((passed + 1))
    else
        failed=$((failed + 1))
        echo "rows: '$line' gives status $status and '$got' in the place of $wanted"
    fi
done <rows/causes.lines

echo "rows: $passed passed, $failed failed"
[ "$failed" = 0 ] && [ "$passed" -gt 0 ]

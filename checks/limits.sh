#!/usr/bin/env bash
# Each limit of a script at its end and one past it, through the built program.
set -u
cd "$(dirname "$0")/.." || exit 1

program=crates/brpc_run/out/brpc_run
passed=0
failed=0

# expect NAME WANTED < SCRIPT: the last line that the program writes of the script, and its status.
expect() {
    local got
    got=$("$program" sim | tail -n 1; echo "status ${PIPESTATUS[0]}")
    if [ "$got" = "$2" ]; then passed=$((passed + 1)); else
        failed=$((failed + 1))
        echo "limits: $1 gives '$got' in the place of '$2'"
    fi
}
fill() { head -c "$1" /dev/zero | tr '\0' "$2"; }
leaf='leaf x a retry=0 backup=-1 timeout=-1'
refused() { printf 'refused %s %s\nstatus 5' "$1" "$2"; }

# A line of 65,536 bytes, and one byte more. The one that is too long is named so also where it has a bad byte.
expect 'a line of the greatest length' 'status 0' < <({ echo "#$(fill 65535 c)"; })
expect 'a line of one byte more' "$(refused 1 LineTooLong)" < <({ echo "#$(fill 65536 c)"; })
expect 'a line of one byte more, and a tab' "$(refused 1 LineTooLong)" < <({ printf '#%s\t\n' "$(fill 65535 c)"; })

# A text of 60,000 bytes in a call and in a reply, and one byte more.
text=$(fill 60000 t)
expect 'texts of the greatest length' "$(printf '1 ok 1 %s\nstatus 0' "$text")" < <({ echo "$leaf"; echo "at 0 call 1 x $text"; echo "at 1 reply 1 0#0 0 $text"; echo 'join 1'; })
expect 'a request of one byte more' "$(refused 2 TextTooLong)" < <({ echo "$leaf"; echo "at 0 call 1 x ${text}t"; })
expect 'a reply of one byte more' "$(refused 3 TextTooLong)" < <({ echo "$leaf"; echo 'at 0 call 1 x hi'; echo "at 1 reply 1 0#0 0 ${text}t"; })

# 1,000 channels, 16 servers over two lines, and one more of each. The servers of a line are counted before a later step.
channels() { seq "$1" | sed 's/.*/leaf c& a retry=0 backup=-1 timeout=-1/'; }
expect '1,000 channels' 'status 0' < <(channels 1000)
expect '1,001 channels' "$(refused 1001 TooMany)" < <(channels 1001)
expect '16 servers' 'status 0' < <({ echo 'leaf x a,b,c,d,e,f,g,h retry=0 backup=-1 timeout=-1'; echo 'leaf y i,j,k,l,m,n,o,p retry=0 backup=-1 timeout=-1'; })
expect '17 servers' "$(refused 2 TooMany)" < <({ echo 'leaf x a,b,c,d,e,f,g,h retry=0 backup=-1 timeout=-1'; echo 'leaf y a,i,j,k,l,m,n,o,p,q retry=0 backup=-1 timeout=-1'; })

# 100,000 calls, 400,000 events, and one more of each. A call that is one too many is named so also where it weighs too much.
calls() { seq "$1" | sed 's/.*/at 0 call & x -/'; }
expect '100,000 calls' "$(printf '100000 gone\nstatus 0')" < <({ echo 'open 1'; echo "$leaf"; calls 100000; echo 'join 100000'; })
expect '100,001 calls' "$(refused 100002 TooMany)" < <({ echo "$leaf"; calls 100001; })
expect '400,000 events' 'status 0' < <({ echo "$leaf"; yes 'at 1 tick' | head -n 400000; })
expect '400,001 events' "$(refused 400002 TooMany)" < <({ echo "$leaf"; yes 'at 1 tick' | head -n 400001; })
expect 'joins and a tick are events' "$(refused 400003 TooMany)" < <({ echo "$leaf"; echo 'at 0 call 1 x hi'; yes 'join 1' | head -n 399999; echo 'at 1 tick'; echo 'at 1 cancel 1'; })

# The weight of all calls: 2^30 is 1,063 * (9,872 + 128) * 101 + (6,861 + 128) * 16.
weigh() {
    echo 'leaf x a retry=100 backup=-1 timeout=-1'
    echo 'leaf y a retry=15 backup=-1 timeout=-1'
    seq 1063 | sed "s/.*/at 0 call & x $(fill 9872 t)/"
    echo "at 0 call 2000 y $(fill "$1" t)"
}
expect 'the greatest weight' "$(printf '2000 full\nstatus 0')" < <(weigh 6861)
expect 'a weight of one byte more' "$(refused 1066 TooMuch)" < <(weigh 6862)

# Channels: depth 8 and 9 by each kind, and over subs that no call tries; widths of 1,024 and 1,025; a refusal of a width
# that no number of a machine holds.
nested() { echo 'leaf c1 a retry=0 backup=-1 timeout=-1'; seq 2 "$2" | while read -r n; do
    case $1 in par) echo "par c$n fail=0 ok=0 timeout=-1 c$((n - 1)):same:cat" ;; sel) echo "sel c$n retry=0 timeout=-1 c1 c$((n - 1))" ;; esac
done; }
on_part() { echo 'part c2 1 retry=0 backup=-1 fail=0 ok=0 timeout=-1 same:cat a:0/1'; nested par "$1" | sed '1,2d'; }
expect 'parallel channels 8 deep' "$(printf '1 ok 1 abc\nstatus 0')" < <({ nested par 8; echo 'at 0 call 1 c8 q'; echo 'at 1 reply 1 7#0 0 abc'; echo 'join 1'; })
expect 'parallel channels 9 deep' "$(refused 9 TooDeep)" < <(nested par 9)
expect 'selective channels 8 deep' "$(printf '2 ok 1 abc\nstatus 0')" < <({ nested sel 8; echo 'at 0 call 2 c8 q'; echo 'at 1 reply 2 1#0 0 abc'; echo 'join 2'; })
expect 'selective channels 9 deep' "$(refused 9 TooDeep)" < <(nested sel 9)
expect 'a partition channel 8 deep' 'status 0' < <(on_part 8)
expect 'a partition channel 9 deep' "$(refused 8 TooDeep)" < <(on_part 9)
wide() { echo 'leaf x a retry=99 backup=-1 timeout=-1'; echo "leaf y a retry=$1 backup=-1 timeout=-1"; echo "par w fail=0 ok=0 timeout=-1 $(for i in 1 2 3 4 5 6 7 8 9 10; do printf 'x:same:cat '; done)y:same:cat"; echo 'at 0 call 1 w q'; }
expect 'a width of 1,024' "$(printf '1 ok 11 a\nstatus 0')" < <({ wide 11; seq 1 10 | sed 's/.*/at 1 reply 1 &#0 0 -/'; echo 'at 1 reply 1 11#0 0 a'; echo 'join 1'; })
expect 'a width of 1,025' "$(refused 4 TooWide)" < <(wide 12)
expect '600 subs' "$(refused 3 TooWide)" < <({ echo 'leaf x a,b retry=1 backup=-1 timeout=500'; echo "par w fail=0 ok=0 timeout=-1$(printf ' x:same:cat%.0s' $(seq 600))"; echo 'at 0 call 1 w q'; })
huge() { echo 'leaf c1 a retry=100 backup=-1 timeout=-1'; seq 2 8 | while read -r n; do echo "par c$n fail=0 ok=0 timeout=-1$(printf " c$((n - 1)):same:cat%.0s" $(seq 1000))"; done; echo 'at 0 call 1 c8 q'; }
expect 'a width past 2^64' "$(refused 9 TooWide)" < <(huge)
expect '1,001 subs' "$(refused 2 BadLine)" < <({ echo "$leaf"; echo "par w fail=0 ok=0 timeout=-1$(printf ' x:same:cat%.0s' $(seq 1001))"; })

# A moment, a deadline and a backup request at their ends.
expect 'the latest deadline' "$(printf '1 fail 1008 1\nstatus 0')" < <({ echo 'leaf x a retry=1 backup=2147483647 timeout=2147483647'; echo 'at 9007199254740991 call 1 x hi'; echo 'join 1'; })

# A hundred retries, and a reply to the last attempt.
lost() { echo 'leaf x a,b,c retry=100 backup=-1 timeout=500'; echo 'at 0 call 1 x hi'; seq 0 "$1" | sed 's/.*/at 5 lose 1 0#& 1009/'; }
expect 'a hundred retries' "$(printf '1 ok 101 last\nstatus 0')" < <({ lost 99; echo 'at 6 reply 1 0#100 0 last'; echo 'join 1'; })
expect 'a hundred retries and a loss' "$(printf '1 fail 1009 101\nstatus 0')" < <({ lost 100; echo 'join 1'; })
expect 'an attempt that was not sent' "$(printf '1 fail 1008 100\nstatus 0')" < <({ lost 98; echo 'at 6 reply 1 0#100 0 unsent'; echo 'join 1'; })

echo "limits: $passed passed, $failed failed"
[ "$failed" = 0 ] && [ "$passed" -gt 0 ]

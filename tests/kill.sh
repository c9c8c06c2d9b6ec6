#!/bin/sh
# Kills the program five times in the middle of a long replay over files, which posts to four metrics in two sacks and
# reads between. Each time the store opens again with every acknowledged post, and with at most the one more that was
# being written.
set -eu
top=$(cd "$(dirname "$0")/.." && pwd)
folder=$(mktemp -d)
program=
trap '[ -z "$program" ] || kill -9 "$program" 2>/dev/null || true; rm -rf "$folder"' EXIT
store="$folder/store"
out="$folder/out"
"$top/gnocchi" create --store "$store" --sacks 2 >/dev/null
{
    echo 'POST /v1/archive_policy {"name":"p","definition":[{"granularity":300,"points":100}],"aggregation_methods":["count"]}'
    for metric in 1 2 3 4; do echo 'POST /v1/metric {"archive_policy_name":"p"}'; done
} | "$top/gnocchi" replay --store "$store" --sacks 2 >"$out"
[ "$(grep -c '^201 ' "$out")" -eq 5 ]

# The lines that count what is kept of all four.
{
    echo WORK
    for metric in 1 2 3 4; do
        echo "GET /v1/metric/00000001-0000-8000-8000-00000000000$metric/measures?aggregation=count"
    done
} >"$folder/counting"
first=0
killed=0
for round in 1 2 3 4 5; do
    [ "$first" -lt 3600 ] || break
    # One measure a second: the seconds tell the posts apart.
    awk -v first="$first" 'BEGIN {
        for (second = first; second < 3600; second++) {
            printf "POST /v1/metric/00000001-0000-8000-8000-00000000000%d/measures [{\"timestamp\":%d,\"value\":1}]\n", second % 4 + 1, second
            if (second % 16 == 15) print "GET /v1/metric/00000001-0000-8000-8000-000000000001/measures?refresh=true&aggregation=count"
        }
    }' >"$folder/lines"
    # Emptied here, since the program may start after the first look at it.
    : >"$folder/replies"
    "$top/gnocchi" replay --store "$store" --sacks 2 <"$folder/lines" >"$folder/replies" 2>/dev/null &
    program=$!
    tries=0
    until [ "$(grep -c '^202$' "$folder/replies")" -ge $((20 + 7 * round)) ]; do
        tries=$((tries + 1))
        [ "$tries" -le 3000 ]
        sleep 0.01
    done
    if kill -9 "$program" 2>/dev/null; then
        killed=$((killed + 1))
    fi
    wait "$program" 2>/dev/null || true
    program=
    acknowledged=$((first + $(grep -c '^202$' "$folder/replies")))
    "$top/gnocchi" replay --store "$store" --sacks 2 <"$folder/counting" >"$out"
    kept=$(tail -n 4 "$out" | tr '[' '\n' | awk -F, 'NF >= 3 { sum += $3 } END { print sum + 0 }')
    echo "round $round: $acknowledged acknowledged, $kept kept"
    [ "$kept" -ge "$acknowledged" ]
    [ "$kept" -le $((acknowledged + 1)) ]
    first=$kept
done
[ "$killed" -ge 1 ]
echo "kill: ok"

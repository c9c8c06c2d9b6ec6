#!/bin/sh
# Two programs on one store: the second is refused and changes nothing, until the first has ended.
# Of several that make one store at once, one makes it.
set -eu
top=$(cd "$(dirname "$0")/.." && pwd)
folder=$(mktemp -d)
program=
trap 'exec 3>&-; [ -z "$program" ] || kill "$program" 2>/dev/null || true; rm -rf "$folder"' EXIT
store="$folder/store"
path=/v1/metric/00000001-0000-8000-8000-000000000001/measures

post() {
    printf 'POST %s [{"timestamp":%d,"value":1}]\n' "$path" "$1"
}

# Waits until so many posts are acknowledged.
acknowledged() {
    tries=0
    until [ "$(grep -c '^202$' "$folder/replies")" -eq "$1" ]; do
        tries=$((tries + 1))
        [ "$tries" -le 1000 ]
        sleep 0.01
    done
}

# Wants the second program refused, and the files as they were.
refused() {
    cp -R "$store" "$folder/before"
    status=0
    post 9 | "$top/gnocchi" "$1" --store "$store" >"$folder/out" 2>"$folder/err" || status=$?
    [ "$status" -eq 6 ]
    [ "$(cat "$folder/err")" = "gnocchi: disk fault" ]
    [ ! -s "$folder/out" ]
    diff -r "$store" "$folder/before"
    rm -r "$folder/before"
}

"$top/gnocchi" create --store "$store" >/dev/null
head -n 2 "$top/examples/first.script" | "$top/gnocchi" replay --store "$store" >/dev/null
mkfifo "$folder/lines"
"$top/gnocchi" replay --store "$store" <"$folder/lines" >"$folder/replies" &
program=$!
exec 3>"$folder/lines"
post 1 >&3
acknowledged 1
refused replay
refused create
post 2 >&3
acknowledged 2
refused replay
exec 3>&-
wait "$program"
program=
{
    post 3
    printf 'WORK\nGET %s?granularity=60&aggregation=count\n' "$path"
} | "$top/gnocchi" replay --store "$store" >"$folder/answer"
grep -q ',60.0,3.0\]' "$folder/answer"

for number in 1 2 3 4 5 6; do
    {
        status=0
        "$top/gnocchi" create --store "$folder/new/store" >"$folder/out$number" 2>/dev/null || status=$?
        echo "$status" >"$folder/status$number"
    } &
done
wait
[ "$(cat "$folder"/out[1-6])" = "created" ]
[ "$(grep -l -x 0 "$folder"/status[1-6] | wc -l)" -eq 1 ]
[ "$(grep -l -x -E '0|6|11' "$folder"/status[1-6] | wc -l)" -eq 6 ]
"$top/gnocchi" replay --store "$folder/new/store" </dev/null
echo "lock: ok"

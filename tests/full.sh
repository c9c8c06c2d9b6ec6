#!/bin/sh
# A disk that is full: posts are answered 503, and go on once there is room. The room is that of a
# limit on the lengths of files, of which the program is told by a write that fails.
set -eu
top=$(cd "$(dirname "$0")/.." && pwd)
folder=$(mktemp -d)
program=
trap 'exec 3>&-; [ -z "$program" ] || kill "$program" 2>/dev/null || true; rm -rf "$folder"' EXIT
path=/v1/metric/00000001-0000-8000-8000-000000000001/measures
posts=0
fault='503 {"error":"disk"}'

# Posts the next measure, one a second, so that a count tells the posts apart. The second word is so
# many measures of one second beside it, which make the post long.
post() {
    awk -v path="$path" -v second="$posts" -v more="$1" 'BEGIN {
        printf "POST %s [{\"timestamp\":%d,\"value\":1}", path, second
        for (n = 0; n < more; n++) printf ",{\"timestamp\":%d,\"value\":1}", second
        print "]"
    }' >&3
    posts=$((posts + 1))
    tries=0
    until [ "$(wc -l <"$folder/replies")" -eq "$posts" ]; do
        tries=$((tries + 1))
        [ "$tries" -le 1000 ]
        sleep 0.01
    done
    reply=$(tail -n 1 "$folder/replies")
}

# Posts until the disk is full.
fill() {
    until post 0 && [ "$reply" = "$fault" ]; do
        [ "$reply" = 202 ]
        [ "$posts" -le 500 ]
    done
}

"$top/gnocchi" create --store "$folder/store" --sacks 1 >/dev/null
head -n 2 "$top/examples/first.script" | "$top/gnocchi" replay --store "$folder/store" --sacks 1 >/dev/null
mkfifo "$folder/lines"
(
    trap '' XFSZ
    ulimit -S -f 8
    exec "$top/gnocchi" replay --store "$folder/store" --sacks 1
) <"$folder/lines" >"$folder/replies" &
program=$!
exec 3>"$folder/lines"
post 0
[ "$reply" = 202 ]
post 1000
[ "$reply" = "$fault" ]
# A shorter one has room.
post 0
[ "$reply" = 202 ]
fill
post 0
[ "$reply" = "$fault" ]
if command -v prlimit >/dev/null; then
    prlimit --pid "$program" --fsize=unlimited
    post 0
    [ "$reply" = 202 ]
    post 1000
    [ "$reply" = 202 ]
fi
exec 3>&-
wait "$program"
program=
acknowledged=$(grep -c '^202$' "$folder/replies")
printf 'WORK\nGET %s?granularity=300&aggregation=count\n' "$path" |
    "$top/gnocchi" replay --store "$folder/store" --sacks 1 >"$folder/answer"
kept=$(tail -n 1 "$folder/answer" | tr '[' '\n' | awk -F, 'NF >= 3 { sum += $3 } END { print sum + 0 }')
echo "$acknowledged acknowledged, $kept kept"
[ "$kept" -ge "$acknowledged" ]
[ "$kept" -le $((acknowledged + 1)) ]
echo "full: ok"

#!/bin/sh
# Makes each sync and each write of a run fail in turn. A new run then has every acknowledged post,
# and at most one more. After a sync that failed nothing is acknowledged any more in that run; after a
# write that failed the run goes on. A store that couldn't be made isn't told as created.
set -eu
top=$(cd "$(dirname "$0")/.." && pwd)
folder=$(mktemp -d)
trap 'rm -rf "$folder"' EXIT
path=/v1/metric/00000001-0000-8000-8000-000000000001/measures
posts=4
if ! strace -o "$folder/trace" true 2>/dev/null; then
    echo "faults: skipped, strace isn't here or may not trace"
    exit 0
fi

# Runs the program with one call of this name made to fail, and says whether it came to that call.
failing() {
    call=$1
    number=$2
    shift 2
    status=0
    strace -y -o "$folder/trace" -e "trace=$call" -e "inject=$call:error=EIO:when=$number" \
        "$top/gnocchi" "$@" <"$folder/lines" >"$folder/replies" 2>/dev/null || status=$?
    grep -q INJECTED "$folder/trace"
}

# The posts that a new run has.
count_kept() {
    printf 'WORK\nGET %s?granularity=60&aggregation=count\n' "$path" |
        "$top/gnocchi" replay --store "$1" --sacks 1 >"$folder/answer"
    kept=$(tail -n 1 "$folder/answer" | tr '[' '\n' | awk -F, 'NF >= 3 { sum += $3 } END { print sum + 0 }')
}

# One measure a second: the seconds tell the posts apart.
awk -v posts="$posts" -v path="$path" 'BEGIN {
    for (second = 0; second < posts; second++) {
        printf "POST %s [{\"timestamp\":%d,\"value\":1}]\n", path, second
        if (second == 1) print "WORK"
    }
}' >"$folder/lines"
"$top/gnocchi" create --store "$folder/empty" --sacks 1 >/dev/null
head -n 2 "$top/examples/first.script" | "$top/gnocchi" replay --store "$folder/empty" --sacks 1 >/dev/null

made=0
for call in fsync fdatasync pwrite64; do
    number=1
    while cp -R "$folder/empty" "$folder/store" && failing "$call" "$number" replay --store "$folder/store" --sacks 1; do
        acknowledged=$(grep -c '^202$' "$folder/replies" || true)
        [ "$status" -eq 6 ] || [ "$status" -eq 0 ]
        if [ "$status" -eq 0 ]; then
            [ "$(wc -l <"$folder/replies")" -eq $((posts + 1)) ]
        fi
        case $call in
            # That file is synced no more, and from the first reply of a fault on there is no other.
            f*sync)
                file=$(sed -n 's/^[a-z]*(\([0-9]*<[^>]*>\)).*INJECTED.*/\1/p' "$folder/trace")
                [ "$(sed '1,/INJECTED/d' "$folder/trace" | grep -c -F "($file)" || true)" -eq 0 ]
                [ "$(uniq "$folder/replies" | grep -c '^503')" -eq "$((status == 0))" ]
                [ "$(tail -n 1 "$folder/replies" | grep -c '^2')" -eq 0 ]
                ;;
            *) [ "$(grep -c '^503 {"error":"disk"}$' "$folder/replies")" -eq 1 ] ;;
        esac
        count_kept "$folder/store"
        [ "$kept" -ge "$acknowledged" ]
        [ "$kept" -le $((acknowledged + 1)) ]
        rm -r "$folder/store"
        number=$((number + 1))
    done
    # The last run met no fault.
    [ "$status" -eq 0 ]
    [ "$(grep -c '^202$' "$folder/replies")" -eq "$posts" ]
    rm -r "$folder/store"
    echo "replay, $call: $((number - 1)) made to fail in turn"
    made=$((made + number - 1))
done
# An append writes twice and syncs twice.
[ "$made" -gt $((4 * posts)) ]

# Where a write fails and the length of the file can't be had, nothing is acknowledged from then on.
cp -R "$folder/empty" "$folder/store"
strace -o "$folder/trace" -e trace=pwrite64,statx -e inject=pwrite64:error=ENOSPC:when=3 -e inject=statx:error=EIO:when=8+ \
    "$top/gnocchi" replay --store "$folder/store" --sacks 1 <"$folder/lines" >"$folder/replies"
[ "$(grep -c INJECTED "$folder/trace")" -ge 2 ]
[ "$(uniq "$folder/replies" | tr '\n' ' ')" = '202 503 {"error":"disk"} ' ]
count_kept "$folder/store"
[ "$kept" -eq 1 ]

# All three folders are made by the run, and a sync that fails while one is made is told.
cd "$folder"
made=0
for call in fsync fdatasync pwrite64; do
    number=1
    while failing "$call" "$number" create --store new/deep/store --sacks 1; do
        [ "$status" -eq 6 ]
        [ ! -s "$folder/replies" ]
        status=0
        "$top/gnocchi" create --store new/deep/store --sacks 1 >"$folder/out" 2>/dev/null || status=$?
        [ "$status" -eq 0 ] || [ "$status" -eq 11 ]
        [ "$("$top/gnocchi" check --store new/deep/store --sacks 1)" = "sacks 1 metrics 0 pending 0" ]
        rm -r new
        number=$((number + 1))
    done
    [ "$status" -eq 0 ]
    [ "$(cat "$folder/replies")" = created ]
    rm -r new
    echo "create, $call: $((number - 1)) made to fail in turn"
    made=$((made + number - 1))
done
# Four folders are synced, and the disks of the index and of a sack are made.
[ "$made" -ge 8 ]
echo "faults: ok"

#!/bin/sh
# Runs the examples as the README does, and compares what they print with the expected output.
set -eu
top=$(cd "$(dirname "$0")/.." && pwd)
folder=$(mktemp -d)
trap 'rm -rf "$folder"' EXIT
out="$folder/out"
"$top/examples/survive.sh" >"$out"
cmp "$out" "$top/examples/survive.expected"
"$top/gnocchi" replay --memory <"$top/examples/first.script" >"$out"
cmp "$out" "$top/examples/first.expected"

# The walk, in memory and on files, in two runs.
"$top/gnocchi" replay --memory <"$top/examples/rest.script" >"$out"
cmp "$out" "$top/examples/rest.expected"
store="$folder/store"
[ "$("$top/gnocchi" create --store "$store" --sacks 2)" = created ]
head -n 15 "$top/examples/rest.script" | "$top/gnocchi" replay --store="$store" --sacks=2 >"$out"
tail -n +16 "$top/examples/rest.script" | "$top/gnocchi" replay --sacks 2 --store "$store" >>"$out"
cmp "$out" "$top/examples/rest.expected"
[ "$("$top/gnocchi" check --store "$store" --sacks 2)" = "sacks 2 metrics 1 pending 0" ]

# The rows, each on a store of its own.
for script in "$top"/examples/store/*.script; do
    "$top/gnocchi" replay --memory --sacks=1 <"$script" >"$out"
    cmp "$out" "${script%.script}.expected"
done

# Runs the program, and wants this status and this text on standard error, and nothing on standard output.
wants() {
    wanted=$1
    text=$2
    shift 2
    status=0
    "$top/gnocchi" "$@" >"$out" 2>"$folder/err" || status=$?
    [ "$status" -eq "$wanted" ]
    [ "$(cat "$folder/err")" = "gnocchi: $text" ]
    [ ! -s "$out" ]
}

printf 'WORK' >"$folder/in"
wants 3 "input" replay --memory <"$folder/in"
wants 2 "usage" replay </dev/null
wants 2 "usage" replay --memory --memory </dev/null
wants 2 "usage" check --store "$store" --number 1 </dev/null
wants 6 "disk fault" replay --store "$folder/none" </dev/null
wants 11 "store exists" create --store "$store" --sacks 2 </dev/null
wants 7 "damaged 0 at 0" check --store "$store" --sacks 1 </dev/null
printf '\001' >"$store/sack-1.in.a"
wants 7 "damaged 7 at 0" replay --store "$store" --sacks 2 </dev/null
echo "examples: ok"

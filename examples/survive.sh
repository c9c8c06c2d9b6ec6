#!/bin/sh
# Makes a store in a new folder, and in it an archive policy and a metric; posts two measures to it, kills the program, and
# reads the mean back.
set -eu
top=$(cd "$(dirname "$0")/.." && pwd)
folder=$(mktemp -d)
trap 'rm -rf "$folder"' EXIT
"$top/gnocchi" create --store "$folder/store"
mkfifo "$folder/lines"
"$top/gnocchi" replay --store "$folder/store" <"$folder/lines" >"$folder/replies" &
program=$!
exec 3>"$folder/lines"
head -n 3 "$top/examples/first.script" >&3
tries=0
until grep -q '^202$' "$folder/replies"; do
    tries=$((tries + 1))
    [ "$tries" -le 100 ]
    sleep 0.1
done
kill -9 "$program"
wait "$program" 2>/dev/null || true
exec 3>&-
cat "$folder/replies"
tail -n 2 "$top/examples/first.script" | "$top/gnocchi" replay --store "$folder/store"

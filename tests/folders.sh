#!/bin/sh
# A store in new folders, three deep: each is made, and synced before the store is told as created, as
# is the folder above it.
set -eu
top=$(cd "$(dirname "$0")/.." && pwd)
folder=$(cd "$(mktemp -d)" && pwd -P)
trap 'rm -rf "$folder"' EXIT
cd "$folder"
for place in "$folder/a/b/c" d/e/f g/h/i/; do
    [ "$("$top/gnocchi" create --store "$place")" = created ]
    [ -s "$place/index.a" ]
    "$top/gnocchi" replay --store "$place" </dev/null
done
status=0
"$top/gnocchi" create --store d/e/f/index.a/x >out 2>/dev/null || status=$?
[ "$status" -eq 6 ]
[ ! -s out ]
if strace -o trace true 2>/dev/null; then
    strace -y -o trace -e trace=fsync,fdatasync,write "$top/gnocchi" create --store k/l/m >out
    # The folders that were synced before the program said anything.
    sed '/^write(1</,$d' trace | sed -n 's/^fsync([0-9]*<\(.*\)>) *= 0$/\1/p' | sort -u >synced
    for made in . k k/l k/l/m; do
        grep -q -x -F "$(cd "$made" && pwd -P)" synced
    done
    grep -q '^write(1<' trace
else
    echo "folders: without strace their syncs aren't seen"
fi
echo "folders: ok"

#!/bin/sh
# Measures what the layers cost beside yardsticks of the same work on the same input, in one run, and
# writes a table of ratios. Each part runs at two sizes, one ten times the other, in several passes;
# each figure is the median over the passes. The log lies in a folder made where TMPDIR says, and
# is removed. All measuring ends within three minutes.
set -eu
# The C library keeps the memory that it is given back, as it does in a program that runs for long:
# else what is measured at larger sizes is how fast the system hands out pages.
GLIBC_TUNABLES=glibc.malloc.mmap_threshold=1073741824:glibc.malloc.trim_threshold=1073741824
export GLIBC_TUNABLES
here=$(cd "$(dirname "$0")" && pwd)
crate="$here/../crates/gno_bench"
program="$crate/out/gno_bench"
passes=${PASSES:-9}
if [ ! -x "$program" ]; then
    (cd "$crate" && rt run -- values 10 1 >/dev/null) 1>&2
fi
folder=$(mktemp -d)
trap 'rm -rf "$folder"' EXIT
samples="$folder/samples"
: >"$samples"
: >"$folder/missing"
started=$(date +%s)

has_plain=yes
if ! command -v g++ >/dev/null || ! g++ -O2 -o "$folder/yardstick" "$here/yardstick.cc"; then
    has_plain=no
    echo "C++ (no g++)" >>"$folder/missing"
fi
has_python=yes
if ! command -v python3 >/dev/null; then
    has_python=no
    echo "CPython and orjson (no python3)" >>"$folder/missing"
elif ! python3 -c 'import orjson' 2>/dev/null; then
    echo "orjson (not installed for python3)" >>"$folder/missing"
fi

# Runs the words on the product and on the yardsticks, and notes what each took. Of the log in
# memory only mounting is noted: it has no sync.
measure() {
    size=$2
    in=
    if [ "$1" = log ] && [ $# -eq 3 ]; then
        in=memory_
    fi
    timeout 30 "$program" "$@" >"$folder/out" 2>"$folder/err"
    awk -v size="$size" -v in_="$in" 'in_ == "" || $1 == "log_mount" { print in_ $1, size, "product", $7, $3
        print in_ $1, size, "copy", $13 * $5, $3 }' "$folder/err" >>"$samples"
    if [ "$has_plain" = yes ]; then
        timeout 30 "$folder/yardstick" "$@" >"$folder/plain_out" 2>"$folder/plain_err"
        if ! cmp -s "$folder/out" "$folder/plain_out"; then
            echo "bench: the C++ program computes something else for: $*" >&2
            exit 1
        fi
        awk -v size="$size" -v in_="$in" 'in_ == "" || $1 == "log_mount" { print in_ $1, size, "C++", $7, $3 }' \
            "$folder/plain_err" >>"$samples"
    fi
    if [ "$has_python" = yes ] && [ -z "$in" ]; then
        timeout 30 python3 "$here/yardstick.py" "$@" >"$folder/python_out"
        awk -v size="$size" '{ print $1, size, $2, $3, 0 }' "$folder/python_out" >>"$samples"
    fi
}

pass=0
while [ "$pass" -lt "$passes" ] && [ $(($(date +%s) - started)) -lt 120 ]; do
    for tenth in 1 10; do
        measure values $((10000 / tenth)) 15
        measure stamps $((10000 / tenth)) 15
        measure print $((10080 / tenth)) 9
        measure json $((10000 / tenth)) 9
        measure codec $((36000 / tenth)) 15
        measure policies $((4000 / tenth)) 3
        measure aggregate $((10000 / tenth)) 9
        measure log $((40960 / tenth)) 5
        measure log $((40960 / tenth)) 1 "$folder"
    done
    pass=$((pass + 1))
done

echo "Taken on $(date +%Y-%m-%d), $(nproc) cores, medians of $pass passes."
sort -u "$folder/missing" | sed 's/^/Left out, for want of the yardstick: /'
echo
awk '
function median(list, n, i, j, x, sorted) {
    n = split(list, sorted, " ")
    for (i = 2; i <= n; i++) {
        x = sorted[i] + 0
        for (j = i - 1; j >= 1 && sorted[j] + 0 > x; j--) sorted[j + 1] = sorted[j]
        sorted[j + 1] = x
    }
    return sorted[int((n + 1) / 2)] + 0
}
{
    work = $1; size = $2 + 0; who = $3; key = work SUBSEP who
    if (!(work in order)) { order[work] = ++works; name[works] = work }
    if (!(key in known)) { known[key] = 1; count[work]++; yard[work, count[work]] = who }
    times[key, size] = times[key, size] " " $4
    runs[key, size]++
    at[key, size, runs[key, size]] = $4 + 0
    if (who == "product") {
        units[work, size] = $5
        if (!(work in large) || size > large[work]) large[work] = size
        if (!(work in small) || size < small[work]) small[work] = size
    }
}
function ratios(work, who, size, list, i) {
    list = ""
    for (i = 1; i <= runs[work, "product", size] && i <= runs[work, who, size]; i++)
        list = list " " at[work, "product", size, i] / (at[work, who, size, i] > 0 ? at[work, who, size, i] : 1)
    return median(list)
}
function growth(work, who, list, i) {
    list = ""
    for (i = 1; i <= runs[work, who, large[work]]; i++)
        list = list " " at[work, who, large[work], i] / (at[work, who, small[work], i] > 0 ? at[work, who, small[work], i] : 1)
    return median(list)
}
END {
    print "| Work | Size | ns each | Copies | Yardstick | its ns each | Ratio | Ratio at a tenth | Ten times | Yardstick, ten times |"
    print "|---|---|---|---|---|---|---|---|---|---|"
    for (w = 1; w <= works; w++) {
        work = name[w]; size = large[work]; n = units[work, size]
        for (y = 1; y <= count[work]; y++) {
            who = yard[work, y]
            if (who == "product" || who == "copy") continue
            printf "| %s | %d | %.1f | %.0f | %s | %.1f | %.2f | %.2f | %.1f | %.1f |\n", work, size,
                median(times[work, "product", size]) / n, ratios(work, "copy", size), who,
                median(times[work, who, size]) / n, ratios(work, who, size),
                ratios(work, who, small[work]), growth(work, "product"), growth(work, who)
        }
    }
}' "$samples"

#!/bin/sh
# The REST interface over larger inputs and over connections: a day of samples in one batch and in 24; a connection whose
# client waits before it sends its body, one that is cut, and one over a store that a script has filled.
set -eu
top=$(cd "$(dirname "$0")/.." && pwd)
folder=$(mktemp -d)
trap 'rm -rf "$folder"' EXIT
out="$folder/out"

# A day of samples, one every ten seconds, posted in so many batches: 360 in each hour, 6 in each minute.
day() {
    awk -v batches="$1" 'BEGIN {
        print "POST /v1/archive_policy {\"name\":\"p\",\"definition\":[{\"granularity\":60,\"points\":10080},{\"granularity\":3600,\"points\":8760}],\"aggregation_methods\":[\"count\"]}"
        print "POST /v1/metric {\"archive_policy_name\":\"p\"}"
        path = "/v1/metric/00000001-0000-8000-8000-000000000001/measures"
        for (batch = 0; batch < batches; batch++) {
            printf "POST %s [", path
            for (n = 0; n < 8640 / batches; n++)
                printf "%s{\"timestamp\":%d,\"value\":%d}", n ? "," : "", (batch * 8640 / batches + n) * 10, n
            print "]"
            print "WORK"
        }
        printf "GET %s?aggregation=count&granularity=3600\nGET %s?aggregation=count&granularity=60\n", path, path
    }' | "$top/gnocchi" replay --memory | tail -n 2
}
day 1 >"$out"
day 24 >"$folder/hours"
cmp "$out" "$folder/hours"
awk 'BEGIN {
    for (every = 3600; every >= 60; every -= 3540) {
        printf "200 ["
        for (at = 0; at < 86400; at += every)
            printf "%s[\"1970-01-01T%02d:%02d:00+00:00\",%d.0,%d.0]", at ? "," : "", at / 3600, at % 3600 / 60, every, every / 10
        print "]"
    }
}' >"$folder/wanted"
cmp "$out" "$folder/wanted"

# A connection whose client waits before it sends its body, and one that is cut.
connected="$folder/connected"
"$top/gnocchi" create --store "$connected" --sacks 1 >/dev/null
head -n 3 "$top/examples/store/a_batch.script" | "$top/gnocchi" replay --store "$connected" --sacks 1 >"$out"
path=/v1/metric/00000001-0000-8000-8000-000000000001/measures
{
    printf 'POST %s HTTP/1.1\r\nHost: localhost:8041\r\nUser-Agent: curl/8.5.0\r\nAccept: */*\r\n' "$path"
    printf 'Content-Type: application/json\r\nContent-Length: 59\r\nExpect: 100-continue\r\n\r\n'
    printf '[{"timestamp":100,"value":10},{"timestamp":110,"value":20}]'
    printf 'GET %s?refresh=true&granularity=60 HTTP/1.1\r\nHost: localhost:8041\r\n\r\n' "$path"
} >"$folder/in"
"$top/gnocchi" replay-http --store "$connected" --sacks 1 <"$folder/in" >"$out"
{
    printf 'HTTP/1.1 100 Continue\r\n\r\nHTTP/1.1 202 Accepted\r\nContent-Length: 0\r\n\r\n'
    printf 'HTTP/1.1 200 OK\r\nContent-Type: application/json\r\nContent-Length: 41\r\n\r\n'
    printf '[["1970-01-01T00:01:00+00:00",60.0,15.0]]'
} >"$folder/wanted"
cmp "$out" "$folder/wanted"
status=0
head -n 4 "$folder/in" | "$top/gnocchi" replay-http --store "$connected" --sacks 1 >"$out" 2>"$folder/err" || status=$?
[ "$status" -eq 3 ]
[ ! -s "$out" ]

# A connection that its client closes, over the store of the walk.
store="$folder/store"
"$top/gnocchi" create --store "$store" --sacks 2 >/dev/null
"$top/gnocchi" replay --store "$store" --sacks 2 <"$top/examples/rest.script" >/dev/null
printf 'GET /v1/archive_policy_rule/cpus HTTP/1.1\r\nHost: a\r\n\r\nDELETE /v1/nowhere HTTP/1.1\r\nHost: a\r\nConnection: close\r\n\r\n' |
    "$top/gnocchi" replay-http --store "$store" --sacks 2 >"$out"
printf 'HTTP/1.1 200 OK\r\nContent-Type: application/json\r\nContent-Length: 68\r\n\r\n%s' \
    '{"archive_policy_name":"low","metric_pattern":"cpu.*","name":"cpus"}' >"$folder/wanted"
printf 'HTTP/1.1 404 Not Found\r\nConnection: close\r\nContent-Type: application/json\r\nContent-Length: 20\r\n\r\n%s' \
    '{"error":"no-route"}' >>"$folder/wanted"
cmp "$out" "$folder/wanted"
echo "rest: ok"

#!/bin/bash
# Times the built program's `serve` beside nginx, which answers each request with a fixed body: posts of 2 kB a second, over one kept
# connection by wrk, both in turns, and with a connection for each by ab, and the seconds of a body of 16 MiB beside `convert` of the same.
# A processor takes the longer to wake the longer it slept, which the slower program pays besides its own work. So the posts over a kept
# connection are timed twice: while no processor sleeps, since on each runs a loop that gives way to all other work, and as the machine
# does it.
# The program runs as ./spanx runs it, with its setting of the allocator.
#   bench/speed/gateway_speed.sh [TURNS [SECONDS]]    at the top, after ./spanx has built the program; 5 turns of 3 seconds
# These figures are no test: they hang on the machine and its load.
cd "$(dirname "$0")/../.." || exit 2
program=crates/spanx/out/spanx
[ -x "$program" ] || { echo "build the program first"; exit 1; }
turns=${1:-5} seconds=${2:-3}
settings=${GLIBC_TUNABLES-$(sed -n 's/^GLIBC_TUNABLES=.*-\(.*\)}$/\1/p' spanx)}
spanx() { GLIBC_TUNABLES=$settings exec "$program" "$@"; }
folder=$(mktemp -d)
trap 'kill $(jobs -p) 2>/dev/null; nginx -s stop -c "$folder/nginx.conf" 2>/dev/null; rm -rf "$folder"' EXIT
python3 - "$folder" <<'END'
import json, sys
span = {"traceId": "463ac35c9f6413ad48485a3953bb6124", "name": "get /cart", "kind": "SERVER", "duration": 12345,
        "localEndpoint": {"serviceName": "shop", "ipv4": "10.0.0.1", "port": 8080},
        "tags": {"http.method": "GET", "http.path": "/cart/items", "http.status_code": "200"}}
def spans(n):
    return json.dumps([{**span, "id": f"{i:016x}", "timestamp": 1_700_000_000_000_000 + i} for i in range(1, n + 1)], separators=(",", ":"))
open(f"{sys.argv[1]}/json", "w").write(spans(7))
open(f"{sys.argv[1]}/more", "w").write(spans(10))
open(f"{sys.argv[1]}/large", "w").write(spans(55_500))
END
"$program" convert --from zipkin-json --to otlp-proto < "$folder/more" > "$folder/protobuf"
cat > "$folder/nginx.conf" <<END
worker_processes 1;
pid $folder/pid;
error_log $folder/error;
events { worker_connections 64; }
http { access_log off; keepalive_requests 100000000; server { listen 127.0.0.1:4393; location / { return 200 "[]"; } } }
END
post() { printf 'wrk.method = "POST"\nwrk.body = io.open("%s", "rb"):read("*a")\nwrk.headers["Content-Type"] = "%s"\n' "$folder/$1" "$2" > "$folder/$1.lua"; }
post json application/json
post protobuf application/x-protobuf
declare -A path=([json]=/api/v2/spans [protobuf]=/v1/traces)
nginx -c "$folder/nginx.conf" || exit 1
# Posts a second of this kind to this place.
by_wrk() { wrk -t 1 -c 1 -d "${seconds}s" -s "$folder/$1.lua" "http://127.0.0.1:$2" | sed -n 's/^Requests.sec: *//p'; }
by_ab() { ab -q -n 20000 -c 1 -p "$folder/json" -T application/json "http://127.0.0.1:$1${path[json]}" 2> /dev/null | sed -n "s/^Requests per second: *\([0-9.]*\).*/$2, a connection each: posts a second \1/p"; }
loops=()
# No processor sleeps from here on.
keep_awake() {
    for processor in $(seq 0 $(($(nproc) - 1))); do
        chrt --idle 0 taskset -c "$processor" sh -c 'while :; do :; done' &
        loops+=($!)
    done
}
# They sleep as they like again.
let_sleep() {
    kill "${loops[@]}"
    wait "${loops[@]}" 2> /dev/null
    loops=()
}
# Posts to the program and to nginx in turns, of both kinds.
in_turns() {
    for kind in json protobuf; do
        for _ in $(seq "$turns"); do
            echo "$(by_wrk "$kind" "4392${path[$kind]}") $(by_wrk "$kind" 4393/)"
        done | told "$kind to $1"
    done
}
# Of rows of posts a second of the program and of nginx: the middle of each and of their quotients, the least and the most.
told() {
    python3 -c '
import statistics, sys
rows = [[float(word) for word in line.split()] for line in sys.stdin]
def of(values, form):
    return f"{statistics.median(values):{form}} ({min(values):{form}} to {max(values):{form}})"
own = of([own for own, other in rows], ",.0f")
nginx = of([other for own, other in rows], ",.0f")
times = of([own / other for own, other in rows], ".2f")
print(f"{sys.argv[1]}: posts a second {own}, of nginx {nginx}, times as many {times}")' "$1"
}
echo "posts of 7 spans of Zipkin in $(stat -c %s "$folder/json") bytes, and of 10 of OTLP in protobuf in $(stat -c %s "$folder/protobuf")"
by_ab 4393 nginx
for form in otlp-proto otlp-json jaeger-binary jaeger-compact zipkin-json; do
    spanx serve --listen 127.0.0.1:4392 --to "$form" --count 1000000 > "$folder/notes" 2>&1 &
    server=$!
    sleep 0.5
    keep_awake
    in_turns "$form, processors awake"
    let_sleep
    in_turns "$form, processors as they are"
    by_ab 4392 "json to $form"
    echo "to $form: $(sed -n 's/^VmHWM:[[:space:]]*//p' "/proc/$server/status") of memory behind all of these"
    curl -s -o /dev/null -w "to $form: a body of %{size_upload} bytes in %{time_total} s\n" -H 'Content-Type: application/json' \
        -H 'Expect:' --data-binary "@$folder/large" http://127.0.0.1:4392/api/v2/spans
    kill "$server"
    wait "$server" 2> /dev/null
    TIMEFORMAT="convert to $form: the same body in %R s"
    time env GLIBC_TUNABLES="$settings" "$program" convert --from zipkin-json --to "$form" < "$folder/large" > /dev/null
done

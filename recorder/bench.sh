#!/bin/sh
# Times the programs of testdata/bench: ./bench.sh [RUNS [JUDGE]]. Seconds of CPU, the least of three
# runs, or of RUNS: plain, with Go's own detector, recorded by the program alone, and, if JUDGE names
# the command gorace, by gorec exec with all that it starts. Then the log's size on the disk in MB,
# and of the first segment its records, its events, and bytes of the trace an event.
set -eu
runs=${1:-3}
judge=${2:-}
cd "$(dirname "$0")"
work=$(mktemp -d)
trap 'rm -rf "$work"' EXIT
go build -o "$work/gorec" ./cmd/gorec
cd testdata/bench

# The least CPU time of a program's runs. A log has one run.
least() {
    for _ in $(seq "$runs"); do
        rm -f "$work/log"
        { /usr/bin/env time -f '%U %S' "$@" >/dev/null 2>"$work/said"; } 2>&1 || true
        tail -1 "$work/said"
    done | awk '{ t = $1 + $2; if (NR == 1 || t < m) m = t } END { printf "%.2f", m }'
}

printf '%-9s %5s %7s %7s %9s %7s %5s %9s %9s %6s\n' program procs plain race recorded judged MB records events bytes
for program in locks channels slices rows maps; do
    go build -o "$work/plain" "./$program"
    go build -race -o "$work/race" "./$program"
    "$work/gorec" build -o "$work/recorded" "./$program"
    for procs in 1 4; do
        export GOMAXPROCS=$procs
        plain=$(least "$work/plain")
        race=$(least "$work/race")
        judged=-
        [ -z "$judge" ] || judged=$(least "$work/gorec" exec -gorace "$judge" "$work/recorded")
        recorded=$(least env "GOREC_LOG=$work/log" "$work/recorded")
        size=$(du -m "$work/log" | cut -f 1)
        "$work/gorec" trace "$work/log" "$work/recorded" >"$work/trace" 2>"$work/counts"
        counts=$(sed -n 's/^gorec: \([0-9]*\) events of \([0-9]*\) records.*/\2 \1/p' "$work/counts")
        events=${counts#* }
        bytes=$(awk -v b="$(wc -c <"$work/trace")" -v e="$events" 'BEGIN { printf "%.1f", b / (e ? e : 1) }')
        printf '%-9s %5s %7s %7s %9s %7s %5s %9s %9s %6s\n' \
            "$program" "$procs" "$plain" "$race" "$recorded" "$judged" "$size" "${counts% *}" "$events" "$bytes"
    done
done

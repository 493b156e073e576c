#!/bin/sh
# Tests the recorder: ./test.sh [JUDGE]. JUDGE is the command gorace; without it gorace is built
# once, before any proof, by rt try, and judges all traces of the tests at the end.
set -eu
cd "$(dirname "$0")"

if ! command -v go >/dev/null; then
    echo 'recorder/test.sh: no Go on the PATH' >&2
    exit 127
fi
if [ -z "${HOME:-}${XDG_CACHE_HOME:-}${GOCACHE:-}" ]; then
    GOCACHE=$(mktemp -d)
    export GOCACHE
fi
judge=${1:-unproved}
if [ "$judge" = unproved ]; then
    if ! command -v rt >/dev/null; then
        echo 'recorder/test.sh: no judge: name the command gorace, or put rt on the PATH' >&2
        exit 127
    fi
elif ! command -v "${judge%% *}" >/dev/null; then
    echo "recorder/test.sh: no judge: $judge can't be run" >&2
    exit 127
fi

unformatted=$(gofmt -l .)
if [ -n "$unformatted" ]; then
    echo "not as gofmt writes it: $unformatted" >&2
    exit 1
fi
go vet ./...
go test -timeout 60m ./cmd/gorec ./internal/hooklog ./internal/patch ./internal/report ./internal/symbols ./internal/trace ./internal/translate
go test -parallel 2 -timeout 60m ./internal/endtoend -judge "$judge"
echo 'recorder: ok'

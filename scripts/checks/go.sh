#!/bin/sh
# The package for Go: gofmt and go vet, its tests and examples, the test vectors, goroutines with the race detector.
#
# It is built in a copy, over the installed library and without a network. It takes the proved static library, as
# scripts/checks/c.sh does. Where staticcheck is on the path, it runs with all of its checks.
set -u
cd "$(dirname "$0")/../.." || exit 1
. scripts/checks/lib.sh

needs go golang-go
needs gofmt golang-go
needs pkg-config pkg-config
installed_library

# the tests read the other folders next to their own
cp -R go conformance examples include proto "$work"
top=$PWD
cd "$work/go" || exit 1
GOFLAGS=-mod=mod
GOPROXY=off
GOPATH=$work/path
GOCACHE=$work/cache
GODEBUG=cgocheck=2
export GOFLAGS GOPROXY GOPATH GOCACHE GODEBUG

gofmt -l -d . > "$out" 2> "$err"
[ ! -s "$out" ] && [ ! -s "$err" ]
outcome 'gofmt' $?
case_of 'go vet' go vet ./...
# Debian gives it another name
staticcheck=$(command -v staticcheck || command -v go-staticcheck)
if [ -n "$staticcheck" ]; then
  case_of 'staticcheck' env "XDG_CACHE_HOME=$work/cache" "$staticcheck" -checks all ./...
else
  left_out 'staticcheck' 'there is none; the Debian package go-staticcheck has it'
fi

# tests: runs all tests and shows what is not that one has passed
tests() {
  go test -v . > "$work/tests"
  ended=$?
  grep -vE '^(=== RUN|--- PASS:)' "$work/tests"
  return $ended
}
case_of 'the tests' tests
counted 'the test vectors' grep -xE '[0-9]+ passed, [0-9]+ failed' "$work/tests"

# listed STREAM VERSION: the example lists a stream as list_stream.py does
listed() {
  python3 -B "$top/scripts/checks/list_stream.py" "$2" < "$work/examples/streams/$1" > "$work/listing"
  prints "the listing of $1" "$work/listing" "$work/listing_program" "$2" < "$work/examples/streams/$1"
}
case_of 'the example' go build -o "$work/listing_program" ./examples/listing
listed replay 8
listed cut_short 7
listed unknown_type 9

case_of 'the proxy is built' go build -o "$work/proxy_program" ./examples/proxy
counted 'the proxy' python3 -B "$top/scripts/checks/proxied.py" "$work/proxy_program"
case_of 'the example that checks a replay is built' go build -o "$work/replay_program" ./examples/replay
counted 'the replays' python3 -B "$top/scripts/checks/replayed.py" "$work/replay_program"

# The page: its program, its part of the proxy, the program that compares, and its part of the example of errors.
mkdir "$work/go/page" "$work/go/compare" "$work/go/other"
awk -v page="$work/go/page/main.go" -v part="$work/part" -v compare="$work/go/compare/main.go" \
  -v replay="$work/replay" -v errors="$work/errors" -v other="$work/go/other/main.go" '
  /^## / { section = $2 }
  /^```go$/ {
    file = section == "Compare" ? compared++ ? replay : compare : section == "Errors" ? errors : \
      section == "Other" ? other : blocks++ ? part : page
    next
  }
  /^```$/ { file = "" }
  file != "" { print > file }' README.md
sed -n '/^Of `examples/,/^[A-Z] /s/^    //p' README.md > "$work/wanted"
prints 'the program of go/README.md' "$work/wanted" go run ./page < "$work/examples/streams/replay"
sed -n '/^Of `recorded/,/^|/s/^    //p' README.md > "$work/wanted"
prints 'the program of go/README.md that compares' "$work/wanted" \
  go run ./compare "$work/examples/streams/recorded" "$work/examples/streams/replayed_other_payload"
case_of 'write_numbering.py' python3 -B "$top/scripts/checks/write_numbering.py" "$work/go"
sed -n '/^Of a set/,/^[A-Z]/s/^    //p' README.md > "$work/wanted"
prints 'the program of go/README.md that reads other field numbers' "$work/wanted" go run ./other < theirs
case_of 'the proxy of go/README.md' python3 -B "$top/scripts/checks/is_part.py" "$work/part" examples/proxy/main.go
case_of 'the replay of go/README.md' python3 -B "$top/scripts/checks/is_part.py" "$work/replay" example_test.go
case_of 'the errors of go/README.md' python3 -B "$top/scripts/checks/is_part.py" "$work/errors" example_test.go

# racing: runs tests with the race detector, some at least
racing() {
  go test -race -v -run Goroutines . > "$work/tests"
  ended=$?
  cat "$work/tests"
  [ $ended -eq 0 ] && grep -q '^--- PASS: ' "$work/tests"
}
mkdir "$work/bare"
printf 'package main\n\nfunc main() {}\n' > "$work/bare/main.go"
if go run -race "$work/bare/main.go" > "$work/race" 2>&1; then
  case_of 'goroutines with the race detector' racing
else
  left_out 'goroutines with the race detector' 'it does not work here'
fi

finish

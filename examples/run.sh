#!/bin/sh
# Runs each example on a built program, and compares what it writes and its exit status with what the example says.
# usage: examples/run.sh PROGRAM
# Each folder beside this script has spec.qtl, log.csv, report.txt and status.
set -u

if [ $# -ne 1 ]; then
    echo 'usage: examples/run.sh PROGRAM' >&2
    exit 2
fi
program=$1
here=$(CDPATH='' cd "$(dirname "$0")" && pwd) || exit 2
report=$(mktemp) || exit 2
trap 'rm -f "$report"' EXIT
passed=0
failed=0

for folder in "$here"/*/; do
    name=$(basename "$folder")
    wanted=$(cat "$folder/status")
    "$program" "$folder/spec.qtl" "$folder/log.csv" </dev/null >"$report"
    status=$?
    if [ "$status" = "$wanted" ] && cmp -s "$report" "$folder/report.txt"; then
        echo "example $name: passed"
        passed=$((passed + 1))
    else
        echo "example $name: FAILED, status $status where $wanted is wanted; it wrote:"
        cat "$report"
        failed=$((failed + 1))
    fi
done

echo "$passed passed, $failed failed"
[ "$failed" -eq 0 ] && [ "$passed" -gt 0 ]

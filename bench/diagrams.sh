#!/bin/sh
# Times the proved operations on diagrams beside the same work over BuDDy. It is no part of the gate.
# usage: bench/diagrams.sh [ROUNDS [CACHE]]
# CACHE is the size of each of BuDDy's caches.
set -eu

rounds=${1:-5}
cache=${2:-1048576}
here=$(CDPATH='' cd "$(dirname "$0")" && pwd)
program=$here/../crates/diagram_bench/out/diagram_bench
peer=$here/data/diagrams

if [ ! -x "$program" ]; then
    echo 'the proved program is not built: run .ci/run first' >&2
    exit 1
fi
for tool in python3 g++; do
    if ! command -v "$tool" >/dev/null; then
        echo "$tool is missing" >&2
        exit 1
    fi
done
mkdir -p "$here/data"
g++ -O2 "$here/diagrams.cpp" -o "$peer" -lbdd

python3 "$here/diagrams.py" "$program" "$peer" "$cache" "$rounds"

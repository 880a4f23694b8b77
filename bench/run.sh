#!/bin/sh
# Times the proved program on long logs, beside programs that only read them. It is no part of the gate.
# usage: bench/run.sh [LINES [ROUNDS [PEER]]]
# PEER is a program that reads the records of a log, as README.md tells. It may be left out.
set -eu

lines=${1:-10000000}
rounds=${2:-7}
peer=${3:-}
here=$(CDPATH='' cd "$(dirname "$0")" && pwd)
. "$here/program.sh"
spec=$here/session.qtl

if [ -n "$peer" ] && [ ! -x "$peer" ]; then
    echo "$peer is no program" >&2
    exit 1
fi

# Sessions of 1000 users, one after another, each of a login, three accesses and a logout. User 17 comes first.
plain=$here/data/session-$lines.csv
if [ ! -s "$plain" ]; then
    awk -v lines="$lines" 'BEGIN {
        split("login access access access logout", step, " ")
        for (k = 0; k < lines; k++)
            print step[k % 5 + 1] ",u" (17 + int(k / 5)) % 1000
    }' >"$plain.part"
    mv "$plain.part" "$plain"
fi

# The same sessions with quotes, blanks and carriage returns. The second access of each is by another user, whose
# name has a double quote in it.
quoted=$here/data/quoted-$lines.csv
if [ ! -s "$quoted" ]; then
    awk -v lines="$lines" 'BEGIN {
        split("login,\"u|access , \"u|access , \"u\"\"|access,\"u|logout,\"u", before, "|")
        split("\"|\" |\" |\"|\"", after, "|")
        for (k = 0; k < lines; k++)
            printf "%s%d%s\r\n", before[k % 5 + 1], (17 + int(k / 5)) % 1000, after[k % 5 + 1]
    }' >"$quoted.part"
    mv "$quoted.part" "$quoted"
fi

for log in "$plain" "$quoted"; do
    echo "== $(basename "$log")"
    python3 "$here/measure.py" "$program" "$spec" "$log" "$lines" "$rounds" "$peer"
done

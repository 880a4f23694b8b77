#!/bin/sh
# Tests the program at its real ends: pipes, standard input, a device that is full, files that are not there; and its options.
# usage: tests/pipe.sh PROGRAM
# No proof speaks of these ends, since what a file or a pipe gives and takes is outside the program.
set -u

if [ $# -ne 1 ]; then
    echo 'usage: tests/pipe.sh PROGRAM' >&2
    exit 2
fi
program=$1
work=$(mktemp -d) || exit 2
trap 'rm -rf "$work"' EXIT
passed=0
failed=0

printf 'prop r : (! stop("a")) S go("a")\n' >"$work/spec"
printf 'go,a\nstop,a\n' >"$work/log"
printf 'prop t : exists x . P go(x) & exists y . P stop(y)\n' >"$work/two"
printf 'violation 2 r\nevents 2 violations 1\n' >"$work/report"

# A program that does not end is stopped after half a minute, and its status is then not the wanted one.
bounded() {
    if command -v timeout >/dev/null; then
        timeout 30 "$@"
    else
        "$@"
    fi
}

skip() {
    echo "$1: skipped, $2"
}

# verdict NAME CONDITION-STATUS
verdict() {
    if [ "$2" -eq 0 ]; then
        echo "$1: passed"
        passed=$((passed + 1))
    else
        echo "$1: FAILED"
        failed=$((failed + 1))
    fi
}

# compare NAME STATUS WANTED-STATUS: what was written is compared with the file 'wanted'
compare() {
    [ "$2" -eq "$3" ] && cmp -s "$work/out" "$work/wanted"
    good=$?
    verdict "$1" "$good"
    if [ "$good" -ne 0 ]; then
        echo "  status $2 where $3 is wanted; it wrote:"
        cat "$work/out"
    fi
}

# says NAME WANTED-STATUS WANTED-LINE WORDS..: a run that reads no standard input and writes one line
says() {
    name=$1
    wanted=$2
    printf '%s\n' "$3" >"$work/wanted"
    shift 3
    bounded "$program" "$@" </dev/null >"$work/out"
    compare "$name" $? "$wanted"
}

# waits, for ten seconds at most, until the file 'out' holds just these lines
comes() {
    turns=0
    while [ "$turns" -lt 100 ]; do
        [ "$(cat "$work/out")" = "$1" ] && return 0
        sleep 0.1 2>/dev/null || sleep 1
        turns=$((turns + 1))
    done
    return 1
}

# live NAME LOG-WORD: a violation is written while the log's pipe stays open, and the rest once it is closed
live() {
    rm -f "$work/pipe"
    mkfifo "$work/pipe"
    : >"$work/out"
    if [ "$2" = - ]; then
        bounded "$program" "$work/spec" - <"$work/pipe" >"$work/out" &
    else
        bounded "$program" "$work/spec" "$2" </dev/null >"$work/out" &
    fi
    child=$!
    # Opened for reading too, so that this script never waits for a program that is gone.
    exec 3<>"$work/pipe"
    cat "$work/log" >&3
    comes 'violation 2 r'
    verdict "$1: a violation comes while the log is open" $?
    printf 'idle\ngo,a\n' >&3
    exec 3>&-
    wait "$child"
    status=$?
    printf 'violation 2 r\nviolation 3 r\nevents 4 violations 2\n' >"$work/wanted"
    compare "$1: the whole report" "$status" 1
}

# A faulty record stops the program once the place of its fault was read, though its line feed is not there.
stopped_at_once() {
    rm -f "$work/pipe"
    mkfifo "$work/pipe"
    : >"$work/out"
    bounded "$program" "$work/spec" - <"$work/pipe" >"$work/out" &
    child=$!
    exec 3<>"$work/pipe"
    printf 'go,a\nstop,a\ngo,"a"b' >&3
    printf 'violation 2 r\nstopped: text after quote at record 3\n' >"$work/wanted"
    comes "$(cat "$work/wanted")"
    verdict 'a faulty record: it stops the program while the log is open' $?
    exec 3>&-
    wait "$child"
    compare 'a faulty record: the whole report' $? 4
}

if command -v mkfifo >/dev/null; then
    live 'standard input from a pipe' -
    live 'a named pipe as the log' "$work/pipe"
    stopped_at_once
else
    skip 'pipes' 'there is no mkfifo'
fi

cp "$work/report" "$work/wanted"
bounded "$program" "$work/spec" - <"$work/log" >"$work/out"
compare 'standard input as the log' $? 1
bounded "$program" - "$work/log" <"$work/spec" >"$work/out"
compare 'standard input as the specification' $? 1

if [ -c /dev/full ]; then
    bounded "$program" "$work/spec" "$work/log" </dev/null 2>/dev/null >/dev/full
    status=$?
    [ "$status" -eq 6 ]
    verdict 'a full device' $?
else
    skip 'a full device' 'there is no /dev/full'
fi

# The reader is gone by the time of the first write.
{
    sleep 1
    bounded "$program" "$work/spec" "$work/log" </dev/null 2>/dev/null
    echo $? >"$work/status"
} | :
[ "$(cat "$work/status")" = 6 ]
verdict 'a reader of the report that is gone' $?

usage='stopped: usage: dejavu [--bits B] [--nodes N] [--cache C] [--limit L] [--all] [--listen NAMES] [--sample SEED,EVENTS] SPEC [LOG]'
says 'no words' 2 "$usage"
says 'one word' 2 "$usage" "$work/spec"
says 'three words' 2 "$usage" "$work/spec" "$work/log" "$work/log"
says 'standard input twice' 2 "$usage" - -
says 'a call for help' 2 "$usage" --help
says 'a log and a sample' 2 "$usage" --sample 7,12 "$work/spec" "$work/log"
says 'too many bits' 2 "$usage" --bits 21 "$work/spec" "$work/log"
says 'a listener' 2 "$usage" --listen tally "$work/spec" "$work/log"
says 'a limit within the first record' 4 'stopped: log longer than 4 bytes' --limit 4 "$work/spec" "$work/log"
says 'too few nodes' 5 'stopped: nodes full at event 1, subformula 1, row 1' --nodes=2 --bits=8 "$work/two" "$work/log"

printf 'holds 1 r\nviolation 2 r\nevents 2 violations 1\n' >"$work/wanted"
bounded "$program" --all "$work/spec" "$work/log" </dev/null >"$work/out"
compare 'true verdicts too' $? 1

# On the sample of seed 7 a user who has logged out comes back once in four thousand events.
printf 'prop access : forall u . access(u) -> [login(u), logout(u))\n' >"$work/users"
: >"$work/wanted"
event=3976
user=793
while [ "$event" -le 200000 ]; do
    printf 'violation %s access u="u%s"\n' "$event" "$user" >>"$work/wanted"
    event=$((event + 4000))
    user=$((user + 1000))
done
printf 'events 200000 violations 50\n' >>"$work/wanted"
bounded "$program" --bits 8 --nodes 65536 --sample 7,200000 "$work/users" </dev/null >"$work/out"
compare 'a large sample' $? 1
bounded "$program" --sample=7,200000 "$work/users" </dev/null >"$work/out"
compare 'a large sample at the usual sizes' $? 1
says 'names of no files' 6 'stopped: cannot open the specification' "$work/none" "$work/no-log"
says 'no log of that name' 6 'stopped: cannot open the log' "$work/spec" "$work/no-log"
# A directory can be opened, and each read of it fails.
says 'a directory as the specification' 6 'stopped: read fault in the specification' "$work" "$work/log"
says 'a directory as the log' 6 'stopped: read fault in the log' "$work/spec" "$work"

echo "$passed passed, $failed failed"
[ "$failed" -eq 0 ] && [ "$passed" -gt 0 ]

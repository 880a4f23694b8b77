#!/bin/sh
# Makes each allocation of the program fail in turn, on three runs: each then ends as it would have, or for want of memory
# and with a beginning of its report. usage: tests/faults.sh PROGRAM
# The other faults of real ends are those of tests/pipe.sh. No proof speaks of what the C library gives.
set -u

if [ $# -ne 1 ]; then
    echo 'usage: tests/faults.sh PROGRAM' >&2
    exit 2
fi
program=$1
here=$(CDPATH='' cd "$(dirname "$0")" && pwd)
work=$(mktemp -d) || exit 2
trap 'rm -rf "$work"' EXIT
passed=0
failed=0

skip() {
    echo "each allocation failing: skipped, $1"
    echo '0 passed, 0 failed'
    exit 0
}

# run_at N WORDS..: a run whose allocation N fails. The file 'failed' is there where so many came.
run_at() {
    at=$1
    shift
    rm -f "$work/failed"
    FAIL_AT=$at FAILED=$work/failed LD_PRELOAD=$work/failing_malloc.so "$program" "$@" </dev/null >"$work/out" 2>/dev/null
}

# is_front: what was written is a beginning of the report
is_front() {
    head -c "$(wc -c <"$work/out")" "$work/report" | cmp -s - "$work/out"
}

# each NAME STATUS WORDS..: the run ends with this status where no allocation fails
each() {
    name=$1
    wanted=$2
    shift 2
    "$program" "$@" </dev/null >"$work/report"
    status=$?
    good=yes
    [ "$status" -eq "$wanted" ] || good="it ends with $status where no allocation fails"
    at=0
    while [ "$good" = yes ]; do
        at=$((at + 1))
        run_at "$at" "$@"
        status=$?
        if [ "$status" -eq "$wanted" ] && cmp -s "$work/report" "$work/out"; then
            # As if none had failed; and where none did, each was tried.
            [ -e "$work/failed" ] || break
        elif [ "$status" -ne 7 ] || ! is_front || [ ! -e "$work/failed" ]; then
            good="allocation $at ends it with $status and $(wc -c <"$work/out") bytes"
        fi
    done
    if [ "$good" = yes ] && [ "$at" -gt 20 ]; then
        echo "$name, each of $((at - 1)) allocations failing: passed"
        passed=$((passed + 1))
    else
        echo "$name, each allocation failing: FAILED, $good, after $at"
        failed=$((failed + 1))
    fi
}

command -v cc >/dev/null || skip 'there is no C compiler'
cc -shared -fPIC -O1 -o "$work/failing_malloc.so" "$here/failing_malloc.c" 2>/dev/null || skip 'its library could not be built'

printf 'prop access : forall u . access(u) -> [login(u), logout(u))\n' >"$work/users"
printf 'login,ann\naccess,ann\naccess,bob\nlogout,ann\naccess,ann\n' >"$work/log"
{
    printf 'pred held(t, l) = [acq(t, l), rel(t, l))\n'
    printf 'prop single : forall l . ! exists t . acq(t, l) & @ exists s . held(s, l)\n'
    printf 'prop fresh : forall t . forall l . held(t, l) -> P[<=60] acq(t, l)\n'
} >"$work/locks"
printf 'acq,t1,l1,0\nacq,t2,l1,10\nrel,t1,l1,20\ntick,70\ntick,71\n' >"$work/times"

run_at 1 "$work/users" "$work/log"
[ -e "$work/failed" ] || skip 'its library can not be preloaded'
each 'users' 1 "$work/users" "$work/log"
each 'locks' 1 --bits 8 --nodes 1000 --cache 4000 "$work/locks" "$work/times"
each 'a sample, with all verdicts' 0 --bits=8 --nodes=1000 --cache=4000 --all --sample 7,8 "$work/users"
each 'a wrong use' 2 --bits 21 "$work/users" "$work/log"

echo "$passed passed, $failed failed"
[ "$failed" -eq 0 ]

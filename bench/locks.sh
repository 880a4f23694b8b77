#!/bin/sh
# Times the proved program on a log of threads and locks, with times, beside other monitors. It is no part of the gate.
# usage: bench/locks.sh [EVENTS [ROUNDS [PEER ..]]]
set -eu

name=locks
usual=20000

# 64 threads and 512 locks, at most 24 of them held. A lock is given back 5 to 55 units after it was taken; one in four
# hundred is kept for longer than a minute, and now and then somebody takes one that is held. Between them the clock ticks.
write_log() {
    awk -v events="$events" '
        function below(n) { state = state * 16807 % 2147483647; return state % n }
        function take(t, l, time) { thread[++holds] = t; lock[holds] = l; until[holds] = now + time }
        BEGIN {
            state = 7
            while (done < events) {
                now += below(3)
                due = 0
                for (i = 1; i <= holds && !due; i++) if (until[i] <= now) due = i
                if (due) {
                    print "rel,t" thread[due] ",l" lock[due] "," now
                    held[lock[due]] = 0
                    thread[due] = thread[holds]
                    lock[due] = lock[holds]
                    until[due] = until[holds--]
                }
                else if (below(8) == 0) print "tick," now
                else if (holds < 24) {
                    t = below(64)
                    l = below(512)
                    if (held[l] && below(20)) continue
                    long = below(400) == 0 && !held[l]
                    held[l] = 1
                    take(t, l, long ? 62 + below(4) : 5 + below(50))
                    print "acq,t" t ",l" l "," now
                }
                else continue
                done++
            }
        }'
}

. "$(dirname "$0")/monitors.sh"

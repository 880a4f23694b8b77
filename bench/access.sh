#!/bin/sh
# Times the proved program on a log of many users, beside other monitors. It is no part of the gate.
# usage: bench/access.sh [EVENTS [ROUNDS [PEER ..]]]
set -eu

name=access
usual=1000000

# The sample log: round n logs user n in, who accesses; user n - 100 logs out. Now and then a user who has logged out accesses.
write_log() {
    awk -v events="$events" 'BEGIN {
        for (k = 0; k < events; k++) {
            n = int(k / 4)
            q = k % 4
            if (q == 0) print "login,u" n
            else if (q == 2 && n >= 100) print "logout,u" n - 100
            else if (q == 3 && n >= 200 && (n + 7) % 1000 == 0) print "access,u" n - 200
            else print "access,u" n
        }
    }'
}

. "$(dirname "$0")/monitors.sh"

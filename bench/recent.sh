#!/bin/sh
# Times the proved program on a log with times, of many users, beside other monitors. It is no part of the gate.
# usage: bench/recent.sh [EVENTS [ROUNDS [PEER ..]]]
set -eu

name=recent
usual=200000

# The sample log with times: as that of access.sh, each event one unit of time behind the one before.
write_log() {
    awk -v events="$events" 'BEGIN {
        for (k = 0; k < events; k++) {
            n = int(k / 4)
            q = k % 4
            if (q == 0) fact = "login,u" n
            else if (q == 2 && n >= 100) fact = "logout,u" n - 100
            else if (q == 3 && n >= 200 && (n + 7) % 1000 == 0) fact = "access,u" n - 200
            else fact = "access,u" n
            print fact "," k + 1
        }
    }'
}

. "$(dirname "$0")/monitors.sh"

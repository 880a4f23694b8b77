#!/bin/sh
# Times the proved program on a log of fifty users and two hundred files, beside other monitors. It is no part of the gate.
# usage: bench/files.sh [EVENTS [ROUNDS [PEER ..]]]
set -eu

name=files
usual=20000

# A user who is in opens a file, writes to one that he has open, closes one, or logs out once he has none; at most five are
# open to each. Now and then somebody writes to a file that he may not have open.
write_log() {
    awk -v events="$events" '
        function below(n) { state = state * 16807 % 2147483647; return state % n }
        BEGIN {
            state = 7
            for (k = 0; k < events; k++) {
                u = below(50)
                f = below(200)
                choice = below(100)
                if (!inside[u]) { inside[u] = 1; print "login,u" u }
                else if (k % 500 == 499) print "write,u" u ",f" f
                else if (choice < 30 && held[u] < 5 && !has[u, f]) {
                    has[u, f] = 1
                    file[u, ++held[u]] = f
                    print "open,u" u ",f" f
                }
                else if (choice < 70 && held[u] > 0) print "write,u" u ",f" file[u, 1 + below(held[u])]
                else if (held[u] > 0) {
                    f = file[u, held[u]--]
                    has[u, f] = 0
                    print "close,u" u ",f" f
                }
                else { inside[u] = 0; print "logout,u" u }
            }
        }'
}

. "$(dirname "$0")/monitors.sh"

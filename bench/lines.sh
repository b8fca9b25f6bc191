#!/usr/bin/env bash
# Times lines: sessions of 125,000 and of 1,000,000 lines that move, set the host name and commit in turn.
set -eu
. "$(dirname "$0")/measure.sh"

# one session of about that many lines, four a commit
session() {
    awk -v lines="$1" 'BEGIN {
        print "configure"
        for (n = 0; n < lines / 4; n++) {
            print "edit system"
            print "set host-name r" n % 2
            print "top"
            print "commit"
        }
        print "exit"
        print "exit"
    }'
}

compare lines 125000 1000000

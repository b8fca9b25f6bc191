#!/usr/bin/env bash
# Times edits: sessions that set and then delete the statements of 500 and of 4,000 interfaces.
set -eu
. "$(dirname "$0")/measure.sh"

# one session: three set lines for each interface, then three delete lines
session() {
    awk -v count="$1" 'BEGIN {
        print "configure"
        for (n = 0; n < count; n++) {
            print "set interfaces ge-0/0/" n " description port-" n
            print "set interfaces ge-0/0/" n " mtu 9000"
            print "set interfaces ge-0/0/" n " unit 0"
        }
        for (n = 0; n < count; n++) {
            print "delete interfaces ge-0/0/" n " mtu"
            print "delete interfaces ge-0/0/" n " unit 0"
            print "delete interfaces ge-0/0/" n
        }
        print "exit"
        print "exit"
    }'
}

compare interfaces 500 4000

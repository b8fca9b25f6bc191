#!/usr/bin/env bash
# Times shows: of 300 and of 3,000 interfaces that set lines made, as curly text and as set lines.
set -eu
. "$(dirname "$0")/router.sh"

# one session over so many interfaces, which asks so often what the line asks
session() {
    awk -v count="$1" -v times="$2" -v line="$3" 'BEGIN {
        print "configure"
        print "set groups JUMBO interfaces <ge-*> mtu 9000"
        print "set apply-groups JUMBO"
        print "set system host-name gen"
        for (n = 0; n < count; n++) {
            print "set interfaces ge-0/0/" n " description \"port " n "\""
            print "set interfaces ge-0/0/" n " unit 0 family inet address 10." int(n / 256) "." (n % 256) ".1/24"
        }
        for (n = 0; n < times; n++) {
            print line
        }
        print "exit"
        print "exit"
    }'
}

time_line 'show' 240000
time_line 'show | display set' 240000

#!/usr/bin/env bash
# Times texts: the load of a text of 300 and of 3,000 interfaces, and shows of what was loaded, as curly text and as set lines.
set -eu
. "$(dirname "$0")/router.sh"

time_line 'show' 240000
time_line 'show | display set' 240000

# one session that loads so many interfaces once, and then so often again, each time with another host name
session() {
    local round
    echo configure
    for ((round = 0; round <= $2; round++)); do
        load "$1" "$round"
    done
    echo exit
    echo exit
}

time_line 'load override terminal' 60000

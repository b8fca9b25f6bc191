#!/usr/bin/env bash
# Times inherited shows: of 300 and of 3,000 interfaces, each of which inherits its MTU.
set -eu
. "$(dirname "$0")/router.sh"

time_line 'show | display inheritance' 60000

#!/usr/bin/env bash
# Times commit checks: of 300 and of 3,000 interfaces, each of which has an address and inherits its MTU.
set -eu
. "$(dirname "$0")/router.sh"

time_line 'commit check' 120000

#!/usr/bin/env bash
# Times a commit check of 3,000 interfaces, each of which has an address and inherits its MTU, after one statement was changed: one of
# an interface, of which the expansion is made anew, and one of the group that all inherit, which has the whole expanded.
set -eu
. "$(dirname "$0")/router.sh"
interfaces=3000
checks=60

# a session over these interfaces that checks so often, each time after a change of the statement that is named, with the number for %
changed() {
    local number
    echo configure
    load "$interfaces" 0
    echo 'commit check'
    for ((number = 1; number <= $1; number++)); do
        printf '%s\ncommit check\n' "${2//%/$((1500 + number))}"
    done
    printf 'exit configuration-mode\nexit\n'
}

one='set interfaces ge-0/0/7 mtu %'
all='set groups JUMBO interfaces <ge-*> mtu %'
changed 0 '' > "$work/none"
changed "$checks" "$one" > "$work/one"
changed "$checks" "$all" > "$work/all"
for ((round = 0; round < 10; round++)); do
    for kind in none one all; do
        serve "$kind"
    done
done
awk -v none="$(least_run none)" -v one="$(least_run one)" -v all="$(least_run all)" -v checks="$checks" 'BEGIN {
    printf "a commit check after a change of one interface: %.2f ms; of the group: %.2f ms; ratio %.2f\n",
        (one - none) / checks / 1e6, (all - none) / checks / 1e6, (one - none) / (all - none)
}'

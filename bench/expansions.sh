#!/usr/bin/env bash
# Prints the memory of expansions that follow one another: the peak of a program over a configuration of 15,009 statements, whose
# expansion has 18,003 paths. It keeps no expansion, one, and 50 or as many as the first word says (up to 2,950), each made after
# the one before it with one statement changed. All three peaks have the configuration in them, and an expansion that is made
# from nothing and not kept.
# Builds nothing: the program is the one that `rt run` leaves in crates/call_scripts.
set -eu
count=${1:-50}
cd "$(dirname "$0")/.."
program=$PWD/crates/call_scripts/out/call_scripts
[ -x "$program" ] || { echo "there is no program at $program: rt run in crates/call_scripts builds it" >&2; exit 1; }
work=$(mktemp -d)
trap 'rm -rf "$work"' EXIT

# a script that makes the configuration, and keeps its expansion so often; what is changed lies in another part of it each time
script() {
    cat << 'END'
set groups JUMBO interfaces <ge-*> mtu 9000
= changed
set apply-groups JUMBO
= changed
set system host-name gen
= changed
each 0 2999 set interfaces ge-0/0/% unit 0 family inet address 192.0.2.1/24
= 3000 times
= changed
each 0 2999 set interfaces ge-0/0/% description port
= 3000 times
= changed
count
= 15009
paths
= 18003
END
    local kept
    for kept in $(seq 1 "$1"); do
        if [ "$kept" != 1 ]; then
            printf 'set interfaces ge-0/0/%s description new\n= changed\n' $((kept * (2950 / count)))
        fi
        printf 'follow\n= %s\n= same\n' "$kept"
    done
}

# the greatest memory that the program had over the script, in KiB
peak() {
    script "$1" > "$work/expansions.script"
    /usr/bin/time -f %M -o "$work/peak" "$program" "$work/expansions.script" > "$work/output" || { cat "$work/output" >&2; exit 1; }
    cat "$work/peak"
}

none=$(peak 0)
one=$(peak 1)
many=$(peak "$count")
echo "no expansion: $none KiB"
echo "one expansion: $one KiB"
echo "$count expansions: $many KiB"
awk -v none="$none" -v one="$one" -v many="$many" 'BEGIN { printf "ratio: %.2f\n", (many - none) / (one - none) }'

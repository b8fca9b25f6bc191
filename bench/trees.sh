#!/usr/bin/env bash
# Prints the memory of trees made anew from their lists: the peak of a program over a tree of 16,000 statements that keeps it not
# at all, twice without a change, which is one tree, and 51 times with one statement changed before each; each is made beside the
# one before it. But for the first, a peak has the list in it from which the last tree is made.
# Builds nothing: the program is the one that `rt run` leaves in crates/call_scripts.
set -eu
cd "$(dirname "$0")/.."
program=$PWD/crates/call_scripts/out/call_scripts
[ -x "$program" ] || { echo "there is no program at $program: rt run in crates/call_scripts builds it" >&2; exit 1; }
work=$(mktemp -d)
trap 'rm -rf "$work"' EXIT

# a script that makes the tree, and keeps it so often; what is changed lies in another part of it each time
script() {
    cat << 'END'
put interfaces
= put
put interfaces ge-0/0/0
= put
each 0 15997 put interfaces ge-0/0/0 unit %
= 15998 times
= put
END
    local kept
    for kept in $(seq 1 "$1"); do
        if [ "$2" = changed ]; then
            printf 'deactivate interfaces ge-0/0/0 unit %s\n= changed\n' $((kept * 300))
        fi
        printf 'keep\n= %s\n= same\n' "$kept"
    done
}

# the greatest memory that the program had over the script, in KiB
peak() {
    script "$1" "$2" > "$work/trees.script"
    /usr/bin/time -f %M -o "$work/peak" "$program" "$work/trees.script" > "$work/output" || { cat "$work/output" >&2; exit 1; }
    cat "$work/peak"
}

none=$(peak 0 same)
one=$(peak 2 same)
many=$(peak 51 changed)
echo "no tree: $none KiB"
echo "one tree: $one KiB"
echo "51 trees: $many KiB"
awk -v none="$none" -v one="$one" -v many="$many" 'BEGIN { printf "ratio: %.2f\n", (many - none) / (one - none) }'

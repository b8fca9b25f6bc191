#!/usr/bin/env bash
# Times a commit of 1,000 wildcards over 1,000 interfaces, each of which matches each, and notes the most memory that the program takes.
# The session that it is measured by sets the same statements, and applies no group.
set -eu
. "$(dirname "$0")/measure.sh"

# a session with so many wildcards and interfaces, which applies their group or doesn't
session() {
    echo configure
    awk -v count="$1" 'BEGIN {
        for (n = 0; n < count; n++) {
            # each wildcard leaves other letters of `ge-0/0/1` open, so that all are apart and match all names
            wildcard = ""
            for (place = 0; place < 8; place++)
                wildcard = wildcard (int(n / 2 ^ place) % 2 ? "?" : substr("ge-0/0/1", place + 1, 1))
            print "set groups G interfaces <" wildcard substr("???", 1, int(n / 256)) "*> mtu " (9000 - n)
            print "set interfaces ge-0/0/" (1000 + n) " description port"
        }
    }'
    [ "$2" = unapplied ] || echo 'set apply-groups G'
    printf 'commit\nexit\nexit\n'
}

# serves an input once over a new journal, as `serve` does, and notes the most memory that it took, in KiB
serve_peak() {
    rm -rf "$work/journal"
    mkdir "$work/journal"
    "$program" init "$work/journal" > "$work/output"
    python3 - "$work/$1" "$work/output" "$program" serve "$work/journal" << 'END' >> "$work/$1.peaks"
import resource, subprocess, sys

with open(sys.argv[1]) as lines, open(sys.argv[2], "w") as output:
    subprocess.run(sys.argv[3:], stdin=lines, stdout=output, check=True)
print(resource.getrusage(resource.RUSAGE_CHILDREN).ru_maxrss)
END
}

kinds='unapplied applied'
for kind in $kinds; do
    session 1000 "$kind" > "$work/$kind"
done
for round in 1 2 3; do
    for kind in $kinds; do
        serve "$kind"
        serve_peak "$kind"
    done
done

for kind in $kinds; do
    echo "$kind: $(($(least_run "$kind") / 1000000)) ms of processor time, $(($(sort -n "$work/$kind.peaks" | tail -n 1) / 1024)) MiB at most"
done
awk -v without="$(least_run unapplied)" -v with="$(least_run applied)" \
    'BEGIN { printf "applied: %.0f ms more, %.2f times\n", (with - without) / 1000000, with / without }'

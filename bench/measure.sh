# What the scripts of this folder share. Those that `compare` have a function `session N`, which writes an input with N of what it counts.
# Builds nothing: the program is the one that ./demo leaves.
cd "$(dirname "$0")/.."
program=$PWD/crates/confd/out/confd
# memory as the service's unit has it
export GLIBC_TUNABLES=$(sed -n 's/^Environment=GLIBC_TUNABLES=//p' docs/confd.service)
[ -x "$program" ] || { echo "there is no program at $program: ./demo builds it" >&2; exit 1; }
# in memory where there is such a file system, so that no disk's time is measured
work=$(mktemp -d -p /dev/shm 2> /dev/null || mktemp -d)
trap 'rm -rf "$work"' EXIT

# serves an input once over a new journal, on one processor, since moves between processors double the time of some runs, and notes
# how many nanoseconds of the processor's time that took
serve() {
    rm -rf "$work/journal"
    mkdir "$work/journal"
    "$program" init "$work/journal" > "$work/output"
    python3 - "$work/$1" "$work/output" taskset -c 0 "$program" serve "$work/journal" << 'END' >> "$work/$1.times"
import resource, subprocess, sys

def spent():
    # what a wrapper of python3 ran before is a child's time too
    times = resource.getrusage(resource.RUSAGE_CHILDREN)
    return times.ru_utime + times.ru_stime

before = spent()
with open(sys.argv[1]) as lines, open(sys.argv[2], "w") as output:
    subprocess.run(sys.argv[3:], stdin=lines, stdout=output, check=True)
print(round((spent() - before) * 1e9))
END
    if grep -q error "$work/output"; then
        echo "a line was refused" >&2
        exit 1
    fi
}

# the least of the times noted of an input, in nanoseconds
least_run() {
    sort -n "$work/$1.times" | head -n 1
}

# nanoseconds a line
least() {
    echo $(($(least_run "$1") / $(wc -l < "$work/$1")))
}

# the time a line for few and for many of what NAME counts, and how many times longer a line takes with the more; few and many
# take turns, since a machine's speed changes from one minute to the next
compare() {
    local name=$1 round few many
    session "$2" > "$work/few"
    session "$3" > "$work/many"
    for round in 1 2 3 4 5; do
        serve few
        serve many
    done
    few=$(least few)
    many=$(least many)
    echo "$2 $name: $few ns a line"
    echo "$3 $name: $many ns a line"
    awk -v few="$few" -v many="$many" 'BEGIN { printf "ratio: %.2f\n", many / few }'
}

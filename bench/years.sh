#!/usr/bin/env bash
# The memory of a service that runs for long: after the first 10,000 lines of a session and after 1,000,000, of which every fourth
# commits; then after the first 10 loads of a text of 400 KB and after 1,000; then after the first 1,000 and after 100,000 times that
# the session enters configuration mode and leaves it. It fails where one of the three grew by more than 2 MiB.
set -eu
. "$(dirname "$0")/router.sh"
# bytes that a session may have, and a journal: more than the longest has
bytes=4000000000
# by how many KiB the memory may grow
most=2048
service=
trap '[ -z "$service" ] || kill "$service" 2> /dev/null || true; rm -rf "$work"' EXIT

# lines that move, set the host name and commit in turn, so many commits from a number on
commits() {
    awk -v from="$1" -v count="$2" 'BEGIN {
        for (n = from; n < from + count; n++)
            printf "edit system\nset host-name r%d\ntop\ncommit\n", n
    }'
}

# so many loads, in turn of two texts
loads() {
    local turn
    for ((turn = 0; turn < $1; turn += 2)); do
        cat "$work/text0" "$work/text1"
    done
}

# so many times out of configuration mode and back
turns() {
    yes $'exit\nconfigure' | head -n $((2 * $1)) || true
}

# waits until the session was answered so often with a text
await() {
    until [ "$(grep -c "$2" "$work/session.out" || true)" -ge "$1" ]; do
        kill -0 "$service"
        sleep 0.2
    done
}

# the memory of the service, in KiB
resident() {
    awk '/^VmRSS/ { print $2 }' "/proc/$service/status"
}

# what the memory is after few and after many of NAME, the answers of the text TELLS before them counted
compare_memory() {
    local name=$1 few=$2 many=$3 tells=$4 begun=$5 first last
    shift 5
    "$@" few >&3
    await $((begun + few)) "$tells"
    first=$(resident)
    "$@" many >&3
    await $((begun + many)) "$tells"
    last=$(resident)
    printf '%s: %d KiB after %d, %d KiB after %d\n' "$name" "$first" "$few" "$last" "$many"
    [ $((last - first)) -le "$most" ] || { echo "the memory grew by $((last - first)) KiB" >&2; exit 1; }
}

feed_commits() { if [ "$1" = few ]; then commits 0 2500; else commits 2500 247500; fi; }
feed_loads() { if [ "$1" = few ]; then loads 10; else loads 990; fi; }
feed_turns() { if [ "$1" = few ]; then turns 1000; else turns 99000; fi; }

load 2700 0 > "$work/text0"
load 2700 1 > "$work/text1"
mkfifo "$work/session"
mkdir "$work/journal"
"$program" init "$work/journal" > "$work/output"
"$program" --input "$bytes" --journal-limit "$bytes" serve "$work/journal" "session:$work/session" &
service=$!
exec 3> "$work/session"
echo configure >&3
await 1 '^Entering configuration mode$'
compare_memory 'commits' 2500 250000 '^commit complete$' 0 feed_commits
compare_memory 'loads' 10 1000 '^load complete$' 0 feed_loads
compare_memory 'times in configuration mode' 1000 100000 '^Entering configuration mode$' 1 feed_turns
exec 3>&-
wait "$service"
service=
if grep -q error "$work/session.out"; then
    echo "a line was refused" >&2
    exit 1
fi

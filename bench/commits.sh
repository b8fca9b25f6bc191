#!/usr/bin/env bash
# Times commits that are kept on the disk, through a pipe: small ones, those of one changed statement at 300 and at 3,000 interfaces,
# and 10,000 in a row, each beside the floor of this file system (commits.c); and the start over a list of 1,000 and of 10,000. Then
# the mean commit and the longest where the journal's files rotate: at the least limit, and at the usual one.
# The folder named, or this one, decides which file system that is.
set -eu
place=$(cd "${1:-.}" && pwd)
. "$(dirname "$0")/router.sh"
folder=$(mktemp -d "$place/commits.XXXXXX")
trap 'rm -rf "$work" "$folder"' EXIT
gcc -O2 -o "$work/commits" bench/commits.c

# a new journal
init() {
    rm -rf "$folder/journal"
    mkdir "$folder/journal"
    "$program" init "$folder/journal" > /dev/null
}

# commits of a line after a setup, and how they compare
time_commits() {
    local name=$1 setup=$2 count=$3 line=$4
    init
    "$work/commits" "$program" "$folder/journal" "$setup" "$count" "$line" | awk -v name="$name" '{
        printf "%s: %.0f microseconds, floor %.0f, ratio %.2f; early %.0f, late %.0f, ratio %.2f\n", name, $1, $2, $3, $4, $5, $6
    }'
}

# commits of a line after a setup, where the files rotate at that many bytes
time_rotations() {
    local name=$1 setup=$2 count=$3 line=$4 limit=$5
    init
    "$work/commits" "$program" "$folder/journal" "$setup" "$count" "$line" "$limit" | awk -v name="$name" -v count="$count" '{
        printf "%s: %d commits with %d rotations, %.0f microseconds in the mean, the longest %.0f\n", name, count, $3, $1, $2
    }'
}

# the least time of five starts, in milliseconds
time_start() {
    local round begun least=
    for round in 1 2 3 4 5; do
        begun=$(date +%s%N)
        "$program" check "$folder/journal" > "$work/checked"
        begun=$((($(date +%s%N) - begun) / 1000))
        [ -n "$least" ] && [ "$least" -le "$begun" ] || least=$begun
    done
    awk -v name="$1" -v least="$least" 'BEGIN { printf "%s: %.1f milliseconds\n", name, least / 1000 }'
}

printf 'configure\ncommit\n' > "$work/nothing"
time_commits 'a small commit' "$work/nothing" 1000 'set system host-name r%d'
time_start 'a start over 1,000 commits'
for count in 300 3000; do
    { session "$count" 0 "" | sed '/^exit$/d'; echo commit; } > "$work/setup"
    time_commits "one statement of $count interfaces" "$work/setup" 100 'set interfaces ge-0/0/0 description "turn %d"'
    time_start "a start over 100 commits of $count interfaces"
done
time_commits '10,000 commits' "$work/nothing" 10000 'set system host-name r%d'
time_start 'a start over 10,000 commits'

time_rotations 'small commits at the least limit' "$work/nothing" 1000 'set system host-name r%d' 4096
time_start 'a start over the last of them'
time_rotations 'one statement of 3000 interfaces at the least limit' "$work/setup" 100 'set interfaces ge-0/0/0 description "turn %d"' 4096
time_start 'a start over the last of them'
time_rotations 'the same at 64 MiB' "$work/setup" 200 'set interfaces ge-0/0/0 description "turn %d"' 67108864

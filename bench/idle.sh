#!/usr/bin/env bash
# What an idle service costs a second, with 1 and with 64 sessions that have nothing to read: how often a thread of it wakes, and the
# processor's time. And how long a run goes on after its last session, by the clock.
set -eu
# also where what is printed is taken
shopt -s inherit_errexit
. "$(dirname "$0")/measure.sh"
# how long the service is watched, in seconds
span=${1:-20}

# what the threads of a process have taken so far: nanoseconds of the processor, and how often they slept
taken() {
    awk '
        FILENAME ~ /schedstat$/ { spent += $1 }
        FILENAME ~ /status$/ && $1 == "voluntary_ctxt_switches:" { slept += $2 }
        END { print spent, slept }' "/proc/$1"/task/*/schedstat "/proc/$1"/task/*/status
}

# so many idle sessions, which all read one pipe that is held open meanwhile
watch() {
    local count=$1 number service words=() before after begun
    rm -rf "$work/journal" "$work"/idle*
    mkdir "$work/journal"
    "$program" init "$work/journal" > "$work/output"
    mkfifo "$work/idle"
    for ((number = 1; number <= count; number++)); do
        ln -s idle "$work/idle$number"
        words+=("idler$number:$work/idle$number")
    done
    exec 9<> "$work/idle"
    # the service doesn't hold the pipe itself, since its sessions would have no end then
    "$program" serve "$work/journal" "${words[@]}" 9>&- &
    service=$!
    # until all have begun
    sleep 2
    before=$(taken "$service")
    sleep "$span"
    after=$(taken "$service")
    begun=$(date +%s%N)
    exec 9>&-
    wait "$service"
    awk -v count="$count" -v span="$span" -v before="$before" -v after="$after" -v ended=$(($(date +%s%N) - begun)) 'BEGIN {
        split(before, old, " ")
        split(after, new, " ")
        printf "idle sessions %d: %.1f sleeps a second, %.0f microseconds of the processor a second; ended %.1f milliseconds after the last session\n",
            count, (new[2] - old[2]) / span, (new[1] - old[1]) / span / 1000, ended / 1000000 }'
}

watch 1
watch 64

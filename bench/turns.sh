#!/usr/bin/env bash
# Turns a second that 1, 4 and 64 sessions make at once, side by side: shows of the candidate, and private commits over 64 interfaces.
# Turns are taken one at a time, so several sessions make no more of them than one does: the ratios show what waiting for one another
# costs, by the clock and in the processor's time. After them stands when the first session had ended, of the time that the last one
# took: no session that waits is left behind. Then the commits once more beside as many busy processes as there are processors, and by
# one session beside 63 that are idle, since a run has at most 64. Last those of one session whose user has a class, with rights by without.
set -eu
# also where what is printed is taken
shopt -s inherit_errexit
. "$(dirname "$0")/measure.sh"
# how long the busy processes live at most, and a session beside idle ones, in seconds
patience=900
# the busy processes
spinning=()
# lines of what is configured besides, and words of a run besides
login=
options=()
trap 'stop_spinning; rm -rf "$work"' EXIT

# a session that shows its candidate so many times
shows() {
    echo configure
    yes show | head -n "$1" || true
}

# a session, of that number, that commits so many times
commits() {
    local turn
    echo configure private
    for ((turn = 0; turn < $1; turn++)); do
        printf 'set interfaces ge-0/0/%d description "turn %d"\ncommit\n' "$2" "$turn"
    done
}

# as many processes as there are processors, each of which keeps one busy
start_spinning() {
    local count
    count=$(nproc)
    while [ "${#spinning[@]}" -lt "$count" ]; do
        timeout "$patience" bash -c 'while :; do :; done' &
        spinning+=("$!")
    done
}

stop_spinning() {
    if [ "${#spinning[@]}" -gt 0 ]; then
        kill "${spinning[@]}" 2> /dev/null || true
        wait "${spinning[@]}" 2> /dev/null || true
    fi
    spinning=()
}

# a new journal, with one commit of 64 interfaces
journal() {
    local number
    rm -rf "$work/journal" "$work"/session* "$work"/idle*
    mkdir "$work/journal"
    "$program" init "$work/journal" > "$work/output"
    {
        printf 'configure\nset system host-name r1\n%s' "$login"
        for ((number = 1; number <= 64; number++)); do
            printf 'set interfaces ge-0/0/%d description "turn"\n' "$number"
        done
        echo commit
    } | "$program" serve "$work/journal" > "$work/output"
}

# serves the sessions of these words, and notes the processor's time, in seconds
serve_timed() {
    local TIMEFORMAT='%U %S'
    { time "$program" "${options[@]}" serve "$work/journal" "$@" 2> "$work/errors"; } 2> "$work/spent"
}

# the turns a second since that moment, when the first session had ended, of the time that the last one took, and the nanoseconds of
# the processor for a turn; of the sessions that are named session..
told() {
    if grep -q error "$work"/session*.out; then
        echo "a line was refused" >&2
        exit 1
    fi
    cat "$work"/session? "$work"/session?? 2> "$work/output" | wc -l > "$work/lines"
    stat -c %.9Y "$work"/session*.out | sort -n | awk -v begun="$1" -v lines="$(cat "$work/lines")" -v spent="$(cat "$work/spent")" '
        NR == 1 { first = $1 - begun }
        { last = $1 - begun }
        END {
            split(spent, times, " ")
            printf "%.0f %.2f %.0f\n", lines / last, first / last, (times[1] + times[2]) * 1e9 / lines }'
}

# what is reported of so many sessions together, each of that many rounds of a kind
rate() {
    local kind=$1 count=$2 rounds=$3 number begun words=()
    journal
    for ((number = 1; number <= count; number++)); do
        "$kind" "$rounds" "$number" > "$work/session$number"
        words+=("user$number:$work/session$number")
    done
    begun=$(date +%s.%N)
    serve_timed "${words[@]}"
    told "$begun"
}

# what is reported of a session that commits so many times, beside so many that have nothing to read until it has ended: all of these read
# one pipe, which is held open for so long
rate_beside_idle() {
    local rounds=$1 count=$2 number begun deadline service words=()
    journal
    commits "$rounds" 1 > "$work/session1"
    : > "$work/session1.out"
    mkfifo "$work/idle"
    for ((number = 1; number <= count; number++)); do
        ln -s idle "$work/idle$number"
        words+=("idler$number:$work/idle$number")
    done
    exec 9<> "$work/idle"
    begun=$(date +%s.%N)
    deadline=$((SECONDS + patience))
    # the service doesn't hold the pipe itself, since its sessions would have no end then
    serve_timed "user1:$work/session1" "${words[@]}" 9>&- &
    service=$!
    until [ "$(grep -c 'commit complete' "$work/session1.out")" -eq "$rounds" ]; do
        if [ "$SECONDS" -ge "$deadline" ] || ! kill -0 "$service" 2> /dev/null; then
            echo "the session beside idle ones did not end" >&2
            exit 1
        fi
        sleep 0.2
    done
    exec 9>&-
    wait "$service"
    told "$begun"
}

# of three times a command the one that reported the most turns a second
best_of_three() {
    local round now best="0 0 0"
    for round in 1 2 3; do
        now=$("$@")
        [ "${now%% *}" -le "${best%% *}" ] || best=$now
    done
    echo "$best"
}

# prints what was reported under a name, and the ratios to what another one reported
print_ratios() {
    awk -v name="$1" -v now="$2" -v one="$3" 'BEGIN {
        split(now, told, " ")
        split(one, base, " ")
        printf "%s: %d turns a second, ratio %.2f; %d ns of the processor a turn, ratio %.2f; the first ended after %.2f of the time\n",
            name, told[1], told[1] / base[1], told[3], told[3] / base[3], told[2] }'
}

# what so many sessions report, with the ratios to one session's, which is left in `one`
compare_rates() {
    local name=$1 kind=$2 rounds=$3 count now
    shift 3
    one=
    for count in "$@"; do
        now=$(best_of_three rate "$kind" "$count" $((rounds / count)))
        [ -n "$one" ] || one=$now
        print_ratios "$name, sessions $count" "$now" "$one"
    done
}

compare_rates shows shows 128000 1 4 64
compare_rates commits commits 2560 1 4 64
alone=$one
idle=$(best_of_three rate_beside_idle 2560 63)
print_ratios "commits, one session beside 63 idle ones" "$idle" "$alone"
start_spinning
compare_rates "commits beside ${#spinning[@]} busy processes" commits 2560 1 64
print_ratios "the same, one session, by one on free processors" "$one" "$alone"
stop_spinning
login='set system login class member permissions [ configure view-configuration interface-control ]
set system login user user1 class member
'
for kind in shows commits; do
    options=()
    rounds=2560
    [ "$kind" = commits ] || rounds=128000
    one=$(best_of_three rate "$kind" 1 "$rounds")
    options=(--access)
    now=$(best_of_three rate "$kind" 1 "$rounds")
    print_ratios "$kind, one session of a class, without rights" "$one" "$one"
    print_ratios "$kind, the same with rights" "$now" "$one"
done

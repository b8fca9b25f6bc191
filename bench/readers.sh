#!/usr/bin/env bash
# Shows of the active configuration a second, by 1 and by 4 sessions at once, alone and beside a session each of whose commits is kept
# on the disk, and what that session keeps of the rate that it has alone. A show takes no turn, so none waits for a commit. What shows
# keep beside commits of another service, which shares nothing with theirs but the machine, is reported beside it. One line has the shows a
# second of a session that is asked and answers over named pipes. Two have those of a user with a class, with rights and without, over 64
# interfaces and over none: a show costs at most a tenth more with them. The folder named, or this one, decides which file system keeps
# the commits.
set -eu
place=$(cd "${1:-.}" && pwd)
. "$(dirname "$0")/measure.sh"
folder=$(mktemp -d "$place/readers.XXXXXX")
trap 'rm -rf "$work" "$folder"' EXIT
# bytes that a session may have: more than the longest has
input=1000000000
# which processor takes the disk's interrupts, and the others, once it is known
busy=
free=()

# a session that shows the active configuration so many times
shows() {
    yes 'show configuration' | head -n "$1" || true
}

# a session that commits so many times
commits() {
    local turn
    echo configure
    for ((turn = 0; turn < $1; turn++)); do
        printf 'set system host-name r%d\ncommit\n' "$turn"
    done
}

# a new journal, with one commit
journal() {
    mkdir "$1"
    "$program" init "$1" > "$work/output"
    printf 'configure\nset system host-name r1\ncommit\n' | "$program" serve "$1" > "$work/output"
}

# a new journal, with one commit of so many interfaces, and of a user with a class that may see all
journal_of_class() {
    local number
    mkdir "$1"
    "$program" init "$1" > "$work/output"
    {
        printf 'configure\nset system login class seer permissions view-configuration\nset system login user reader class seer\n'
        for ((number = 1; number <= $2; number++)); do
            printf 'set interfaces ge-0/0/%d description "turn"\n' "$number"
        done
        echo commit
    } | "$program" serve "$1" > "$work/output"
}

# how many interrupts of devices each processor has taken
interrupts() {
    awk 'NR == 1 { count = NF; next }
        $1 ~ /^[0-9]+:$/ { for (n = 0; n < count; n++) taken[n] += $(n + 2) }
        END { for (n = 0; n < count; n++) print taken[n] }' /proc/interrupts
}

# gives each session of a service that is starting, so many of them, a processor of its own: those named, in their order
place_sessions() {
    local service=$1 threads=() number
    shift
    # the ticker has a thread too
    while [ "${#threads[@]}" -le "$#" ] && kill -0 "$service" 2> /dev/null; do
        threads=($(ls "/proc/$service/task" 2> /dev/null | sort -n)) || true
    done
    for ((number = 0; number < $#; number++)); do
        taskset -pc "${@:number + 1:1}" "${threads[number]}" > "$work/output" 2>&1 || true
    done
}

# shows a second of so many sessions together, each with that many, and commits a second of a session with so many: beside them in one
# service, or at the same time in another one. Each kind by its own last end
rates() {
    local readers=$1 each=$2 count=$3 where=${4:-beside} number begun service places=() words=()
    rm -rf "$folder"/* "$work"/reader* "$work"/writer*
    journal "$folder/journal"
    journal "$folder/other"
    for ((number = 1; number <= readers; number++)); do
        shows "$each" > "$work/reader$number"
        words+=("reader$number:$work/reader$number")
    done
    if [ "$readers" -le "${#free[@]}" ]; then
        places=("${free[@]:0:readers}")
    fi
    if [ "$count" -gt 0 ]; then
        commits "$count" > "$work/writer"
        if [ "$where" = beside ]; then
            words+=("writer:$work/writer")
            places+=(${busy:+"$busy"})
        fi
    fi
    begun=$(date +%s.%N)
    if [ "$where" = apart ]; then
        ${busy:+taskset -c "$busy"} "$program" --input "$input" serve "$folder/other" "writer:$work/writer" &
    fi
    "$program" --input "$input" serve "$folder/journal" "${words[@]}" &
    service=$!
    if [ "${#places[@]}" -eq "${#words[@]}" ]; then
        place_sessions "$service" "${places[@]}"
    fi
    if ! wait "$service" || ! wait || grep -q error "$work"/*.out; then
        echo "a line was refused" >&2
        exit 1
    fi
    for number in "$work"/*.out; do
        stat -c '%n %.9Y' "$number"
    done | awk -v begun="$begun" -v shows=$((readers * each)) -v commits="$count" '
        /writer.out / { written = $2 - begun; next }
        $2 - begun > read { read = $2 - begun }
        END { printf "%.0f %.0f\n", read ? shows / read : 0, written ? commits / written : 0 }'
}

# shows a second of a session with so many, over named pipes
piped() {
    local begun ended
    rm -rf "$folder"/* "$work"/piped* "$work"/reader*
    journal "$folder/journal"
    mkfifo "$work/piped" "$work/piped.out"
    shows "$1" > "$work/reader"
    cat "$work/reader" > "$work/piped" &
    cat "$work/piped.out" > "$work/output" &
    begun=$(date +%s%N)
    "$program" --input "$input" serve "$folder/journal" "piped:$work/piped"
    ended=$(date +%s%N)
    wait
    if grep -q error "$work/output"; then
        echo "a line was refused" >&2
        exit 1
    fi
    rm "$work/piped" "$work/piped.out"
    echo $(($1 * 1000000000 / (ended - begun)))
}

# shows a second of a session of a user with a class, with so many, over so many interfaces, and with the words that follow
by_class() {
    local each=$1 interfaces=$2 begun service
    shift 2
    rm -rf "$folder"/* "$work"/reader*
    journal_of_class "$folder/journal" "$interfaces"
    shows "$each" > "$work/reader"
    begun=$(date +%s.%N)
    "$program" --input "$input" "$@" serve "$folder/journal" "reader:$work/reader" &
    service=$!
    if [ "${#free[@]}" -gt 0 ]; then
        place_sessions "$service" "${free[0]}"
    fi
    if ! wait "$service" || grep -q error "$work/reader.out"; then
        echo "a line was refused" >&2
        exit 1
    fi
    stat -c %.9Y "$work/reader.out" | awk -v begun="$begun" -v shows="$each" '{ printf "%.0f\n", shows / ($1 - begun) }'
}

# of five rates that were noted the one in the middle
middle() {
    sort -n "$work/$1" | sed -n 3p
}

# The commits alone, the shows alone, then both, each for some three seconds: a first short run shows how many these are, and isn't
# reported, since a run's beginning counts in it. They take turns five times, and of each kind the rate in the middle is reported, since what
# else runs on a machine makes some of the runs slow, and some of them fast.
interrupts > "$work/before"
alone=$(rates 0 0 2000)
interrupts > "$work/after"
placing=$(paste "$work/before" "$work/after" | awk '{ print $2 - $1, NR - 1 }' | sort -rn | awk '{ print $2 }')
busy=$(head -n 1 <<< "$placing")
free=($(tail -n +2 <<< "$placing" | sort -n))
commits=$((3 * ${alone#* }))
for readers in 1 4; do
    rm -f "$work"/*.rates
    few=$(rates "$readers" $((200000 / readers)) 0)
    each=$((3 * ${few% *} / readers))
    for round in 1 2 3 4 5; do
        few=$(rates "$readers" "$each" 0)
        both=$(rates "$readers" "$each" "$commits")
        apart=$(rates "$readers" "$each" "$commits" apart)
        alone=$(rates 0 0 "$commits")
        echo "${few% *}" >> "$work/few.rates"
        echo "${both% *}" >> "$work/both.rates"
        echo "${both#* }" >> "$work/beside.rates"
        echo "${apart% *}" >> "$work/apart.rates"
        echo "${alone#* }" >> "$work/alone.rates"
    done
    awk -v readers="$readers" -v few="$(middle few.rates)" -v both="$(middle both.rates)" -v apart="$(middle apart.rates)" \
        -v alone="$(middle alone.rates)" -v beside="$(middle beside.rates)" 'BEGIN {
        printf "%d that show: %d shows a second, beside commits %d, ratio %.2f, beside those of another service %d, ratio %.2f; ",
            readers, few, both, both / few, apart, apart / few
        printf "commits %d a second, beside shows %d, ratio %.2f\n", alone, beside, beside / alone }'
done
# with rights and without, over the same journal, in turns: a session of some two seconds
for interfaces in 0 64; do
    rm -f "$work"/*.rates
    each=$((2 * $(by_class 20000 "$interfaces")))
    for round in 1 2 3 4 5; do
        by_class "$each" "$interfaces" >> "$work/without.rates"
        by_class "$each" "$interfaces" --access >> "$work/with.rates"
    done
    awk -v interfaces="$interfaces" -v without="$(middle without.rates)" -v with="$(middle with.rates)" 'BEGIN {
        printf "one that shows, of a class, interfaces %d: %d shows a second, with rights %d, ratio %.2f\n",
            interfaces, without, with, with / without }'
done
few=$(piped 200000)
echo "over pipes: $(piped $((3 * few))) shows a second"

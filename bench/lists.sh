#!/usr/bin/env bash
# Times long lists: sessions that set, and then delete, 2,000 and 8,000 names of an ordered row, words of one statement, and
# statements of their own. Those of their own are what the others are measured by.
set -eu
. "$(dirname "$0")/measure.sh"

# what the N-th line of a kind sets or deletes
line_of() {
    case $1 in
    ordered) echo 'system name-server 10." int(n / 62500) "." int(n / 250) % 250 "." n % 250 "' ;;
    words) echo 'protocols ospf export p" n "' ;;
    own) echo 'interfaces ge-0/0/" n " mtu 9000' ;;
    esac
}

# a session of one kind that sets so many, and one that deletes them again as well
sessions() {
    local verb verbs=set name
    for name in set both; do
        {
            echo configure
            for verb in $verbs; do
                awk -v count="$2" "BEGIN { for (n = 0; n < count; n++) print \"$verb $(line_of "$1")\" }"
            done
            printf 'exit\nexit\n'
        } > "$work/$1-$2-$name"
        verbs='set delete'
    done
}

kinds='ordered words own'
counts='2000 8000'
for kind in $kinds; do
    for count in $counts; do
        sessions "$kind" "$count"
    done
done
for round in 1 2 3; do
    for kind in $kinds; do
        for count in $counts; do
            serve "$kind-$count-set"
            serve "$kind-$count-both"
        done
    done
done

declare -A set
for kind in $kinds; do
    for count in $counts; do
        begun=$(least_run "$kind-$count-set")
        set[$kind-$count]=$((begun / count))
        echo "$count $kind: ${set[$kind-$count]} ns a set line, $((($(least_run "$kind-$count-both") - begun) / count)) ns a delete line"
    done
done
for kind in ordered words; do
    awk -v kind="$kind" -v few="${set[$kind-2000]}" -v many="${set[$kind-8000]}" -v own="${set[own-8000]}" \
        'BEGIN { printf "%s: %.2f times a set line of its own at 8000, and %.2f times its own at 2000\n", kind, many / own, many / few }'
done

#!/usr/bin/env bash
# Times JSON over 3,000 interfaces: a show of the active configuration and a load by override, each beside the same as curly text, and
# what Python's json takes to read the bytes that are loaded.
set -eu
. "$(dirname "$0")/router.sh"
count=3000
shows=40
loads=10

# one session that commits the interfaces and then asks the line so often
session() {
    printf 'configure\n'
    load "$count" 0
    printf 'commit\nexit\n'
    yes "$1" | head -n "$2" || true
    echo exit
}

# one session that loads so many texts of a kind, each with another host name
loading() {
    local number
    echo configure
    for ((number = 0; number < $2; number++)); do
        "$1" "$number"
    done
    printf 'exit\nexit\n'
}

curly() {
    load "$count" "$1"
}

# the JSON that the program shows of these interfaces, with that host name, over lines that a session may read
json() {
    echo 'load json override terminal'
    sed "s/^\"host-name\": \"gen0\"/\"host-name\": \"gen$1\"/" "$work/lines.json"
    printf '\004\n'
}

# nanoseconds a round of a kind: what a session of so many takes longer than one of none
cost() {
    echo $((($(least_run "$1-with") - $(least_run "$1-without")) / $2))
}

# the ratio of one kind's time to another's
compare_kinds() {
    awk -v name="$1" -v json="$2" -v curly="$3" 'BEGIN {
        printf "%s: %.2f ms as JSON, %.2f ms as curly text: ratio %.2f\n", name, json / 1e6, curly / 1e6, json / curly
    }'
}

session 'show configuration | display json' 1 > "$work/once"
serve once
grep '^{' "$work/output" > "$work/shown.json"
python3 -c 'import json, sys; json.dump(json.load(open(sys.argv[1])), open(sys.argv[2], "w"), indent=0)' "$work/shown.json" "$work/lines.json"
echo >> "$work/lines.json"

session 'show configuration' 0 > "$work/curly-show-without"
session 'show configuration' "$shows" > "$work/curly-show-with"
session 'show configuration | display json' 0 > "$work/json-show-without"
session 'show configuration | display json' "$shows" > "$work/json-show-with"
loading curly 1 > "$work/curly-load-without"
loading curly $((loads + 1)) > "$work/curly-load-with"
loading json 1 > "$work/json-load-without"
loading json $((loads + 1)) > "$work/json-load-with"
for ((round = 0; round < 7; round++)); do
    for kind in curly-show json-show curly-load json-load; do
        serve "$kind-without"
        serve "$kind-with"
    done
done
compare_kinds 'a show' "$(cost json-show "$shows")" "$(cost curly-show "$shows")"
compare_kinds 'a load' "$(cost json-load "$loads")" "$(cost curly-load "$loads")"
python3 - "$work/lines.json" << 'END'
import json, sys, time

text = open(sys.argv[1], "rb").read()

def spent():
    begun = time.process_time()
    json.loads(text)
    return time.process_time() - begun

print(f"Python's json reads the {len(text)} bytes in {min(spent() for _ in range(15)) * 1e3:.2f} ms")
END

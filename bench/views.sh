#!/usr/bin/env bash
# The memory of a service while one session makes 100,000 commits and another one shows what is active as often: at each tenth of them,
# and by how much it grew a commit from the first tenth on. A view that is shown has the list of commits, of which 50 are kept, each with
# its user and its map. So views that are kept for ever would take some kilobytes a commit. What happened is kept too, some hundred
# bytes an event, of which a commit here has two.
set -eu
. "$(dirname "$0")/measure.sh"
# how many commits a tenth has
each=10000
# bytes that a session may have: more than the longest has
input=1000000000

commits() {
    local turn
    for ((turn = 0; turn < each; turn++)); do
        printf 'set system host-name r%d\ncommit\n' "$turn"
    done
}

# waits until a session was answered so many lines with a text
await() {
    until [ "$(grep -c "$3" "$1" || true)" -ge "$2" ]; do
        kill -0 "$service"
        sleep 0.1
    done
}

# the memory of the service, in kilobytes
resident() {
    awk '/^VmRSS/ { print $2 }' "/proc/$service/status"
}

commits > "$work/commits"
yes 'show configuration' | head -n "$each" > "$work/shows" || true
mkfifo "$work/writer" "$work/reader"
mkdir "$work/journal"
"$program" init "$work/journal" > "$work/output"
"$program" --input "$input" serve "$work/journal" "writer:$work/writer" "reader:$work/reader" &
service=$!
exec 3> "$work/writer" 4> "$work/reader"
echo configure >&3
for ((tenth = 1; tenth <= 10; tenth++)); do
    cat "$work/shows" >&4 &
    cat "$work/commits" >&3
    wait $!
    await "$work/writer.out" $((tenth * each)) '^commit complete$'
    resident >> "$work/resident"
    printf '%d commits: %d KiB\n' $((tenth * each)) "$(tail -n 1 "$work/resident")"
done
exec 3>&- 4>&-
wait "$service"
if grep -q error "$work"/*.out; then
    echo "a line was refused" >&2
    exit 1
fi
awk -v each="$each" '{ kept[NR] = $1 } END { printf "a commit: %.0f bytes\n", (kept[NR] - kept[1]) * 1024 / (each * (NR - 1)) }' "$work/resident"

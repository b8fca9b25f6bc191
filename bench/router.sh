# What the scripts share that time a line over a router's interfaces: each has an address, and one wildcard group gives each an MTU.
. "$(dirname "$0")/measure.sh"

# a load of so many interfaces, with a host name of that number
load() {
    awk -v count="$1" -v number="$2" 'BEGIN {
        print "load override terminal"
        print "groups {\n    JUMBO {\n        interfaces {\n            <ge-*> {\n                mtu 9000;\n            }"
        print "        }\n    }\n}"
        print "apply-groups JUMBO;"
        print "system {\n    host-name gen" number ";\n}"
        print "interfaces {"
        for (n = 0; n < count; n++) {
            print "    ge-0/0/" n " {\n        description \"port " n "\";\n        unit 0 {\n            family inet {"
            print "                address 10." int(n / 256) "." (n % 256) ".1/24;\n            }\n        }\n    }"
        }
        print "}"
        printf "\004\n"
    }'
}

# one session over so many interfaces, which asks so often what the line asks
session() {
    echo configure
    load "$1" 0
    yes "$3" | head -n "$2" || true
    echo exit
    echo exit
}

# nanoseconds an interface of a line: what a session that asks it so many interfaces' worth takes longer than one that doesn't
cost() {
    echo $((($(least_run "$1-with") - $(least_run "$1-without")) / $2))
}

# what a line takes at 300 and at 3,000 interfaces, asked so many interfaces' worth: sessions of few and of many that ask it, and that
# don't, take turns, and often, since what else runs on a machine takes the cache that they share
time_line() {
    local line=$1 worth=$2 count round few many
    rm -f "$work"/*.times
    for count in 300 3000; do
        session "$count" 0 "$line" > "$work/$count-without"
        session "$count" $((worth / count)) "$line" > "$work/$count-with"
    done
    for ((round = 0; round < 15; round++)); do
        for count in 300 3000; do
            serve "$count-without"
            serve "$count-with"
        done
    done
    few=$(cost 300 "$worth")
    many=$(cost 3000 "$worth")
    awk -v line="$line" -v few="$few" -v many="$many" 'BEGIN {
        printf "%s: %.2f microseconds an interface of 300, %.2f of 3,000\n", line, few / 1000, many / 1000
        printf "3,000 interfaces take %.1f times as long as 300\n", 10 * many / few
    }'
}

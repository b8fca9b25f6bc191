#!/usr/bin/env bash
# Refuses one allocation of the built program at a time: of two private sessions that commit side by side, of an inherited show under a
# wildcard group, and of 83 commits, of which the last makes the journal's files rotate. After each refusal the status must be 0 or 9, each line answered as it is with ample memory, by
# `error: out of memory`, or by an error that follows from a line that was answered so, and the list must be that of the commits that were
# answered, which a next run finds and goes on from. It prints how many allocations were refused. STEP tries each STEPth one alone.
# Builds nothing but bench/refuse.c: the program is the one that ./demo leaves.
# usage: memory.sh [STEP]
set -eu
cd "$(dirname "$0")/.."
program=$PWD/crates/confd/out/confd
[ -x "$program" ] || { echo "there is no program at $program: ./demo builds it" >&2; exit 1; }
folder=$(mktemp -d -p /dev/shm 2> /dev/null || mktemp -d)
trap 'rm -rf "$folder"' EXIT
gcc -O2 -Wall -shared -fPIC -o "$folder/refuse.so" bench/refuse.c
python3 - "$program" "$folder" "${1:-1}" << 'END'
import os, re, shutil, subprocess, sys

program, folder, step = sys.argv[1], sys.argv[2], int(sys.argv[3])
mark = folder + "/refused"

def run(*words, refuse=None):
    env = dict(os.environ)
    if refuse is not None:
        env |= {"LD_PRELOAD": folder + "/refuse.so", "REFUSE": str(refuse), "REFUSED": mark}
    it = subprocess.run([program, *words], stdin=subprocess.DEVNULL, capture_output=True, env=env)
    return it.returncode, it.stdout.decode(), it.stderr.decode()

def must(holds, what):
    if not holds:
        print("FAILED:", what)
        sys.exit(1)

def entries(place, what):
    status, told, why = run("check", place)
    must(status == 0, f"{what}: check: {status} {why}")
    return int(told.split()[1])

fresh = folder + "/fresh"
os.mkdir(fresh)
must(run("init", fresh)[0] == 0, "init")

OUT = "error: out of memory"

# what a line may be answered where an earlier one wasn't done: without `configure` it is none of operational mode, without its group
# `apply-groups` breaks the first rule, and without `exit` a show of what is active is read in configuration mode
FOLLOWS = re.compile(r"error: (syntax error at byte \d+|check C1 failed: apply-groups|unknown statement: configuration)")

def served(inputs, refuse, options):
    """A run of these sessions over a new list: its status, and what each session wrote."""
    place = folder + "/journal"
    shutil.rmtree(place, ignore_errors=True)
    shutil.copytree(fresh, place)
    words = []
    for name, lines in inputs.items():
        path = f"{folder}/{name}"
        with open(path, "w") as it:
            it.write("\n".join(lines) + "\n")
        if os.path.exists(path + ".out"):
            os.remove(path + ".out")
        words.append(f"{name}:{path}")
    status, told, why = run(*options, "serve", place, *words, refuse=refuse)
    outs = {}
    for name in inputs:
        path = f"{folder}/{name}.out"
        outs[name] = open(path).read().split("\n")[:-1] if os.path.exists(path) else []
    return place, status, outs, why

def each(title, inputs, *options):
    place, status, wanted, why = served(inputs, None, options)
    must(status == 0, f"{title}: {status} {why}")
    with open(f"{place}/journal.b", "rb") as it:
        must(it.read(17)[16] == (1 if options else 0), f"{title}: the files' gates")
    refused = kept = 0
    number = 1
    while True:
        if os.path.exists(mark):
            os.remove(mark)
        place, status, outs, why = served(inputs, number, options)
        if not os.path.exists(mark):
            break
        what = f"{title}, allocation {number}"
        must(status in (0, 9), f"{what}: status {status} {why}")
        answered = 0
        for name, lines in outs.items():
            answered += lines.count("commit complete")
            seen = set(wanted[name]) | {OUT}
            strange = [it for it in lines if it not in seen and not (OUT in lines and FOLLOWS.fullmatch(it))]
            must(not strange, f"{what}: {name} was told {strange}")
            if status == 0 and not any(it.startswith("error: ") for it in lines):
                must(lines == wanted[name], f"{what}: {name} was told {lines}")
        must(entries(place, what) == 1 + answered, f"{what}: {answered} commits answered, {entries(place, what)} entries")
        refused += 1
        kept += any(OUT in lines for lines in outs.values())
        with open(f"{folder}/next", "w") as it:
            it.write("configure\ncommit\n")
        status, told, why = run("serve", place, f"next:{folder}/next")
        must(status == 0 and entries(place, what) == 2 + answered, f"{what}: the next run: {status} {why}")
        number += step
    print(f"{title}: some {number} allocations, {refused} of them refused one at a time; {kept} times a line was answered so")

each("two private sessions", {
    "al": ["configure private", "set system host-name a", "commit"],
    "bo": ["configure private", "set interfaces ge-0/0/0 description d", "commit"],
})
each("an inherited show", {"al": [
    "configure", "set groups J interfaces <ge-*> mtu 9000", "set apply-groups J", "set interfaces ge-0/0/0 description a",
    "set interfaces xe-0/0/0 description b", "show interfaces | display inheritance", "commit", "exit",
    "show configuration interfaces | display inheritance"]})
# the last of them writes the list anew to the other file, whose gate then is open
each("83 commits", {"admin": ["configure", "set system host-name r1"] + ["commit"] * 83}, "--journal-limit", "8192")
END

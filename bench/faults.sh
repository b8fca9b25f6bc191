#!/usr/bin/env bash
# What the program does where the system fails: a file system that fills up, a folder that may not be written, files of another owner,
# an output that nobody reads, a second service over one folder, and an address space of 20, 40 and 80 MB in which memory runs out. For each
# it prints what came; it fails where a status or an answer isn't a stated one, or where `check` doesn't find each commit that was answered.
# Builds nothing: the program is the one that ./demo leaves. As root it mounts a file system of 256 KB in memory, and runs as nobody;
# else it leaves these cases out, and says so.
set -eu
cd "$(dirname "$0")/.."
program=$PWD/crates/confd/out/confd
[ -x "$program" ] || { echo "there is no program at $program: ./demo builds it" >&2; exit 1; }
folder=$(mktemp -d)
mkdir "$folder/small"
trap 'umount "$folder/small" 2> /dev/null || true; rm -rf "$folder"' EXIT
chmod 755 "$folder"
cp "$program" "$folder/confd"
is_root=no
if [ "$(id -u)" = 0 ] && mount -t tmpfs -o size=256k tmpfs "$folder/small" 2> /dev/null; then
    is_root=yes
fi
python3 - "$folder/confd" "$folder" "$is_root" << 'END'
import os, re, resource, subprocess, sys, time

program, folder, is_root = sys.argv[1], sys.argv[2], sys.argv[3] == "yes"

def run(*words, lines=b"", **how):
    it = subprocess.run([program, *words], input=lines, capture_output=True, **how)
    return it.returncode, it.stdout.decode(), it.stderr.decode()

def must(holds, what):
    if not holds:
        print("FAILED:", what)
        sys.exit(1)

def make(name):
    place = f"{folder}/{name}"
    os.makedirs(place, exist_ok=True)
    must(run("init", place)[:2] == (0, "journal created\n"), f"{name}: init")
    return place

def entries(place):
    status, told, why = run("check", place)
    must(status == 0, f"check of {place}: {status} {why}")
    return int(told.split()[1])

def commits(count):
    lines = ["configure"]
    for turn in range(count):
        lines += [f"set system host-name r{turn}", "commit"]
    return ("\n".join(lines) + "\n").encode()

def kept(place, told, what):
    """Each commit that was answered is in the list, and at most one more."""
    answered = told.count("commit complete\n")
    there = entries(place)
    must(1 + answered <= there <= 2 + answered, f"{what}: {answered} commits answered, {there} entries")
    return answered

# 1. the file system fills up in the midst of the commits
if is_root:
    place = make("small/full")
    status, told, why = run("serve", place, lines=commits(4000))
    refused = told.count("error: journal write failed\n")
    must(refused > 0, "a full file system: no commit was refused")
    must(status in (0, 4), f"a full file system: status {status}")
    answered = kept(place, told, "a full file system")
    print(f"a full file system: {answered} commits answered, {refused} lines put off, status {status} {why.strip()}")

# 2. a folder that may not be written, and files of another owner
if is_root:
    nobody = {"user": "nobody"}
    place = make("other")
    os.chmod(f"{place}/journal.a", 0o600)
    status, told, why = run("serve", place, lines=commits(1), **nobody)
    must((status, told, why) == (4, "", "confd: disk fault\n"), f"a journal of another owner: {status} {why}")
    print("a journal of another owner: status 4, confd: disk fault")
    os.mkdir(f"{folder}/bare")
    os.chmod(f"{folder}/bare", 0o555)
    status, told, why = run("init", f"{folder}/bare", **nobody)
    must((status, told, why) == (4, "", "confd: disk fault\n"), f"a folder that may not be written: {status} {why}")
    must(os.listdir(f"{folder}/bare") == [], "a folder that may not be written has files")
    print("a folder that may not be written: status 4, confd: disk fault")
else:
    print("not root: no full file system and no other owner was tried")

# 3. nobody reads the output
place = make("closed")
served = subprocess.Popen([program, "serve", place], stdin=subprocess.PIPE, stdout=subprocess.PIPE, stderr=subprocess.PIPE)
served.stdout.close()
try:
    served.stdin.write(commits(10))
    served.stdin.close()
except OSError:
    pass
status = served.wait()
must(status == 6, f"an output that nobody reads: status {status}")
must(entries(place) <= 2, "an output that nobody reads: more was committed than the first")
print("an output that nobody reads: status 6")

# 4. a second service over the folder of one that runs
place = make("twice")
os.mkfifo(f"{folder}/lines")
first = subprocess.Popen([program, "serve", place, f"al:{folder}/lines"], stdin=subprocess.DEVNULL)
with open(f"{folder}/lines", "wb", buffering=0) as lines:
    lines.write(commits(1))
    while True:
        try:
            if "commit complete" in open(f"{folder}/lines.out").read():
                break
        except OSError:
            pass
        time.sleep(0.02)
    status, told, why = run("serve", place, lines=commits(1))
    must((status, told, why) == (4, "", "confd: journal in use\n"), f"a second service: {status} {why}")
    must(entries(place) == 2, "a check beside a service")
must(first.wait() == 0, "the first service")
must(run("serve", place, lines=commits(1))[0] == 0 and entries(place) == 3, "a service after the first one")
print("a second service: status 4, confd: journal in use; after the first one ended it is served")

# 5. little memory: sessions that load and commit more and more, and then one that commits wholly different configurations, of which
# the last 50 are kept, until memory runs out
def load(count, slot):
    lines = ["load override terminal", "interfaces {"]
    lines += [f'    ge-{slot}/0/{n} {{ description "port {n}"; unit 0 {{ family inet {{ address 10.{n // 256}.{n % 256}.1/24; }} }} }}' for n in range(count)]
    return lines + ["}", "\x04", "commit"]

def text(count, slots):
    lines = ["configure"]
    for slot in range(slots):
        lines += load(count, slot)
    return ("\n".join(lines) + "\n").encode()

OUT = "error: out of memory"
STATED = {"Entering configuration mode", "load complete", "commit complete", OUT}

def little(place, megabytes, count, slots):
    """Such a session in an address space of so many megabytes: how many commits it was answered, and whether memory was wanting."""
    limit = megabytes * 1000 * 1000
    def limited():
        resource.setrlimit(resource.RLIMIT_AS, (limit, limit))
    what = f"{megabytes} MB, {slots} times {count} interfaces"
    before = entries(place)
    status, told, why = run("serve", place, lines=text(count, slots), preexec_fn=limited)
    # the loader may find no room either: then nothing was begun
    must(status in (0, 9, 127), f"{what}: status {status} {why}")
    # without `configure` the lines after it are none of operational mode
    strange = [it for it in told.splitlines() if it not in STATED and not (OUT in told and re.fullmatch(r"error: syntax error at byte \d+", it))]
    must(not strange, f"{what}: was told {strange[:3]}")
    answered = told.count("commit complete\n")
    must(entries(place) == before + answered, f"{what}: {answered} commits answered, {entries(place) - before} entries")
    return answered, status != 0 or OUT in told

for megabytes in (20, 40, 80):
    place = make(f"memory{megabytes}")
    seen = []
    for count in (1, 10, 100, 1000, 3000):
        answered, wanted = little(place, megabytes, count, 1)
        seen.append(f"{count} interfaces {'committed' if answered else 'out of memory' if wanted else 'not committed'}")
    answered, wanted = little(place, megabytes, 2000, 50)
    must(wanted, f"{megabytes} MB: memory was never wanting")
    # with ample memory the list is found, and goes on
    before = entries(place)
    must(run("serve", place, lines=commits(1))[0] == 0 and entries(place) == before + 1, f"{megabytes} MB: the next run")
    print(f"{megabytes} MB: " + ", ".join(seen) + f"; of 50 commits of 2000 other interfaces each {answered} answered, then out of memory")
END

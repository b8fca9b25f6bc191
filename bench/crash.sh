#!/usr/bin/env bash
# Kills the program 200 times, each time after another number of bytes of its output, checks the journal and starts again: every
# commit that was answered must be there. The same 300 times over a limit by which the journal's files rotate every few commits. Then
# changes each byte of a small journal in turn, and looks whether the status and the place that `check` reports are those that the
# bytes say.
# Builds nothing: the program is the one that ./demo leaves. The folder named, or this one, decides which file system is used.
set -eu
place=$(cd "${1:-.}" && pwd)
cd "$(dirname "$0")/.."
program=$PWD/crates/confd/out/confd
[ -x "$program" ] || { echo "there is no program at $program: ./demo builds it" >&2; exit 1; }
folder=$(mktemp -d "$place/crash.XXXXXX")
trap 'rm -rf "$folder"' EXIT
python3 - "$program" "$folder" << 'END'
import hashlib, os, random, subprocess, sys, threading

program, folder = sys.argv[1:]

def run(*words, lines=b""):
    it = subprocess.run([program, *words], input=lines, capture_output=True)
    return it.returncode, it.stdout.decode(), it.stderr.decode()

def must(holds, what):
    if not holds:
        print("FAILED:", what)
        sys.exit(1)

def entries(journal):
    status, told, why = run("check", journal)
    assert status == 0, (status, told, why)
    entries, commits = (int(line.split()[1]) for line in told.splitlines()[:2])
    must(commits == min(entries, 50), f"{commits} commits are kept of {entries}")
    return entries

def generation(journal):
    """The greater generation of the two files, and whether both file gates are open."""
    heads = []
    for name in ("journal.a", "journal.b"):
        with open(f"{journal}/{name}", "rb") as it:
            heads.append(it.read(17))
    return max(int.from_bytes(it[8:16], "big") for it in heads), all(it[16] == 1 for it in heads)

# 1. killed, and started again
def kill(journal, kills, *options):
    """Kills so many services over a new journal. How many entries it then has, and after how many kills a file's gate was closed."""
    os.mkdir(journal)
    must(run("init", journal)[:2] == (0, "journal created\n"), "init")
    kept, closed = 1, 0
    for kill in range(kills):
        stop = random.randrange(0, 1200)
        lines = ["configure"]
        for turn in range(kept, kept + 200):
            lines += [f"set system host-name r{turn}", "commit"]
        served = subprocess.Popen([program, *options, "serve", journal], stdin=subprocess.PIPE, stdout=subprocess.PIPE)
        def feed(pipe=served.stdin, text="\n".join(lines).encode() + b"\n"):
            try:
                pipe.write(text)
                pipe.close()
            except OSError:
                pass
        feeder = threading.Thread(target=feed)
        feeder.start()
        heard = b""
        while len(heard) < stop:
            got = os.read(served.stdout.fileno(), stop - len(heard))
            if not got:
                break
            heard += got
        served.kill()
        served.wait()
        feeder.join()
        answered = heard.count(b"commit complete\n")
        number, is_open = generation(journal)
        closed += number > 2 and not is_open
        now = entries(journal)
        must(now >= kept + answered, f"kill {kill}: {answered} commits were answered over {kept} entries, and {now} are there")
        status, shown, why = run(*options, "serve", journal, lines=b"show configuration\n")
        must(status == 0, f"kill {kill}: the start after it: {status} {why}")
        wanted = f"system {{\n    host-name r{now - 1};\n}}\n" if now > 1 else ""
        must(shown == wanted, f"kill {kill}: {now} entries, and {shown!r} is active")
        kept = now
    return kept, closed

random.seed(1)
kept, _ = kill(folder + "/journal", 200)
print(f"200 kills: {kept} entries, every answered commit is there")

# 50 commits of this size and what states them have some 5,200 bytes
kept, closed = kill(folder + "/rotating", 300, "--journal-limit", "5800")
rotations = generation(folder + "/rotating")[0] - 1
must(rotations * 10 > kept, f"{rotations} rotations for {kept} entries")
print(f"300 kills and {rotations} rotations: {kept} entries, every answered commit is there; a file's gate was closed after {closed} of the kills")

# 2. each byte of a small journal changed
small = folder + "/small"
os.mkdir(small)
must(run("init", small)[0] == 0, "init")
must(run("serve", small, lines=b"configure\nset system host-name r1\ncommit\ncommit\n")[0] == 0, "three commits")
names = ["journal.a", "journal.b"]
files = [open(f"{small}/{name}", "rb").read() for name in names]
MAGIC = b"CONFDJ1\n"

def told(a, b):
    """What the bytes say: (status, line on standard error, entries)."""
    for it in (a, b):
        if len(it) < 17 or it[:8] != MAGIC:
            return 2, "confd: not a journal\n", None
    if a[16] != 1 and b[16] != 1:
        return 2, "confd: not a journal\n", None
    counts = a
    if b[16] == 1:
        next_one = (int.from_bytes(a[8:16], "big") + 1) % 2**64
        if a[16] != 1 or int.from_bytes(b[8:16], "big") == next_one:
            counts = b
    at = lambda place: counts[place] if place < len(counts) else 0
    gate, records = 17, 0
    while at(gate) == 1:
        length = int.from_bytes(bytes(at(gate + 2 + k) for k in range(4)), "big")
        payload = 0 if length > 1049600 else length
        body = bytes(at(gate + 1 + k) for k in range(5 + payload))
        kept = bytes(at(gate + 6 + payload + k) for k in range(32))
        computed = hashlib.sha256(body).digest()
        if kept != computed:
            return 3, f"confd: damaged record at {gate}: kept {kept.hex()}, computed {computed.hex()}\n", None
        gate, records = gate + 38 + payload, records + 1
    if gate >= len(counts):
        return 2, "confd: not a journal\n", None
    if records == 0:
        return 10, "confd: bad record at 17\n", None
    return 0, "", records

changes, statuses = 0, {}
for which, name in enumerate(names):
    for place in range(len(files[which])):
        for change in (0x01, 0x80, 0xFF):
            pair = [bytearray(it) for it in files]
            pair[which][place] ^= change
            for path, bytes_ in zip(names, pair):
                with open(f"{small}/{path}", "wb") as it:
                    it.write(bytes_)
            status, why, count = told(*map(bytes, pair))
            got, out, err = run("check", small)
            must((got, err) == (status, why), f"{name}, byte {place} by {change:#x}: {got} {err!r}, not {status} {why!r}")
            must(count is None or out.startswith(f"entries {count}\n"), f"{name}, byte {place}: {out!r}, not {count} entries")
            must([open(f"{small}/{it}", "rb").read() for it in names] == [bytes(it) for it in pair], "check wrote a file")
            changes += 1
            statuses[got] = statuses.get(got, 0) + 1
print(f"{changes} changed bytes:", ", ".join(f"status {it} {statuses[it]} times" for it in sorted(statuses)))
END

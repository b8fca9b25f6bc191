#!/usr/bin/env bash
# The time of a rename of an interface in a tree of 16,000 statements, by how many of them stand below it. By calls, so that nothing else is
# in it: the program is that of crates/call_scripts, which `rt run` leaves there (rt run -- data/words.script in its folder).
set -eu
cd "$(dirname "$0")/.."
program=$PWD/crates/call_scripts/out/call_scripts
[ -x "$program" ] || { echo "there is no program at $program" >&2; exit 1; }
work=$(mktemp -d)
trap 'rm -rf "$work"' EXIT
python3 - "$program" "$work/moves.script" << 'END'
import resource, subprocess, sys

program, path = sys.argv[1:]
TOTAL, TIMES, ROUNDS = 16000, 40, 5

def spent(part, renames):
    """The processor's time of a script that puts all statements, so many below one interface, and renames it so often."""
    lines = ["put interfaces", "= put"]
    for name, units in (("ge-0/0/0", part), ("ge-0/0/5", TOTAL - part)):
        lines += [f"put interfaces {name}", "= put"]
        if units > 0:
            lines += [f"each 1 {units} put interfaces {name} unit %", f"= {units} times", "= put"]
    names = ["ge-0/0/0", "ge-0/0/9"]
    for turn in range(renames):
        lines += [f"rename interfaces {names[turn % 2]} -- {names[1 - turn % 2]}", "= changed"]
    with open(path, "w") as it:
        it.write("\n".join(lines) + "\n")
    before = resource.getrusage(resource.RUSAGE_CHILDREN).ru_utime
    told = subprocess.run([program, path], capture_output=True, text=True).stdout
    if not told.endswith(" 0 wrong\n"):
        sys.exit(told)
    return resource.getrusage(resource.RUSAGE_CHILDREN).ru_utime - before

for part in (TOTAL - 10, TOTAL // 2, 2100, 1900, 100):
    least = [min(spent(part, renames) for _ in range(ROUNDS)) for renames in (0, TIMES)]
    one = (least[1] - least[0]) / TIMES
    print(f"{part} of {TOTAL} statements below it: {one * 1e3:.1f} ms a rename, {one * 1e6 / part:.1f} microseconds a statement that moves")
END

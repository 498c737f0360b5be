#!/usr/bin/env bash
# Where the time of the gate goes: proves and tries everything from nothing in a copy of this commit, and tells the processor seconds of
# each crate's proof, of its tests' job and of its must-fail edits (with the check that they begin with), and the wall time of all.
# Usage: bench/gate.sh [LOG]   What the gate says goes to LOG. It takes an hour and more; let nothing else run meanwhile.
set -eu
top=$(cd "$(dirname "$0")/.." && pwd)
log=${1:-/dev/null}
work=$(mktemp -d)
trap 'rm -rf "$work"' EXIT
git clone -q "$top" "$work/svfs"
cd "$work/svfs"
python3 - "$log" <<'PYTHON'
import collections, os, subprocess, sys, time

TICK = os.sysconf("SC_CLK_TCK")
seen = {}  # process -> (crate, part, ticks), as it was last seen


def look(pid):
    """Notes the processor time of a process of the prover, and for which crate and part it is at work."""
    with open(f"/proc/{pid}/cmdline", "rb") as file:
        words = file.read().decode(errors="replace").split("\0")
    if not words[0].endswith("/rattle") or "--crate-name" not in words:
        return
    crate = words[words.index("--crate-name") + 1]
    place = os.readlink(f"/proc/{pid}/cwd")
    part = "edits" if "/rt-edit" in place else "tests" if "--test" in words else "proof"
    with open(f"/proc/{pid}/stat") as file:
        fields = file.read().rpartition(")")[2].split()
    seen[pid, fields[19]] = crate, part, int(fields[11]) + int(fields[12])


began = time.monotonic()
with open(sys.argv[1], "w") as log:
    gate = subprocess.Popen(["rt", "ci", "--anew"], stdout=log, stderr=subprocess.STDOUT)
    while gate.poll() is None:
        for pid in filter(str.isdigit, os.listdir("/proc")):
            try:
                look(pid)
            except (OSError, IndexError):
                pass  # it ended meanwhile
        time.sleep(0.5)
wall = time.monotonic() - began

table = collections.defaultdict(collections.Counter)
for crate, part, ticks in seen.values():
    table[crate][part] += ticks / TICK
parts = ("proof", "tests", "edits")
print(f"{'seconds of a processor':<24}" + "".join(f"{part:>8}" for part in parts))
for crate in sorted(table, key=lambda it: -sum(table[it].values())):
    print(f"{crate:<24}" + "".join(f"{table[crate][part]:8.0f}" for part in parts))
sums = [sum(row[part] for row in table.values()) for part in parts]
print(f"{'all':<24}" + "".join(f"{it:8.0f}" for it in sums) + f"   {sum(sums) / 60:.0f} minutes")
print(f"wall: {wall / 60:.1f} minutes; rt ci ended with status {gate.returncode}")
PYTHON

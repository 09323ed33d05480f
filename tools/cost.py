#!/usr/bin/env python3
"""What proving costs: runs a command that proves, and prints the processor time that the prover took for each crate.

    tools/cost.py rt ci --anew          the table of docs/COST.md, from nothing
    tools/cost.py rt ci vk_names        crates that the run proved alone

The prover's processes are looked at twice a second (Linux's /proc), so times are short by half a second a process at most.
A row has the crate's lines (src/, specs/, proofs/), and the minutes of its own proof, of its tests and of its must-fail edits.
Only what the command began counts. Of a crate that an earlier run passed nothing is proved again, unless by --anew.
"""
import os
import re
import subprocess
import sys
import time

TICKS = os.sysconf("SC_CLK_TCK")
TOP = os.path.dirname(os.path.dirname(os.path.abspath(__file__)))


def parent_of(number):
    with open(f"/proc/{number}/stat") as file:
        return file.read().rsplit(")", 1)[1].split()[1]


def is_below(number, root):
    """Whether a process was begun by root, or by one that root began."""
    while number not in ("0", "1"):
        if number == root:
            return True
        number = parent_of(number)
    return False


def process(number, root):
    """The crate, the kind of work and the processor seconds of a prover's process below root, or None."""
    try:
        with open(f"/proc/{number}/cmdline", "rb") as file:
            words = file.read().decode("utf-8", "replace").split("\0")
        if os.path.basename(words[0]) != "rattle" or "--crate-name" not in words or not is_below(number, root):
            return None
        with open(f"/proc/{number}/stat") as file:
            fields = file.read().rsplit(")", 1)[1].split()
        folder = os.path.basename(os.readlink(f"/proc/{number}/cwd"))
    except OSError:
        return None
    kind = "edits" if folder.startswith("rt-edit-") else "tests" if "--test" in words else "proof"
    crate = words[words.index("--crate-name") + 1]
    return (number, fields[19]), crate, kind, (int(fields[11]) + int(fields[12])) / TICKS


def watch(command):
    """Runs the command; gives the crate, the kind and the seconds of each process that was seen, and the command's status."""
    seen = {}
    run = subprocess.Popen(command, cwd=TOP, stdout=sys.stderr)
    while run.poll() is None:
        for number in filter(str.isdigit, os.listdir("/proc")):
            found = process(number, str(run.pid))
            if found:
                seen[found[0]] = found[1:]
        time.sleep(0.5)
    return seen, run.returncode


def lines_of(crate):
    count = 0
    for part in ("src", "specs", "proofs"):
        for folder, _, names in os.walk(f"{TOP}/crates/{crate}/{part}"):
            for name in names:
                with open(f"{folder}/{name}", "rb") as file:
                    count += file.read().count(b"\n")
    return count


def table(seen):
    """The rows of docs/COST.md, in the order of crates.txt, and their sum."""
    with open(f"{TOP}/crates.txt") as file:
        crates = re.findall(r"^(\w+)[^#:\n]*:", file.read(), re.M)
    times = {}
    for crate, kind, seconds in seen.values():
        times[crate, kind] = times.get((crate, kind), 0) + seconds
    kinds = ("proof", "tests", "edits")
    yield "| crate | lines | proof | tests | edits | minutes a 1,000 lines |"
    yield "|---|---:|---:|---:|---:|---:|"
    rows = [(crate, lines_of(crate), [times.get((crate, kind), 0) / 60 for kind in kinds]) for crate in crates]
    rows.append(("all", sum(row[1] for row in rows), [sum(row[2][k] for row in rows) for k in range(3)]))
    for crate, lines, minutes in rows:
        cells = " | ".join(f"{m:.1f}" if m else "" for m in minutes)
        yield f"| {crate} | {lines:,} | {cells} | {1000 * sum(minutes) / max(lines, 1):.1f} |"


def main():
    if len(sys.argv) < 2:
        sys.exit(__doc__)
    seen, status = watch(sys.argv[1:])
    print("\n".join(table(seen)))
    sys.exit(status)


if __name__ == "__main__":
    main()

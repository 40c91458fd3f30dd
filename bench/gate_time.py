#!/usr/bin/env python3
"""Processor time of a run of the gate, crate by crate: its proof, its tests' proof, its must-fail edits.

    bench/gate_time.py COMMAND..

Runs the command (`rt ci --anew`, say) and looks at the prover's processes below it once a second until it ends, so that up to a second of
each process is missed; other programs do not count. A line has a crate, minutes of its proof, of its tests' proof, of its edits, the sum,
lines of its source, definitions and proofs, and minutes per 1,000 of these.
"""
import collections
import os
import subprocess
import sys
import time

ROOT = os.path.dirname(os.path.dirname(os.path.abspath(__file__)))
TICK = os.sysconf("SC_CLK_TCK")


def processes():
    """The parent, processor seconds and words of each process."""
    found = {}
    for pid in filter(str.isdigit, os.listdir("/proc")):
        try:
            with open(f"/proc/{pid}/stat") as file:
                fields = file.read().rsplit(")", 1)[1].split()
            with open(f"/proc/{pid}/cmdline") as file:
                words = file.read().split("\0")
        except OSError:
            continue
        found[pid, fields[19]] = fields[1], (int(fields[11]) + int(fields[12])) / TICK, words
    return found


def below(found, top):
    """The keys of the processes below one."""
    children = collections.defaultdict(list)
    for key, (parent, _, _) in found.items():
        children[parent].append(key)
    todo, seen = [str(top)], []
    while todo:
        for key in children[todo.pop()]:
            seen.append(key)
            todo.append(key[0])
    return seen


def kind_of(key, words):
    """The crate, and what is done for it; `None` for another program."""
    if "--crate-name" not in words:
        return None
    crate = words[words.index("--crate-name") + 1]
    try:
        folder = os.readlink(f"/proc/{key[0]}/cwd")
    except OSError:
        folder = ""
    if os.path.basename(folder).startswith("rt-edit-"):
        return crate, "edits"
    return crate, "tests" if "--test" in words else "proof"


def measured(command):
    """Seconds by crate and kind, and the command's status."""
    child = subprocess.Popen(command)
    spent, kinds = {}, {}
    while child.poll() is None:
        found = processes()
        for key in below(found, child.pid):
            _, seconds, words = found[key]
            # a process that has not yet begun its own program is looked at again
            if kinds.get(key) is None:
                kinds[key] = kind_of(key, words)
            spent[key] = seconds
        time.sleep(1)
    sums = collections.defaultdict(float)
    for key, seconds in spent.items():
        if kinds[key]:
            sums[kinds[key]] += seconds
    return sums, child.returncode


def lines_of(crate):
    """How many lines the crate's source, definitions and proofs have."""
    total = 0
    for folder, _, files in os.walk(os.path.join(ROOT, "crates", crate)):
        if os.sep + "out" in folder:
            continue
        for name in files:
            if name.endswith((".rt", ".antt")):
                with open(os.path.join(folder, name)) as file:
                    total += sum(1 for _ in file)
    return total


def main():
    sums, status = measured(sys.argv[1:])
    print(f"{'crate':>16} {'proof':>7} {'tests':>7} {'edits':>7} {'all':>7} {'lines':>7} {'a 1,000':>8}")
    for crate in dict.fromkeys(crate for crate, _ in sums):
        parts = [sums[crate, kind] / 60 for kind in ("proof", "tests", "edits")]
        lines = max(lines_of(crate), 1)
        print(f"{crate:>16} {parts[0]:7.1f} {parts[1]:7.1f} {parts[2]:7.1f} {sum(parts):7.1f} {lines:7} {sum(parts) * 1000 / lines:8.2f}")
    print(f"{'all':>16} {sum(sums.values()) / 60:7.1f} minutes")
    sys.exit(status)


if __name__ == "__main__":
    main()

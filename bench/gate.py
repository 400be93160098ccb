#!/usr/bin/env python3
"""What the gate costs, crate by crate: `bench/gate.py [COMMAND..]` runs a command, or else `rt ci --anew`, which proves everything again, and adds up
the processor time of the checks that it starts: for each crate of its proofs, those of its tests among them, and of its must-fail edits. It looks
twice a second, so the last half second of a check may be missing. A line for each crate, the dearest first, then the sums and the time by the
clock, all in seconds of one processor or of the clock. The status is the command's."""

import collections
import os
import subprocess
import sys
import time

TICKS = os.sysconf("SC_CLK_TCK")


def parts_of(pid):
    """The parent of a process and the seconds that it has used, or None if it has ended."""
    try:
        with open(f"/proc/{pid}/stat") as file:
            fields = file.read().rpartition(")")[2].split()
    except OSError:
        return None
    return int(fields[1]), (int(fields[11]) + int(fields[12])) / TICKS


def below(root):
    """The processes that a process started, and those that they started."""
    found = {int(it): parts_of(it) for it in os.listdir("/proc") if it.isdigit()}
    children = collections.defaultdict(list)
    for pid, parts in found.items():
        if parts:
            children[parts[0]].append(pid)
    waiting = [root]
    while waiting:
        for pid in children[waiting.pop()]:
            waiting.append(pid)
            yield pid, found[pid][1]


def check_of(pid):
    """The crate that a process checks, and whether it tries an edit of it."""
    try:
        with open(f"/proc/{pid}/cmdline", "rb") as file:
            words = file.read().decode(errors="replace").split("\0")
        where = os.readlink(f"/proc/{pid}/cwd")
    except OSError:
        return None
    if os.path.basename(words[0]) != "rattle" or "--crate-name" not in words:
        return None
    return words[words.index("--crate-name") + 1], "/rt-edit-" in where


def watched(command):
    """Runs the command, and returns its status and the seconds of each check that it started."""
    checks, used = {}, {}
    run = subprocess.Popen(command)
    while run.poll() is None:
        for pid, seconds in below(run.pid):
            if pid not in checks or not checks[pid]:
                checks[pid] = check_of(pid)
            if checks[pid]:
                used[pid, checks[pid]] = seconds
        time.sleep(0.5)
    return run.returncode, used


def main():
    begun = time.time()
    status, used = watched(sys.argv[1:] or ["rt", "ci", "--anew"])
    clock = time.time() - begun
    proofs, edits = collections.Counter(), collections.Counter()
    for (_, (crate, is_edit)), seconds in used.items():
        (edits if is_edit else proofs)[crate] += seconds
    for crate in sorted({*proofs, *edits}, key=lambda it: -proofs[it] - edits[it]):
        print(f"{crate}: {proofs[crate]:.0f} of proofs, {edits[crate]:.0f} of edits")
    print(f"all: {sum(proofs.values()):.0f} of proofs, {sum(edits.values()):.0f} of edits; {clock:.0f} by the clock")
    sys.exit(status)


if __name__ == "__main__":
    main()

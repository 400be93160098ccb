#!/usr/bin/env python3
"""Times both schemes on the same calls: `oa run`, by optimistic access, and `oa epochs`, by epochs.

usage: bench/schemes.py [PROGRAM [RUNS]]

PROGRAM is the proved `oa`; each document is run RUNS times (5) by each command, in turns, and the median is taken. It writes the table of
bench/README.md, and draws bench/schemes.svg. The numbers are thousands of calls a second of processor time: the time of a long document less that of a short
one, so that the start of the program and the reading of the text drop out.
"""
import os
import random
import resource
import statistics
import subprocess
import sys

BENCH = os.path.dirname(os.path.abspath(__file__))
LONG, SHORT = 60_000, 10_000  # calls of all callers together
CALLERS = (1, 2, 4, 8)
SCHEMES = {"run": "optimistic access", "epochs": "epochs"}
COLOURS = {"run": "#0b5aa2", "epochs": "#e08a2e"}


def set_call(asking):
    """A call on a set of 64 keys: so many in a hundred ask for a key, the others put one in or take one out."""
    def call(chance):
        key = chance.randrange(64)
        return f"contains {key}" if chance.randrange(100) < asking else f"{chance.choice(['insert', 'remove'])} {key}"
    return call


def queue_call(chance):
    return f"enqueue {chance.randrange(1000)}" if chance.randrange(2) else "dequeue"


LOADS = {
    "set, 90 of 100 ask": ("use set 8", 200, set_call(90)),
    "set, 50 of 100 ask": ("use set 8", 200, set_call(50)),
    "queue": ("use queue", 4000, queue_call),
}


def document(text, slots, call, callers, calls):
    chance = random.Random(5)
    lines = ["oa 1", text, f"slots {slots}"]
    for caller in range(callers):
        lines += [f"script {caller}", *(call(chance) for _ in range(calls // callers))]
    return "\n".join([*lines, ""]).encode()


def seconds(program, command, data):
    before = resource.getrusage(resource.RUSAGE_CHILDREN)
    made = subprocess.run([program, command], input=data, stdout=subprocess.DEVNULL, stderr=subprocess.DEVNULL)
    if made.returncode not in (0, 1):
        sys.exit(f"schemes.py: {command} ended with {made.returncode}")
    after = resource.getrusage(resource.RUSAGE_CHILDREN)
    return after.ru_utime + after.ru_stime - before.ru_utime - before.ru_stime


def rates(program, runs):
    """Returns thousands of calls a second by load, callers and command."""
    found = {}
    for load, (text, slots, call) in LOADS.items():
        for callers in CALLERS:
            documents = [document(text, slots, call, callers, calls) for calls in (LONG, SHORT)]
            times = {command: ([], []) for command in SCHEMES}
            for _ in range(runs):
                for command in SCHEMES:
                    for data, taken in zip(documents, times[command]):
                        taken.append(seconds(program, command, data))
            for command, (long, short) in times.items():
                found[load, callers, command] = (LONG - SHORT) / (statistics.median(long) - statistics.median(short)) / 1000
    return found


def table(found):
    lines = ["| Calls | 1 caller | " + " | ".join(f"{callers} callers" for callers in CALLERS[1:]) + " |", "|---|" + "---|" * len(CALLERS)]
    for load in LOADS:
        cells = [", ".join(f"{found[load, callers, command]:.0f}" for command in SCHEMES) for callers in CALLERS]
        lines.append(f"| {load}: optimistic access, epochs | " + " | ".join(cells) + " |")
    return "\n".join(lines) + "\n"


def bar(x, value, scale, colour):
    """A bar with its number above it."""
    top = 260 - value * scale
    return (f'<rect x="{x}" y="{top:.1f}" width="22" height="{value * scale:.1f}" fill="{colour}"/>'
            f'<text x="{x + 11}" y="{top - 4:.1f}" text-anchor="middle" font-size="9">{value:.0f}</text>')


def picture(found):
    """The SVG: a group of bars for each load, and in it a pair for each count of callers."""
    scale, parts = 200 / max(found.values()), []
    for group, load in enumerate(LOADS):
        left = 20 + group * 260
        parts.append(f'<text x="{left + 118}" y="296" text-anchor="middle" font-weight="bold">{load}</text>')
        for pair, callers in enumerate(CALLERS):
            x = left + pair * 60
            parts += [bar(x + 24 * at, found[load, callers, command], scale, COLOURS[command]) for at, command in enumerate(SCHEMES)]
            parts.append(f'<text x="{x + 23}" y="275" text-anchor="middle">{callers}</text>')
    for at, (command, name) in enumerate(SCHEMES.items()):
        parts.append(f'<rect x="{20 + 150 * at}" y="10" width="12" height="12" fill="{COLOURS[command]}"/><text x="{38 + 150 * at}" y="20">{name}</text>')
    parts.append('<text x="340" y="20" fill="#6b6b6b">thousand calls a second of processor time, by callers</text>')
    head = '<svg xmlns="http://www.w3.org/2000/svg" width="800" height="306" font-family="DejaVu Sans, Verdana, sans-serif" font-size="12">'
    title = "<title>Calls a second under both schemes</title>"
    return "\n".join([head, title, '<rect width="800" height="306" fill="white"/>', '<line x1="14" y1="260" x2="786" y2="260" stroke="#1a1a1a"/>', *parts, "</svg>", ""])


def main():
    program = os.path.abspath(sys.argv[1] if len(sys.argv) > 1 else os.path.join(BENCH, "..", "crates", "oa", "out", "oa"))
    found = rates(program, int(sys.argv[2]) if len(sys.argv) > 2 else 5)
    sys.stdout.write(table(found))
    with open(os.path.join(BENCH, "schemes.svg"), "w", encoding="utf-8") as file:
        file.write(picture(found))


if __name__ == "__main__":
    main()

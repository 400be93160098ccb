#!/usr/bin/env python3
"""Makes certificates of random documents of proper texts with `oa judge make`, and looks whether `oa judge check` accepts each.

usage: bench/certified.py [COUNT [PROGRAM [SEED]]]

The texts are the shipped list, sets and queue, and the proper ones of examples/ with operations that any arguments suit. One to eight callers make up to
thirty calls over few slots, with little fuel in a third of the documents, by a random schedule that asks for no more steps than there are. The status
is 1 if a certificate isn't accepted, or if one isn't made. It writes how many were made whole, and of how many events.
"""
import os
import random
import re
import subprocess
import sys

TOP = os.path.dirname(os.path.dirname(os.path.abspath(__file__)))
EXAMPLES = ["two_kinds", "two_stacks", "item_queue", "value_map", "stack", "map", "sorted", "pair", "box", "kept", "counter"]


def text_of(path):
    """The text of an example, without settings, scripts and schedule, and its kinds with fields of their own."""
    lines, kept = open(path).read().split("\n"), []
    for line in lines:
        if re.match(r"(slots|phases|fuel|script|schedule)\b", line):
            break
        kept.append(line)
    return "\n".join(kept)


def operations(text):
    """The operations with their counts of arguments."""
    if re.search(r"(?m)^use queue$", text):
        return [("enqueue", 1), ("dequeue", 0)]
    if re.search(r"(?m)^use ", text):
        return [("insert", 1), ("remove", 1), ("contains", 1)]
    return [(name, int(count)) for name, count in re.findall(r"(?m)^op (\w+) (\d)", text)]


def slots(draw, text):
    kinds = re.findall(r"(?m)^kind (\w+)", text)
    initial = {kind: int(count) for kind, count in re.findall(r"(?m)^nodes (\w+) (\d+)$", text)}
    bare = re.search(r"(?m)^nodes (\d+)$", text)
    least = int(bare[1]) if bare else 0
    used = re.search(r"(?m)^use set (\d+)", text)
    least = int(used[1]) + 1 if used else 2 if re.search(r"(?m)^use ", text) else least
    if kinds:
        return [f"slots {kind} {max(initial.get(kind, 0), 1) + draw.randrange(6)}" for kind in kinds]
    return [f"slots {max(least, 1) + draw.randrange(12)}"]


def a_document(draw, texts):
    text = draw.choice(texts)
    calls = operations(text)
    lines = [text] + slots(draw, text)
    fuel = draw.random() < 0.33
    if fuel:
        lines.append(f"fuel {draw.randrange(1, 60)}")
    counts = []
    for caller in range(draw.randrange(1, 9)):
        lines.append(f"script {caller}")
        counts.append(draw.randrange(1, 31))
        for _ in range(counts[-1]):
            name, arguments = draw.choice(calls)
            lines.append(" ".join([name] + [str(draw.randrange(1, 9)) for _ in range(arguments)]))
    if draw.random() < 0.8:
        lines.append("schedule")
        # each call takes a step at least, but after one that has used up its fuel a caller makes no other
        left = [1 if fuel else count for count in counts]
        while any(left) and draw.random() < 0.97:
            caller = draw.choice([c for c, n in enumerate(left) if n])
            steps = draw.randrange(1, left[caller] + 1)
            left[caller] -= steps
            lines.append(f"step {caller} {steps}")
    return "\n".join(lines) + "\n"


def main():
    count = int(sys.argv[1]) if len(sys.argv) > 1 else 10_000
    program = sys.argv[2] if len(sys.argv) > 2 else os.path.join(TOP, "crates/oa/out/oa")
    draw = random.Random(int(sys.argv[3]) if len(sys.argv) > 3 else 1)
    texts = ["oa 1\nuse list", "oa 1\nuse set 2", "oa 1\nuse set 5", "oa 1\nuse queue"]
    texts += [text_of(os.path.join(TOP, "examples", f"{name}.oa")) for name in EXAMPLES]
    done = partial = events = 0
    for number in range(count):
        document = a_document(draw, texts)
        made = subprocess.run([program, "judge", "make"], input=document.encode(), stdout=subprocess.PIPE, stderr=subprocess.PIPE)
        said = subprocess.run([program, "judge", "check"], input=made.stdout, stdout=subprocess.PIPE, stderr=subprocess.PIPE)
        if made.returncode not in (0, 1) or (said.returncode, said.stdout) != (0, b"accepted\n"):
            name = f"certified-{number}.oa"
            open(name, "w").write(document)
            print(f"{name}: judge make ended with {made.returncode}, judge check with {said.returncode}: {said.stdout[:80]!r}")
            sys.exit(1)
        done, partial = done + (made.returncode == 0), partial + (made.returncode == 1)
        events += made.stdout.count(b"\naccess") + made.stdout.count(b"\nbegin") + made.stdout.count(b"\nrestart")
    print(f"{count} certificates accepted: {done} of runs that came to their end, {partial} of others, {events} events")


main()

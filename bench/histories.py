#!/usr/bin/env python3
"""Runs small random documents of the set, the queue, and two stacks with nodes of two kinds on threads, and looks for one legal order of their calls.

usage: bench/histories.py [SECONDS [PROGRAM [SEED [JUDGE [SLOTS [COMMAND]]]]]]

The documents are run by the command `run`, or by COMMAND, which is `epochs`. Eight callers share a row with few slots to spare, three in most documents, or SLOTS
in each if that isn't 0. In a third of them calls have little fuel, so that
callers stop in the middle of a call and stand still, with the guards and cradles that they have, while the others go on. A run is legal if the
calls can be put in one order, each caller's in its own, in which each reply is that of a set, a queue or two stacks. A call that is printed as `spent` may
have had its effect or not; one that is `full`, `phases` or `unreached` has none.

Half of the documents have ten calls at most. Runs of these on sets and queues are judged by the proved program `history_rows` (JUDGE), and by the search of this script as
well; larger ones by that search alone. The status is 1 if a run has no legal order, answers anything else, or is judged otherwise by the one than by the
other. Where too many orders would have to be looked at, the run is left open, and counted.
"""
import os
import random
import subprocess
import sys
import time

CALLERS = 8

# The proved program judges no history of more calls.
MOST_JUDGED = 10

# A search that comes to more states is left open, and counted.
MOST_STATES = 200_000


TOP = os.path.dirname(os.path.dirname(os.path.abspath(__file__)))


def a_set(random):
    buckets = random.choice([1, 1, 2])
    keys = [random.randrange(1, 5) for _ in range(3)]
    call = lambda: (random.choice(["insert", "insert", "remove", "contains"]), (random.choice(keys),))
    return "set", ["oa 1", "use list" if buckets == 1 else f"use set {buckets}"], [""], buckets, 3, call


def a_queue(random):
    number = iter(range(1, 1000))
    call = lambda: ("enqueue", (next(number),)) if random.random() < 0.55 else ("dequeue", ())
    return "queue", ["oa 1", "use queue"], [""], 1, 2, call


def two_stacks(random):
    """The text of examples/two_stacks.oa, whose stacks have nodes of different kinds."""
    number = iter(range(1, 1000))
    calls = {"push": lambda: (next(number),), "pop": tuple, "push_two": lambda: (next(number), next(number)), "pop_two": tuple}
    with open(os.path.join(TOP, "examples", "two_stacks.oa")) as file:
        text = file.read().split("\nslots ")[0]
    call = lambda: (lambda name: (name, calls[name]()))(random.choice(["push", "push", "pop", "push_two", "push_two", "pop_two"]))
    return "stacks", text.split("\n"), ["number ", "pair "], 0, 2, call


def counts(random, most):
    """Returns how many calls each caller makes: in half of the documents ten together at most."""
    if random.random() < 0.5:
        found = [1] * CALLERS
        for _ in range(random.randrange(MOST_JUDGED - CALLERS + 1)):
            found[random.randrange(CALLERS)] += 1
        return found
    return [random.randrange(1, most + 1) for _ in range(CALLERS)]


def document(random, wanted):
    model, lines, kinds, nodes, most, call = random.choice([a_set, a_queue, two_stacks])(random)
    scripts = [[call() for _ in range(count)] for count in counts(random, most)]
    adds = sum(name in ("insert", "enqueue", "push", "push_two") for script in scripts for name, _ in script)
    lines += [f"slots {kind}{wanted or random.choice([3, 3, 3, nodes + 1, nodes + adds]) or 1}" for kind in kinds]
    if random.random() < 0.33:
        lines.append(f"fuel {random.randrange(4, 60)}")
    for number, script in enumerate(scripts):
        lines.append(f"script {number}")
        lines += [spelled(*call) for call in script]
    return model, scripts, "\n".join(lines) + "\n"


def after_on_stack(stacks, at, pushed):
    """Returns the reply of a call on one of the stacks, and all of them after it; what is pushed is a number, or None for a pop."""
    stack = stacks[at]
    if pushed is None and not stack:
        return "none", stacks
    later = stack[:-1] if pushed is None else stack + (pushed,)
    return str(stack[-1]) if pushed is None else "none", stacks[:at] + (later,) + stacks[at + 1 :]


def after(model, state, name, arguments):
    """Returns the reply of a call, and the state after it."""
    if model == "stacks":
        return after_on_stack(state, int(name.endswith("_two")), sum(arguments) if arguments else None)
    key = arguments[0] if arguments else None
    if model == "queue":
        if name == "enqueue":
            return str(key), state + (key,)
        return ("none", state) if not state else (str(state[0]), state[1:])
    if name == "contains":
        return str(int(key in state)), state
    if name == "insert":
        return ("0", state) if key in state else ("1", state | {key})
    return ("1", state - {key}) if key in state else ("0", state)


def is_stuck(scripts, answers, places, state):
    """Returns whether the first item of a queue is in the way of an answer that is left: no call takes it out."""
    left = [(call, answer) for script, own, at in zip(scripts, answers, places) for call, answer in zip(script[at:], own[at:]) if call[0] == "dequeue"]
    waits = any(answer == "none" or answer.isdigit() for _, answer in left)
    return bool(state) and waits and not any(answer in (str(state[0]), "spent") for _, answer in left)


def is_legal(model, scripts, answers):
    """Returns whether the calls can be put in one order in which each has its answer, or None if the search grows too large."""
    start = (0,) * CALLERS, {"set": frozenset(), "queue": (), "stacks": ((), ())}[model]
    seen, left = {start}, [start]
    while left:
        if len(seen) > MOST_STATES:
            return None
        places, state = left.pop()
        if all(at == len(script) for at, script in zip(places, scripts)):
            return True
        for caller, at in enumerate(places):
            if at == len(scripts[caller]):
                continue
            answer = answers[caller][at]
            reply, later = after(model, state, *scripts[caller][at])
            nexts = []
            if answer == "unreached" or answer == "full" or answer.startswith("phases "):
                nexts = [state]
            elif answer == "spent":
                nexts = [state, later]
            elif answer == reply:
                nexts = [later]
            for it in nexts:
                found = places[:caller] + (at + 1,) + places[caller + 1 :], it
                if found not in seen and not (model == "queue" and is_stuck(scripts, answers, *found)):
                    seen.add(found)
                    left.append(found)
    return False


def spelled(name, arguments):
    return " ".join([name, *map(str, arguments)])


def is_legal_by(judge, model, scripts, answers):
    """Returns what the proved program says of a small history."""
    parts = (", ".join(f"{spelled(*call)}: {answer}" for call, answer in zip(*both)) for both in zip(scripts, answers))
    row = " | ".join([model, *parts])
    said = subprocess.run([judge], input=row.encode() + b"\n", capture_output=True, timeout=600).stdout.decode().splitlines()
    assert said[:1] == [row] and said[1:] in (["legal"], ["no legal order"]), said
    return said[1] == "legal"


def answers_in(output, scripts):
    """Returns the answers by caller and call, or None if the lines aren't those of the scripts."""
    lines = iter(output.splitlines())
    found = []
    for caller, script in enumerate(scripts):
        found.append([])
        for index, call in enumerate(script):
            called = f"{caller} {index} {spelled(*call)}: "
            line = next(lines, "")
            if not line.startswith(called):
                return None
            found[-1].append(line[len(called) :])
    return found if next(lines, "").startswith("replies ") and next(lines, None) is None else None


def main():
    seconds = float(sys.argv[1]) if len(sys.argv) > 1 else 60
    program = sys.argv[2] if len(sys.argv) > 2 else "crates/oa/out/oa"
    seed = int(sys.argv[3]) if len(sys.argv) > 3 else time.time_ns()
    judge = sys.argv[4] if len(sys.argv) > 4 else "crates/history_rows/out/history_rows"
    wanted = int(sys.argv[5]) or None if len(sys.argv) > 5 else None
    command = sys.argv[6] if len(sys.argv) > 6 else "run"
    for needed in (program, judge):
        if not os.access(needed, os.X_OK):
            print(f"{needed} isn't there: the gate makes it, or `rt run` in its crate's folder", file=sys.stderr)
            return 2
    source, end, runs, three, two_kinds, judged, stopped, full, unsettled = random.Random(seed), time.monotonic() + seconds, 0, 0, 0, 0, 0, 0, 0
    while time.monotonic() < end:
        model, scripts, text = document(source, wanted)
        run = subprocess.run([program, command], input=text.encode(), capture_output=True, timeout=600)
        answers = answers_in(run.stdout.decode(), scripts)
        legal = answers is not None and is_legal(model, scripts, answers)
        is_small = model != "stacks" and answers is not None and sum(map(len, scripts)) <= MOST_JUDGED
        agreed = not is_small or is_legal_by(judge, model, scripts, answers) == legal
        if run.returncode not in (0, 1) or legal is False or not agreed:
            why = "no legal order" if agreed else "judged otherwise by the proved program"
            print(f"{why} (seed {seed}, run {runs}, status {run.returncode}):\n{text}{run.stdout.decode()}", end="")
            return 1
        runs += 1
        three += any(line.startswith("slots ") and line.endswith(" 3") for line in text.split("\n"))
        two_kinds += model == "stacks"
        judged += is_small
        unsettled += legal is None
        stopped += any(it == "spent" for own in answers for it in own)
        full += any(it == "full" for own in answers for it in own)
    print(f"{runs} runs, {three} of them with three slots, {two_kinds} of two kinds; {unsettled} not settled, and each other with a legal order, {judged} by the proved program;"
          f" in {stopped} a caller stopped in a call, in {full} one found the row full (seed {seed})")
    return 0


if __name__ == "__main__":
    sys.exit(main())

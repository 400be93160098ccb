#!/usr/bin/env python3
"""Fails each of the first COUNT reads of standard input, then each of the first COUNT writes of standard output, one a run, of every command on
documents of both versions, and looks whether the run ends as docs/statuses.md says: a failed read with `read fault` and 3, a failed write with a prefix
of what the command writes otherwise and 8, each with a sentence on standard error. Reads and writes go in pieces of a few bytes, so that there are
enough. `bench/faults.py PROGRAM [COUNT]`; 40 if there is no number. It needs gcc."""
import os
import subprocess
import sys
import tempfile

top = os.path.dirname(os.path.dirname(os.path.abspath(__file__)))
program, count = os.path.abspath(sys.argv[1]), int(sys.argv[2]) if len(sys.argv) > 2 else 40
commands = ["run", "epochs", "replay", "check", "show", "compile", "upgrade", "judge make"]
documents = ["recycle.oa", "item_queue.oa", "counter.oa"]


def made(words, document, shim, **given):
    """The status of one run, what it wrote, and the count of its sentences."""
    env = {**os.environ, "LD_PRELOAD": shim, **{name: str(value) for name, value in given.items()}}
    ran = subprocess.run([program, *words], input=document, env=env, capture_output=True, timeout=120)
    return ran.returncode, ran.stdout, ran.stderr.count(b"\n")


def tried(label, words, document, shim, reads):
    """How many runs failed a read or a write, and what is wrong with them."""
    plain = made(words, document, shim)
    wrong, failed = [], [0, 0]
    for at in range(1, count + 1):
        if reads:
            got = made(words, document, shim, READ_FAILS=at, PIECE=7)
            failed[0] += got[0] == 3
            if got != plain and not (got[0] == 3 and got[1] == b"read fault\n" and got[2] >= 1):
                wrong.append(f"{label}: read {at}: {got}")
        got = made(words, document, shim, WRITE_FAILS=at, PIECE=3)
        failed[1] += got[0] == 8
        if got != plain and not (got[0] == 8 and plain[1].startswith(got[1]) and got[2] >= 1):
            wrong.append(f"{label}: write {at}: {got}")
    return failed, wrong


def main():
    with tempfile.TemporaryDirectory() as work:
        shim = f"{work}/faults.so"
        subprocess.run(["gcc", "-O2", "-Wall", "-Wextra", "-shared", "-fPIC", "-o", shim, f"{top}/bench/faults.c"], check=True)
        found, wrong = [0, 0], []
        inputs = [(name, open(f"{top}/examples/{name}", "rb").read()) for name in documents]
        certificate = subprocess.run([program, "judge", "make"], input=inputs[0][1], capture_output=True).stdout
        jobs = [(f"{words} {name}", words.split(), text, True) for words in commands for name, text in inputs]
        jobs += [("judge check", ["judge", "check"], certificate, True), ("workload", ["workload", "8", "2"], b"", False), ("no words", [], b"", False)]
        for label, words, text, reads in jobs:
            failed, more = tried(label, words, text, shim, reads)
            found, wrong = [one + other for one, other in zip(found, failed)], wrong + more
        print(f"{len(jobs)} commands; {found[0]} failed reads, {found[1]} failed writes; {len(wrong)} ended otherwise than the table says", *wrong, sep="\n")
        return 1 if wrong or not all(found) else 0


sys.exit(main())

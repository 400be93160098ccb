"""Makes the calls of a document under both schemes, and shows side by side what came of them. It is tested, and not proved.

usage: oa-compare [--runs N] [--oa PROGRAM] DOCUMENT

It runs `oa run`, by optimistic access, and `oa epochs`, by epochs, N times each, 11 if it isn't said, in turns. DOCUMENT is a file, or `-` for standard
input. It writes a table: how many calls had each answer, the phase at the end, claims, restarts, and milliseconds of processor time, which take in the
start of the program. Where runs differ the middle of them stands there, and the least and the greatest behind it. Steps aren't counted by the program;
a call that is `spent` has made as many as the document's fuel.

Under epochs a caller that stands still in a call holds back all that is retired meanwhile, and under optimistic access the nodes that it guards alone:
compare `claims`, `full` and `phase`.

The status is 0 if all runs had an answer; 2 if the words are wrong, 3 if a file can't be read, 5 to 7 if oa refuses the document (its message stands
above), 8 if the table can't be written.
"""
import os
import re
import resource
import statistics
import sys

sys.dont_write_bytecode = True
from oa_tool import USAGE, Failed, ask, number_in, options_of, program, put, read_bytes, run_tool

SCHEMES = {"run": "optimistic access", "epochs": "epochs"}
ANSWERS = ("number", "none", "full", "phases", "spent", "unreached")
LAST = re.compile(r"replies (\d+) short (\d+) phase (\d+) claims (\d+) restarts (\d+)$")


def processor_time():
    used = resource.getrusage(resource.RUSAGE_CHILDREN)
    return 1000 * (used.ru_utime + used.ru_stime)


def answer_of(line):
    word = line.rpartition(": ")[2].split()[0]
    return "number" if word.isdigit() else word


def measured(oa, command, document):
    """Makes one run, and returns its numbers by their names."""
    before = processor_time()
    status, report, told = ask([oa, command], document)
    spent = processor_time() - before
    lines = report.splitlines()
    last = LAST.match(lines[-1]) if lines else None
    if status not in (0, 1) or not last:
        raise Failed(f"`oa {command}` has no answer: {report.strip()}\n{told.strip()}", status if 2 < status < 12 else 1)
    found = {f"answers: {answer}": 0 for answer in ANSWERS}
    for line in lines[:-1]:
        found[f"answers: {answer_of(line)}"] += 1
    return {**found, "phase at the end": int(last[3]), "claims": int(last[4]), "restarts": int(last[5]), "milliseconds": spent}


def spread(values):
    """The middle of some values, and the least and the greatest if they differ."""
    spelled = lambda value: f"{value:.1f}" if isinstance(value, float) else str(value)
    middle, least, greatest = statistics.median_low(values), min(values), max(values)
    return spelled(middle) if least == greatest else f"{spelled(middle)} ({spelled(least)} to {spelled(greatest)})"


def table(rows):
    wide = [max(map(len, column)) for column in zip(*rows)]
    return "".join("  ".join(cell.ljust(width) for cell, width in zip(row, wide)).rstrip() + "\n" for row in rows)


def main(words):
    options, rest = options_of(words, {"--runs": True, "--oa": True})
    if len(rest) != 1:
        raise Failed("one DOCUMENT is wanted", USAGE)
    runs, oa = number_in(options.get("--runs", "11"), "N", 1, 10000), program("oa", options.get("--oa"))
    document, found = read_bytes(None if rest[0] == "-" else rest[0]), {command: [] for command in SCHEMES}
    for _ in range(runs):
        for command in SCHEMES:
            found[command].append(measured(oa, command, document))
    rows = [[f"{runs} runs of each" if runs > 1 else "one run of each", *SCHEMES.values()]]
    for name in found["run"][0]:
        columns = [[run[name] for run in found[command]] for command in SCHEMES]
        if name.startswith("answers") and not any(map(any, columns)):
            continue
        rows.append([name, *map(spread, columns)])
    put(table(rows))


if __name__ == "__main__":
    run_tool(main, __doc__)

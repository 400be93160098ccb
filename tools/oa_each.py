"""Gives documents to oa, one after the other. It is tested, and not proved.

usage: oa-each [--oa PROGRAM] COMMAND DOCUMENT ..

COMMAND is a word of oa, or `judge make` or `judge check`. For each document it writes a line `== DOCUMENT: status N`, then what oa writes of it, and then,
to standard error, what oa tells of it. Where no proved program stands ready, one unproved run serves them all, so that they take little longer than one. PROGRAM is an `oa` to ask instead.

The status is the greatest of theirs; 2 if the words are wrong, 3 if a document can't be read, 8 if the answer can't be written, 125 if an unproved run
gave no answer.
"""
import os
import re
import sys
import tempfile

sys.dont_write_bytecode = True
from oa_tool import TOOLS, USAGE, Failed, ask, options_of, program, put, read_bytes, run_tool, tell

TOP = os.path.dirname(TOOLS)
NO_ANSWER = 125


def show(document, status, written, told):
    put(f"== {document}: status {status}\n{written}")
    if told.strip():
        tell(told.rstrip("\n"))
    return status


def run_each(oa, command, documents):
    """Gives each document to the program, and returns the greatest status."""
    return max(show(document, *ask([oa, *command], read_bytes(document))) for document in documents)


def run_unproved(command, documents):
    """Gives all documents to one unproved run. Before each document's output stands `== NUMBER`, and after its words on standard error `case=NUMBER`."""
    tell("oa-each: no proved program stands ready (./prove makes it), so this is one unproved run of its sources, in half a minute to two minutes")
    with tempfile.TemporaryDirectory() as room:
        for number, document in enumerate(documents, 100001):
            with open(os.path.join(room, str(number)), "wb") as file:
                file.write(read_bytes(document))
        words = ["rt", "try", "--seconds", "600", "--cases", room, "--", *command]
        made, written, told = ask(["sh", "-c", 'cd "$0" && exec "$@"', os.path.join(TOP, "crates", "oa"), *words], "")
    greatest = 0
    for number, document in enumerate(documents, 100001):
        found = re.search(rf"(?ms)((?:^(?!case=)[^\n]*\n)*)^case={number} run=ended status=(\d+) ", told)
        if not found:
            tell(told.rstrip("\n"))
            raise Failed(f"the unproved run gave no answer on {document}, as said above", NO_ANSWER)
        answer = re.search(rf"(?ms)^== {number}\n(.*?)(?=^== \d+$|\Z)", written)
        greatest = max(greatest, show(document, int(found[2]), answer[1] if answer else "", found[1]))
    return greatest


def is_ready():
    """Whether a proved program is there. What tools/install has put there was proved."""
    prove = os.path.join(TOP, "prove")
    return not os.path.exists(prove) or ask([prove, "--is-ready", "oa"], "")[0] == 0


def main(words):
    options, rest = options_of(words, {"--oa": True})
    count = 2 if rest[:1] == ["judge"] else 1
    command, documents = rest[:count], rest[count:]
    if not documents:
        raise Failed("a COMMAND is wanted, and a DOCUMENT or more", USAGE)
    if options or is_ready():
        return run_each(program("oa", options.get("--oa")), command, documents)
    return run_unproved(command, documents)


if __name__ == "__main__":
    run_tool(main, __doc__)

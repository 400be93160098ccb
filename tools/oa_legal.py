"""Judges the replies of a run against an object: whether in some order of the calls it replies the same. It is tested, and not proved.

usage: oa-legal [--states N] OBJECT < REPORT
       oa-legal [--states N] OBJECT < CERTIFICATE
       oa-legal --show OBJECT

REPORT is what `oa run`, `oa replay` or `oa epochs` prints. Each caller's calls stay in its own order, and callers that never met may come in any: the
run is sequentially consistent if there is such an order. Of a CERTIFICATE, as `oa judge make` writes it, more is asked: a call that had ended before
another began comes before it. Then the run is linearizable (Herlihy and Wing, 1990).

OBJECT is `set`, `map`, `queue`, `stack` or `counter`, or a class of your own: FILE.py, or FILE.py:CLASS if that has several. It has a method for each
operation, which takes the call's numbers and returns a number, or None for `none`:

    class Stack:
        def __init__(self):
            self.items = ()

        def push(self, value):
            self.items += (value,)

        def pop(self):
            if not self.items:
                return None
            self.items, last = self.items[:-1], self.items[-1]
            return last

`--show OBJECT` writes the class of an object that comes with the tool, to begin with. A call that is `spent`, `full` or `phases P`, or that a
certificate has no reply for, may have had its effect or not; `unreached` has none. N is how many states the search may come to, 1000000 if it isn't
said.

The first line that is written is `legal`, `not legal` or `open`; behind `not legal` the longest order that was found, and what each caller says next.
The status is 0 if the run is legal, 1 if it isn't, 2 if the words are wrong, 3 if a file can't be read or OBJECT doesn't fit, 5 if the input is neither a
report nor a certificate, 8 if the answer can't be written, and 9 if it is left open, since N states weren't enough.
"""
import inspect
import sys

sys.dont_write_bytecode = True
from oa_history import NO_INPUT, calls_of, search
from oa_objects import check_operations, object_of
from oa_tool import USAGE, Failed, lines_of, number_in, options_of, put, run_tool

OPEN = 9


def told(found):
    """What the longest order is that was found, and what each caller says next."""
    lines = [f"at most {len(found.order)} of {found.all} calls can be put in an order. The longest one that was found:"]
    lines += [f"    {call}" for call in found.order[-20:]]
    if len(found.order) > 20:
        lines[0] += " (the last 20 of it)"
    lines.append("and then")
    for call, reply in found.next:
        lines.append(f"    {call}    where the object replies {reply}")
    return "\n".join(lines) + "\n"


def main(words):
    options, rest = options_of(words, {"--states": True, "--show": False})
    if len(rest) != 1:
        raise Failed("one OBJECT is wanted", USAGE)
    made = object_of(rest[0])
    if "--show" in options:
        return put(inspect.getsource(made))
    states = number_in(options.get("--states", "1000000"), "N", 1)
    calls, timed = calls_of(lines_of())
    if not calls:
        raise Failed("standard input: there is no call in it", NO_INPUT)
    check_operations(made, [call for mine in calls.values() for call in mine])
    found = search(made, calls, timed, states)
    if found.legal:
        return put("legal\n")
    if found.legal is None:
        put(f"open: {states} states weren't enough\n")
        return OPEN
    put("not legal\n" + told(found))
    return 1


if __name__ == "__main__":
    run_tool(main, __doc__)

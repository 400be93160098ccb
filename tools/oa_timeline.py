"""Draws a certificate, as `oa judge make` writes it: as an SVG, or as a page that steps through its run. It is tested, and not proved.

usage: oa-timeline CERTIFICATE [FROM [TO]] > RUN.svg
       oa-timeline --html [--oa PROGRAM] CERTIFICATE [FROM [TO]] > RUN.html

CERTIFICATE is a file, or `-` for standard input. FROM and TO are places of events, counted from 0, as `rejected 1 at P` counts them: only these
are drawn. Whether such a run is possible `oa judge check` says.

The SVG has the calls folded: what a caller does of one call before another caller's event is one box, which counts its accesses, and names the
nodes that it makes; a call that nobody meets is one box. The number beside a box is the place of its first event.

The page shows memory and callers after each event: roots, nodes, what leads where, marks, retired nodes in grey; and of each caller its method, its
registers and its calls. Go through it by the slider, or by the keys: left and right, page up and page down (ten events), home and end, `n` and `p`
(the next and the last event of the same caller), space (play). `RUN.html#7` opens it at event 7. It needs no network. Where an event isn't
enabled the page ends, and says why. For a text with a `use` line the program `oa` writes the text out (PROGRAM, or the `oa` beside this tool).

The status is 1 if it is no certificate, 2 if the words are wrong, 3 if a file can't be read, 8 if the picture can't be written.
"""
import os
import sys

sys.dont_write_bytecode = True
TOOLS = os.path.dirname(os.path.realpath(__file__))
sys.path[:0] = [TOOLS, os.path.join(TOOLS, "..", "docs", "pictures")]
from oa_page import page_of
from oa_tool import USAGE, Failed, lines_of, number_in, options_of, program, put, run_tool
from timeline import draw_certificate


def main(words):
    options, rest = options_of(words, {"--html": False, "--oa": True})
    if not 1 <= len(rest) <= 3:
        raise Failed("a CERTIFICATE is wanted, and perhaps FROM and TO", USAGE)
    path = None if rest[0] == "-" else rest[0]
    places = [number_in(word, what) for word, what in zip(rest[1:], ("FROM", "TO"))]
    if "--html" in options:
        put(page_of(path, lines_of(path), lambda: program("oa", options.get("--oa")), *places))
    else:
        put(draw_certificate(path, lines_of(path), *places))


if __name__ == "__main__":
    run_tool(main, __doc__)

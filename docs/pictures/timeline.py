#!/usr/bin/env python3
"""Draws runs as SVG, from the certificates that `oa judge make` writes.

usage: timeline.py    draws each docs/pictures/*.cert, with the notes beside it if there are any, as an SVG of its name

It needs Python alone. tools/oa-timeline draws any certificate with it.

Each docs/pictures/*.cert is what `oa judge make` writes of the document that it begins with, up to its line `events`.

NAME.notes beside NAME.cert are no part of the certificate. They tell what a certificate can't: slots, phases, warnings, hazards, and the steps
on them, an access of compiled code a line, in the order of time. An access that is an event of the certificate says which. It is refused if no
such event of this caller stands at this place, or if it isn't the next one. Of the certificate are the callers, their calls and replies, and the
events with their order; all else is believed. Words are named and not addressed. The program keeps them as the accesses leave them, and refuses
a line that finds another word than stands there. These are the lines, beside empty ones and comments that begin with #:

    title TEXT
    story TEXT                             a line below the title
    small NAME                             a second picture, with a row for each part and for each marked access
    left CALLER                            and `right`: a caller's column
    word NAME | WIDTH | VALUE              a word with a column of its own, and its value at the start
    also NAME | VALUE                      a word without a column
    part CALLER | TEXT                     a part of the run, in which this caller steps
    WHO | load NAME | FOUND | MEANING
    WHO | store NAME | VALUE | MEANING
    WHO | exchange NAME | EXPECTED -> NEW | MEANING         `EXPECTED -> NEW, finds FOUND` is one that fails
    WHO | raise NAME | VALUE, finds FOUND | MEANING         the word becomes the greater of both
    WHO | load hazards of CALLER | FOUND, .. | MEANING      its eight hazards, in order: eight steps

WHO is `CALLER begin PLACE`, `CALLER access PLACE` or `CALLER restart PLACE` if the access is that event, and else `CALLER`. Of a `new` it is
the last store of a zero, of a list without exchanges the load of the warning behind it. The meaning `..` puts an access into the row of the one
before it. A meaning that begins with `!` tells what would do harm, one with `*` what makes it safe. The status `retired 1` is that of a slot
which was retired in phase 1, `ready 2` of one that was made ready in phase 2, and `used 2` of one that was taken when the chain's head had
phase 2. `slot 3 in 2` is a head with slot 3 on top and phase 2, `none in 2` one with no slot on top.
"""
import glob
import html
import os
import re
import sys

sys.dont_write_bytecode = True
HERE = os.path.dirname(os.path.realpath(__file__))
sys.path[:0] = [HERE, os.path.join(HERE, "..", "..", "tools")]
from oa_machine import read_certificate
from oa_text import Flaw
from oa_tool import USAGE, Failed, Refused, lines_of, name_of, options_of, run_tool, write_file

WIDTH, MARGIN, STEPS, PLACES = 900, 8, 56, 84  # the whole width, the margin, and the width of the column of places, without and with notes
TEXT, SMALL, LINE = 12, 10.5, 15  # sizes of letters, and the height of a line
INK, PALE, HARM, HELP = "#1a1a1a", "#6b6b6b", "#b3400a", "#0b5aa2"
NARROW, BROAD = set("iljtfrI.,:;'|!()[]-` \N{NO-BREAK SPACE}"), set("mwMW@%")
# fills of a slot's status, told apart without colours too
PATTERNS = """<defs>
<pattern id="used" width="8" height="8" patternUnits="userSpaceOnUse"><rect width="8" height="8" fill="#ffffff"/></pattern>
<pattern id="retired" width="6" height="6" patternUnits="userSpaceOnUse" patternTransform="rotate(45)">
<rect width="6" height="6" fill="#fbe3d3"/><line x1="0" y1="0" x2="0" y2="6" stroke="#8a5a3c" stroke-width="1.6"/></pattern>
<pattern id="ready" width="7" height="7" patternUnits="userSpaceOnUse">
<rect width="7" height="7" fill="#dcebf8"/><circle cx="3.5" cy="3.5" r="1.1" fill="#33566f"/></pattern>
</defs>"""


class Row:
    """What is drawn in one row: a caller's accesses, and the events that they are, by places; or the heading of a part."""

    def __init__(self, caller, text, mark="", heading=False):
        self.caller, self.text, self.mark, self.heading = caller, text, mark, heading
        self.accesses, self.places = [], []

    def take(self, row):
        self.accesses += row.accesses
        self.places += row.places


class Run:
    """A certificate with notes: `told` is the place of the last event that a note has told."""

    def __init__(self, events, replies):
        self.events, self.replies, self.told = events, replies, None
        self.title, self.story, self.small = "", [], None
        self.sides, self.lanes, self.start, self.rows = {}, [], {}, []

    def tie(self, caller, kind, place):
        """Returns the place of the event that an access is said to be."""
        at = int(place)
        if at >= len(self.events):
            raise ValueError("the certificate has %d events" % len(self.events))
        if self.events[at][:2] != (kind, int(caller)):
            raise ValueError("event %d is `%s %d`" % ((at,) + self.events[at][:2]))
        if self.told is not None and at != self.told + 1:
            raise ValueError("the next event is %d" % (self.told + 1))
        self.told = at
        return at

    def label(self, places, is_small):
        """The first and last of some places, and, unless the picture is small, what stands there beside accesses of nodes that are there."""
        words = [str(places[0]) if len(places) == 1 else "%d\N{EN DASH}%d" % (places[0], places[-1])]
        for kind, _, rest in (self.events[at] for at in places):
            word = kind if kind != "access" else "node\N{NO-BREAK SPACE}%s" % rest[0] if rest[0] != "0" else ""
            words += [word] if word and word not in words and not is_small else []
        return words[0] + " " + ", ".join(words[1:])

    def calls(self, caller):
        """The calls of a caller that have events in the picture, each with its reply."""
        calls, first = [], min(at for row in self.rows for at in row.places)
        for box in folded(self.events, self.replies):
            if box.caller == int(caller):
                begun = calls.pop()[1] if box.before else box.first
                calls.append((box.call, begun, box.last, box.end))
        told = ["%s \N{RIGHTWARDS ARROW} %s" % (call, end) for call, begun, last, end in calls if last >= first and begun <= self.told]
        return ", ".join(call.replace(" ", "\N{NO-BREAK SPACE}") for call in told)


def expanded(name, value):
    """The words and values that a line names: one, or a caller's eight hazards."""
    if not name.startswith("hazards of "):
        return [(name, value)]
    return [(name.replace("hazards", "hazard r%d" % r), found) for r, found in enumerate(value.split(", "))]


def access_of(memory, verb, name, value):
    """What an access finds and leaves, with its words; memory becomes what it leaves."""
    if verb == "load":
        pairs = expanded(name, value)
        for word, found in pairs:
            if memory[word] != found:
                raise ValueError("%s holds %s" % (word, memory[word]))
        zeros = all(found == "0" for _, found in pairs)
        told = value if len(pairs) == 1 else "all 0" if zeros else ", ".join(found for _, found in pairs if found != "0") + ", else 0"
        return "load", [word for word, _ in pairs], None, "load %s: %s" % (name, told)
    given, _, found = value.partition(", finds ")
    if verb == "store":
        memory[name] = given
        return "store", [name], given, "store in %s: %s" % (name, given)
    if verb == "raise":
        if memory[name] != found:
            raise ValueError("%s holds %s" % (name, memory[name]))
        memory[name] = str(max(int(found), int(given)))
        return "store", [name], memory[name], "raise %s to %s" % (name, given)
    expected, _, new = given.partition(" -> ")
    if verb != "exchange" or memory[name] != (found or expected) or found == expected:
        raise ValueError("%s holds %s" % (name, memory.get(name)))
    if found:
        return "fail", [name], None, "exchange %s: expects %s, finds %s" % (name, expected, found)
    memory[name] = new
    return "store", [name], new, "exchange %s: %s \N{RIGHTWARDS ARROW} %s" % (name, expected, new)


def read_line(run, memory, parts):
    head, _, rest = parts[0].partition(" ")
    if head == "title":
        run.title = rest
    elif head == "story":
        run.story.append(rest)
    elif head == "small":
        run.small = rest
    elif head in ("left", "right"):
        run.sides[rest] = head
    elif head in ("word", "also"):
        memory.update(expanded(rest, parts[-1]))
        if head == "word":
            run.lanes.append((rest, int(parts[1])))
            run.start[rest] = parts[2]
    elif head == "part":
        run.rows.append(Row(rest, parts[1], heading=True))
    else:
        verb, _, name = parts[1].partition(" ")
        access = access_of(memory, verb, name, parts[2])
        if parts[3] != "..":
            mark = parts[3][:1] if parts[3][:1] in ("!", "*") else ""
            run.rows.append(Row(head, parts[3].lstrip("!* "), mark))
        if run.rows[-1].heading or run.rows[-1].caller != head:
            raise ValueError("this isn't of the row before it")
        run.rows[-1].accesses.append(access)
        if rest:
            kind, place = rest.split()
            run.rows[-1].places.append(run.tie(head, kind, place))


def read_notes(path, events, replies):
    run, memory = Run(events, replies), {}
    for number, line in enumerate(map(str.strip, lines_of(path)), 1):
        if line and not line.startswith("#"):
            try:
                read_line(run, memory, [part.strip() for part in line.split("|")])
            except (ValueError, KeyError, IndexError) as error:
                raise Failed("%s, line %d: %s" % (path, number, error)) from None
    return run


def parts_alone(rows):
    """The rows of a small picture: those of a part are put into its heading, but for the marked ones."""
    out = []
    for row in rows:
        if row.heading:
            out.append(Row(row.caller, row.text))
        elif row.mark:
            out.append(row)
        else:
            if out[-1].mark:
                out.append(Row(row.caller, row.text))
            out[-1].take(row)
    return [row for row in out if row.accesses]


# ---- drawing

def wide(text, size, weight="normal"):
    """About how wide a text is, in a broad font."""
    letters = sum(0.36 if c in NARROW else 0.98 if c in BROAD else 0.72 if c.isupper() else 0.625 for c in text)
    return size * letters * (1.13 if weight == "bold" else 1)


def wrapped(text, size, room, weight="normal"):
    """Its lines; no line begins with a number or a mark."""
    lines = [""]
    for word in re.sub(r" (?=\d|marked)", "\N{NO-BREAK SPACE}", text).split(" "):
        longer = (lines[-1] + " " + word).strip(" ")
        if wide(longer, size, weight) <= room or not lines[-1]:
            lines[-1] = longer
        else:
            lines.append(word)
    return lines


class Sheet:
    """An SVG that grows downwards."""

    def __init__(self):
        self.parts = []

    def put(self, tag, text=None, **given):
        given = {key: round(v, 1) if isinstance(v, float) else v for key, v in given.items() if v is not None}
        names = " ".join('%s="%s"' % (key.replace("_", "-"), v) for key, v in given.items())
        self.parts.append("<%s %s/>" % (tag, names) if text is None else "<%s %s>%s</%s>" % (tag, names, html.escape(text, False), tag))

    def text(self, x, y, text, size=None, fill=None, anchor=None, weight=None, style=None):
        self.put("text", text, x=x, y=y, font_size=size, fill=fill, text_anchor=anchor, font_weight=weight, font_style=style)

    def line(self, x1, y1, x2, y2, stroke=INK, width=None):
        self.put("line", x1=x1, y1=y1, x2=x2, y2=y2, stroke=stroke, stroke_width=width)

    def box(self, x, y, width, height, fill, stroke=None, line=None, dashes=None, corners=None):
        self.put("rect", x=x, y=y, width=width, height=height, fill=fill, stroke=stroke, stroke_width=line, stroke_dasharray=dashes,
                 rx=corners)

    def dot(self, x, y, stroke=INK, width=1.0):
        self.put("circle", cx=x, cy=y, r=3.4 + width / 3, fill=stroke, stroke="white")

    def arrow(self, x1, x2, y, stroke=INK, width=1.0, failed=False):
        """Level, from x1 to x2, with a head there, or with a cross where it failed."""
        back = 1 if x1 > x2 else -1
        self.line(x1, y, x2, y, "white", width + 3)
        self.line(x1, y, x2 + (0 if failed else 5 * back), y, stroke, width)
        if failed:
            for turn in (1, -1):
                self.line(x2 - 5, y - 5 * turn, x2 + 5, y + 5 * turn, stroke, 2.2)
        else:
            size = 4 + width
            self.put("path", d="M%.1f %.1f l%.1f %.1f v%.1f z" % (x2, y, 2 * size * back, -size / 1.4, 2 * size / 1.4), fill=stroke)


def page(height, title, story, parts, patterns=()):
    """An SVG of these parts, on a white ground."""
    head = '<svg xmlns="http://www.w3.org/2000/svg" viewBox="0 0 {0} {1}" width="{0}" height="{1}" role="img" ' \
        'font-family="Helvetica, Arial, \'DejaVu Sans\', sans-serif" font-size="{2}" fill="{3}">'.format(WIDTH, int(height), TEXT, INK)
    told = "<title>%s</title><desc>%s</desc>" % (html.escape(title, False), html.escape(story, False))
    ground = '<rect width="%d" height="%d" fill="white"/>' % (WIDTH, height)
    return "\n".join([head, told, *patterns, ground, *parts, "</svg>", ""])


class Drawing:
    def __init__(self, run, rows):
        self.run, self.rows, self.sheet, self.y = run, rows, Sheet(), 0.0
        self.column = (WIDTH - 2 * MARGIN - PLACES - sum(width for _, width in run.lanes)) / 2
        self.left = MARGIN + PLACES
        x, self.lane = self.left + self.column, {}
        for name, width in run.lanes:
            self.lane[name] = (x + width / 2, width)
            x += width
        self.right = x
        self.values, self.turns = dict(run.start), {name: [] for name in run.start}  # from which height on a word has which value

    def is_left(self, caller):
        return self.run.sides[caller] == "left"

    def corner(self, caller):
        return self.left if self.is_left(caller) else self.right

    def edge(self, caller):
        """Where a caller's column meets the words."""
        return self.left + self.column - 4 if self.is_left(caller) else self.right + 4

    def draw_head(self):
        sheet = self.sheet
        sheet.text(MARGIN, 24, self.run.title, 17, weight="bold")
        self.y = 30.0
        for line in [part for story in self.run.story for part in wrapped(story, TEXT, WIDTH - 2 * MARGIN)]:
            self.y += LINE
            sheet.text(MARGIN, self.y, line)
        self.y += 12
        lines = {name: wrapped(name, SMALL, width - 4) for name, width in self.run.lanes}
        sheet.text((self.left + self.column + self.right) / 2, self.y + 12, "shared words", anchor="middle", weight="bold")
        for name, (x, _) in self.lane.items():
            for at, line in enumerate(lines[name]):
                sheet.text(x, self.y + 28 + 13 * at, line, SMALL, anchor="middle")
        heads = {caller: wrapped("caller %s: %s" % (caller, self.run.calls(caller)), TEXT, self.column - 20, "bold") for caller in self.run.sides}
        for caller, head in heads.items():
            for at, line in enumerate(head):
                sheet.text(self.corner(caller) + 10, self.y + 12 + LINE * at, line, weight="bold")
        sheet.text(self.left - 8, self.y + 12, "event", SMALL, PALE, "end")
        self.y += 20 + max(13 * max(map(len, lines.values())), LINE * max(map(len, heads.values())))
        sheet.line(MARGIN, self.y, WIDTH - MARGIN, self.y, width=1.2)
        self.y += 4
        for name, value in self.values.items():
            self.turns[name].append((self.y, value))

    def lanes_to(self, bottom):
        """The lanes of the words, which lie under all else: a line for each, and for a slot's status a bar."""
        sheet = Sheet()
        for name, (x, width) in self.lane.items():
            if not name.startswith("status"):
                sheet.line(x, self.turns[name][0][0], x, bottom, "#b0b0b0")
                continue
            ends = [y for y, _ in self.turns[name][1:]] + [bottom]
            for (top, value), end in zip(self.turns[name], ends):
                sheet.box(x - width / 2 + 4, top, width - 8, end - top, "url(#%s)" % value.split()[0])
            for side in (x - width / 2 + 4, x + width / 2 - 4):
                sheet.line(side, self.turns[name][0][0], side, bottom)
        return sheet.parts

    def draw_value(self, name, y, value, stroke=None, fill=None):
        x, _ = self.lane[name]
        width = wide(value, SMALL) + 6
        self.sheet.box(x - width / 2, y - 7.5, width, 15.0, "white", stroke, 1.4 if stroke else None, corners=3)
        self.sheet.text(x, y + 4, value, SMALL, fill, "middle")

    def restate(self, y):
        for name in self.lane:
            self.draw_value(name, y, self.values[name], fill=PALE)

    def draw_heading(self, row, shown):
        lines = wrapped(row.text, TEXT, self.column - 22, "bold")
        height = LINE * len(lines) + 6
        self.sheet.box(self.corner(row.caller) + 4, self.y, self.column - 8, height, "#e6e6e6")
        for at, line in enumerate(lines):
            self.sheet.text(self.corner(row.caller) + 10, self.y + 14 + LINE * at, line, weight="bold")
        if shown:
            self.restate(self.y + height / 2)
        self.y += height

    def changes(self, row):
        """What a row leaves in the words that have columns, in the order of time; of several accesses only what is new."""
        left = {}
        for kind, words, value, _ in row.accesses:
            if kind == "store" and words[0] in self.lane:
                left.pop(words[0], None)
                left[words[0]] = value
        return [(name, value) for name, value in left.items() if value != self.values[name] or len(row.accesses) == 1]

    def draw_accesses(self, row, changes, y, ink):
        width, edge = 2.6 if row.mark else 1.0, self.edge(row.caller)
        toward = 1 if self.is_left(row.caller) else -1
        for at, (name, value) in enumerate(changes):
            self.sheet.arrow(edge, self.lane[name][0] - toward * (wide(value, SMALL) / 2 + 4), y + 17 * at, ink, width)
            self.draw_value(name, y + 17 * at, value, ink)
            self.turns[name].append((y + 17 * at, value))
            self.values[name] = value
        kind, words, _, _ = row.accesses[0]
        places = [self.lane[word][0] for word in words if word in self.lane]
        if len(row.accesses) == 1 and places and kind == "load":
            self.sheet.arrow(max(places, key=lambda x: abs(x - edge)), edge, y, ink, width)
            for x in places:
                self.sheet.dot(x, y, ink, width)
        if len(row.accesses) == 1 and places and kind == "fail":
            self.sheet.arrow(edge, places[0], y, ink, width, True)

    def label(self, row):
        return wrapped(self.run.label(row.places, self.rows is not self.run.rows), SMALL, PLACES - 10) if row.places else []

    def draw_row(self, row):
        """What is accessed, where that is one access, and below it in italics what it means; of several what they come to."""
        ink, dashes = {"!": (HARM, "6 3"), "*": (HELP, None), "": (INK, None)}[row.mark]
        weight, room, alone = "bold" if row.mark else None, self.column - 28, len(row.accesses) == 1
        lines = [(line, None) for line in (wrapped(row.accesses[0][3], TEXT, room, weight) if alone else [])]
        lines += [(line, "italic" if alone else None) for line in wrapped(row.text, TEXT, room, weight)]
        changes, label = self.changes(row), self.label(row)
        height = max(LINE * max(len(lines), len(label)), 17 * len(changes)) + (10 if row.mark else 6)
        middle, corner = self.y + (12 if row.mark else 10), self.corner(row.caller)
        if row.places:
            self.sheet.box(corner + 4, self.y, self.column - 8, height, "#f0f0f0")
        if row.mark:
            self.sheet.box(corner + 5, self.y + 1, self.column - 10, height - 2, "white", ink, 2.2, dashes, 3)
        for at, (line, style) in enumerate(lines):
            self.sheet.text(corner + 14, middle + 4 + LINE * at, line, fill=ink if row.mark else None, style=style, weight=weight)
        for at, line in enumerate(label):
            self.sheet.text(self.left - 8, middle + 4 + LINE * at, line, SMALL, PALE, "end")
        self.draw_accesses(row, changes, middle, ink)
        self.y += height

    def draw_legend(self):
        sheet, at = self.sheet, [MARGIN + 4.0, self.y + 22]
        sheet.line(MARGIN, self.y + 4, WIDTH - MARGIN, self.y + 4, width=1.2)

        def told(text, room):
            sheet.text(at[0] + room + 6, at[1] + 4, text, SMALL)
            at[0] += room + 6 + wide(text, SMALL) + 16

        sheet.text(at[0], at[1] + 4, "7", SMALL, PALE)
        sheet.box(at[0] + 10, at[1] - 7, 26, 14, "#f0f0f0")
        told("an event of the certificate, and its place. The calls and replies at the top are the certificate's too; all else is notes", 36)
        at[:] = MARGIN + 4.0, at[1] + 22
        sheet.arrow(at[0] + 26, *at)
        sheet.dot(at[0] + 26, at[1])
        told("a word is loaded", 30)
        sheet.arrow(at[0], at[0] + 26, at[1])
        told("it is stored, exchanged or raised", 28)
        if any(access[0] == "fail" and access[1][0] in self.lane for row in self.rows for access in row.accesses):
            sheet.arrow(at[0], at[0] + 22, at[1], failed=True)
            told("an exchange fails", 28)
        for mark, ink, dashes, text in (("!", HARM, "6 3", "what would do harm"), ("*", HELP, None, "what makes it safe")):
            if any(row.mark == mark for row in self.rows):
                sheet.box(at[0], at[1] - 7, 26, 14, "white", ink, 2.2, dashes, 3)
                told(text, 26)
        sheet.text(at[0], at[1] + 4, "grey: as before", SMALL, PALE)
        at[:] = MARGIN + 4.0, at[1] + 22
        for kind, text in (("used", "used 1: in use, taken under a head of phase 1 or there at the start"),
                           ("retired", "retired 1: retired in phase 1"), ("ready", "ready 2: made ready in phase 2")):
            sheet.box(at[0], at[1] - 7, 26, 14, "url(#%s)" % kind, INK)
            told(text, 26)
        self.y = at[1] + 18

    def svg(self):
        self.draw_head()
        caller = None
        if not any(row.heading for row in self.rows):
            self.restate(self.y + 10)
            self.y += 20
        for row in self.rows:
            if caller is not None and (row.heading or row.caller != caller):
                self.y += 6
            if row.heading:
                self.draw_heading(row, row.caller != caller)
            else:
                self.draw_row(row)
            caller = row.caller
        lanes = self.lanes_to(self.y + 4)
        self.draw_legend()
        return page(self.y, self.run.title, " ".join(self.run.story), lanes + self.sheet.parts, [PATTERNS])


# ---- certificates

MOST_CALLERS, MOST_BOXES, NO_REPLY = 8, 400, "no reply"


class Box:
    """What a caller does of one call, from one event to the last before another caller's.

    call: as it began, or None where the caller has begun none; before: the call's box before this one; end: in its last box how the call ends.
    """

    def __init__(self, caller, call, first, before=None):
        self.caller, self.call, self.before, self.end = caller, call, before, None
        self.first, self.last = first, first
        self.accesses, self.made, self.restarts, self.gives_up = 0, [], 0, False

    def add(self, at, kind, rest):
        self.last = at
        if kind == "access":
            self.accesses += 1
            self.made += [name for name in rest if name != "0"]
        elif kind == "restart":
            self.restarts += 1
        elif kind != "begin":
            self.gives_up = True

    def told(self):
        """What happens in it, in words."""
        parts = [counted(self.accesses, "access", "accesses")] if self.accesses else []
        parts += ["makes node" + ("s " if len(self.made) > 1 else " ") + ", ".join(self.made)] if self.made else []
        parts += [counted(self.restarts, "restart", "restarts")] if self.restarts else []
        return "; ".join(parts + ["gives up"] * self.gives_up)


def counted(count, one, several):
    return "%d %s" % (count, one if count == 1 else several)


def certificate_of(path, lines):
    """The count of callers, the events as (kind, caller, further words), and the replies of each caller. The text before them isn't read."""
    try:
        certificate = read_certificate(lines)
        for number, (_, caller, _) in certificate.events:
            if caller >= len(certificate.scripts):
                raise Flaw(number, "there is no script %d" % caller)
    except Flaw as flaw:
        raise Refused(path, *flaw.args) from None
    return len(certificate.scripts), [event for _, event in certificate.events], certificate.replies


def folded(events, replies):
    """The boxes, in the order of time. The replies of a caller belong to its calls, in order; those to no call come last."""
    boxes, latest = [], {}  # latest: each caller's last box
    left = {caller: list(found) for caller, found in replies.items()}

    def end(box):
        box.end = left[box.caller].pop(0) if left.get(box.caller) else NO_REPLY

    for at, (kind, caller, rest) in enumerate(events):
        box = latest.get(caller)
        if kind == "begin":
            if box:
                end(box)
            boxes.append(Box(caller, " ".join(rest), at))
        elif not box or boxes[-1] is not box:
            boxes.append(Box(caller, box and box.call, at, box))
        latest[caller] = boxes[-1]
        latest[caller].add(at, kind, rest)
    for box in latest.values():
        end(box)
    for caller, reply in [(caller, reply) for caller in sorted(left) for reply in left[caller]]:
        boxes.append(Box(caller, None, len(events)))
        boxes[-1].end = reply
    return boxes


def fitted(text, size, room, weight="normal"):
    """Its lines, as `wrapped` has them, with those cut that are still too wide."""
    out = []
    for line in wrapped(text, size, room, weight):
        out.append("")
        for letter in line:
            if wide(out[-1] + letter, size, weight) > room:
                out.append("")
            out[-1] += letter
    return out


def draw_box(sheet, box, x, y, width):
    """Draws a box, and returns its height."""
    room = width - 30
    head = (box.call or "no call") + (", further" if box.before else "")
    lines = [(line, None if box.before else "bold", None) for line in fitted(head, TEXT, room, "bold")]
    lines += [(line, None, PALE) for line in fitted(box.told(), SMALL, room) if line]
    if box.end:
        fill = PALE if box.end == NO_REPLY else HELP if box.call else HARM
        lines += [(line, "bold", fill) for line in fitted("\N{RIGHTWARDS ARROW} " + box.end, TEXT, room, "bold")]
    height = LINE * len(lines) + 8.0
    sheet.box(x + 14, y, width - 22, height, "#f6f6f6", "#b0b0b0", 0.8, corners=3)
    for at, (line, weight, fill) in enumerate(lines):
        sheet.text(x + 20, y + 15 + LINE * at, line, None if weight else SMALL, fill, weight=weight)
    return height


def draw_certificate(path, lines, first=0, last=None):
    """The SVG of a certificate: a column for each caller, and a bar beside each call, from its begin to its end."""
    name = name_of(path)
    callers, events, replies = certificate_of(path, lines)
    if not 1 <= callers <= MOST_CALLERS:
        raise Failed("%s: a run has 1 to %d callers, and this certificate has %d scripts" % (name, MOST_CALLERS, callers))
    boxes = [box for box in folded(events, replies) if box.last >= first and (last is None or box.first <= last)]
    if len(boxes) > MOST_BOXES:
        raise Failed("%s: %d boxes are too many to draw: say from which event to which, as in `oa-timeline %s 0 1000`" % (name, len(boxes), name))
    sheet, y, column = Sheet(), 92.0, min((WIDTH - 2 * MARGIN - STEPS) / callers, 300.0)
    left = [MARGIN + STEPS + column * caller for caller in range(callers)]
    title = os.path.basename(name)
    story = "%s, folded into %s. A bar is a call, from its begin to its end; bars side by side are calls at one time." % (
        counted(len(events), "event", "events"), counted(len(boxes), "box", "boxes"))
    sheet.text(MARGIN, 24, title, 17, weight="bold")
    sheet.text(MARGIN, 46, story)
    sheet.text(MARGIN + STEPS - 8, 76, "event", SMALL, PALE, "end")
    for caller, x in enumerate(left):
        sheet.text(x + 14, 76, "caller %d" % caller, weight="bold")
    sheet.line(MARGIN, 84, WIDTH - MARGIN, 84, width=1.2)
    bottom = {}
    for box in boxes:
        x = left[box.caller]
        height = draw_box(sheet, box, x, y, column)
        top = bottom.get(box.before, y)
        sheet.box(x + 4, top, 6, y + height - top, HELP if box.call else HARM)
        sheet.text(MARGIN + STEPS - 8, y + 15, str(box.first), SMALL, PALE, "end")
        y += height + 4
        bottom[box] = y - 4
    return page(y + 6, title, story, sheet.parts)


def draw_folder(folder, into):
    """Draws the certificates of a folder, those that have notes with these."""
    for path in sorted(glob.glob(os.path.join(folder, "*.cert"))):
        notes, name = path[:-5] + ".notes", os.path.basename(path)[:-5]
        lines = lines_of(path)
        if not os.path.exists(notes):
            write_file(os.path.join(into, name + ".svg"), draw_certificate(path, lines))
            continue
        run = read_notes(notes, *certificate_of(path, lines)[1:])
        write_file(os.path.join(into, name + ".svg"), Drawing(run, run.rows).svg())
        if run.small:
            write_file(os.path.join(into, run.small + ".svg"), Drawing(run, parts_alone(run.rows)).svg())


def main(words):
    if options_of(words, {})[1]:
        raise Failed("it takes no words; a certificate is drawn by tools/oa-timeline", USAGE)
    draw_folder(HERE, HERE)


if __name__ == "__main__":
    run_tool(main, __doc__)

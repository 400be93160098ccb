"""Looks for a run that shows that a text isn't proper, or replies that its object wouldn't give. It is tested, and not proved.

usage: oa-fuzz [--seed N] [--runs N] [--seconds N] [--callers N] [--object OBJECT] [--into NAME] [--oa PROGRAM] [--oax PROGRAM] TEXT

It makes random scripts and schedules for the text of the document TEXT (`-` is standard input), has `oa judge make` replay each, and asks `oax proper`
and `oa judge check` of the certificate. `oa judge check` accepts what `oa judge make` writes of a proper text: so if it rejects one, the text isn't
proper. With `--object` the replies are judged as well, as `oa-legal OBJECT` judges those of a certificate.

What is found is shrunk, and written to standard output as a document: `oa replay` shows the run. With `--into NAME` it goes into NAME.oa, its certificate
into NAME.cert, and pictures of this into NAME.svg and NAME.html (oa-timeline).

N is the seed of the random numbers (1), how many runs are made (2000) or for how many seconds (60; what comes first), and how many callers there
are at most (3). The status is 1 if something was found, 0 if not, 2 if the words are wrong, 3 if a file can't be read, 6 if the text is refused,
8 if a file can't be written. That nothing was found doesn't mean that a text is proper.
"""
import os
import random
import sys
import textwrap
import time

sys.dont_write_bytecode = True
TOOLS = os.path.dirname(os.path.realpath(__file__))
sys.path[:0] = [TOOLS, os.path.join(TOOLS, "..", "docs", "pictures")]
from oa_history import calls_of, search
from oa_objects import check_operations, object_of
from oa_page import page_of
from oa_text import Flaw, ends_text, read_text
from oa_tool import UNREAD, USAGE, Failed, Refused, ask, lines_of, number_in, options_of, program, put, run_tool, split_lines, tell, write_file
from timeline import draw_certificate

TEXT_REFUSED, SHAPE, FUEL, MOST_SHRINKS, MOST_STATES = 6, 7, 5000, 3000, 20_000


class Document:
    """A text with slots for each kind, fuel, scripts of calls as (name, numbers), and turns as (word, caller, what, count)."""

    def __init__(self, subject, slots, fuel, scripts, turns):
        self.subject, self.slots, self.fuel, self.scripts, self.turns = subject, slots, fuel, scripts, turns

    def changed(self, **parts):
        return Document(self.subject, **{"slots": self.slots, "fuel": self.fuel, "scripts": self.scripts, "turns": self.turns, **parts})

    def lines(self):
        kinds = self.subject.text.kinds if self.subject.version == 2 else [""]
        lines = [*self.subject.lines, *(" ".join(["slots", *kind.split(), str(count)]) for kind, count in zip(kinds, self.slots))]
        lines += [f"fuel {self.fuel}"] if self.fuel else []
        for caller, script in enumerate(self.scripts):
            lines += [f"script {caller}", *(" ".join([name, *map(str, numbers)]) for name, numbers in script)]
        return [*lines, "schedule", *(" ".join(map(str, filter(None, (word, str(caller), what, count)))) for word, caller, what, count in self.turns)]

    def spelled(self, head=()):
        return "\n".join([*head, *self.lines(), ""])


class Subject:
    """The text that is tried, and the programs that judge its runs."""

    def __init__(self, path, oa, oax, judge):
        self.oa, self.oax, self.judge, lines = oa, oax, judge, lines_of(path)
        self.last = None, None  # the last document, and its certificate
        ends = next((at for at, line in enumerate(lines) if line.split() and ends_text(line.split())), len(lines))
        self.lines = lines[:ends]
        while self.lines and not self.lines[-1].strip():
            self.lines.pop()
        status, said, told = ask([oa, "check"], "\n".join(self.lines) + "\n")
        if status:
            raise Failed(f"the text is refused: {said.strip()}\n{told.strip()}", TEXT_REFUSED if status in (5, 6) else UNREAD)
        try:
            self.text = read_text(split_lines(ask([oa, "show"], "\n".join(self.lines) + "\n")[1].encode("latin-1")), "oa", "no text")
        except Flaw as flaw:
            raise Refused(path, *flaw.args) from None
        self.version = 2 if ["oa", "2"] in [line.split() for line in self.lines] else 1

    def certificate(self, document):
        """Returns the certificate of a document, and else None and what `oa judge make` says."""
        spelled = document if isinstance(document, str) else document.spelled()
        if self.last[0] != spelled:
            status, made, told = ask([self.oa, "judge", "make"], spelled)
            self.last = spelled, (made, told) if status in (0, 1) else (None, made.strip())
        return self.last[1]

    def finding(self, document):
        """Returns what a run shows, as (kind, (the command that says so, what it writes, its message)), or None."""
        made, _ = self.certificate(document)
        return None if made is None else self.judged(made)

    def judged(self, certificate):
        status, said, told = ask([self.oax, "proper"], certificate)
        if status == 11:
            return " ".join(said.split()[:2]), ("oa judge make < THIS | oax proper", said, told)
        status, said, told = ask([self.oa, "judge", "check"], certificate)
        if status == 11:
            return "rejected", ("oa judge make < THIS | oa judge check", said, told)
        if self.judge:
            name, made = self.judge
            calls, timed = calls_of(certificate.split("\n"))
            check_operations(made, [call for mine in calls.values() for call in mine])
            if calls and search(made, calls, timed, MOST_STATES).legal is False:
                return "not legal", (f"oa judge make < THIS | oa-legal {name}", "not legal", "")
        return None


# ---- random documents


def random_document(subject, chance, callers):
    """Returns a document with a few callers, few slots to spare, small numbers, and a schedule of a few turns that can be made."""
    ops, largest = subject.text.ops, chance.choice([1, 2, 3, 6])
    scripts = []
    for _ in range(chance.randint(1, callers)):
        called = [chance.choice(ops) for _ in range(chance.randint(1, 5))]
        scripts.append([(op.name, tuple(chance.randint(1, largest) for _ in range(op.arguments))) for op in called])
    spare = chance.choice([1, 1, 2, 3, 8])
    slots = [max(1, count + spare) for count in subject.text.counts]
    turns = [random_turn(chance, len(scripts)) for _ in range(chance.randint(0, 3 + 2 * len(scripts)))]
    if chance.random() < 0.7:  # a few calls alone, before others meet
        turns.insert(0, ("op", 0, None, chance.randint(1, len(scripts[0]))))
    return with_turns_that_go(subject, Document(subject, slots, FUEL, scripts, turns))


def random_turn(chance, callers):
    caller, word = chance.randrange(callers), chance.choice(["step", "op", "op", "upto", "upto", "upto"])
    if word == "upto":
        return word, caller, chance.choice(["load", "check", "exchange", "exchange"]), chance.choice([1, 1, 2, 2, 3, 4, 6])
    return word, caller, None, chance.choice([1, 1, 1, 2]) if word == "op" else chance.choice([1, 2, 3, 5, 9, 20])


def with_turns_that_go(subject, document):
    """Leaves out turns from the end, until the others can be made."""
    if subject.certificate(document)[0] is not None:
        return document
    least, most = 0, len(document.turns)  # so many can be made, and so many can't
    while most - least > 1:
        middle = (least + most) // 2
        if subject.certificate(document.changed(turns=document.turns[:middle]))[0] is None:
            most = middle
        else:
            least = middle
    return document.changed(turns=document.turns[:least])


# ---- shrinking


def smaller(document):
    """Documents that are a little smaller, those that leave out most first."""
    for caller in reversed(range(len(document.scripts))):
        yield without_caller(document, caller)
    for at in range(len(document.turns)):
        yield document.changed(turns=document.turns[:at] + document.turns[at + 1 :])
    for caller, script in enumerate(document.scripts):
        for at in range(len(script)):
            yield with_script(document, caller, script[:at] + script[at + 1 :])
    if document.fuel:
        yield document.changed(fuel=None)
    yield from with_less(document)


def with_less(document):
    """Documents with a smaller number in a turn, in a call or among the slots."""
    for at, (word, caller, what, count) in enumerate(document.turns):
        for less in sorted({1, count // 2, count - 1} - {0, count}):
            yield document.changed(turns=[*document.turns[:at], (word, caller, what, less), *document.turns[at + 1 :]])
    for caller, script in enumerate(document.scripts):
        for at, (name, numbers) in enumerate(script):
            for place, number in enumerate(numbers):
                if number > 1:
                    lower = numbers[:place] + (number - 1,) + numbers[place + 1 :]
                    yield with_script(document, caller, script[:at] + [(name, lower)] + script[at + 1 :])
    for kind, count in enumerate(document.slots):
        if count > 1:
            yield document.changed(slots=[*document.slots[:kind], count - 1, *document.slots[kind + 1 :]])


def with_script(document, caller, script):
    return document.changed(scripts=[*document.scripts[:caller], script, *document.scripts[caller + 1 :]])


def without_caller(document, caller):
    turns = [(word, other - (other > caller), what, count) for word, other, what, count in document.turns if other != caller]
    return document.changed(scripts=document.scripts[:caller] + document.scripts[caller + 1 :], turns=turns)


def shrunk(subject, document, kind):
    """Returns the least document that it comes to by small changes, of which each shows what the one before showed."""
    tries, going = 0, True
    while going and tries < MOST_SHRINKS:
        going = False
        for candidate in smaller(document):
            tries += 1
            found = subject.finding(candidate)
            if found and found[0] == kind:
                document, going = candidate, True
                break
    return document


# ---- what is written


def with_story(subject, document, story):
    """Returns the document with comments that say what was found, and its certificate. The lines that a message names are those of this one."""
    head, comments = [f"# {line}" for line in story], []
    for _ in range(3):
        spelled = document.spelled([*head, *comments])
        certificate = subject.certificate(spelled)[0]
        if comments == comments_on(subject.judged(certificate)[1]):
            break
        comments = comments_on(subject.judged(certificate)[1])
    return spelled, certificate


def comments_on(shown):
    """What was found as comments: the command, and below it what it writes."""
    command, said, told = shown
    lines = [part for line in (said + "\n" + told).split("\n") for part in textwrap.wrap(line.strip(), 140)]
    return [f"# `{command}` writes", *(f"#     {line}" for line in lines)]


def write(name, spelled, certificate, oa):
    lines = certificate.split("\n")
    write_file(f"{name}.oa", spelled)
    write_file(f"{name}.cert", certificate)
    write_file(f"{name}.svg", draw_certificate(f"{name}.cert", lines))
    write_file(f"{name}.html", page_of(f"{name}.cert", lines, lambda: oa))


def proved(name, path):
    """Returns the proved program behind a clone's script, which would look for it in each run. Unproved runs would take a minute each: they are refused."""
    clone = os.path.dirname(path)
    built = os.path.join(clone, "crates", name, "out", name)
    if os.path.basename(path) != name or not os.path.exists(os.path.join(clone, "prove")):
        return path
    if ask([os.path.join(clone, "prove"), "--is-ready", name], "")[0]:
        raise Failed(f"no proved program {name} stands ready, and unproved runs take a minute each: ./prove makes it", UNREAD)
    return built


def main(words):
    known = ["--seed", "--runs", "--seconds", "--callers", "--object", "--into", "--oa", "--oax"]
    options, rest = options_of(words, dict.fromkeys(known, True))
    if len(rest) != 1:
        raise Failed("one TEXT is wanted", USAGE)
    seed, runs = number_in(options.get("--seed", "1"), "the seed"), number_in(options.get("--runs", "2000"), "the count of runs", 1)
    seconds, callers = number_in(options.get("--seconds", "60"), "the count of seconds", 1), number_in(options.get("--callers", "3"), "the count of callers", 1, 8)
    judge = (options["--object"], object_of(options["--object"])) if "--object" in options else None
    oa, oax = proved("oa", program("oa", options.get("--oa"))), proved("oax", program("oax", options.get("--oax")))
    subject = Subject(None if rest[0] == "-" else rest[0], oa, oax, judge)
    chance, until = random.Random(seed), time.monotonic() + seconds
    for run in range(1, runs + 1):
        document = random_document(subject, chance, callers)
        found = subject.finding(document)
        if found or time.monotonic() > until:
            break
    if not found:
        tell(f"oa-fuzz: nothing was found in {run} runs")
        return 0
    tell(f"oa-fuzz: run {run} shows something ({found[0]}); now it is shrunk")
    document = shrunk(subject, document, found[0])
    what = "replies that the object wouldn't give" if found[0] == "not legal" else "this text isn't proper"
    spelled, certificate = with_story(subject, document, [f"Found by oa-fuzz --seed {seed}, run {run}: {what}."])
    if "--into" in options:
        write(options["--into"], spelled, certificate, oa)
        tell("oa-fuzz: it is in {0}.oa, {0}.cert, {0}.svg and {0}.html".format(options["--into"]))
    else:
        put(spelled)
    return 1


if __name__ == "__main__":
    run_tool(main, __doc__)

"""The calls of a report or a certificate, and the search for a legal order of them, for tools/oa-legal and tools/oa-fuzz. Tested, and not proved.

Calls are put in an order one by one, each caller's in its own. A state is how many calls of each caller stand in the order, which of these had no
effect, and what the object holds; one that was looked at isn't looked at again (Lowe, 2017). Calls with a time have to come after all that had ended
before they began.
"""
import copy
import re

from oa_machine import read_certificate
from oa_text import Flaw
from oa_tool import Failed

NO_INPUT = 5  # the status of an input that is neither a report nor a certificate
MAYBE = ("spent", "full", "phases")
REPORT_LINE = re.compile(r"(\d+) (\d+) (\w+)((?: \d+)*): (\d+|none|full|spent|unreached|phases \d+)$")


class Call:
    """A call: its caller, its name, its numbers, its reply in words or None if it isn't known, and when it began and ended."""

    def __init__(self, caller, name, arguments, reply, begin, line):
        self.caller, self.name, self.arguments, self.reply = caller, name, arguments, reply
        self.begin, self.end, self.ended, self.line = begin, begin, reply is not None, line

    def __str__(self):
        spelled = " ".join([str(self.caller), self.name, *map(str, self.arguments)])
        return f"{spelled}: {'?' if self.reply is None else self.reply}"


def calls_in_report(lines):
    """Returns the calls of a report, by caller, in their order."""
    calls = {}
    for number, line in enumerate(lines, 1):
        found = REPORT_LINE.match(line)
        if found:
            caller, _, name, arguments, answer = found.groups()
            word = answer.split()[0]
            reply = None if word in MAYBE else answer
            if word != "unreached":
                calls.setdefault(int(caller), []).append(Call(int(caller), name, tuple(map(int, arguments.split())), reply, 0, number))
        elif line and not line.startswith("replies "):
            raise Failed(f"standard input, line {number}: this is neither a report nor a certificate. A report has lines `0 0 push 5: none`", NO_INPUT)
    for mine in calls.values():
        for at, call in enumerate(mine):
            call.begin, call.end = at, at  # no order in time between callers
    return calls, False


def calls_in_certificate(lines):
    """Returns the calls of a certificate, by caller, with the places of the events by which they began and ended."""
    try:
        certificate = read_certificate(lines)
    except Flaw as flaw:
        raise Failed(f"standard input, line {flaw.args[0]}: {flaw.args[1]}", NO_INPUT) from None
    calls, replies = {}, {caller: list(found) for caller, found in certificate.replies.items()}
    for at, (line, (kind, caller, words)) in enumerate(certificate.events):
        mine = calls.setdefault(caller, [])
        if kind == "begin":
            mine.append(Call(caller, words[0], tuple(map(int, words[1:])), None, at, line))
        if mine:
            mine[-1].end = at
    for caller, mine in calls.items():
        for call in mine:
            answer = replies.get(caller) and replies[caller].pop(0)
            call.reply = answer if answer and answer.split()[0] not in MAYBE else None
            call.ended = bool(answer)
    return calls, True


def calls_of(lines):
    if any(line.split() == ["events"] for line in lines):
        return calls_in_certificate(lines)
    return calls_in_report(lines)


# ---- the search


class Found:
    """What a search found: whether there is a legal order (None if the search was ended), the longest order, and what each caller says next."""

    def __init__(self, legal, order, following, count):
        self.legal, self.order, self.next, self.all = legal, order, following, count


def reply_of(state, call):
    """Makes a call on a copy of the object, and returns its reply in words and the copy."""
    later = copy.copy(state)
    for name, value in vars(state).items():
        setattr(later, name, value if isinstance(value, (int, str, tuple, frozenset)) or value is None else copy.deepcopy(value))
    try:
        reply = getattr(later, call.name)(*call.arguments)
    except Exception as error:
        raise Failed(f"{call.name} of {type(state).__name__} fails on `{call}`: {type(error).__name__}: {error}") from None
    return ("none" if reply is None else str(int(reply))), later


def key_of(state):
    """What an object holds, spelled so that equal sets and dictionaries are spelled alike."""
    return repr([(name, ordered(value)) for name, value in sorted(vars(state).items())])


def ordered(value):
    if isinstance(value, dict):
        return sorted(((repr(key), ordered(held)) for key, held in value.items()))
    return sorted(map(repr, value)) if isinstance(value, (set, frozenset)) else value


def free(calls, at, timed):
    """Returns the callers whose next call may come now: no other call that isn't in the order had ended before it began."""
    waiting = {caller: calls[caller][place] for caller, place in at.items() if place < len(calls[caller])}
    if not timed:
        return list(waiting)
    ends = min((call.end for call in waiting.values() if call.ended), default=None)
    return [caller for caller, call in waiting.items() if ends is None or call.begin <= ends]


def search(made, calls, timed, most):
    """Searches for a legal order of the calls of each caller, and comes to at most so many states.

    made: the class of the object; timed: whether a call comes after those that had ended before it began.
    """
    callers = sorted(calls)
    count, longest, seen, states = sum(map(len, calls.values())), None, set(), 0
    left = [(dict.fromkeys(callers, 0), made(), ())]
    while left:
        at, state, order = left.pop()
        key = (tuple(at.values()), key_of(state))
        if key in seen:
            continue
        seen.add(key)
        states += 1
        if longest is None or sum(at.values()) > sum(longest[0].values()):
            longest = (at, state, order)
        if sum(at.values()) == count:
            return Found(True, unrolled(order), [], count)
        if states > most:
            return Found(None, unrolled(order), [], count)
        left.extend(after(calls, at, state, order, timed))
    at, state, order = longest
    following = [(calls[caller][at[caller]], reply_of(state, calls[caller][at[caller]])[0]) for caller in free(calls, at, timed)]
    return Found(False, unrolled(order), following, count)


def after(calls, at, state, order, timed):
    """The states to which a further call leads. One whose reply isn't known may have no effect, too."""
    found = []
    for caller in free(calls, at, timed):
        call = calls[caller][at[caller]]
        reply, later = reply_of(state, call)
        place = {**at, caller: at[caller] + 1}
        if call.reply is None:
            found.append((place, state, order))
        if call.reply is None or call.reply == reply:
            found.append((place, later, (order, call)))
    return found


def unrolled(order):
    """The calls of an order, which is a chain of pairs from its end."""
    found = []
    while order:
        order, call = order
        found.append(call)
    return found[::-1]

"""A page that steps through the run of a certificate, for tools/oa-timeline. Tested, and not proved.

The page is tools/oa_page.html with the run in it: the state before the first event that is shown, and for each event what it changed.
"""
import json
import os

from oa_machine import Machine, NotEnabled, call_of, read_certificate
from oa_text import Flaw
from oa_tool import TOOLS, Failed, Refused, ask, name_of, read_bytes

MOST_EVENTS = 20_000


def page_of(path, lines, find_oa, first=0, last=None):
    """Returns the page of a certificate, from one event to another.

    find_oa: returns the program `oa`, which is only asked for if the text has a `use` line.
    """
    try:
        certificate = read_certificate(lines)
        written_out(certificate, find_oa)
        text = certificate.text()
    except Flaw as flaw:
        raise Refused(path, *flaw.args) from None
    shown = certificate.events[first : last if last is None else last + 1]
    if len(shown) > MOST_EVENTS:
        raise Failed(f"{name_of(path)}: {len(shown)} events are too many for a page: say from which event to which, as in `oa-timeline --html {path or '-'} 0 1000`")
    try:
        data = run_of(text, certificate, first, shown)
    except (ValueError, IndexError, KeyError) as error:
        raise Failed(f"{name_of(path)}: the run can't be followed: {error}. `oa judge check` says what is wrong with a certificate") from None
    data["name"] = os.path.basename(name_of(path))
    spelled = json.dumps(data, separators=(",", ":")).replace("</", "<\\/")
    return read_bytes(os.path.join(TOOLS, "oa_page.html")).decode().replace("/*RUN*/null", spelled, 1)


def written_out(certificate, find_oa):
    """Writes the text out if it has a `use` line."""
    if any(line.split()[:1] == ["use"] for line in certificate.text_lines):
        status, text, _ = ask([find_oa(), "show"], "\n".join(certificate.text_lines) + "\n")
        if status:
            raise Failed(f"`oa show` doesn't write the text out (status {status})")
        certificate.text_lines = text.split("\n")


def run_of(text, certificate, first, shown):
    """Returns what the page is given: declarations, the state before the events that are shown, and for each of these what it changed."""
    machine, steps, stopped = Machine(text, len(certificate.scripts)), [], None
    start = state_of(machine)
    for at, (line, event) in enumerate(certificate.events[: first + len(shown)]):
        if at == first:
            start = state_of(machine)
        try:
            said = machine.make(event)
        except NotEnabled as why:
            stopped = f"Event {at}, line {line}: `{event_line(event)}` isn't enabled: {why}."
            break
        if at >= first:
            steps.append(step_of(machine, event, line, said))
    return {"kinds": text.kinds, "fields": text.fields, "roots": [name for name, _ in text.roots], "first": first, "count": len(certificate.events),
            "methods": methods_in(text), "scripts": certificate.scripts, "start": start, "steps": steps, "stopped": stopped}


def event_line(event):
    kind, caller, words = event
    return " ".join([kind, str(caller), *words])


def methods_in(text):
    """Returns the instructions of each method as lines, and entries of commits as lines below them."""
    found = {}
    for op in text.ops:
        for kind, method in op.methods.items():
            found[f"{op.name} {kind}"] = [lines_of_instruction(instruction) for instruction in method.code]
    return found


def lines_of_instruction(instruction):
    entries = instruction.exchanges if instruction.word == "commit" else []
    return [" ".join(instruction.words), *(" ".join(entry.words) for entry in entries)]


def state_of(machine):
    return {"roots": list(machine.roots), "nodes": {name: [kind, list(values)] for name, (kind, values) in machine.nodes.items()},
            "retired": list(machine.retired), "callers": [caller_state(caller) for caller in machine.callers]}


def caller_state(caller):
    """Returns what the page shows of a caller: its call, where it stands, its registers, and the replies that it has had."""
    running = caller.running
    if running is None:
        return {"replies": list(caller.replies), "calls": caller.calls}
    registers = {name: value for name, value in sorted(running.registers.items())}
    return {"call": call_of(running), "method": f"{running.op.name} {'wrap' if running.kind == 'wrap' else 'gen'}", "at": running.at,
            "entry": running.made + 1 if running.kind == "list" and running.entry() else 0, "registers": registers,
            "replies": list(caller.replies), "calls": caller.calls}


def step_of(machine, event, line, said):
    """Returns an event with what it changed: roots and nodes that it wrote into, all that is retired if that is more, and its caller."""
    kind, caller, _ = event
    step = {"event": event_line(event), "kind": kind, "caller": caller, "line": line, "said": said, "state": caller_state(machine.callers[caller])}
    step["roots"] = {place[0]: machine.roots[place[0]] for place in machine.touched if isinstance(place, tuple)}
    step["nodes"] = {name: [machine.nodes[name][0], list(machine.nodes[name][1])] for name in machine.touched if isinstance(name, int)}
    step["retired"] = list(machine.retired) if "retires" in said else []
    return step

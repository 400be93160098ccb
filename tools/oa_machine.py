"""The machine that certificates are judged on: a text's operations on memory that is never recycled. Tested, and not proved.

What is proved of it stands in crates/source_machine; this is the same in Python, for tools that show a run. A reference is a pair of a node's name
and a mark, (0, 0) being null, and a number is an int. Local instructions run at once, up to the next access or the reply.
"""
from oa_text import Flaw, Text, ends_text, number_of, read_text

NULL = (0, 0)
LIMIT = 2**64
LOADS = ("root", "pick", "load")
ACCESSES = (*LOADS, "new", "put", "cas", "casroot")
METHOD_ENDS = ("return", "returnnone", "again")


class NotEnabled(Exception):
    """Why a caller can't make an event where it stands."""


class Running:
    """A call that runs: its operation and arguments, what its registers hold, and where it stands.

    kind: `gen`, `list` or `wrap`; at: the instruction; made: exchanges of the list that were made; started: the registers with which the wrap-up began;
    accessed: whether this run of the wrap-up has made an access.
    """

    def __init__(self, op, arguments):
        self.op, self.arguments = op, arguments
        self.kind, self.at, self.made, self.accessed = "gen", 0, 0, False
        self.registers, self.started = {}, {}

    def method(self):
        return self.op.methods["wrap" if self.kind == "wrap" else "gen"]

    def instruction(self):
        return self.method().code[self.at]

    def entry(self):
        """The exchange of the list that comes next, or None at the end of an empty one."""
        entries = self.instruction().exchanges
        return entries[self.made] if self.made < len(entries) else None

    def value(self, register):
        return self.registers.get(register, 0 if register[0] == "n" else NULL)


class Caller:
    def __init__(self):
        self.running, self.replies, self.calls = None, [], 0


class Machine:
    """Memory and callers. `nodes` are (kind, values) by name, `retired` the names in their order, and `touched` the roots, as (number,), and the nodes,
    by name, into which the last event has written."""

    def __init__(self, text, callers):
        self.text = text
        self.roots = [first_value(word) for _, word in text.roots]
        self.nodes = {}
        for name, words in enumerate(text.values, 1):
            self.nodes[name] = (text.kind_of_node(name), [first_value(word) for word in words])
        self.retired, self.touched = [], set()
        self.callers = [Caller() for _ in range(callers)]

    # ---- events

    def make(self, event):
        """Makes an event, (kind, caller, words), and says in words what it did. Raises NotEnabled, and then nothing is changed."""
        kind, number, words = event
        self.touched = set()
        if number >= len(self.callers):
            raise NotEnabled(f"there is no script {number}")
        caller = self.callers[number]
        if kind == "begin":
            return self.begin(caller, words)
        if caller.running is None:
            raise NotEnabled(f"caller {number} runs no call")
        if kind == "access":
            return self.access(caller, number_of(words[0]))
        if kind == "restart":
            return self.restart(caller)
        return self.give_up(caller, kind if kind == "full" else f"phases {words[0]}")

    def begin(self, caller, words):
        if caller.running is not None:
            raise NotEnabled(f"the call {call_of(caller.running)} hasn't ended")
        op = self.text.operation(words[0])
        if len(words) - 1 != op.arguments:
            raise NotEnabled(f"{op.name} has {op.arguments} arguments")
        caller.running = Running(op, [number_of(word) for word in words[1:]])
        caller.calls += 1
        self.begin_generator(caller)
        return f"begins {' '.join(words)}"

    def access(self, caller, name):
        running = caller.running
        wants_name = running.kind != "list" and running.instruction().word == "new"
        if wants_name and (name == 0 or name in self.nodes):
            raise NotEnabled(f"the next access is {' '.join(running.instruction().words)}, and {name} is " + ("no name" if name == 0 else "a node already"))
        if not wants_name and name != 0:
            raise NotEnabled(f"the next access makes no node, and {name} names one")
        if running.kind == "list":
            return self.list_access(caller)
        instruction = running.instruction()
        if instruction.word in METHOD_ENDS:
            running.accessed = False
            self.end_wrap_up(caller)
            return f"ends its wrap-up: {self.ending(caller, running)}"
        said = self.perform(running, instruction, name)
        self.run_on(caller, accessed=True)
        return said

    def restart(self, caller):
        running = caller.running
        if running.kind == "list" and running.made:
            raise NotEnabled("its list of exchanges has begun")
        if running.kind == "wrap":
            self.begin_wrap_up(caller, dict(running.started))
            return "begins its wrap-up again"
        self.begin_generator(caller)
        return "begins its generator again"

    def give_up(self, caller, reply):
        running = caller.running
        if running.kind == "list" or running.instruction().word != "new":
            raise NotEnabled("its next access is no `new`")
        caller.running = None
        caller.replies.append(reply)
        return f"gives up: {reply}"

    # ---- what a caller does by itself

    def begin_generator(self, caller):
        running = caller.running
        running.registers = {f"n{at}": value for at, value in enumerate(running.arguments)}
        running.kind, running.at, running.made, running.accessed = "gen", 0, 0, False
        self.run_on(caller, accessed=False)

    def begin_wrap_up(self, caller, registers):
        running = caller.running
        running.started, running.registers = dict(registers), registers
        running.kind, running.at, running.accessed = "wrap", 0, False
        self.run_on(caller, accessed=False)

    def run_on(self, caller, accessed):
        """Runs local code up to the next access, the list or the end of the wrap-up."""
        running = caller.running
        running.accessed = running.accessed or accessed
        while running.at < len(running.method().code) and run_local(running):
            pass
        if running.at >= len(running.method().code):
            return
        word = running.instruction().word
        if running.kind == "gen" and word == "commit":
            running.kind, running.made = "list", 0
        elif running.kind == "wrap" and word in METHOD_ENDS and not running.accessed:
            self.end_wrap_up(caller)

    def end_wrap_up(self, caller):
        running, words = caller.running, caller.running.instruction().words
        if words[0] == "again":
            self.begin_generator(caller)
            return
        caller.replies.append(str(running.value(words[1])) if words[0] == "return" else "none")
        caller.running = None

    def ending(self, caller, running):
        return "the operation begins again" if caller.running is running else f"the call replies {caller.replies[-1]}"

    # ---- accesses

    def list_access(self, caller):
        running = caller.running
        entry = running.entry()
        if entry is None:
            said, done = "ends its list, which is empty", False
        else:
            done, said = self.exchange(running, entry)
            running.made += done
        if not done or running.entry() is None:
            registers = dict(running.registers)
            registers["n7"] = running.made
            self.begin_wrap_up(caller, registers)
        return said

    def perform(self, running, instruction, name):
        """Makes an access of a method, and goes to the next instruction."""
        words = instruction.words
        running.at += 1
        if words[0] in LOADS:
            place, value = self.load(running, words)
            running.registers[words[1]] = value
            return f"loads {spelled(value)} from {place} into {words[1]}"
        if words[0] == "new":
            kind = self.text.kind(words[2]) if len(words) > 2 else 0
            self.nodes[name] = (kind, [NULL if is_reference else 0 for _, _, is_reference in self.text.fields_of(kind)])
            running.registers[words[1]] = (name, 0)
            self.touched.add(name)
            return f"makes node {name}, in {words[1]}"
        if words[0] == "put":
            self.store(running, words[1], words[2], running.value(words[3]))
            return f"puts {spelled(running.value(words[3]))} into {words[2]} of node {running.value(words[1])[0]}"
        done, said = self.exchange(running, instruction.exchanges[0])
        if not done:
            running.at = number_of(words[4 if words[0] == "casroot" else 5])
        return said

    def load(self, running, words):
        if words[0] == "load":
            node = running.value(words[2])[0]
            return (f"{words[3]} of node {node}" if node else f"{words[3]} of null"), self.field(node, words[3])
        number = self.text.root(words[2])
        if words[0] == "pick":
            number += running.value(words[4]) % int(words[3])
        return f"the root {self.text.roots[number][0]}", self.roots[number]

    def field(self, node, field):
        kind, place = self.text.field(field)
        if node not in self.nodes:
            return NULL if self.text.fields_of(kind)[place][2] else 0
        values = self.nodes[node][1]
        return values[place] if place < len(values) else 0

    def store(self, running, register, field, value):
        node, place = running.value(register)[0], self.text.field(field)[1]
        if node in self.nodes and place < len(self.nodes[node][1]):
            self.nodes[node][1][place] = value
            self.touched.add(node)

    def exchange(self, running, entry):
        """Makes an exchange. Returns whether it succeeds, and what it did in words."""
        expected, new = running.value(entry.expected), running.value(entry.new)
        if entry.object is None:
            place, found = f"the root {entry.place}", self.roots[self.text.root(entry.place)]
        else:
            node = running.value(entry.object)[0]
            place, found = f"{entry.place} of node {node}", self.field(node, entry.place) if node else None
        if found is None or found != expected:
            why = f"{entry.object} is null" if found is None else f"expects {spelled(expected)} and finds {spelled(found)}"
            return False, f"fails to exchange {place}: {why}"
        if entry.object is None:
            self.roots[self.text.root(entry.place)] = new
            self.touched.add((self.text.root(entry.place),))
        else:
            self.store(running, entry.object, entry.place, new)
        said = f"exchanges {place} from {spelled(expected)} to {spelled(new)}"
        retired = running.value(entry.retired)[0] if entry.retired else 0
        if retired:
            self.retired.append(retired)
            said += f", and retires node {retired}"
        return True, said


def first_value(word):
    return NULL if word == "null" else (number_of(word[1:]), 0) if word[0] == "@" else number_of(word)


def spelled(value):
    """A value in words: a number, or a node with a star if it is marked."""
    if isinstance(value, int):
        return str(value)
    return ("null" if value[0] == 0 else f"node {value[0]}") + (", marked" if value[1] else "")


def call_of(running):
    return " ".join([running.op.name, *map(str, running.arguments)])


def run_local(running):
    """Runs the instruction where a call stands if it is local, and says whether it was."""
    words, value, at = running.instruction().words, running.value, running.at
    word, registers = words[0], running.registers
    running.at += 1
    if word == "set":
        registers[words[1]] = int(words[2])
    elif word == "null":
        registers[words[1]] = NULL
    elif word == "mov":
        registers[words[1]] = value(words[2])
    elif word in ("add", "sub"):
        other = value(words[3])
        registers[words[1]] = (value(words[2]) + (other if word == "add" else -other)) % LIMIT
    elif word == "rem":
        registers[words[1]] = value(words[2]) % int(words[3])
    elif word in ("mark", "unmark"):
        registers[words[1]] = (value(words[2])[0], int(word == "mark"))
    elif word in ("jump", "ifeq", "ifless", "ifmarked"):
        goes = {"jump": lambda: True, "ifeq": lambda: value(words[1]) == value(words[2]), "ifless": lambda: value(words[1]) < value(words[2]),
                "ifmarked": lambda: bool(value(words[1])[1])}[word]()
        running.at = int(words[-1]) if goes else running.at
    else:
        running.at = at
        return False
    return True


# ---- certificates

EVENTS = {"begin": 2, "access": 2, "restart": 1, "full": 1, "phases": 2}  # how many words follow, at least


class Certificate:
    """A certificate: its text, the calls of its scripts, its events as (line, (kind, caller, words)), and the replies of each caller."""

    def __init__(self):
        self.text_lines, self.scripts, self.turns, self.events, self.replies = [], [], [], [], {}

    def text(self):
        return read_text(self.text_lines, "oa", "the first line must be `oa 2` or `oa 1`")


def read_certificate(lines):
    """Reads a certificate. Raises Flaw at the first line that isn't one's, or behind the last if a part is missing."""
    certificate, part = Certificate(), "text"
    for number, line in enumerate(lines, 1):
        words = line.split()
        if not words or words[0].startswith("#"):
            if part == "text":
                certificate.text_lines.append(line)
            continue
        part = take_line(certificate, part, number, line, words)
    if part != "replies":
        wanted = {"text": "schedule", "script": "schedule", "schedule": "events", "events": "replies"}[part]
        raise Flaw(len(lines), f"this is no certificate: it has no line `{wanted}`, as `oa judge make` writes it")
    return certificate


def take_line(certificate, part, number, line, words):
    """Takes a line that belongs to a part of a certificate, and returns the part that the next line belongs to."""
    followers = {"text": "schedule", "script": "schedule", "schedule": "events", "events": "replies"}
    if part in followers and words == [followers[part]]:
        return words[0]
    if part in ("text", "script") and words[0] == "script" and len(words) == 2:
        certificate.scripts.append([])
        return "script"
    if part == "text":
        certificate.text_lines.append("" if ends_text(words) else line)
    elif part == "script":
        certificate.scripts[-1].append(words)
    elif part == "schedule":
        certificate.turns.append(words)
    elif not is_line_of(part, words):
        raise Flaw(number, f"this isn't a line of the {part} of a certificate")
    elif part == "events":
        certificate.events.append((number, (words[0], int(words[1]), words[2:])))
    elif int(words[1]) >= len(certificate.scripts):
        raise Flaw(number, f"there is no script {words[1]}")
    else:
        certificate.replies.setdefault(int(words[1]), []).append(" ".join(words[2:]))
    return part


def is_line_of(part, words):
    """Whether a line may stand among the events or the replies."""
    if len(words) < 2 or not words[1].isdigit():
        return False
    if part == "replies":
        return words[0] == "reply" and len(words) > 2
    return len(words) - 1 >= EVENTS.get(words[0], 99) and (words[0] == "begin" or all(word.isdigit() for word in words[1:]))

"""What the tools share of texts and targets: their lines, their declarations, their methods, and the paths through these. Tested, and not proved."""
import re

# The place of the word that a jump leads to, by instruction.
JUMPS = {"jump": 1, "ifeq": 3, "ifless": 3, "ifmarked": 2, "cas": 5, "casroot": 4}
ENDS = ("commit", "return", "returnnone", "again")
SETTERS = ("set", "mov", "add", "sub", "rem", "null", "mark", "unmark", "root", "pick", "load", "new")
READS = {"mov": [2], "add": [2, 3], "sub": [2, 3], "rem": [2], "mark": [2], "unmark": [2], "pick": [4], "load": [2], "put": [1, 3]}
READS.update({"ifeq": [1, 2], "ifless": [1, 2], "ifmarked": [1], "return": [1]})
SETTINGS = ("slots", "phases", "fuel", "schedule")


class Exchange:
    """An auxiliary exchange, or an entry of a commit. The object is None if the place is a root."""

    def __init__(self, line, words):
        self.line, self.words = line, words
        self.retired = words[-1] if "retire" in words else None
        on_root = words[0] in ("casroot", "withroot")
        self.object = None if on_root else words[1]
        self.place = words[1] if on_root else words[2]
        self.expected, self.new = words[2:4] if on_root else words[3:5]

    def registers(self):
        return {register for register in (self.object, self.expected, self.new, self.retired) if register}


class Instruction:
    def __init__(self, line, words):
        self.line, self.words = line, words
        self.word = words[0]
        self.exchanges = [Exchange(line, words)] if self.word in ("cas", "casroot") else []

    def reads(self):
        if self.exchanges or self.word == "commit":
            return set().union(*(exchange.registers() for exchange in self.exchanges))
        return {self.words[place] for place in READS.get(self.word, []) if place < len(self.words)}

    def sets(self):
        return {self.words[1]} if self.word in SETTERS else set()


class Method:
    """A generator (`gen`) or a wrap-up (`wrap`) of an operation, with its instructions and the labels between them."""

    def __init__(self, op, kind, line):
        self.op, self.kind, self.line = op, kind, line
        self.code, self.labels, self.label_lines = [], {}, []

    def leads_to(self, instruction):
        """Returns the number of the instruction that a jump leads to, or None."""
        place = JUMPS.get(instruction.word)
        if place is None or place >= len(instruction.words):
            return None
        word = instruction.words[place]
        return int(word) if word.isdigit() else self.labels.get(word)

    def successors(self, at):
        instruction = self.code[at]
        found = [] if instruction.word in ENDS + ("jump",) else [at + 1]
        target = self.leads_to(instruction)
        return [to for to in found + ([] if target is None else [target]) if to < len(self.code)]

    def reached(self, start=0):
        found, left = set(), [start] if self.code else []
        while left:
            at = left.pop()
            if at not in found:
                found.add(at)
                left.extend(self.successors(at))
        return found

    def read_at_start(self):
        """Returns the registers that some path from the start reads before it sets them."""
        wanted, changed = [set() for _ in self.code], True
        while changed:
            changed = False
            for at in reversed(range(len(self.code))):
                after = set().union(*(wanted[to] for to in self.successors(at)))
                now = self.code[at].reads() | (after - self.code[at].sets())
                changed, wanted[at] = changed or now != wanted[at], now
        return wanted[0] if wanted else set()


def is_label(words):
    return len(words) == 1 and re.fullmatch(r"[a-z][a-z0-9_]*:", words[0])


def ends_text(words):
    """Whether a line stands behind a text: a setting, a script or a schedule."""
    return words[0] in SETTINGS or (words[0] == "script" and len(words) == 2)


def methods_of(lines):
    """Returns the methods of a text, with or without labels. Lines count from 1."""
    methods, op, method = [], None, None
    for line, text in enumerate(lines, 1):
        words = text.split()
        if not words or words[0].startswith("#"):
            continue
        if words[0] == "op" and len(words) == 3:
            op, method = words[1], None
        elif words in (["gen"], ["wrap"]) and op is not None:
            method = Method(op, words[0], line)
            methods.append(method)
        elif ends_text(words):
            break
        elif method is None:
            continue
        elif words[0] in ("with", "withroot") and method.code:
            method.code[-1].exchanges.append(Exchange(line, words))
        elif is_label(words):
            method.labels.setdefault(words[0][:-1], len(method.code))
            method.label_lines.append(line)
        else:
            method.code.append(Instruction(line, words))
    return methods


# ---- a whole text, or a target


class Flaw(Exception):
    """What is wrong at a line: its number, and a sentence."""


class Operation:
    def __init__(self, name, arguments):
        self.name, self.arguments = name, arguments
        self.methods = {}  # `gen` and `wrap`, as Method


class Text:
    """The declarations of a text or a target, and its operations in their order."""

    def __init__(self, version):
        self.version = version
        self.kinds = ["item"] if version == 1 else []
        self.fields = []  # (kind, name, whether it is of references)
        self.counts = []  # initial nodes, by kind
        self.values = []  # the words of each initial node
        self.roots = []  # (name, word)
        self.ops = []

    def kind(self, name):
        if name not in self.kinds:
            raise ValueError(f"there is no kind {name}")
        return self.kinds.index(name)

    def root(self, name):
        for number, root in enumerate(self.roots):
            if root[0] == name:
                return number
        raise ValueError(f"there is no root {name}")

    def field(self, name):
        """Returns a field's kind, and its place among the fields of that kind."""
        for kind, other, _ in self.fields:
            if other == name:
                return kind, [field[1] for field in self.fields if field[0] == kind].index(name)
        raise ValueError(f"there is no field {name}")

    def fields_of(self, kind):
        return [field for field in self.fields if field[0] == kind]

    def kind_of_node(self, number):
        """Returns the kind of an initial node, counted from 1 over all kinds."""
        for kind, count in enumerate(self.counts):
            if number <= count:
                return kind
            number -= count
        raise ValueError(f"there is no initial node {number}")

    def operation(self, name):
        for op in self.ops:
            if op.name == name:
                return op
        raise ValueError(f"there is no operation {name}")


def number_of(word):
    if not re.fullmatch(r"0|[1-9][0-9]*", word) or int(word) >= 2**64:
        raise ValueError(f"{word} is no number")
    return int(word)


def read_declaration(text, words):
    """Reads a line before the operations. In version 2 it names kinds, which version 1 leaves out."""
    word, rest = words[0], words[1:]
    if word == "kind" and text.version == 2:
        text.kinds.append(rest[0])
    elif word == "field":
        kind = text.kind(rest.pop(0)) if text.version == 2 else 0
        text.fields.append((kind, rest[0], rest[1] == "ref"))
    elif word == "nodes":
        kind = text.kind(rest.pop(0)) if text.version == 2 else 0
        if kind != len(text.counts):
            raise ValueError("the kinds of the nodes lines are out of order")
        text.counts.append(number_of(rest[0]))
    elif word == "node":
        text.values.append(rest)
    elif word == "root":
        text.roots.append((rest[0], rest[-1]))
    else:
        raise ValueError(f"no declaration begins with {word}")


def read_line(text, line, words):
    """Reads a line after the first."""
    op = text.ops[-1] if text.ops else None
    if words[0] == "op" and len(words) == 3:
        text.ops.append(Operation(words[1], number_of(words[2])))
    elif op is None:
        read_declaration(text, words)
    elif words in (["gen"], ["wrap"]):
        op.methods[words[0]] = Method(op.name, words[0], line)
    elif not op.methods:
        raise ValueError(f"the generator of {op.name} must begin here, by the line gen")
    else:
        code = op.methods[list(op.methods)[-1]].code
        if words[0] in ("with", "withroot"):
            code[-1].exchanges.append(Exchange(line, words))
        else:
            code.append(Instruction(line, words))


def missing_part(text):
    """Says what isn't there of a text at whose end nothing follows, or returns None."""
    if not text.ops:
        return "an operation must follow, by a line `op NAME A`"
    for op in text.ops:
        for kind, what in (("gen", "generator"), ("wrap", "wrap-up")):
            if not op.methods.get(kind) or not op.methods[kind].code:
                return f"the {what} of {op.name} has no instruction"
    last = text.ops[-1].methods["wrap"].code[-1]
    return None if last.word in ENDS + ("jump",) else f"the wrap-up of {text.ops[-1].name} isn't at its end"


def read_text(lines, head, said):
    """Reads a text or a target up to the first setting.

    head: `oa` or `oat`, the first word; said: what must stand in the first line. Raises Flaw at the first line that can't be read. It isn't judged
    otherwise: `oa check` does that.
    """
    text = None
    for at, line in enumerate(lines, 1):
        words = line.split()
        if not words or words[0].startswith("#"):
            continue
        if text and ends_text(words):
            break
        try:
            if text:
                read_line(text, at, words)
            elif words in ([head, "1"], [head, "2"]):
                text = Text(int(words[1]))
            else:
                raise ValueError(said)
        except (ValueError, IndexError) as error:
            raise Flaw(at, str(error) if isinstance(error, ValueError) else "a word is missing") from None
    if text is None:
        raise Flaw(1, said)
    missing = missing_part(text)
    if missing:
        raise Flaw(len(lines), f"the text ends here, and {missing}")
    return text

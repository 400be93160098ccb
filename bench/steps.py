#!/usr/bin/env python3
"""Counts the steps of operations of the shipped texts, each alone and undisturbed: by combined checks, by a check after each load,
under epochs, and with one hazard published a read. Run it at the top of the repository; ./oa has to compile.

A step is one access to one word that callers share. The targets are what `./oa compile` prints. This program isn't proved; it reads
the targets, rearranges or leaves out their checks for the other three columns, and interprets them over a memory of its own:

- combined: the target as it stands.
- first scheme: the same instructions and guards; a check after each load and `new`, and after guards.
- epochs: the text as it is. The operation begins with a load of the phase and a store in the own warning word, and its return
  stores 0 there.
- hazards: no guards, no checks, and no load of a warning. Each load of a node is followed by a store of its slot in a hazard word
  and by a second load of the same word, as by hazard pointers (Michael, IEEE TPDS 2004). They are cleared when the operation ends.

In each column a `new` takes a slot that the caller holds already, and null is neither published nor cleared.
"""
import collections
import subprocess

Method = collections.namedtuple("Method", "instrs guards")  # jumps name instructions; the guards right before each
Op = collections.namedtuple("Op", "generator wrapup")

JUMPS = {"jump": 1, "ifeq": 3, "ifless": 3, "ifmarked": 2, "cas": 5, "casroot": 4}
LOADS = ("root", "pick", "load")


def methods_of(target):
    """The operations of a target, whose methods are lists of its instructions, a commit with its entries."""
    ops, code = {}, None
    for line in target.splitlines():
        words = line.split()
        if words[0] == "op":
            name = words[1]
        elif words[0] == "gen":
            code = []
            generator = code
        elif words[0] == "wrap":
            code = []
            ops[name] = Op(generator, code)
        elif words[0] in ("with", "withroot"):
            code[-1].append(words)
        elif code is not None:
            code.append(words)
    return ops


def is_plain(instr):
    return instr[0] not in ("chk", "grd")


def redirected(instr, place):
    if instr[0] not in JUMPS:
        return instr
    at = JUMPS[instr[0]]
    return instr[:at] + [str(place(int(instr[at])))] + instr[at + 1:]


def erased(code):
    """A method without its checks, and which guards stand before each instruction."""
    instrs, guards, pending = [], [], []
    for instr in code:
        if instr[0] == "grd":
            pending.append(instr)
        elif is_plain(instr):
            instrs.append(redirected(instr, lambda l: sum(map(is_plain, code[:l]))))
            guards.append(pending)
            pending = []
    return Method(instrs, guards)


def laid_out(blocks):
    """Code of the blocks of instructions, each jump to the first instruction of a block."""
    starts = [0]
    for block in blocks:
        starts.append(starts[-1] + len(block))
    return [redirected(instr, lambda l: starts[l]) for block in blocks for instr in block]


def first_scheme(code):
    method = erased(code)
    blocks = []
    for instr, guards in zip(method.instrs, method.guards):
        checked = [["chk"]] if instr[0] in LOADS + ("new",) else []
        blocks.append(guards + ([["chk"]] if guards else []) + [instr] + checked)
    return laid_out(blocks)


def bare(code):
    return erased(code).instrs


def with_hazards(code):
    return laid_out([[instr] + ([["publish", instr[1]]] if instr[0] in LOADS and instr[1][0] == "r" else []) for instr in erased(code).instrs])


class Memory:
    """The words of a target, whose nodes are all of one kind: roots, and the fields of nodes. A reference is a slot and a mark, and
    (0, False) is null."""

    def __init__(self, target):
        self.fields, self.roots, self.nodes = [], {}, {}
        for words in map(str.split, target.splitlines()):
            if words[0] == "field":
                self.fields.append(words[2:4])
            elif words[0] == "root":
                self.roots[words[1]] = self.value(words[-1])
            elif words[0] == "node":
                self.nodes[len(self.nodes) + 1] = dict(zip((name for name, _ in self.fields), map(self.value, words[1:])))
            elif words[0] == "op":
                return

    @staticmethod
    def value(word):
        return (0, False) if word == "null" else (int(word[1:]), False) if word[0] == "@" else int(word)


class Caller:
    """A caller that nobody disturbs. `way` says what it does beside its code: `warned`, `announced` or `hazards`."""

    def __init__(self, memory, way):
        self.memory, self.way, self.steps, self.guards = memory, way, 0, {}

    def store_guard(self, register):
        self.steps += 1
        self.guards[register] = self.registers[register][0]

    def clear(self):
        self.steps += sum(slot != 0 for slot in self.guards.values())
        self.guards = {}

    def begin(self):
        """What comes before the generator: a load of the warning, or a load of the phase and its store."""
        self.steps += {"warned": 1, "announced": 2, "hazards": 0}[self.way]

    def begin_wrap_up(self):
        if self.way == "warned":
            self.clear()
            self.steps += 1

    def leave(self):
        """What comes before the reply: the clear, or the store of 0 in the own warning word."""
        self.clear()
        self.steps += self.way == "announced"

    def word(self, place):
        """Where a word stands, and its key there."""
        return (self.memory.roots, place[0]) if len(place) == 1 else (self.memory.nodes[self.registers[place[0]][0]], place[1])

    def exchange(self, place, rest):
        """Compare-exchanges a word; who retires loads the phase and stores the slot's status."""
        self.steps += 1
        where, key = self.word(place)
        if where[key] != self.registers[rest[0]]:
            return False
        where[key] = self.registers[rest[1]]
        if "retire" in rest and self.registers[rest[-1]][0]:
            self.steps += 2
        return True

    def entry(self, words):
        return self.exchange(words[1:2], words[2:]) if words[0] == "withroot" else self.exchange(words[1:3], words[3:])

    def load(self, instr):
        registers = self.registers
        if instr[0] == "pick":
            roots = list(self.memory.roots)
            chosen = roots[roots.index(instr[2]) + registers[instr[4]] % int(instr[3])]
            return self.memory.roots[chosen]
        where, key = self.word(instr[2:])
        return where[key]

    def new(self, register):
        if self.way == "warned":
            self.clear()
        slot = max(self.memory.nodes) + 1
        self.memory.nodes[slot] = {name: (0, False) if kind == "ref" else 0 for name, kind in self.memory.fields}
        self.steps += len(self.memory.fields)
        self.registers[register] = (slot, False)

    def run(self, code):
        """Runs a method to its end: a commit, of which it answers how many exchanges were made, or an end of the operation."""
        at, registers = 0, self.registers
        while True:
            instr = code[at]
            kind, at = instr[0], at + 1
            if kind == "chk":
                self.steps += 1
            elif kind == "grd":
                self.store_guard(instr[1])
            elif kind == "publish":
                if registers[instr[1]][0]:
                    self.store_guard(instr[1])
                    self.steps += 1
            elif kind in LOADS:
                self.steps += 1
                registers[instr[1]] = self.load(instr)
            elif kind == "new":
                self.new(instr[1])
            elif kind == "put":
                self.steps += 1
                where, key = self.word(instr[1:3])
                where[key] = registers[instr[3]]
            elif kind == "set":
                registers[instr[1]] = int(instr[2])
            elif kind == "null":
                registers[instr[1]] = (0, False)
            elif kind == "mov":
                registers[instr[1]] = registers[instr[2]]
            elif kind in ("mark", "unmark"):
                registers[instr[1]] = (registers[instr[2]][0], kind == "mark")
            elif kind == "jump":
                at = int(instr[1])
            elif kind == "ifeq":
                at = int(instr[3]) if registers[instr[1]] == registers[instr[2]] else at
            elif kind == "ifless":
                at = int(instr[3]) if registers[instr[1]] < registers[instr[2]] else at
            elif kind == "ifmarked":
                at = int(instr[2]) if registers[instr[1]][1] else at
            elif kind in ("cas", "casroot"):
                place = 2 if kind == "casroot" else 3
                if not self.exchange(instr[1:place], instr[place:place + 2] + instr[place + 3:]):
                    at = int(instr[place + 2])
            elif kind == "commit":
                return self.committed(instr[2:])
            elif kind == "return":
                return registers[instr[1]]
            elif kind == "returnnone":
                return None
            else:
                raise ValueError(f"not interpreted: {instr}")

    def committed(self, entries):
        for count, entry in enumerate(entries):
            if not self.entry(entry):
                return count
        return len(entries)

    def operate(self, op, *args):
        """Makes an operation, and answers its reply and its steps. The shipped wrap-ups keep no reference."""
        self.steps, self.guards = 0, {}
        self.registers = {f"n{i}": value for i, value in enumerate(args)}
        self.begin()
        count = self.run(op.generator)
        self.begin_wrap_up()
        self.registers["n7"] = count
        reply = self.run(op.wrapup)
        self.leave()
        return reply, self.steps


def compiled(text):
    return subprocess.run(["./oa", "compile"], input=f"oa 1\n{text}\n", capture_output=True, text=True, check=True).stdout


def columns(target):
    ops = methods_of(target)
    made = lambda scheme: {name: Op(scheme(op.generator), scheme(op.wrapup)) for name, op in ops.items()}
    return [(made(first_scheme), "warned"), (ops, "warned"), (made(bare), "announced"), (made(with_hazards), "hazards")]


def row(target, prepared, asked, wanted):
    """The steps of calls after others, each column a mean over the calls."""
    means = []
    for ops, way in columns(target):
        total = 0
        for call, reply in zip(asked, wanted):
            caller = Caller(Memory(target), way)
            for name, *args in prepared:
                caller.operate(ops[name], *args)
            answer, steps = caller.operate(ops[call[0]], *call[1:])
            assert answer == reply, (call, answer, reply)
            total += steps
        means.append(total / len(asked))
    return means


def line(what, rows):
    """A line of the table: in each column the steps of one operation after the other."""
    spelled = lambda mean: f"{mean:.0f}" if mean == int(mean) else f"{mean:.1f}"
    print(f"| {what} | " + " | ".join(", ".join(map(spelled, column)) for column in zip(*rows)) + " |")


def main():
    print("| Operations | first scheme | combined checks | epochs | one hazard a read |\n|---|---|---|---|---|")
    target = compiled("use list")
    for count in (10, 100):
        keys = [("insert", key) for key in range(1, count + 1)]
        calls = [("contains", count), ("insert", count + 1), ("remove", count)]
        line(f"`contains`, `insert`, `remove` at the end of a list of {count} nodes", [row(target, keys, [call], [1]) for call in calls])
    target = compiled("use set 64")
    keys = [("insert", key) for key in range(100)]
    asked = [[(name, key) for key in range(first, first + 100)] for name, first in (("contains", 0), ("insert", 100), ("remove", 0))]
    line("the same on a set of 64 buckets and 100 nodes, means over 100 keys", [row(target, keys, calls, [1] * 100) for calls in asked])
    target = compiled("use queue")
    calls = [(("enqueue", 8), 8), (("dequeue",), 9)]
    line("`enqueue`, `dequeue` on a queue of one value", [row(target, [("enqueue", 9)], [call], [reply]) for call, reply in calls])


if __name__ == "__main__":
    main()

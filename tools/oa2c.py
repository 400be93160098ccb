"""Writes C11 for what `oa compile` prints. It is tested, and not proved.

usage: oa compile < DOCUMENT | oa2c NAME > NAME.h
       cc -I "$(oa2c --runtime)" ..

NAME is a prefix of lower-case letters, digits and `_` for what the header declares: `NAME_LAYOUT`, which oa_open of oa_rt.h takes, and for each
operation OP a function

    static inline int NAME_OP(oa_caller *caller, uint64_t a0, .., uint64_t *reply)

that answers OA_NUMBER with a number in *reply, OA_NONE, OA_FULL or OA_PHASES. Where OA_TABLE is defined, there is a table NAME_OPERATIONS as well. The
header includes oa_rt.h; `--runtime` prints the folder in which that stands.

The status is 1 if the input isn't a target, and standard error names the line; 2 if NAME is none, or would begin names of the C library; 3 if the input can't be
read, 8 if the header can't be written.
"""
import contextlib
import os
import re
import sys

sys.dont_write_bytecode = True
from oa_text import JUMPS, Flaw, number_of, read_text
from oa_tool import TOOLS, USAGE, Failed, Refused, lines_of, options_of, put, run_tool

NUMBERS = [f"n{number}" for number in range(8)]
REFERENCES = [f"r{number}" for number in range(8)]
HEAD = "the first line must be `oat 2`, as `oa compile` prints it, or `oat 1`"
# Names that begin what oa_rt.h and the headers that it includes declare.
TAKEN = ("oa", "atomic", "memory")


# ---- writing


@contextlib.contextmanager
def told_at(instruction):
    """What is wrong with an instruction is told with its line."""
    try:
        yield
    except (ValueError, IndexError) as error:
        raise Flaw(instruction.line, str(error) if isinstance(error, ValueError) else "a word is missing") from None


class Writer:
    """Writes the function of one operation."""

    def __init__(self, target, name, op):
        self.target, self.name, self.op = target, name, op
        wrap = op.methods["wrap"]
        used = {"n7"} if "n7" in wrap.read_at_start() else set()
        for method in op.methods.values():
            for instruction in method.code:
                used |= instruction.reads() | instruction.sets()
        self.used = [register for register in NUMBERS + REFERENCES if register in used]
        self.kept = [register for register in self.used if register in wrap.read_at_start()]
        self.restarts = any(instruction.word == "chk" for instruction in wrap.code)
        self.mask = sum(1 << int(register[1]) for register in self.kept if register[0] == "r")
        self.lines = []

    def row(self, reference, field):
        kind, place = self.target.field(field)
        stride = stride_of(self.target, kind)
        below = "0" if kind == 0 else f"below{kind}"
        return f"&oa_row(field{kind}, {reference}, {below}, {stride})[{place}]"

    def root(self, name, offset=""):
        place = f"({self.target.root(name)} + {offset})" if offset else str(self.target.root(name))
        return f"&root[{place} * {root_stride(self.target)}]"

    def label(self, at):
        return f"{self.method[0]}{at}"

    def goto(self, at):
        return f"goto {self.label(at)};"

    def exchange(self, entry):
        """Returns the condition of an exchange."""
        if entry.object is None:
            return f"oa_exchange({self.root(entry.place)}, {entry.expected}, {entry.new})"
        return f"oa_exchange_of({entry.object}, {self.row(entry.object, entry.place)}, {entry.expected}, {entry.new})"

    def commit(self, instruction):
        found = []
        for made, entry in enumerate(instruction.exchanges):
            found += [f"made = {made};", f"if (!{self.exchange(entry)}) goto wrap_up;"]
            if entry.new[0] == "r":
                found.append(f"oa_shown(caller, {entry.new});")
            if entry.retired:
                found.append(f"oa_retire(pool, {entry.retired});")
        found = found or ["OA_EVENT(OA_EVENT_LIST_END);"]
        return [*found, f"made = {len(instruction.exchanges)};", "goto wrap_up;"]

    def auxiliary(self, instruction):
        entry, = instruction.exchanges
        retire = [f"oa_retire(pool, {entry.retired});"] if entry.retired else []
        return [f"if (!{self.exchange(entry)}) {self.goto(instruction.words[JUMPS[instruction.word]])}", *retire]

    def new(self, words, news):
        kind = self.target.kind(words[2]) if self.target.version == 2 else 0
        place = news.count(kind)
        news.append(kind)
        fields = len(self.target.fields_of(kind))
        call = f"oa_new(caller, {kind}, {place}, {fields}, {stride_of(self.target, kind)}, &{words[1]})"
        return ["oa_clear(own, &guards, 0);", f"end = {call};", "if (end != OA_NONE) return end;"]

    def statements(self, instruction, news):
        """Returns the statements of an instruction."""
        word, rest = instruction.word, instruction.words[1:]
        if word == "new":
            return self.new(instruction.words, news)
        if word in ("commit", "cas", "casroot"):
            return self.commit(instruction) if word == "commit" else self.auxiliary(instruction)
        local = {
            "set": "{0} = UINT64_C({1});", "mov": "{0} = {1};", "add": "{0} = {1} + {2};", "sub": "{0} = {1} - {2};",
            "rem": "{0} = {1} % UINT64_C({2});", "null": "{0} = 0;", "mark": "{0} = {1} | 1;", "unmark": "{0} = {1} & ~UINT64_C(1);",
        }
        if word in local:
            return [local[word].format(*rest)]
        if word in ("jump", "ifeq", "ifless", "ifmarked"):
            test = {"jump": "", "ifeq": "if ({0} == {1}) ", "ifless": "if ({0} < {1}) ", "ifmarked": "if ({0} & 1) "}[word].format(*rest)
            return [test + self.goto(rest[-1])]
        if word in ("root", "pick", "load"):
            place = self.row(rest[1], rest[2]) if word == "load" else self.root(rest[1], word == "pick" and f"{rest[3]} % UINT64_C({rest[2]})")
            return [f"{rest[0]} = oa_read({place});"]
        if word in ("chk", "grd", "put"):
            return [{
                "chk": lambda: f"if (OA_CHK(caller, &seen)) goto {self.method}_warned;",
                "grd": lambda: f"OA_GRD(own, &guards, {rest[0][1]}, {rest[0]});",
                "put": lambda: f"oa_put({self.row(rest[0], rest[1])}, {rest[2]});",
            }[word]()]
        if word == "again":
            return ["OA_EVENT(OA_EVENT_ANSWER);", "oa_clear(own, &guards, 0);", "goto begin;"]
        if word in ("return", "returnnone"):
            reply = ["*reply = %s;" % rest[0], "return OA_NUMBER;"] if rest else ["return OA_NONE;"]
            return ["OA_EVENT(OA_EVENT_ANSWER);", "oa_clear(own, &guards, 0);", *reply]
        raise ValueError(f"there is no instruction {word}")

    def write_method(self, kind):
        self.method = kind
        method, news, reached, targets = self.op.methods[kind], [], self.op.methods[kind].reached(), set()
        for at in reached:
            targets |= {method.leads_to(method.code[at])}
        for at, instruction in enumerate(method.code):
            with told_at(instruction):
                statements = self.statements(instruction, news)
            if at not in reached:
                continue
            if at in targets:
                self.lines.append(f"{self.label(at)}:")
            self.lines.append(f"  /* {at}: {' '.join(instruction.words)} */")
            self.lines += [f"  {statement}" for statement in statements]

    def write_start(self):
        """The locals, and the generator's start."""
        op, kinds = self.op, self.kinds_used()
        arguments = "".join(f", uint64_t a{at}" for at in range(op.arguments))
        self.lines.append(f"static inline int {self.name}_{op.name}(oa_caller *caller{arguments}, uint64_t *reply) {{")
        self.lines.append("  oa_pool *const pool = caller->pool;")
        self.lines.append("  oa_own *const own = caller->own;")
        self.lines.append("  oa_word *const root = pool->root;")
        for kind in kinds:
            self.lines.append(f"  oa_word *const field{kind} = pool->field[{kind}];")
            if kind:
                self.lines.append(f"  const uint64_t below{kind} = pool->first[{kind}] - 1;")
        self.lines += ["  uint64_t seen = 0;", "  unsigned guards = 0, made = 0;", "  int end = OA_NONE;"]
        if self.used:
            self.lines.append("  uint64_t " + ", ".join(f"{register} = 0" for register in self.used) + ";")
        if self.kept and self.restarts:
            self.lines.append("  uint64_t " + ", ".join(f"kept_{register} = 0" for register in self.kept) + ";")
        spare = [f"a{at}" for at in range(op.arguments)] + ["root", "pool", "end", "reply", "seen", *self.used]
        self.lines.append("  " + " ".join(f"(void){word};" for word in spare))
        self.lines += ["begin:", "  seen = OA_SEEN(caller);", "  goto gen;", "gen_warned:", "  oa_clear(own, &guards, 0);", "gen:"]
        taken = [f"{register} = a{register[1]};" for register in self.used if register[0] == "n" and int(register[1]) < op.arguments]
        self.lines.append("  " + (" ".join(taken) or ";"))

    def kinds_used(self):
        found = set()
        for method in self.op.methods.values():
            for instruction in (method.code[at] for at in sorted(method.reached())):
                with told_at(instruction):
                    fields = [instruction.words[{"load": 3, "put": 2}[instruction.word]]] if instruction.word in ("load", "put") else []
                    fields += [entry.place for entry in instruction.exchanges if entry.object is not None]
                    found |= {self.target.field(field)[0] for field in fields}
        return sorted(found)

    def write_wrap_start(self):
        """The wrap-up's start, with the registers that it keeps. Where a check fails there it begins again with them."""
        self.lines += ["wrap_up:", "  OA_EVENT(OA_EVENT_WRAP_UP);", f"  oa_clear(own, &guards, {self.mask:#x}u);", "  seen = OA_SEEN(caller);"]
        self.lines.append("  n7 = made;" if "n7" in self.kept else "  (void)made;")
        if not self.restarts:
            return
        self.lines.append("  " + (" ".join(f"kept_{register} = {register};" for register in self.kept) or ";"))
        self.lines += ["  goto wrap;", "wrap_warned:", f"  oa_clear(own, &guards, {self.mask:#x}u);"]
        self.lines += ["  " + " ".join(f"{register} = kept_{register};" for register in self.kept)] if self.kept else []
        self.lines.append("wrap:;")

    def write(self):
        self.write_start()
        self.write_method("gen")
        self.write_wrap_start()
        self.write_method("wrap")
        text = "\n".join(self.lines)
        if "goto gen_warned;" not in text:
            text = text.replace("  goto gen;\ngen_warned:\n  oa_clear(own, &guards, 0);\ngen:\n", "")
        if "goto begin;" not in text:
            text = text.replace("begin:\n", "")
        if "goto wrap_up;" not in text:
            text = text.replace("wrap_up:\n", "")
        return text + ("\n}\n" if "return OA_N" in text else "\n  return OA_NONE; /* isn't reached */\n}\n")


def stride_of(target, kind):
    count = len(target.fields_of(kind))
    return 1 << (count - 1).bit_length()


def root_stride(target):
    """Few roots stand on a cache line each; many, as those of a hash set, are read more than written."""
    return 8 if len(target.roots) <= 16 else 1


def start_of(word):
    if word.startswith("@"):
        return f"{{{number_of(word[1:])}, 0}}"
    return "{0, 0}" if word == "null" else f"{{0, UINT64_C({number_of(word)})}}"


def write_layout(target, name):
    kinds = range(len(target.kinds))
    listed = lambda values: ", ".join(map(str, values))
    values = [start_of(word) for node in target.values for word in node]
    lines = [
        f"static const unsigned {name}_FIELDS[] = {{{listed(len(target.fields_of(kind)) for kind in kinds)}}};",
        f"static const unsigned {name}_STRIDE[] = {{{listed(stride_of(target, kind) for kind in kinds)}}};",
        f"static const unsigned {name}_NODES[] = {{{listed(target.counts)}}};",
        f"static const oa_start {name}_ROOT[] = {{{listed(start_of(root[1]) for root in target.roots)}}};",
        f"static const oa_start {name}_VALUES[] = {{{listed(values or ['{0, 0}'])}}};",
        f"static const oa_layout {name}_LAYOUT = {{{len(kinds)}, {len(target.roots)}, {root_stride(target)}, {name}_FIELDS, {name}_STRIDE, {name}_NODES, {name}_ROOT, {name}_VALUES}};",
    ]
    return "\n".join(lines) + "\n"


def write_table(target, name):
    """The operations by name, for programs that read calls."""
    lines = ["#ifdef OA_TABLE"]
    for op in target.ops:
        arguments = "".join(f", a[{at}]" for at in range(op.arguments))
        lines.append(f"static int {name}_CALL_{op.name}(oa_caller *caller, const uint64_t *a, uint64_t *reply) {{")
        lines.append(f"  (void)a;\n  return {name}_{op.name}(caller{arguments}, reply);\n}}")
    lines.append(f"static const struct {{\n  const char *name;\n  unsigned arguments;\n  int (*call)(oa_caller *, const uint64_t *, uint64_t *);\n}} {name}_OPERATIONS[] = {{")
    lines += [f'  {{"{op.name}", {op.arguments}, {name}_CALL_{op.name}}},' for op in target.ops]
    return "\n".join([*lines, "};", "#endif"]) + "\n"


def write(target, name):
    guard = f"OA_{name.upper()}_H"
    kinds = ", ".join(f"{at} {kind}" for at, kind in enumerate(target.kinds))
    fields = ", ".join(f"{field} of {target.kinds[kind]} {target.field(field)[1]}" for kind, field, _ in target.fields)
    head = f"/* Written by tools/oa2c from what `oa compile` printed; tested, and not proved. Kinds of node: {kinds}. Fields: {fields}. */\n"
    head += f"#ifndef {guard}\n#define {guard}\n#include \"oa_rt.h\"\n"
    ops = "\n".join(Writer(target, name, op).write() for op in target.ops)
    return "\n".join([head, write_layout(target, name), ops, write_table(target, name), "#endif\n"])


def runtime():
    """The folder with oa_rt.h: this script's, or where tools/install has put it."""
    return TOOLS if os.path.exists(os.path.join(TOOLS, "oa_rt.h")) else os.path.normpath(os.path.join(TOOLS, "..", "..", "include"))


def check_name(name):
    """Refuses a NAME by which the header wouldn't compile."""
    if not re.fullmatch(r"[a-z][a-z0-9_]*", name):
        raise Failed(f"NAME is a lower-case letter, then lower-case letters, digits and _, and not {name}", USAGE)
    if name.split("_")[0] in TAKEN:
        raise Failed(f"NAME begins each name of the header, and names that begin with {name.split('_')[0]}_ are those of oa_rt.h or of the C library", USAGE)


def main(words):
    options, names = options_of(words, {"--runtime": False})
    if options and not names:
        return put(runtime() + "\n")
    if options or len(names) != 1:
        raise Failed(f"one NAME is wanted, and there are {len(names)}", USAGE)
    check_name(names[0])
    try:
        put(write(read_text(lines_of(), "oat", HEAD), names[0]))
    except Flaw as flaw:
        raise Refused(None, *flaw.args) from None
    except (ValueError, IndexError) as error:
        raise Failed(f"standard input is no target that `oa compile` printed: {error}") from None


if __name__ == "__main__":
    run_tool(main, __doc__)

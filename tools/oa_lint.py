"""Warns of what the rules of the normal form accept and what is mostly a slip. It is tested, and not proved.

usage: oa-lint [--oa PROGRAM] [FILE ..]

A warning is a line `FILE:LINE: warning: ..`, which editors can follow. FILE may have labels (oa-labels). With `--oa PROGRAM` what
`PROGRAM check` refuses is told in the same form, as an error. Without FILE standard input is read. A byte that may not stand in a text is an error,
too. The status is 1 if there was a line, else 0; 2 if the words are wrong, 3 if FILE or PROGRAM can't be read, 8 if a line can't be written.

It warns of
- a node that two entries of one commit retire;
- an operation whose exchanges may fail, and whose wrap-up never reads `n7`;
- a node that an exchange takes out, or replaces, and doesn't retire;
- an instruction that no path reaches;
- a loop with no way to a commit, or in a wrap-up to an end, and an operation that only ever says `again`.
- a file without an operation.

No warning doesn't mean that a text is right, nor that it is proper.
"""
import re
import sys

sys.dont_write_bytecode = True
from oa_labels import to_text
from oa_text import ENDS, Flaw, methods_of
from oa_tool import ask, first_fault, name_of, options_of, program, put, read_bytes, run_tool, split_lines


def twice_retired(method):
    for instruction in method.code:
        retired = [exchange.retired for exchange in instruction.exchanges if exchange.retired]
        for register in sorted(set(retired)):
            if retired.count(register) > 1:
                yield instruction.line, f"{register} is retired by {retired.count(register)} entries of one commit, so if all succeed its slot is recycled twice"


def count_never_read(generator, wrap):
    if "n7" in wrap.read_at_start():
        return
    for at in sorted(generator.reached()):
        instruction = generator.code[at]
        if instruction.word == "commit" and instruction.exchanges:
            yield instruction.line, f"the exchanges of {generator.op} may fail, and its wrap-up never reads n7, the count of those that succeeded"
            return


def unreached(method):
    reached = method.reached()
    for at, instruction in enumerate(method.code):
        if at not in reached and (at == 0 or at - 1 in reached or method.code[at - 1].word in ENDS + ("jump",)):
            yield instruction.line, f"no path reaches instruction {at} of the {method.kind} of {method.op}"


def endless(method):
    """The first instruction that a path reaches, and from which none leads to an end."""
    for at in sorted(method.reached()):
        if not any(method.code[to].word in ENDS for to in method.reached(at)):
            goal = "a commit" if method.kind == "gen" else "an end"
            yield method.code[at].line, f"from instruction {at} of the {method.kind} of {method.op} no path leads to {goal}"
            return


def only_again(wrap):
    ends = [wrap.code[at] for at in sorted(wrap.reached()) if wrap.code[at].word in ENDS]
    if ends and all(end.word == "again" for end in ends):
        yield ends[0].line, f"{wrap.op} can only say `again`, and never returns"


# ---- nodes that are taken out


def after(instruction, facts):
    """Where registers come from: `(A, "from", B)` if A was loaded from the node of B, `(A, "fresh")`, `(A, "loaded")`, `(A, "linked", B)` if A's node had
    B put into it."""
    words = instruction.words
    if instruction.word == "put":
        return facts | {(words[1], "linked", words[3])}
    if not instruction.sets():
        return facts
    register = words[1]
    source = words[2] if instruction.word in ("mov", "mark", "unmark") else None
    given = {(register, *fact[1:]) for fact in facts if fact[0] == source and fact[1] != "linked"}
    kept = {fact for fact in facts if register not in (fact[0], fact[-1])}
    if instruction.word == "load":
        given |= {(register, "loaded")} | ({(register, "from", words[2])} if words[2] != register else set())
    if instruction.word in ("root", "pick"):
        given |= {(register, "loaded")}
    if instruction.word in ("new", "null"):
        given |= {(register, "fresh" if instruction.word == "new" else "null")}
    return kept | {fact for fact in given if fact[-1] != register or len(fact) == 2}


def along(instruction, facts, jumps):
    """The facts that go along a way from an instruction. A register that was found equal to null was loaded from nowhere."""
    if instruction.word != "ifeq" or not jumps:
        return facts
    for register, other in (instruction.words[1:3], instruction.words[2:0:-1]):
        if (other, "null") in facts and (other, "loaded") not in facts:
            facts = {fact for fact in facts if fact[0] != register}
    return facts


def facts_of(method):
    """Returns what may be so before each instruction, by some path."""
    facts = [set() for _ in method.code]
    left = sorted(method.reached())
    while left:
        at = left.pop(0)
        now = after(method.code[at], facts[at])
        for to in method.successors(at):
            gone = along(method.code[at], now, to != at + 1)
            if not gone <= facts[to]:
                facts[to] = facts[to] | gone
                left.append(to)
    return facts


def takes_out(exchange, facts):
    """Whether the exchange goes round the expected node, to what that led to, or puts a fresh one in its place that doesn't lead to it."""
    if (exchange.new, "from", exchange.expected) in facts:
        return True
    return (exchange.new, "fresh") in facts and (exchange.expected, "loaded") in facts and (exchange.new, "linked", exchange.expected) not in facts


def not_retired(methods):
    """An exchange that takes a node out and doesn't retire it, if no other of its place retires nodes, may be right if nodes are retired elsewhere: so
    it is with the tail of a queue."""
    exchanges = [(exchange, method) for method in methods for instruction in method.code for exchange in instruction.exchanges]
    retiring = {(exchange.object is None, exchange.place) for exchange, _ in exchanges if exchange.retired}
    for method in methods:
        facts = facts_of(method)
        for at in sorted(method.reached()):
            for exchange in method.code[at].exchanges:
                place = (exchange.object is None, exchange.place)
                if not exchange.retired and exchange.expected[0] == "r" and takes_out(exchange, facts[at]) and (not retiring or place in retiring):
                    yield exchange.line, f"the exchange takes out the node of {exchange.expected} and doesn't retire it, so that its slot is lost"


# ---- what `oa check` says


def refusal(oa, lines, methods):
    """Returns what `oa check` refuses, as (line, what)."""
    try:
        text = "\n".join(to_text(lines))
    except Flaw as flaw:
        return [(flaw.args[0], f"error: {flaw.args[1]}")]
    status, said, told = ask([oa, "check"], text)
    told = told.strip().split("\n")[-1].removeprefix("oa: ")
    rule = re.match(r"refused (N\d+) op (\w+) (gen|wrap) (\d+)", said)
    if rule:
        method = next(method for method in methods if (method.op, method.kind) == (rule[2], rule[3]))
        instruction = method.code[int(rule[4])]
        # the message begins with the line, the rule and the instruction, which are told here already
        return [(instruction.line, f"error: {rule[1]}: {' '.join(instruction.words)}: {told.split(': ', 2)[-1]}")]
    fault = re.match(r"line (\d+) fault (\d+)", said)
    if fault:
        return [(int(fault[1]), f"error: fault {fault[2]}: {told}")]
    return [] if status == 0 else [(1, f"error: {said.strip() or told} (status {status})")]


def no_operation(lines, methods):
    if not methods and not any(line.split()[:1] == ["use"] for line in lines):
        yield 1, "there is no operation here, as a line `op NAME A` begins it, and no `use` line: is this a text?"


def warnings(lines, methods):
    yield from no_operation(lines, methods)
    for method in methods:
        wrap = next((other for other in methods if other.op == method.op and other.kind == "wrap"), None)
        yield from twice_retired(method)
        yield from unreached(method)
        yield from endless(method)
        if method.kind == "gen" and wrap:
            yield from count_never_read(method, wrap)
        if method.kind == "wrap":
            yield from only_again(method)
    yield from not_retired(methods)


def found_in(lines, oa):
    """Returns what is to be said of a file, as (line, what), in the order of the lines."""
    fault = first_fault(lines)
    if fault:
        return [(fault[0], f"error: {fault[1]}")]
    methods = methods_of(lines)
    found = [(line, f"warning: {what}") for line, what in warnings(lines, methods)]
    return sorted(found + (refusal(oa, lines, methods) if oa else []))


def main(words):
    options, files = options_of(words, {"--oa": True})
    oa = program("oa", options["--oa"]) if options else None
    status = 0
    for path in files or [None]:
        for line, what in found_in(split_lines(read_bytes(path)), oa):
            put(f"{name_of(path)}:{line}: {what}\n")
            status = 1
    return status


if __name__ == "__main__":
    run_tool(main, __doc__)

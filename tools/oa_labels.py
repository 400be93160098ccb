"""Labels in place of the numbers of instructions: turns them into a text for `oa`, and back. It is tested, and not proved.

usage: oa-labels [FILE] > TEXT.oa
       oa-labels --back [FILE] > TEXT.oal

In a method a line `NAME:` is a label of the instruction after it, and may stand where a jump, an `if` form, a `cas` or a `casroot` has the number
of an instruction. Numbers may still stand there. In the text a label's line is the comment `# NAME:`, so that each line keeps its number, and what
`oa` says of a line is said of that line of FILE too. `--back` makes such comments labels again, and gives the name `atN` to the other places that
a jump leads to. Without FILE standard input is read.

A label is a lower-case letter, then lower-case letters, digits and `_`, and a colon right behind, alone on its line. The status is 1 if a label is
missing, stands twice or is spelled otherwise, 2 if the words are wrong, 3 if FILE can't be read, 8 if the text can't be written.
"""
import re
import sys

sys.dont_write_bytecode = True
from oa_text import JUMPS, Flaw, is_label, methods_of
from oa_tool import USAGE, Failed, Refused, lines_of, options_of, put, run_tool

SPELLED = "a lower-case letter, then lower-case letters, digits and _, and a colon right behind, alone on its line"


def spelled(line, words):
    """Returns the words with the indentation of the line."""
    return line[: len(line) - len(line.lstrip())] + " ".join(words)


def missing(method, instruction):
    """Says that an instruction leads to no label, and which there are."""
    word = " ".join(instruction.words[JUMPS[instruction.word]:][:1])
    there = f"whose labels are {', '.join(method.labels)}" if method.labels else "which has no labels"
    return f"there is no label {word} in this {method.kind}, {there}" if word else f"a label or a number must follow {instruction.word} here"


def check_spelling(method):
    """Refuses a line that looks like a label, and isn't spelled like one."""
    for instruction in method.code:
        if instruction.word.endswith(":") or instruction.words[1:2] == [":"]:
            raise Flaw(instruction.line, f"'{' '.join(instruction.words)}' isn't a label, and would be an instruction. A label is {SPELLED}")


def check_labels(lines, methods):
    """Refuses a label that stands twice in a method, at its end or in none, and one that isn't in the method that names it."""
    for method in methods:
        check_spelling(method)
        for name, at in method.labels.items():
            if at == len(method.code):
                raise Flaw(method.line, f"no instruction follows the label {name} of this {method.kind}")
        for instruction in method.code:
            if instruction.word in JUMPS and method.leads_to(instruction) is None:
                raise Flaw(instruction.line, missing(method, instruction))
    places = {line for method in methods for line in method.label_lines}
    seen = set()
    for at, line in enumerate(lines, 1):
        words = line.split()
        if words in (["gen"], ["wrap"]):
            seen = set()
        elif is_label(words) and at not in places:
            raise Flaw(at, f"the label {words[0][:-1]} stands in no generator and no wrap-up")
        elif is_label(words) and (words[0] in seen or seen.add(words[0])):
            raise Flaw(at, f"the label {words[0][:-1]} stands twice")


def to_text(lines):
    methods = methods_of(lines)
    check_labels(lines, methods)
    out = [spelled(line, ["#", *line.split()]) if is_label(line.split()) else line for line in lines]
    for method in methods:
        for instruction in method.code:
            place = JUMPS.get(instruction.word)
            if place is not None and not instruction.words[place].isdigit():
                words = [*instruction.words]
                words[place] = str(method.labels[words[place]])
                out[instruction.line - 1] = spelled(lines[instruction.line - 1], words)
    return out


def comments_of(lines, method):
    """Returns the comments `# NAME:` of a method, by the number of the instruction after them, as (name, line)."""
    found, start = {}, method.line
    for at, instruction in enumerate(method.code):
        for line in range(start + 1, instruction.line):
            named = re.fullmatch(r"\s*#\s*([a-z][a-z0-9_]*):", lines[line - 1])
            if named:
                found[at] = (named[1], line)
        start = instruction.line
    return found


def to_labels(lines):
    out = {number: [line] for number, line in enumerate(lines, 1)}
    for method in methods_of(lines):
        comments, names = comments_of(lines, method), {}
        for target in sorted({method.leads_to(instruction) for instruction in method.code} - {None}):
            if target >= len(method.code):
                continue
            name, line = comments.get(target, (f"at{target}", None))
            names[target] = name
            if line:
                out[line] = [spelled(lines[line - 1], [f"{name}:"])]
            else:
                out[method.code[target].line].insert(0, f"{name}:")
        for instruction in method.code:
            target = method.leads_to(instruction)
            if target in names:
                words = [*instruction.words]
                words[JUMPS[instruction.word]] = names[target]
                out[instruction.line][-1] = spelled(lines[instruction.line - 1], words)
    return [line for number in sorted(out) for line in out[number]]


def main(words):
    options, files = options_of(words, {"--back": False})
    if len(files) > 1:
        raise Failed(f"one FILE is read, and not {len(files)}", USAGE)
    path = files[0] if files else None
    lines = lines_of(path)
    try:
        put("\n".join(to_labels(lines) if options else to_text(lines)))
    except Flaw as flaw:
        raise Refused(path, *flaw.args) from None


if __name__ == "__main__":
    run_tool(main, __doc__)

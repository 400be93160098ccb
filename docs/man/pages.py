#!/usr/bin/env python3
"""Makes the manual page of each tool from its first lines, which `--help` writes too.

usage: docs/man/pages.py [--check]

It writes docs/man/NAME.1 for each tools/NAME. With --check it writes nothing: the status is 1 if a page isn't as it would be made.
"""
import ast
import os
import re
import sys

HERE = os.path.dirname(os.path.realpath(__file__))
sys.path[:0] = [os.path.join(HERE, "..", "..", "tools")]
sys.dont_write_bytecode = True
from oa_tool import TOOLS, USAGE, Failed, options_of, put, run_tool, tool_names, write_file

DATE = "December 1, 2026"


def tools():
    """Returns the docstrings of the tools by their names."""
    found = {}
    for name in tool_names():
        with open(os.path.join(TOOLS, name.replace("-", "_") + ".py"), encoding="utf-8") as file:
            found[name] = ast.get_docstring(ast.parse(file.read()))
    return found


def running(text):
    """Text for a page: backslashes and what would be a request are escaped, and what stands in backticks is quoted."""
    lines = re.sub(r"`([^`]*)`", r"\\(oq\1\\(cq", text.replace("\\", "\\e")).split("\n")
    return "\n".join("\\&" + line if line[:1] in (".", "'") else line for line in lines)


def literal(lines):
    return ".Bd -literal -offset indent\n" + "\n".join("\\&" + line.replace("\\", "\\e") for line in lines) + "\n.Ed\n"


def paragraph(block):
    """A paragraph, a block of literal lines, or a list whose items begin with a dash."""
    lines = block.split("\n")
    if lines[0].startswith("    "):
        return literal([line[4:] for line in lines])
    head, *items = re.split(r"(?m)^- ", block)
    text = f".Pp\n{running(head.strip())}\n" if head.strip() else ""
    if items:
        text += ".Bl -dash -compact\n" + "".join(f".It\n{running(item.strip())}\n" for item in items) + ".El\n"
    return text


def joined(blocks):
    """Blocks of literal lines that only an empty line parts are one."""
    found = []
    for block in blocks:
        if found and found[-1].startswith("    ") and block.startswith("    "):
            found[-1] += "\n\n" + block
        else:
            found.append(block)
    return found


def page(name, description, others):
    """Returns the manual page of a tool."""
    head, *blocks = joined(re.split(r"\n\n+", description.strip()))
    usage = next(block for block in blocks if block.startswith("usage:"))
    rest = [block for block in blocks if block is not usage]
    status = next((block for block in rest if "status is" in block.split(". ")[0] or re.search(r"(?s)The status is", block)), "")
    title, more = (head.split(". ", 1) + [""])[:2]
    lines = [line[7:].replace("tools/", "") for line in usage.split("\n")]
    text = f".Dd {DATE}\n.Dt {name.upper()} 1\n.Os\n.Sh NAME\n.Nm {name}\n.Nd {running(title[0].lower() + title[1:].rstrip('.'))}\n"
    text += ".Sh SYNOPSIS\n" + literal(lines) + ".Sh DESCRIPTION\n" + (running(more) + "\n" if more else "")
    text += "".join(paragraph(block) for block in rest if block is not status)
    before, _, told = status.partition("The status is")
    text += paragraph(before) if before.strip() else ""
    text += f".Sh EXIT STATUS\n{running('The status is' + told)}\n" if told else ""
    return text + ".Sh SEE ALSO\n" + " ,\n".join(f".Xr {other} 1" for other in others if other != name) + "\n"


def main(words):
    options, rest = options_of(words, {"--check": False})
    if rest:
        raise Failed(f"it takes no word {rest[0]}", USAGE)
    found, wrong = tools(), 0
    for name, description in found.items():
        path, made = os.path.join(HERE, f"{name}.1"), page(name, description, ["oa", "oax", *found])
        if not options:
            write_file(path, made)
        elif not os.path.exists(path) or open(path, encoding="utf-8").read() != made:
            put(f"docs/man/{name}.1 isn't what docs/man/pages.py makes\n")
            wrong = 1
    return wrong


if __name__ == "__main__":
    run_tool(main, __doc__)

"""What the tools share of how a program is called: words, input, output, and how it ends. Tested, and not proved.

A tool ends by a sentence on standard error and a status, never by a traceback:

    0  done                                   3  a file can't be read
    1  the tool found or refused something    8  the output can't be written
    2  the words aren't those of the tool   130  interrupted
"""
import os
import shutil
import signal
import subprocess
import sys

REFUSED, USAGE, UNREAD, UNWRITTEN, INTERRUPTED = 1, 2, 3, 8, 130
TOOLS = os.path.dirname(os.path.realpath(__file__))


class Failed(Exception):
    """Ends a tool, with a sentence for standard error and a status."""

    def __init__(self, said, status=REFUSED):
        super().__init__(said)
        self.status = status


class Refused(Failed):
    """What is wrong at a line of the input. Standard error has it as `NAME:LINE: ..`, which editors can follow."""

    def __init__(self, path, line, said):
        super().__init__(f"{name_of(path)}:{line}: {said}")


def tool_names():
    """Returns the tools' names, in order: oa-lint is a file beside oa_lint.py, which starts it by `oa_launch`."""
    return [name for name in sorted(os.listdir(TOOLS)) if "." not in name and os.path.isfile(os.path.join(TOOLS, name.replace("-", "_") + ".py"))]


def tool_name():
    name = os.path.basename(sys.argv[0])
    return name[:-3].replace("_", "-") if name.startswith("oa") and name.endswith(".py") else name


def run_tool(main, description):
    """Runs `main` on the words of the command line, and ends the program with the status that it returns, None being 0.

    description: the tool's docstring. `--help` writes it, and a mistake in the words shows its usage.
    """
    tool, status = tool_name(), 0
    try:
        signal.signal(signal.SIGINT, signal.default_int_handler)  # oa_launch has it ignored
        if "--help" in sys.argv[1:]:
            put(description.strip() + "\n")
        else:
            status = main(sys.argv[1:]) or 0
    except Failed as failed:
        status = failed.status
        tell(("" if isinstance(failed, Refused) else f"{tool}: ") + str(failed) + (f"\n{usage_in(description)}" if status == USAGE else ""))
    except KeyboardInterrupt:
        status = INTERRUPTED
        tell(f"{tool}: interrupted")
    except RecursionError:
        status = REFUSED
        tell(f"{tool}: the input is nested too deeply")
    except MemoryError:
        status = 9
        tell(f"{tool}: memory ran out")
    os._exit(status)  # what is left in a buffer isn't written: `put` has written all


def usage_in(description):
    """Returns the paragraph of a docstring that begins with `usage`."""
    start = description.index("usage:")
    return description[start:].split("\n\n")[0].rstrip()


def tell(text):
    """Writes to standard error. If that isn't there, nobody is told."""
    try:
        os.write(2, (text + "\n").encode("utf-8", "replace"))
    except OSError:
        pass


def put(text):
    """Writes to standard output, text or bytes."""
    left = text if isinstance(text, bytes) else text.encode("utf-8", "surrogateescape")
    try:
        while left:
            left = left[os.write(1, left):]
    except OSError as error:
        raise Failed(f"standard output can't be written: {reason(error)}", UNWRITTEN) from None


def reason(error):
    return error.strerror or str(error)


def write_file(path, text):
    try:
        with open(path, "w", encoding="utf-8") as file:
            file.write(text)
    except OSError as error:
        raise Failed(f"{path} can't be written: {reason(error)}", UNWRITTEN) from None


def read_bytes(path=None):
    """Returns what is in a file, or on standard input."""
    try:
        if path is None and os.isatty(0):
            tell(f"{tool_name()}: reading from the terminal, up to Ctrl-D")
        with open(0 if path is None else path, "rb", closefd=path is not None) as file:
            return file.read()
    except (OSError, ValueError) as error:
        why = reason(error) if isinstance(error, OSError) else str(error)
        raise Failed(f"{name_of(path)} can't be read: {why}", UNREAD) from None


def name_of(path):
    return "standard input" if path is None else path


def split_lines(data):
    """Returns the lines of some bytes, each byte a letter of its own number."""
    return data.decode("latin-1").split("\n")


def lines_of(path=None):
    """Returns the lines of a file, or of standard input, each of them plain: a line with another byte is refused."""
    lines = split_lines(read_bytes(path))
    fault = first_fault(lines)
    if fault:
        raise Refused(path, *fault)
    return lines


def first_fault(lines):
    """Returns the first byte that may not stand in a text, as (line, sentence), or None."""
    for number, line in enumerate(lines, 1):
        for place, letter in enumerate(line, 1):
            if not (letter == "\t" or " " <= letter <= "~"):
                more = ", a carriage return: lines end in a newline alone" if letter == "\r" else ""
                return number, f"byte {place} of the line is 0x{ord(letter):02x}{more}. A line has tabs and the bytes from space to ~"
    return None


def options_of(words, known):
    """Takes the options out of the words of a command line.

    known: for each option whether a word follows it. Returns the options that are there, with that word or True, and the other words. `-` is no option.
    """
    found, rest, words = {}, [], list(words)
    while words:
        word = words.pop(0)
        if not word.startswith("-") or word == "-":
            rest.append(word)
        elif word not in known:
            raise Failed(f"there is no option {word}", USAGE)
        elif known[word] and not words:
            raise Failed(f"a word must follow {word}", USAGE)
        else:
            found[word] = words.pop(0) if known[word] else True
    return found, rest


def number_in(word, what, least=0, most=2**64 - 1):
    if not (word.isascii() and word.isdigit()) or not least <= int(word) <= most:
        raise Failed(f"{what} is a number from {least} to {most}, and not {word}", USAGE)
    return int(word)


# ---- programs


def program(name, given=None):
    """Returns the path of `oa` or `oax`: the one that is given, or the one on the path, or that beside the tools, in the clone or as installed."""
    beside = [os.path.join(TOOLS, "..", name), os.path.join(TOOLS, "..", "..", "bin", name)]
    places = [given, shutil.which(given)] if given else [shutil.which(name), *beside]
    for place in places:
        if place and os.path.isfile(place) and os.access(place, os.X_OK):
            return os.path.abspath(place)
    raise Failed(f"there is no program {given or name}", USAGE if given else UNREAD)


def ask(words, text):
    """Runs a program on some input, and returns its status and what it writes to standard output and to standard error."""
    data = text if isinstance(text, bytes) else text.encode("latin-1")
    try:
        made = subprocess.run(words, input=data, capture_output=True)
    except OSError as error:
        raise Failed(f"{words[0]} can't be run: {reason(error)}", UNREAD) from None
    return made.returncode, made.stdout.decode("latin-1"), made.stderr.decode("latin-1")

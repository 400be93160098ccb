"""The objects against which tools/oa-legal and tools/oa-fuzz judge replies. Tested, and not proved.

A method is an operation: it takes its numbers, and returns a number, or None.
"""
import inspect

from oa_tool import UNREAD, USAGE, Failed, reason


class Set:
    """insert and remove reply 1 if they changed the set, contains 1 if the key is there; min the least key, size how many there are."""

    def __init__(self):
        self.keys = frozenset()

    def insert(self, key):
        added = key not in self.keys
        self.keys |= {key}
        return int(added)

    def remove(self, key):
        taken = key in self.keys
        self.keys -= {key}
        return int(taken)

    def contains(self, key):
        return int(key in self.keys)

    def min(self):
        return min(self.keys, default=None)

    def size(self):
        return len(self.keys)


class Map:
    """put replies 1 if the key had a value, else 0; get its value, or none; remove 1 if it took the key out, else 0; size how many there are."""

    def __init__(self):
        self.values = {}

    def put(self, key, value):
        replaced = key in self.values
        self.values[key] = value
        return int(replaced)

    def get(self, key):
        return self.values.get(key)

    def remove(self, key):
        return int(self.values.pop(key, None) is not None)

    def size(self):
        return len(self.values)


class Queue:
    """enqueue replies its number, dequeue the number that was put in first, or none; size how many there are."""

    def __init__(self):
        self.items = ()

    def enqueue(self, value):
        self.items += (value,)
        return value

    def dequeue(self):
        if not self.items:
            return None
        first, self.items = self.items[0], self.items[1:]
        return first

    def size(self):
        return len(self.items)


class Stack:
    """push replies none, pop the number that was pushed last, or none; size how many there are."""

    def __init__(self):
        self.items = ()

    def push(self, value):
        self.items += (value,)

    def pop(self):
        if not self.items:
            return None
        self.items, last = self.items[:-1], self.items[-1]
        return last

    def size(self):
        return len(self.items)


class Counter:
    """add replies the sum with its number; get the sum; nop none."""

    def __init__(self):
        self.sum = 0

    def add(self, number):
        self.sum = (self.sum + number) % 2**64
        return self.sum

    def get(self):
        return self.sum

    def nop(self):
        return None


OBJECTS = {"set": Set, "map": Map, "queue": Queue, "stack": Stack, "counter": Counter}


def object_of(word):
    """Returns the class of an object that is named, or that stands in a file."""
    if word in OBJECTS:
        return OBJECTS[word]
    path, _, name = word.partition(".py:")
    path = path + ".py" if name else path
    if not path.endswith(".py"):
        raise Failed(f"there is no object {word}: it is {', '.join(OBJECTS)}, or a class of yours in FILE.py", USAGE)
    classes = classes_in(path)
    if name and name not in classes:
        raise Failed(f"there is no class {name} in {path}, but {', '.join(classes) or 'none'}", UNREAD)
    if not name and len(classes) != 1:
        raise Failed(f"{path} has {len(classes)} classes: say which by {path}:CLASS", USAGE)
    return classes[name or next(iter(classes))]


def classes_in(path):
    """Runs a file, and returns the classes that it defines."""
    try:
        with open(path, "rb") as file:
            source = file.read()
        names = {"__name__": "oa_legal_object"}
        exec(compile(source, path, "exec"), names)
    except OSError as error:
        raise Failed(f"{path} can't be read: {reason(error)}", UNREAD) from None
    except Exception as error:
        raise Failed(f"{path} can't be run: {type(error).__name__}: {error}", UNREAD) from None
    return {name: found for name, found in names.items() if isinstance(found, type) and found.__module__ == "oa_legal_object"}


def check_operations(made, calls):
    """Refuses calls that the object has no method for."""
    for call in calls:
        method = getattr(made, call.name, None)
        if not callable(method) or call.name.startswith("_"):
            raise Failed(f"{made.__name__} has no method {call.name}, which `{call}` needs", UNREAD)
        try:
            inspect.signature(method).bind(None, *call.arguments)
        except TypeError:
            raise Failed(f"{call.name} of {made.__name__} doesn't take the {len(call.arguments)} numbers of `{call}`", UNREAD) from None

"""The stack check: a header says of each function how much stack it needs, and what was measured is not more than
that, nor much less."""

import re

import entries
import source

SLACK = 256  # what a header may say above the measured bytes
FUNCTION = re.compile(r"/\*((?:(?!\*/).)*)\*/\s*\w+ gridprofile_(\w+)\s*\(", re.S)
STATED = re.compile(r"\bStack: (\d+) bytes\.")
MEASURED = re.compile(r"(\w+) (\d+)")


def stated(root):
    """What the headers say of each function, by its name: the numbers in the paragraph before it."""
    functions = [found for header in entries.headers(root) for found in FUNCTION.findall(source.text_of(root, header))]
    return {name: STATED.findall(paragraph) for paragraph, name in functions}


def measured(text):
    """The bytes of each function, from a line for each: its name and the bytes."""
    return {name: int(size) for name, size in MEASURED.findall(text)}


def problem(says, used):
    """What is wrong with a function's figures, or None."""
    if len(says) != 1:
        return f"its paragraph says {len(says)} times what stack it needs, not once"
    if used is None:
        return "its stack was not measured"
    if not used <= int(says[0]) <= used + SLACK:
        return f"the header says {says[0]} bytes of stack, and {used} were measured"
    return None


def check(root, text):
    """A pair for each function that a header declares or that was measured: what it is, and its problem or None."""
    says, used = stated(root), measured(text)
    names = [name.removeprefix("gridprofile_") for name in entries.declared(root)]
    names += [name for name in used if name not in names]
    return [(f"stack of {name}", problem(says.get(name, []), used.get(name))) for name in names]

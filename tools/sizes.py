"""Text sizes: what firmware takes from the archive when it links some of the entries with --gc-sections, as a list, and
the check that README says the same; and what the archive needs from outside."""

import os
import re
import subprocess
import sys

sys.path.insert(0, os.path.dirname(os.path.abspath(__file__)))
import entries  # noqa: E402
import source  # noqa: E402

ARCHIVE = "target/staticlib/libgridprofile.a"
LINKED = "target/sizes"
README = "README.md"
OUTSIDE = ("memcpy", "memset")  # what a caller without a C library brings
SLACK = 0.03  # how far README may be off, as a share of what is measured

# A row of README and the entries that it speaks of; none are all of them.
ROWS = (
    ("verify", ("verify",)),
    ("load, lookup", ("load", "lookup")),
    ("verify, load, lookup, shake128, as the firmware above", ("verify", "load", "lookup", "shake128")),
    ("the same at category 3", ("category3_verify", "category3_load", "lookup", "shake128")),
    ("the same at category 5", ("category5_verify", "category5_load", "lookup", "shake128")),
    ("every entry", ()),
)


def printed(*command, cwd):
    """What a command prints. One that fails is an error."""
    return subprocess.run(command, cwd=cwd, check=True, text=True, stdout=subprocess.PIPE).stdout


def functions_of(root, names):
    """The C functions of a row. One that is not declared is an error: the linker would count it as nothing."""
    declared = entries.declared(root)
    functions = [f"gridprofile_{name}" for name in names] or declared
    for function in functions:
        if function not in declared:
            raise source.Problem(f"{function} is not declared")
    return functions


def text_bytes(root, names):
    """The bytes of code and constants that are left of the archive. memcpy and memset are the caller's."""
    functions = functions_of(root, names)
    roots = [word for function in functions for word in ("-u", function)]
    flags = ["--gc-sections", "--unresolved-symbols=ignore-all", "-e", functions[0]]
    printed("ld", *flags, *roots, ARCHIVE, "-o", LINKED, cwd=root)
    return int(printed("size", LINKED, cwd=root).splitlines()[1].split()[0])


def unresolved(said):
    """The names that the linker missed, by what it says."""
    return sorted(set(re.findall(r"undefined reference to `(\w+)'", said)))


def outside(root):
    """What is wrong with what all entries, linked whole, need from outside, or None."""
    roots = [word for function in functions_of(root, ()) for word in ("-u", function)]
    brought = [word for name in OUTSIDE for word in ("--defsym", f"{name}=0")]
    command = ["ld", *brought, "-e", roots[1], *roots, ARCHIVE, "-o", LINKED]
    linked = subprocess.run(command, cwd=root, text=True, stdout=subprocess.PIPE, stderr=subprocess.STDOUT)
    if more := unresolved(linked.stdout):
        return f"beside {' and '.join(OUTSIDE)} it needs {', '.join(more)}"
    return None if linked.returncode == 0 else f"it cannot be linked: {linked.stdout[:200]}"


def stated(text, row):
    """The numbers that README has in rows of this name."""
    found = re.findall(rf"^\| {re.escape(row)} \| ([\d,]+) \|$", text, re.M)
    return [int(number.replace(",", "")) for number in found]


def problem(says, used):
    """What is wrong with a row, or None."""
    if len(says) != 1:
        return f"README has {len(says)} such rows, not one"
    if abs(says[0] - used) > SLACK * used:
        return f"README says {says[0]} bytes of text, and {used} were measured"
    return None


def compare(root, row, names):
    """The problem of a row, or None."""
    try:
        return problem(stated(source.text_of(root, README), row), text_bytes(root, names))
    except (source.Problem, OSError, subprocess.SubprocessError) as error:
        return f"it cannot be measured: {error}"


def check(root):
    """A pair for each row: what it is, and its problem or None."""
    return [(f"text size of {row}", compare(root, row, names)) for row, names in ROWS]


def main():
    root = os.path.dirname(os.path.dirname(os.path.abspath(__file__)))
    for row, names in ROWS:
        print(f"{text_bytes(root, names):7,} bytes of text: {row}")


if __name__ == "__main__":
    main()

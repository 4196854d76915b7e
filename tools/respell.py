#!/usr/bin/env python3
"""respell: turns the names of definitions, fields and laws to snake case, as the installed Rattle has its own: firstRefusal
is first_refusal, last-small is last_small. Run once over a tree whose crates stand as /opt/rattle/port/port.py left them:

    python3 tools/respell.py [ROOT] [--map FILE]

Names that begin with a capital, names of the library and names from Rust source stay. Two names that fall together are told
apart by the table APART. With --map, what was renamed is written to FILE as JSON."""

import json
import os
import re
import sys

WORD = re.compile(r"[^\s(){}\[\].,;«»\"@`]+")
IMPORT = re.compile(r"^(?:pub )?(?:ghost )?use ([\w.+'·-]+?)\.\{([^}]*)\}", re.M | re.S)
# A law, or a local name, that would have the name of a definition. A law gets _lem.
APART = {
    name: name.replace("-", "_") + "_lem"
    for name in (
        "after-field", "after-number", "device-ok", "exponents-drawn", "field-number", "is-additive", "is-done", "is-multiplicative",
        "key-fields", "make-sizes", "open-sizes", "part-at", "plain-line", "plain-text", "put-number", "rate-of", "reply-sized",
        "sound-rows", "sound-text", "state-at", "value-of",
    )
}
APART["trip-rules"] = "rules_of_trips"
# Laws that port.py respelled, by folder.
LAWS = {"formula": ("read_number", "whole_sum"), "evaluate": ("read_short",)}


def files(root):
    for folder, dirs, names in os.walk(os.path.join(root, "crates")):
        dirs[:] = sorted(d for d in dirs if d not in ("out", "must-fail"))
        for name in sorted(names):
            if name.endswith((".antt", ".rt")):
                yield os.path.join(folder, name)


def is_odd(word):
    return re.match(r"[a-z]", word) and re.search(r"[a-z0-9₀-₉']-[a-zA-Z0-9]|[a-z0-9₀-₉'][A-Z]", word)


def snake(word):
    word = re.sub(r"([a-z0-9₀-₉'])([A-Z])", lambda m: m[1] + "_" + m[2].lower(), word)
    return re.sub(r"(?<=[A-Za-z0-9₀-₉'])-(?=[A-Za-z0-9])", "_", word)


def renamings(root):
    own = {line.split(":")[0] for line in open(os.path.join(root, "crates.txt")) if ":" in line and not line.startswith("#")}
    library, odd = set(), set()
    for path in files(root):
        text = open(path, encoding="utf-8").read()
        for module, names in IMPORT.findall(text):
            parts = module.split(".")
            if parts[0] != "Rattle" or parts[1] not in own:
                library |= {n.strip() for item in names.split(",") for n in item.split(" as ")}
        if path.endswith(".antt") and not path.endswith("/Proof.antt"):
            odd |= {w for w in WORD.findall(re.sub(r"--.*", "", text)) if is_odd(w)}
    return {w: APART.get(w, snake(w)) for w in odd - library}


def respelled(path, text, new, laws):
    """In comments and in code of .rt files a dash may be one of prose or a minus, so that only words with capitals turn."""

    def turn(part, dashes):
        def one(m):
            w = m[0]
            if w in laws and m.string[m.start() - 1 : m.start()] != ".":
                return w + "_lem"
            return new[w] if w in new and (dashes or "-" not in w) else w
        return WORD.sub(one, part)

    comment = "--" if path.endswith(".antt") else "//"
    out = []
    for line in text.split("\n"):
        code, mark, prose = line.partition(comment)
        out.append(turn(code, True) + mark + turn(prose, False))
    return "\n".join(out)


def main(argv):
    args = argv[1:]
    where = args.pop(args.index("--map") + 1) if "--map" in args else None
    args = [a for a in args if a != "--map"]
    root = args[0] if args else "."
    new = renamings(root)
    # laws first: what has the name that a definition gets
    for path in files(root):
        crate = os.path.relpath(path, os.path.join(root, "crates")).split(os.sep)[0]
        laws = set(LAWS.get(crate, ())) if path.endswith(".antt") else set()
        with open(path, encoding="utf-8") as file:
            text = file.read()
        turned = respelled(path, text, new, laws)
        if turned != text:
            with open(path, "w", encoding="utf-8") as file:
                file.write(turned)
    if where:
        with open(where, "w", encoding="utf-8") as file:
            json.dump(dict(sorted(new.items())), file, ensure_ascii=False, indent=0)
    print(f"respell: {len(new)} names")


if __name__ == "__main__":
    main(sys.argv)

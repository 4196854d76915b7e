"""A reader of Rattle source: what each file of each crate declares, and which files its `mod` lines make modules. It
knows the forms that the crates use. Whatever else it meets it refuses, so that nothing is passed over in silence."""

import re
from dataclasses import dataclass, field
from pathlib import Path
from typing import NamedTuple

CLAUSES = ("requires", "ensures", "ghost")
CLOSERS = {"(": ")", "[": "]", "{": "}"}
EXPORTED = "unsafe ( no_mangle )"  # the attribute of a function that C sees
# The attributes of each kind of item. None of them makes a function or changes its name but EXPORTED.
DERIVED = r"derive \( \w+(?: , \w+)* \)"
ATTRIBUTES = {
    "fn": r"cycle \( \w+ \)|tactic \( auto [\w ,:()]*\)|" + re.escape(EXPORTED),
    "extern": re.escape(EXPORTED),
    "struct": r"repr \( C \)|" + DERIVED,
    "enum": r"repr \( C \)|" + DERIVED,
}
ITEMS = ("mod", "use", "ghost", "const", "type", "struct", "enum", "impl")
KEYWORDS = (*CLAUSES, *ATTRIBUTES, *ITEMS, "pub", "static", "unsafe", "trait", "let", "mut", "as")

SPACE = re.compile(r"(?:[ \n]+|//[^\n]*)*")
COMMENT = re.compile(r"/\*|\*/")
NAME = re.compile(r"[A-Za-z_][A-Za-z0-9_]*")
CODE = re.compile(
    r"""b"(?:[^"\\]|\\.)*"                      # a byte string
    | b'(?:[^'\\\n]|\\x[0-9a-fA-F]{2}|\\.)'     # a byte
    | '[A-Za-z_]\w*(?![\w'])                    # a lifetime or a label
    | "(?:[^"\\]|\\.)*"                       # a text, as after `extern`
    | [A-Za-z_]\w*(?![\w"'\#]) | [0-9]\w* | :: | -> | [][!%&()*+,./:;<=>?@^{|}\#-]""",
    re.X | re.S | re.A,
)
# Contracts and the trees of `ghost use` are antt's: a name is any run without these signs, or stands in « »; joined by
# a dot it is a path, and after a space and a dot a field.
WORD = r"(?:«[^\s«»]+»|[^\s(){}.;,@\"«»]+)"
GHOST = re.compile(rf"\.?{WORD}(?:\.{WORD})*|[(){{}}.;,@]")
BLANK = re.compile(r"[ \n]*")
# Comments of either language and brackets with code could hide a brace: in a contract they are not read.
UNREAD = re.compile(r"--|//|/\*|\*/|⟦|⟧")

DEFINITION = re.compile(r" *(?:unfoldable +)?(?:abbrev +)?pub +(?:record +|data +)?([^\s(){}.;,@\"«»]+)")


class Problem(Exception):
    """What is wrong, as a sentence."""


class Function(NamedTuple):
    path: tuple  # crate, modules, name; of an inline module or the type of an `impl` too
    public: bool
    attributes: tuple
    extern: bool
    parameters: tuple  # (name, type)
    result: str  # its type, or nothing
    clauses: tuple  # (word, label or None, tokens)
    body: tuple


class Import(NamedTuple):
    path: str
    name: str  # of a whole module, nothing
    local: str


@dataclass
class Module:
    """A file: what it declares at any depth."""

    path: tuple
    file: str
    children: dict = field(default_factory=dict)  # the modules that are files: name, and whether it is public
    items: list = field(default_factory=list)  # the names of inline modules, types and constants
    uses: list = field(default_factory=list)  # (path, local name)
    imports: list = field(default_factory=list)
    functions: list = field(default_factory=list)
    names: list = field(default_factory=list)  # of all functions, one for each time


def split(tokens):
    """The parts between commas that no bracket holds; a comma at the end begins none."""
    parts, depth = [[]], 0
    for token in tokens:
        depth += (token in (*CLOSERS, "<")) - (token in (*CLOSERS.values(), ">"))
        if token == "," and depth == 0:
            parts.append([])
        else:
            parts[-1].append(token)
    return parts if parts[-1] else parts[:-1]


def unquoted(token):
    """A name in « » is that name, unless it would mean something else without: a sign."""
    return re.sub(r"«([A-Za-z]\w*)»", r"\1", token, flags=re.A)


class Reader:
    """Goes through one file from its beginning to its end."""

    def __init__(self, module, text):
        self.module, self.text, self.at, self.taken = module, text, 0, []
        self.ahead = (-1, "")  # where the next token stands, and it
        self.inside = 0  # in how many blocks of types

    def fail(self, what):
        line = self.text.count("\n", 0, self.at) + 1
        raise Problem(f"{self.module.file}:{line} cannot be read: {what}")

    def skip(self):
        """Goes past spaces and comments."""
        while True:
            self.at = SPACE.match(self.text, self.at).end()
            if not self.text.startswith("/*", self.at):
                return
            self.comment()

    def comment(self):
        depth = 0
        for mark in COMMENT.finditer(self.text, self.at):
            depth += 1 if mark.group() == "/*" else -1
            if depth == 0:
                self.at = mark.end()
                return
        self.fail("a comment does not end")

    def peek(self):
        """The next token of code, or nothing at the end."""
        if self.ahead[0] != self.at:
            self.skip()
            found = CODE.match(self.text, self.at)
            if not found and self.at < len(self.text):
                self.fail(f"unknown text {self.text[self.at:self.at + 12]!r}")
            self.ahead = self.at, found.group() if found else ""
        return self.ahead[1]

    def take(self, wanted=None):
        token = self.peek()
        if not token or (wanted and token != wanted):
            self.fail(f"found {token or 'the end'!r}, expected {wanted or 'more'!r}")
        self.at += len(token)
        self.taken.append(token)
        return token

    def name(self):
        if not NAME.fullmatch(self.peek()) or self.peek() in KEYWORDS:
            self.fail(f"{self.peek()!r} is no name")
        return self.take()

    def group(self, opener):
        """A bracket, all to the one that closes it, and that one."""
        return [self.take(opener), *self.until(CLOSERS[opener]), self.take()]

    def until(self, *ends):
        """All up to one of these, outside of brackets."""
        tokens = []
        while self.peek() not in ends:
            if self.peek() in CLOSERS.values():
                self.fail(f"{self.peek()!r} closes nothing")
            tokens += self.group(self.peek()) if self.peek() in CLOSERS else [self.take()]
        return tokens

    def ghost(self, end):
        """The tokens of antt's text, to this end outside of braces."""
        tokens, depth = [], 0
        while True:
            self.at = BLANK.match(self.text, self.at).end()
            found = GHOST.match(self.text, self.at)
            if not found or UNREAD.search(found.group()) or self.text.startswith("{-", self.at):
                self.fail("a contract or a `ghost use` does not end, or has a comment, a text or code in it")
            self.at = found.end()
            tokens.append(unquoted(found.group()))
            depth += (tokens[-1] == "{") - (tokens[-1] == "}")
            if depth == 0 and tokens[-1] == end:
                return tokens

    def file(self):
        if self.peek() == "#" and self.text.startswith("#!", self.at):
            self.tactic()
        self.items(self.module.path)
        if self.peek():
            self.fail("a brace closes nothing")
        self.module.names = [name for word, name in zip(self.taken, self.taken[1:]) if word == "fn"]

    def tactic(self):
        """`#![tactic(auto)]` at the head of a file, with options or none: by it the check tries its tactics."""
        self.take("#")
        self.take("!")
        words = self.group("[")[1:-1]
        if words[:3] != ["tactic", "(", "auto"] or words[-1] != ")":
            self.fail("unknown attribute of a file")

    def items(self, path):
        while self.peek() not in ("", "}"):
            self.item(path)

    def item(self, path):
        attributes = []
        while self.peek() == "#":
            self.take()
            attributes.append(" ".join(self.group("[")[1:-1]))
        public = self.visibility()
        word = self.peek()
        for attribute in attributes:
            if not re.fullmatch(ATTRIBUTES.get(word, ""), attribute):
                self.fail(f"unknown attribute {attribute} of {word}")
        if word in ("fn", "extern"):
            self.module.functions.append(self.function(path, public, tuple(attributes)))
        elif word in ITEMS:
            self.take()
            getattr(self, "item_" + word)(path, public)
        else:
            self.fail(f"unknown item {word!r}")

    def visibility(self):
        """Whether it is public for everybody: `pub(crate)` is not."""
        if self.peek() != "pub":
            return False
        self.take()
        if self.peek() != "(":
            return True
        self.group("(")
        return False

    def item_mod(self, path, public):
        name = self.name()
        if name in self.module.children or name in self.module.items:
            self.fail(f"module {name} is declared twice")
        if self.peek() == ";" and path == self.module.path:
            self.module.children[name] = public
            self.take()
        else:
            self.module.items.append(name)
            self.block(path + (name,))

    def block(self, path):
        self.take("{")
        self.items(path)
        self.take("}")

    def item_impl(self, path, _):
        """The functions of a type's block stand under the type's name, those of a trait's under the whole head."""
        head = self.until("{")
        self.inside += 1
        self.block(path + (self.type_of(head) or " ".join(head),))
        self.inside -= 1

    def type_of(self, head):
        """The type that a block is of, without its parameters; of a block for a trait, nothing."""
        if head[:1] == ["<"]:
            head = head[self.closing(head) + 1 :]
        return None if "for" in head else head[0]

    def closing(self, tokens):
        """Where the bracket that the first token opens is closed."""
        depth = 0
        for at, token in enumerate(tokens):
            depth += (token == "<") - (token == ">")
            if depth == 0:
                return at
        self.fail("a `<` does not end")

    def item_use(self, *_):
        self.tree(())
        self.take(";")

    def tree(self, path):
        """What a `use` names from this path on: one name, or several in braces."""
        path += (self.name(),)
        while self.peek() == "::":
            self.take()
            if self.peek() == "{":
                return self.branches(path)
            path += (self.name(),)
        local = path[-1]
        if local == "self":
            self.fail("a `use` of self")
        if self.peek() == "as":
            self.take()
            local = self.name()
        self.module.uses.append((path, local))

    def branches(self, path):
        self.take("{")
        while self.peek() != "}":
            self.tree(path)
            if self.peek() != "}":
                self.take(",")
        self.take("}")

    def item_ghost(self, *_):
        if self.inside and self.peek() != "use":
            return self.member()
        self.take("use")
        tree = self.ghost(";")[:-1]
        if tree[1:3] == [".", "{"] and tree[-1] == "}":
            path = self.renamed(tree[:1])[0]
            for name, local in map(self.renamed, split(tree[3:-1])):
                self.module.imports.append(Import(".".join([path, *name.split(".")[:-1]]), name.split(".")[-1], local))
        else:
            path, local = self.renamed(tree)
            self.module.imports.append(Import(path, "", local))

    def member(self):
        """A ghost member of a type's block: a name, and its term in braces."""
        self.name()
        self.take("=")
        self.ghost("}")
        self.take(";")

    def renamed(self, leaf):
        """A path of a `ghost use`, and the name that it brings: its last, or that after `as`."""
        known = len(leaf) in (1, 3) and leaf[1:2] in ([], ["as"]) and re.match(WORD, leaf[0])
        if not known or "*" in leaf[0].split("."):
            self.fail(f"unknown `ghost use` of {' '.join(leaf)!r}")
        return leaf[0], leaf[-1].split(".")[-1]

    def item_const(self, *_):
        self.module.items.append(self.name())
        self.until(";")
        self.take(";")

    item_type = item_const

    def item_struct(self, *_):
        self.module.items.append(self.name())
        self.until("{", ";")
        self.take(";") if self.peek() == ";" else self.fields()

    def fields(self):
        """The fields of a struct; those of proofs alone have a fact in braces, which is antt's."""
        self.take("{")
        while self.peek() != "}":
            self.visibility()
            if self.peek() == "ghost":
                self.take()
                self.name()
                self.take(":")
                self.ghost("}")
            else:
                self.until(",", "}")
            if self.peek() != "}":
                self.take(",")
        self.take("}")

    def item_enum(self, *_):
        self.module.items.append(self.name())
        self.until("{")
        self.group("{")

    def function(self, path, public, attributes):
        extern = self.peek() == "extern"
        if extern:
            self.take()
            self.take('"C"')
        self.take("fn")
        name = self.name()
        if self.peek() == "<":
            self.until("(")
        parameters = tuple(self.parameter(part) for part in split(self.group("(")[1:-1]))
        result, clauses = "", []
        if self.peek() == "->":
            self.take()
            result = " ".join(self.until("{", "where", ";", *CLAUSES))
        while self.peek() in CLAUSES:
            clauses.append(self.clause())
        body = tuple(self.group("{")[1:-1])
        return Function(path + (name,), public, attributes, extern, parameters, result, tuple(clauses), body)

    def parameter(self, tokens):
        if tokens[:1] == ["mut"]:
            tokens = tokens[1:]
        if tokens[-1:] == ["self"]:
            return "self", " ".join(tokens)
        if len(tokens) < 3 or not NAME.fullmatch(tokens[0]) or tokens[1] != ":":
            self.fail(f"unknown parameter {' '.join(tokens)!r}")
        return tokens[0], " ".join(tokens[2:])

    def clause(self):
        word = self.take()
        label = None if self.peek() == "{" else self.name()
        if self.peek() != "{":
            self.fail(f"{word} has no braces")
        return word, label, tuple(self.ghost("}")[1:-1])


def text_of(root, file):
    try:
        text = Path(root, file).read_bytes().decode()
    except (OSError, UnicodeDecodeError) as error:
        raise Problem(f"{file} cannot be read: {error}") from error
    if "\r" in text:
        raise Problem(f"{file} cannot be read: it has a carriage return, which could end a comment or not")
    return text


class Tree:
    """The sources of all crates: for each file its module, or why it cannot be read."""

    def __init__(self, root):
        self.root, self.files = Path(root), {}
        for file in sorted(self.root.glob("crates/*/src/**/*.rt")):
            self.read(file.relative_to(self.root))

    def read(self, file):
        parts = file.with_suffix("").parts
        top = parts[3:] in (("lib",), ("main",))
        path = (parts[1],) if top else (parts[1], *parts[3:])
        if path in self.files:
            self.files[path] = Problem(f"crate {parts[1]} has both src/lib.rt and src/main.rt")
            return
        module = Module(path, str(file))
        try:
            Reader(module, text_of(self.root, file)).file()
            self.files[path] = module
        except Problem as problem:
            self.files[path] = problem
        except RecursionError:
            self.files[path] = Problem(f"{file} cannot be read: brackets too deep")

    def modules(self, crate=None):
        """All files that can be read, of one crate or of every crate; also those that no `mod` line names."""
        found = (module for module in self.files.values() if isinstance(module, Module))
        return [module for module in found if crate in (None, module.path[0])]

    def problems(self):
        return [problem for problem in self.files.values() if isinstance(problem, Problem)]

    def exports(self):
        """The functions that are exported to C: (crate, name)."""
        functions = (function for module in self.modules() for function in module.functions)
        return [(found.path[0], found.path[-1]) for found in functions if EXPORTED in found.attributes]

    def file(self, path):
        found = self.files.get(path) or Problem(f"there is no file for {'::'.join(path)}")
        if isinstance(found, Problem):
            raise found
        return found

    def module(self, path):
        """The module of this path, and whether others can name it: `mod` lines lead to it from the crate's root."""
        module, public = self.file(path[:1]), True
        for end in range(1, len(path)):
            if path[end] not in module.children:
                raise Problem(f"no `mod` line of {module.file} makes {'::'.join(path[:end + 1])} a module with a file")
            public = public and module.children[path[end]]
            module = self.file(path[: end + 1])
        return module, public


def code_lines(file, text):
    """The lines of a file of definitions without comments and texts; a block comment is refused."""
    for line in text.split("\n"):
        if re.match(r" *--(?: |$)", line):
            continue
        line = re.sub(r" --(?: .*)?$", "", re.sub(r'"(?:[^"\\]|\\.)*"', "", line))
        if re.search(r'"|\{-|--|\t', line):
            raise Problem(f"{file} cannot be read: {line.strip()[:60]!r}")
        if line.strip():
            yield line


def indent(line):
    return len(line) - len(line.lstrip(" "))


def opened(lines, at):
    """Whether the line stands at the top or in blocks `module _` alone, and so is no field of a record."""
    while indent(lines[at]):
        at = next((above for above in range(at - 1, -1, -1) if indent(lines[above]) < indent(lines[at])), None)
        if at is None or lines[at].split()[:2] != ["module", "_"]:
            return False
    return True


def definitions(root, crate, file):
    """The names that a file of definitions makes public, one for each time."""
    file = f"crates/{crate}/specs/{file}.antt"
    lines = list(code_lines(file, text_of(root, file)))
    found = ((at, DEFINITION.match(line)) for at, line in enumerate(lines))
    return [head.group(1) for at, head in found if head and opened(lines, at)]

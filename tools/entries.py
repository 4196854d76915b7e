"""The entries check: each listed entry asks for nothing and promises the one definition that the list names, of all
its arguments and of its answer; its C function promises the same and makes one call, of the entry: the library's function
of its name, or at a category the method of the library's entries at the sizes of that category. That one lends scratch and
makes one call, of a function that promises the same; list, exports and header agree."""

import glob
import os
import re
from itertools import zip_longest
from typing import NamedTuple

import source
from source import Problem

LIST = "docs/entries.txt"
HEADER = "include/gridprofile.h"  # those of categories 3 and 5 stand beside it
EXPORTS = "gridprofile_c"  # the crate of the C interface
LIBRARY = "gridprofile"  # the crate with the same functions for callers in Rattle, each called by the one for C
METHODS = (LIBRARY, "entries", "Entries")  # what is the same at each category, a method over the sizes of one
MADE = METHODS[-1]  # what the module of a category makes
TESTED = "tiny_sizes"  # exports to the tests alone
TURNS = "outcome"  # the crate whose `number_in` and `store_length` make numbers of a `Result`
DRAWS = ("expand", "numbers")  # the module of the draws of a category
SIZES = "parameters.Categories"  # the definitions of the categories' sizes
NUMBER_IN, LENGTH_IN = "outcome.Result.number_in", "outcome.Result.length_in"  # and those of a result's number and length

LINE = re.compile(r"(\w+(?:::\w+)+)\s+(\w+|-)\s+(\w+\.\w+\.\w+)", re.A)
ARRAY = re.compile(r"let mut (\w+) = \[ \d\w* ; ([\w .:()+*/%-]+) \] ; ")
CALL = re.compile(r"(\w+(?: :: \w+)+) \( ([\w&, ]*)\)(?: ;)?")
# What the library's function lends beside its parameters: arrays, a part of one, the sizes, a draw, scratch of a category.
PART = re.compile(r"let (\w+) = & mut (\w+) \[ \. \. (\w+) \. \w+ \] ; ")
OF_SIZES = re.compile(r"let (\w+) = self \. category \. sizes ; ")
DRAW = re.compile(r"let (\w+) = (\w+(?: :: \w+)*) \( (?:& )?self \. category(?: \. sizes)? \) ; ")
SCRATCH = re.compile(r"let mut (\w+) = \w+ \{ category : self \. category((?: , \w+ : & mut \w+)*)(?: ,)? \} ; ")
CALLED = r"(?P<path>\w+(?: :: \w+)*)(?: :: < (?P<width>\w+) >)? \( (?P<lent>[\w&,. ]*)\)"
TURNED = (
    ("", re.compile(rf"{CALLED}(?: ;)?")),
    ("number_in", re.compile(rf"number_in \( {CALLED} \)")),
    ("store_length", re.compile(rf"store_length \( {CALLED} , (?P<length>\w+) \)")),
    ("store_length", re.compile(rf"let (?P<made>\w+) = {CALLED} ; store_length \( (?P=made) , (?P<length>\w+) \)")),
)
RESULTS = {"number_in": "Result < ( ) , Refusal >", "store_length": "Result < usize , Refusal >"}
KEPT = re.compile(r"(\w+)\.new\.category ≡ \1\.old\.category")  # what a function that is lent scratch promises beside
METHOD_CALL = re.compile(rf"{LIBRARY} :: (category\d+) :: entries \( \) \. (\w+) \( ([\w&, ]*)\)")
OWN_SIZES = "self.now.category.sizes"  # how a method's contract names the sizes that it is at
NUMBER_OF_RESULT = ["(", "number_in", "result", ")"]  # a refusal's number, or 0
ANSWER = ("answer", "", "")
WHOLE = ("answer", "itself", "")  # of a `Result` that is turned into a number
AT_SIZES = ("parameter", "self", "now")  # the sizes that a method is at
RESULT = "result"  # the answer's name in contracts


class Entry(NamedTuple):
    path: tuple
    c_name: str  # or `-`
    contract: str  # CRATE.FILE.NAME


class Contract(NamedTuple):
    name: str  # CRATE.FILE.NAME
    arguments: list  # (kind, word, moment): of a parameter, the answer, a number or a definition


class Call(NamedTuple):
    path: tuple
    arguments: list


class Body(NamedTuple):
    """What a function of the library is made of: its one call, and what its answer is turned into a number by."""

    call: Call
    width: str  # the const parameter of the function called, or nothing
    turned: str  # `number_in`, `store_length` or nothing
    length: str  # where an answered length is stored, or nothing
    held: dict  # what is lent beside the parameters: its name, and the kind of it


def shown(path):
    return "::".join(path)


def is_reference(kind):
    return kind.startswith("&")


def is_mutable(kind):
    return bool(re.match(r"& (?:'\w+ )?mut ", kind))


def moments(kind):
    """How a contract names what a parameter of this type is or points to."""
    return ("old", "new") if is_mutable(kind) else ("now",) if is_reference(kind) else ("",)


def at(name, moment):
    return f"{name}.{moment}" if moment else name


# ---- the function of a path


def file_of(path):
    """The path of the module with a file that a function stands in: a method stands in that of its type."""
    return METHODS[:-1] if path[:-1] == METHODS else path[:-1]


def find(tree, path):
    """The public function of a path and its module. No second one of the name may stand in the file, so that a reader
    who looks for the name finds this one."""
    module, public = tree.module(file_of(path))
    times = module.names.count(path[-1])
    if times != 1:
        raise Problem(f"{path[-1]} is declared {'twice or more' if times else 'nowhere'} in {module.file}")
    found = [function for function in module.functions if function.path == path]
    if not found:
        raise Problem(f"{path[-1]} is declared in an inline module or a block of {module.file}")
    if not (public and found[0].public):
        raise Problem(f"{shown(path)} is not public")
    return found[0], module


# ---- what it promises


def one_ensures(function, may_ask=False, beside=()):
    """The tokens of the one `ensures`, besides those that stand `beside` it. A function that is lent scratch may have
    `requires`."""
    name, words = shown(function.path), [word for word, _, _ in function.clauses]
    if "requires" in words and not may_ask:
        raise Problem(f"{name} has a requires")
    if "ghost" in words:
        raise Problem(f"{name} has a ghost clause")
    found = [clause for clause in function.clauses if clause[0] == "ensures" and clause[2] not in beside]
    if len(found) != 1:
        raise Problem(f"{name} has {len(found) or 'no'} ensures, not one")
    if found[0][1] and words.count("ensures") == 1:
        raise Problem(f"the ensures of {name} has a label, {found[0][1]}")
    return found[0][2]


def promise(function):
    """The tokens of the one `ensures` of a function that asks for nothing: one name applied to plain arguments."""
    name, tokens = shown(function.path), one_ensures(function)
    for token in tokens or ("",):
        if token != OWN_SIZES and not re.fullmatch(r"[A-Za-z0-9]\w*(?:\.\w+)?|\(|\)", token):
            raise Problem(f"the ensures of {name} is not one name applied to arguments: it has `{token}`")
    return tokens


def place(path):
    """The file of definitions that a `ghost use` names, as CRATE.FILE, or nothing."""
    found = re.fullmatch(r"Rattle\.(\w+)\.specs\.(\w+)", path)
    return f"{found.group(1)}.{found.group(2)}" if found else ""


def is_inner(path):
    """A file of promises that only inner functions make: no entry cites one."""
    return place(path).split(".")[-1].startswith("Inner")


def is_sizes(taken):
    """The one import that may have another name: the sizes of a category as `p`."""
    return taken.local == "p" and place(taken.path) == SIZES and re.fullmatch(r"category\d+", taken.name)


def definition(module, word):
    """What a name of a contract means in its file, as CRATE.FILE.NAME."""
    found = [taken for taken in module.imports if taken.local == word]
    if len(found) != 1:
        raise Problem(f"{module.file} imports {word} {len(found)} times, not once")
    taken = found[0]
    if taken.name != word and not is_sizes(taken):
        raise Problem(f"{module.file} imports {taken.name or taken.path} as {word}: another name")
    if any(other.local == taken.path.split(".")[0] for other in module.imports):
        raise Problem(f"{module.file} gives {taken.path.split('.')[0]} another meaning by an import")
    if not place(taken.path) or is_inner(taken.path):
        raise Problem(f"{module.file} imports {word} from {taken.path}, which is no file of a crate's definitions")
    return f"{place(taken.path)}.{taken.name}"


def is_of_results(module, word, name):
    """`number_in` and `length_in` mean those of a result, and nothing else of the name."""
    if definition(module, word) != name:
        raise Problem(f"{word} in {module.file} is {definition(module, word)}, and not {name}")


def hides_nothing(function, module, tokens):
    """No parameter or imported operator gives another meaning to the words of a contract."""
    where = f"the ensures of {shown(function.path)}"
    known = {RESULT, tokens[0], NUMBER_OF_RESULT[1], "length_in"}
    hidden = known & {parameter for parameter, _ in function.parameters}
    if tokens[0] == RESULT or hidden:
        word = RESULT if tokens[0] == RESULT else hidden.pop()
        raise Problem(f"{word} in {where} is hidden by a parameter or by the answer")
    words = {part for token in tokens for part in (token, *token.split("."))}
    for taken in module.imports:
        parts = taken.local.split("◌") if "◌" in taken.local else []
        if taken.local == RESULT or set(filter(None, parts)) & words:
            raise Problem(f"{module.file} imports {taken.local}, which takes a word of {where}")


def words_of(module, tokens):
    """The arguments of a contract one by one: a word and nothing, or of `x.now`, `x.old`, `x.new` the word and the moment. The
    number of a result is the answer too."""
    tokens = list(tokens)
    for at in range(len(tokens) - len(NUMBER_OF_RESULT), -1, -1):
        if tokens[at : at + len(NUMBER_OF_RESULT)] == NUMBER_OF_RESULT:
            is_of_results(module, "number_in", NUMBER_IN)
            tokens[at : at + len(NUMBER_OF_RESULT)] = [RESULT]
    for token in tokens:
        if token == OWN_SIZES:
            yield "self", "now"
            continue
        word, _, moment = token.partition(".")
        if token in ("(", ")") or ("." in token and moment not in ("now", "old", "new")):
            raise Problem(f"an argument, `{token}`, is not a name, `x.now`, `x.old` or `x.new`")
        yield word, moment


def meaning(function, module, word, moment):
    """What an argument of a contract speaks of. A parameter hides an import."""
    kinds = dict(function.parameters)
    kind, where = kinds.get(word, ""), f"the ensures of {shown(function.path)}"
    if moment and not is_reference(kind):
        raise Problem(f"{word} in {where} is no reference")
    if word in kinds and moment not in moments(kind):
        raise Problem(f"{where} has {at(word, moment)} where {at(word, moments(kind)[0])} is meant")
    if word == RESULT:
        return ANSWER
    if word in kinds:
        return "parameter", word, moment
    if re.fullmatch(r"[0-9]+", word):
        return "number", word, ""
    return "definition", definition(module, word), ""


def contract(function, module):
    tokens = promise(function)
    hides_nothing(function, module, tokens)
    name = definition(module, tokens[0])
    return Contract(name, [meaning(function, module, word, moment) for word, moment in words_of(module, tokens[1:])])


def speaks_of_all(function, arguments):
    """A contract that leaves an argument or the answer out would hold whatever they are."""
    for name, kind in function.parameters:
        for moment in moments(kind):
            if ("parameter", name, moment) not in arguments:
                raise Problem(f"the ensures of {shown(function.path)} leaves out {at(name, moment)}")
    if function.result and ANSWER not in arguments:
        raise Problem(f"the ensures of {shown(function.path)} leaves out the answer")


def is_defined(tree, name):
    crate, file, word = name.split(".")
    times = source.definitions(tree.root, crate, file).count(word)
    if times != 1:
        raise Problem(f"crates/{crate}/specs/{file}.antt defines {word} publicly {times} times, not once")


def keeps(tree, path, listed):
    """The function of a path, its module and its contract, which is the listed one and speaks of everything."""
    function, module = find(tree, path)
    promised = contract(function, module)
    if promised.name != listed:
        raise Problem(f"{shown(path)} promises {promised.name}, and {LIST} says {listed}")
    is_defined(tree, listed)
    speaks_of_all(function, promised.arguments)
    return function, module, promised


# ---- the files that entries stand in


def names_a_crate(tree, module, crate):
    """A path that begins with a crate's name could lead elsewhere if something nearer had that name."""
    for near in tree.modules(module.path[0]):
        if crate in {*near.children, *near.items, *near.names, *(local for _, local in near.uses)}:
            raise Problem(f"{near.file} gives the crate's name {crate} another meaning")


def sizes(module):
    """The sizes that the module of a category has, or nothing."""
    number = re.fullmatch(r"category(\d+)", module.path[-1])
    return f"{SIZES}.category{number.group(1)}" if number else ""


def has_own_sizes(tree, module):
    """In the module of a category, P and p are the sizes of that category, and there are no others. What C calls lends
    no sizes, and may do without P."""
    if not sizes(module):
        return
    constant = sizes(module).split(".")[-1].upper()
    used = [path for path, local in module.uses if local == "P"]
    needless = not used and module.path[0] == EXPORTS
    if (used != [("parameters", constant)] and not needless) or "P" in module.items:
        raise Problem(f"P in {module.file} is not parameters::{constant}")
    names_a_crate(tree, module, "parameters")
    taken = [each for each in module.imports if each.local == "p" or place(each.path) == SIZES]
    if [(f"{place(each.path)}.{each.name}", each.local) for each in taken] != [(sizes(module), "p")]:
        raise Problem(f"p in {module.file} is not {sizes(module)}, or other sizes are imported too")


def imports(tree, path):
    """No import of a file with entries has another name than its definition, but a category's sizes and inner ones."""
    module, _ = tree.module(file_of(path))
    for taken in module.imports:
        named = taken.local == (taken.name or taken.path.split(".")[-1])
        if not named and not is_sizes(taken) and not is_inner(taken.path):
            raise Problem(f"{module.file} imports {taken.name or taken.path} as {taken.local}: another name")
    has_own_sizes(tree, module)


def of_one_category(tree, module):
    """The module of a category names no other category."""
    for words, _ in module.uses:
        for word in words:
            if re.fullmatch(r"(?:gridprofile_)?category\d.*", word, re.I) and not is_of(word, module.path[-1]):
                raise Problem(f"{module.file} uses {shown(words)}, of another category")
    has_own_sizes(tree, module)


def is_of(word, category):
    return re.fullmatch(rf"(?:gridprofile_)?{category}(?:_\w+)?", word, re.I)


# ---- the function that C calls


def is_named_by_category(function, module):
    """A C function of category 3 has that in its name, and one of category 1, or of none, has not."""
    named = re.match(r"gridprofile_(category\d+)_", function.path[-1])
    category = module.path[-1] if sizes(module) else "category1"
    if (named.group(1) if named else "category1") != category:
        raise Problem(f"{shown(function.path)} has the name of another category")


def method_call(function):
    """The call of a method of the entries at a category, which lends the sizes of that category as `self`."""
    call = METHOD_CALL.fullmatch(" ".join(function.body))
    if not call:
        return None
    arguments = [part.strip() for part in call.group(3).split(",") if part.strip()]
    return Call((*METHODS, call.group(2)), [call.group(1), *arguments])


def one_call(function):
    """The call that a body of local arrays and one call makes."""
    if call := method_call(function):
        return call
    text, at, hidden = " ".join(function.body), 0, [name for name, _ in function.parameters] + ["P"]
    while array := ARRAY.match(text, at):
        if array.group(1) in hidden:
            raise Problem(f"a local array of {shown(function.path)} hides {array.group(1)}")
        if re.search(r"\w \(", array.group(2)):
            raise Problem(f"the length of a local array of {shown(function.path)} is a call")
        at = array.end()
    call = CALL.fullmatch(text, at)
    arguments = [part.strip() for part in call.group(2).split(",")] if call else []
    arguments = arguments if arguments[-1:] != [""] else arguments[:-1]
    if not call or not all(re.fullmatch(r"(?:& (?:mut )?)?\w+", argument) for argument in arguments):
        raise Problem(f"the body of {shown(function.path)} is not local arrays and then one call over names")
    return Call(tuple(call.group(1).split(" :: ")), arguments)


def carried(argument, given, function, module):
    """What an argument in the contract of the function called says of the caller's own parameters."""
    kind, word, moment = argument
    if kind != "parameter":
        return argument
    own = [name for name, _ in function.parameters]
    if word == "self" and re.fullmatch(r"category\d+", given[word]):
        return "definition", f"{SIZES}.{given[word]}", ""
    if given[word] not in own:
        raise Problem(f"{shown(function.path)} lends `{given[word]}` for {word}, of which the contract speaks")
    return kind, given[word], moment


def promises_what_it_calls(tree, function, module, promised, call):
    """The contract of the function called, over the arguments of the call, is the caller's own."""
    names_a_crate(tree, module, call.path[0])
    called, inner = find(tree, call.path)
    theirs = contract(called, inner)
    if theirs.name != promised.name:
        raise Problem(f"{shown(function.path)} promises {promised.name}, and {shown(call.path)} {theirs.name}")
    if len(called.parameters) != len(call.arguments) or called.result != function.result:
        raise Problem(f"{shown(call.path)} has other parameters or another result than {shown(function.path)} takes")
    given = dict(zip((name for name, _ in called.parameters), call.arguments))
    over = [carried(argument, given, function, module) for argument in theirs.arguments]
    for mine, other in zip_longest(promised.arguments, over, fillvalue=("nothing",)):
        if mine != other:
            says = f"speaks of {' '.join(mine).strip()} where {shown(call.path)} has {' '.join(other).strip()}"
            raise Problem(f"the ensures of {shown(function.path)} {says}")


def c_function(tree, entry):
    """The C function of an entry keeps the same rules, and calls the library's function of its name."""
    modules = tree.modules(EXPORTS)
    paths = [found.path for module in modules for found in module.functions if found.path[-1] == entry.c_name]
    if not paths:
        raise Problem(f"crate {EXPORTS} does not export {entry.c_name}")
    function, module, promised = keeps(tree, paths[0], entry.contract)
    if function.attributes != (source.EXPORTED,) or not function.extern:
        raise Problem(f"{shown(function.path)} is not `#[unsafe(no_mangle)] pub extern \"C\"`")
    imports(tree, function.path)
    is_named_by_category(function, module)
    call = one_call(function)
    if call.path != entry.path or call.path != own_path(function, module, call):
        calls = f"calls {shown(call.path)}, and not the listed {shown(entry.path)} of its own name in {LIBRARY}"
        raise Problem(f"{shown(function.path)} {calls}")
    promises_what_it_calls(tree, function, module, promised, call)
    library_function(tree, entry, call)


def own_path(function, module, call):
    """What a C function calls: in the module of a category the method that has its name behind the category's, at that
    category; else the library's function of its name."""
    if not sizes(module):
        return (LIBRARY, *function.path[1:])
    if call.arguments[:1] != [module.path[-1]]:
        raise Problem(f"{shown(function.path)} calls the entries of another category")
    return (*METHODS, re.sub(r"gridprofile_(?:category\d+_)?", "", function.path[-1]))


def library_function(tree, entry, call):
    """What C's function calls is a plain function; of a method, the sizes are those of the category."""
    function, _, _ = keeps(tree, entry.path, entry.contract)
    if function.attributes or function.extern:
        raise Problem(f"{shown(entry.path)} is not a plain function")
    if entry.path[:-1] == METHODS:
        makes_entries(tree, (LIBRARY, call.arguments[0], "entries"))


def makes_entries(tree, path):
    """The function of a category's module promises entries at the category's sizes, and makes them of these."""
    function, module = find(tree, path)
    clauses = [(word, label, tokens) for word, label, tokens in function.clauses]
    if function.parameters or clauses != [("ensures", None, ("result.category.sizes", "≡", "p"))]:
        raise Problem(f"{shown(path)} does not promise entries at the sizes p")
    if not re.fullmatch(rf"{MADE} < [\w ,]+ >", function.result):
        raise Problem(f"{shown(path)} returns {function.result or 'nothing'}, and not {MADE}")
    for name, used in ((MADE, ("crate", *METHODS[1:])), ("Category", ("parameters", "Category"))):
        if [path for path, local in module.uses if local == name] != [used] or name in module.items:
            raise Problem(f"{name} in {module.file} is not {shown(used)}")
    if not re.fullmatch(rf"{MADE} {{ category : Category {{ sizes : P(?: ,)? }}(?: ,)? }}", " ".join(function.body)):
        raise Problem(f"the body of {shown(path)} is not {MADE} of the sizes P")
    has_own_sizes(tree, module)


# ---- what the library's function calls


def held_by(function):
    """What a body holds before its one call, by name, and where that call begins."""
    text, at, held = " ".join(function.body), 0, {}
    forms = {"array": ARRAY, "part": PART, "sizes": OF_SIZES, "draw": DRAW, "scratch": SCRATCH}
    while found := next(((kind, let) for kind, form in forms.items() if (let := form.match(text, at))), None):
        kind, let = found
        is_free(function, held, let.group(1))
        if kind == "array" and re.search(r"\w \(", let.group(2)):
            raise Problem(f"the length of a local array of {shown(function.path)} is a call")
        for name, wanted in made_of(kind, let):
            if held.get(name, ("",))[0] != wanted:
                raise Problem(f"{let.group(1)} in {shown(function.path)} is made of {name}, and not of its own {wanted}")
        held[let.group(1)] = kind, let.group(2) if kind == "draw" else ""
        at = let.end()
    return held, text, at


def made_of(kind, let):
    """What scratch, or a part of an array, is made of: names, and what they have to be."""
    if kind == "scratch":
        return [(name, "array") for name in re.findall(r"& mut (\w+)", let.group(2))]
    return [(let.group(2), "array"), (let.group(3), "sizes")] if kind == "part" else []


def is_free(function, held, name):
    if name in (*held, *(parameter for parameter, _ in function.parameters)):
        raise Problem(f"a local of {shown(function.path)} hides {name}")


def body_of(function):
    """The body of a function of the library: scratch, and then one call, with its answer turned into a number or not."""
    held, text, at = held_by(function)
    turned, found = next(((turned, found) for turned, form in TURNED if (found := form.fullmatch(text, at))), ("", None))
    lent = [part.strip() for part in found.group("lent").split(",")] if found else []
    lent = lent if lent[-1:] != [""] else lent[:-1]
    if not found or not all(re.fullmatch(r"(?:& (?:mut )?)?\w+|\w+ \. \w+", argument) for argument in lent):
        raise Problem(f"the body of {shown(function.path)} is not scratch and then one call over names")
    groups = {"made": "", "length": "", **found.groupdict()}
    if groups["made"]:
        is_free(function, held, groups["made"])
    call = Call(tuple(groups["path"].split(" :: ")), lent)
    return Body(call, groups["width"] or "", turned, groups["length"], held)


def led_to(tree, module, path):
    """Where a path leads whose first name a `use` of the file brings."""
    used = [to for to, local in module.uses if local == path[0]]
    if not used:
        raise Problem(f"{path[0]}, which {module.file} calls, is brought by no `use`")
    if len(used) != 1 or path[0] in (*module.children, *module.items, *module.names):
        raise Problem(f"{module.file} gives {path[0]} another meaning")
    names_a_crate(tree, module, used[0][0])
    return (*used[0], *path[1:])


def calls_as_listed(tree, entry):
    """The body of the library's function is scratch and then one call, of a function that promises the same."""
    function, module, promised = keeps(tree, entry.path, entry.contract)
    body = body_of(function)
    if body.turned and led_to(tree, module, (body.turned,)) != (TURNS, body.turned):
        raise Problem(f"{body.turned} in {module.file} is not {TURNS}::{body.turned}")
    for kind, path in body.held.values():
        own = (*DRAWS, function.path[-1].removeprefix("sample_"))
        if kind == "draw" and led_to(tree, module, tuple(path.split(" :: "))) != own:
            raise Problem(f"{shown(function.path)} draws {path.replace(' ', '')}, and not {shown(own)}")
    path = body.call.path if len(body.call.path) > 1 else led_to(tree, module, body.call.path)
    names_a_crate(tree, module, path[0])
    called, inner = find(tree, path)
    takes(function, called, body)
    promises_as_turned(tree, function, promised, body, called, inner)


def takes(function, called, body):
    """The function called has as many parameters, and answers what is turned into the caller's answer. Only one that is lent
    scratch, or has a width, asks for something."""
    result = RESULTS.get(body.turned, function.result)
    fits = called.result == result and (function.result == "u8" or not body.turned)
    if len(called.parameters) != len(body.call.arguments) or not fits:
        raise Problem(f"{shown(called.path)} has other parameters or another result than {shown(function.path)} takes")
    over_scratch = body.held.keys() & set(re.findall(r"\w+", " ".join(body.call.arguments)))
    if "requires" in [word for word, _, _ in called.clauses] and not (over_scratch or body.width):
        raise Problem(f"{shown(called.path)}, which {shown(function.path)} calls without scratch, has a requires")


def promises_as_turned(tree, function, promised, body, called, inner):
    """What the function called promises is the caller's promise, over what is lent and with its answer as it is turned."""
    beside = [tokens for _, _, tokens in called.clauses if KEPT.fullmatch(" ".join(tokens))]
    tokens = one_ensures(called, may_ask=True, beside=beside)
    before, tokens = (tokens[1], tokens[6:]) if tokens[2:6] == (":", "ℕ", ")", "→") else ("", tokens)
    said = list(arguments_of(called, inner, tokens[1:], before, body))
    hides_nothing(called, inner, [*tokens[:1], *NUMBER_OF_RESULT, *(at(*each[1:]) for each in said if each[0] != "term")])
    theirs = Contract(definition(inner, tokens[0]), said)
    given = dict(zip((name for name, _ in called.parameters), body.call.arguments))
    mine, said = same_promise(tree, function, promised, body, called, theirs, given)
    over = [lent_for(argument, given, function, body) for argument in said]
    for own, other in zip_longest(mine, over, fillvalue=("nothing",)):
        if own != other:
            says = f"speaks of {' '.join(own).strip()} where {shown(called.path)} has {' '.join(other).strip()}"
            raise Problem(f"the ensures of {shown(function.path)} {says}")


def same_promise(tree, function, promised, body, called, theirs, given):
    """The arguments of both promises that have to agree. The function called promises the listed definition; or one that the
    listed is, with the first arguments put in, for a draw or a width that the caller is called after; or one beside it, of a
    `Result` with a length, and is called as the caller."""
    if theirs.name == promised.name:
        return promised.arguments, theirs.arguments
    name, put = called.path[-1], put_in(tree, promised.name, theirs.name)
    if put is not None:
        mine = [argument for argument in promised.arguments if argument != AT_SIZES]
        if not body.held and function.path[-1] != f"gridprofile_{name}_{body.width.lower()}s":
            raise Problem(f"{shown(function.path)} is not called after {name} and its width, {body.width or 'which is none'}")
        puts_in(function, promised, body, zip_longest(theirs.arguments[: -len(mine)], put), given)
        return mine, theirs.arguments[-len(mine) :]
    beside = theirs.name.split(".")[:2] == promised.name.split(".")[:2]
    if beside and body.turned == "store_length" and function.path[-1] == f"gridprofile_{name}":
        mine = [argument for argument in promised.arguments if argument[:2] != ("parameter", body.length)]
        return [WHOLE if argument == ANSWER else argument for argument in mine], theirs.arguments
    raise Problem(f"{shown(function.path)} promises {promised.name}, and {shown(called.path)} {theirs.name}")


def put_in(tree, listed, name):
    """The arguments that a definition puts into another one, which it is by its text; or nothing."""
    crate, file, word = listed.split(".")
    crate_of, file_of, head = name.split(".")
    text = source.text_of(tree.root, f"crates/{crate}/specs/{file}.antt")
    brought = re.findall(rf"^use Rattle\.{crate_of}\.specs\.{file_of}\.\{{([^}}]*)\}}", text, re.M)
    near = (crate, file) == (crate_of, file_of) or any(head in re.split(r"[ ,\n]+", words) for words in brought)
    found = re.findall(rf"^ *{word} = (\S+)( .*)$", text, re.M)
    if not near or [other for other, _ in found] != [head]:
        return None
    return re.findall(r"\([^()]*\)|[^\s()]+", found[0][1])


def puts_in(function, promised, body, pairs, given):
    """What is lent out of the sizes is what the definition puts in there, and it puts in as many as there are."""
    for argument, put in pairs:
        if argument is None or put is None:
            raise Problem(f"{promised.name} puts in another number of arguments than {shown(function.path)} lends")
        lent = given.get(argument[1], "") if argument[0] == "parameter" else ""
        kind = body.held.get(lent.split(" . ")[0], ("",))[0]
        if " . " in lent and (kind != "sizes" or put != f"p.{lent.split(' . ')[1]}"):
            raise Problem(f"{shown(function.path)} lends `{lent}` for {argument[1]}, where {promised.name} has {put}")


def arguments_of(called, module, tokens, before, body):
    """The arguments in the contract of a function that the library calls: plain ones as in a listed contract, the sizes of
    scratch, a result's number and the length after it, for every length `before`; of any other term its text."""
    tokens, kinds = list(tokens), dict(called.parameters)
    length_after = ["(", "length_in", before, RESULT, ")"]
    while tokens:
        if tokens[:4] == NUMBER_OF_RESULT:
            is_of_results(module, "number_in", NUMBER_IN)
            size, argument = 4, ANSWER
        elif before and tokens[:5] == length_after:
            is_of_results(module, "length_in", LENGTH_IN)
            size, argument = 5, ("length", "", "new")
        elif tokens[0] == "(":
            size = bracket(tokens)
            argument = "term", " ".join(tokens[:size]), ""
        elif before and tokens[0] == before:
            size, argument = 1, ("length", "", "old")
        else:
            size, argument = 1, plain(called, module, kinds, tokens[0], body)
        yield argument
        tokens = tokens[size:]


def plain(called, module, kinds, token, body):
    """An argument of one token. The const parameter of a function with a width is a term."""
    word, _, moment = token.partition(".")
    if moment == "old.category.sizes":
        return "sizes", word, ""
    brought = word in kinds or any(taken.local == word for taken in module.imports)
    if moment not in ("", "now", "old", "new") or (body.width and word[0].isupper() and not brought):
        return "term", token, ""
    if word == RESULT and body.turned:
        return WHOLE
    return meaning(called, module, word, moment)


def bracket(tokens):
    """How many tokens a bracket has."""
    depth = 0
    for at, token in enumerate(tokens):
        depth += (token == "(") - (token == ")")
        if depth == 0:
            return at + 1
    raise Problem("a bracket of a contract does not end")


def lent_for(argument, given, function, body):
    """What an argument in the contract of the function called says of the caller's own parameters."""
    kind, word, moment = argument
    own, lent = [name for name, _ in function.parameters], given.get(word, "")
    if kind == "length":
        return "parameter", body.length, moment
    if kind == "sizes" and body.held.get(lent.removeprefix("& mut "), ("",))[0] == "scratch":
        return AT_SIZES
    if kind in ("sizes", "parameter") and (kind == "sizes" or lent not in own):
        raise Problem(f"{shown(function.path)} lends `{lent}` for {word}, of which the contract speaks")
    return (kind, lent, moment) if kind == "parameter" else argument


# ---- list, exports and header


def read_list(root):
    """Each line of the list with its entry, or with nothing where it is none."""
    for line in source.text_of(root, LIST).split("\n"):
        if text := line.split("#")[0].strip():
            found = LINE.fullmatch(text)
            yield text, Entry(tuple(found.group(1).split("::")), *found.groups()[1:]) if found else None


def headers(root):
    """The header files, the one of category 1 first."""
    found = [os.path.relpath(path, root) for path in glob.glob(os.path.join(root, "include", "*.h"))]
    return sorted(set(found) | {HEADER})


def header_of(name):
    """The header that a C function belongs to: its category's own, or the one of category 1."""
    named = re.match(r"gridprofile_category\d+", name)
    return f"include/{named.group(0)}.h" if named else HEADER


def declared_in(root, header):
    """The functions that one header declares."""
    text = re.sub(r"/\*.*?\*/|//[^\n]*", "", source.text_of(root, header), flags=re.S)
    return re.findall(r"\b(gridprofile_\w+)\s*\(", text)


def declared(root):
    """The functions that the headers declare."""
    return [name for header in headers(root) for name in declared_in(root, header)]


def is_declared(root, name):
    if name not in declared_in(root, header_of(name)):
        raise Problem(f"{header_of(name)} does not have {name}")


def belongs(name, header, listed):
    """What a header declares is listed, and stands in no other header than its own."""
    if name not in listed:
        raise Problem(f"{LIST} does not have {name}")
    if header_of(name) != header:
        raise Problem(f"{header} declares {name}, which belongs into {header_of(name)}")


def listed_once(entries, entry):
    """A method is listed once for each category, with the name that it has in C there."""
    lines = [other for other in entries if other.path == entry.path]
    if entry.path[:-1] == METHODS:
        lines = [other for other in lines if header_of(other.c_name) == header_of(entry.c_name)]
    if len(lines) != 1:
        raise Problem(f"{LIST} has {shown(entry.path)} twice")
    if entry.c_name != "-" and [other.c_name for other in entries].count(entry.c_name) != 1:
        raise Problem(f"{LIST} has {entry.c_name} twice")


def exported(tree, listed, crate, name):
    """An exported name is the interface's or the tests', is listed, and means one function in all files, but the one of
    the library that the interface calls where no category decides."""
    if crate not in (EXPORTS, TESTED):
        raise Problem(f"crate {crate} exports {name} to C: only {EXPORTS} exports")
    if crate == EXPORTS and name not in listed:
        raise Problem(f"{LIST} lacks the exported {name}")
    found = [module.path[0] for module in tree.modules() for each in module.names if each == name]
    both = crate == EXPORTS and not any(sizes(module) and name in module.names for module in tree.modules(crate))
    if sorted(found) != ([LIBRARY, crate] if both else [crate]):
        where = ", ".join(found)
        raise Problem(f"the exported {name} is declared {len(found)} times in the files of all crates: in {where}")


def judged(what, check, *arguments):
    """What is looked at, and its problem or None. Whatever goes wrong is a problem of this one thing."""
    try:
        check(*arguments)
        return what, None
    except Problem as problem:
        return what, str(problem)
    except Exception as error:  # never silence, and never the end of the whole check
        return what, f"it cannot be checked: {error!r}"


def check_entry(tree, entries, entry):
    name = shown(entry.path)
    yield judged(f"line of {name}", listed_once, entries, entry)
    yield judged(f"entry {name}", keeps, tree, entry.path, entry.contract)
    yield judged(f"imports of entry {name}", imports, tree, entry.path)
    if entry.c_name != "-":
        yield judged(f"C function {entry.c_name}", c_function, tree, entry)
        yield judged(f"header {entry.c_name}", is_declared, tree.root, entry.c_name)
    if entry.path[0] == LIBRARY:
        yield judged(f"call in {name}", calls_as_listed, tree, entry)


def check(root):
    """A pair for each thing looked at: what it is, and its problem or None."""
    try:
        lines, tree = list(read_list(root)), source.Tree(root)
        said = [(name, header) for header in headers(root) for name in declared_in(root, header)]
    except Problem as problem:
        yield "entries", str(problem)
        return
    entries = [entry for _, entry in lines if entry]
    for text in (text for text, entry in lines if not entry):
        yield f"line {text}", f"a line of {LIST} is a path, a name in C or `-`, and CRATE.FILE.NAME"
    for problem in tree.problems():
        yield "source", str(problem)
    for entry in entries:
        yield from check_entry(tree, entries, entry)
    for module in tree.modules():
        if sizes(module):
            yield judged(f"category of {module.file}", of_one_category, tree, module)
        if sizes(module) and module.path[0] == LIBRARY:
            yield judged(f"entries of {module.file}", makes_entries, tree, (*module.path, "entries"))
    listed = [entry.c_name for entry in entries]
    for crate, name in tree.exports():
        yield judged(f"export {name}", exported, tree, listed, crate, name)
    for name, header in said:
        yield judged(f"declared {name}", belongs, name, header, listed)

"""The must-fail check: an edit counts only where the prover refused it because a fact fails, not
because the edit does not parse or because the proof file no longer fits the code's shape."""

import concurrent.futures
import contextlib
import glob
import os
import queue
import re
import shutil
import subprocess
import tempfile

# A first error that says one of these is about names and shapes, and not about a fact.
UNFIT = re.compile(
    r"can be named from here|is not in scope|has no field `|was not admitted|is never closed"
    r"|expected type `(?:\S+\.)?(?:goal|Goals)\.[^`]*`,? but this has type `(?:\S+\.)?(?:goal|Goals)\."
)
ERROR = re.compile(r"^(?P<file>\S+?):\d+:\d+: error(?:\[[^\]]*\])?: (?P<text>.*)$")
# Of what a type promises of its values rt says so in other words.
NOT_PROVED = r"(?:it is not proved that |`search` found no proof \()"
UNPROVED = re.compile(rf"^note: (?P<file>\S+?):\d+:\d+: (?P<text>{NOT_PROVED}.*)$")
VERDICT = re.compile(r"^fn (?P<name>\S+): (?P<proved>proved$)?")
EACH = re.compile(r"^each: (\S+)$", re.M)
# rt found values that break what is to be proved there.
BROKEN = "the facts known there allow values"
# What is missing, and the goals that are left. A goal is called after the conditions that lead to it, as they are written.
MISSING = re.compile(r"has no (?:field )?`([^`]+)`")
LEFT = re.compile(r"^note: \S+?:\d+:\d+: it is not proved that .*?\(`([^`]+)`\)", re.M)
CONDITION = re.compile(r"\b(?:if|then|else)-([^\s`.,()+]+)", re.I)
# What rt says of an edit. Behind a refusal follows its first fact, cut short, or in parentheses why it says little.
TRIED = re.compile(r"^rt: must-fail (?P<name>\S+/\S+)\.edit: (?P<came>.*)$", re.M)
REFUSED = "refused, as it must be"
PARTS = ("src", "specs", "proofs")


def errors(lines):
    """File and text of each thing that the prover refused. A goal that Rattle could not prove by itself is a note."""
    for line in lines:
        found = ERROR.match(line) or UNPROVED.match(line)
        if found:
            yield os.path.normpath(found.group("file")), found.group("text")


def lines_of(log):
    """What is indented belongs to the line before it."""
    return re.sub(r"\n  +", " ", log).splitlines()


def problem(log):
    """Why the edit is no good by all that a check said of it, or None."""
    return judged(next(errors(lines_of(log)), None))


def problem_of_each(log, module):
    """Why some function of the module, or the one that is named, is not refused by a fact, or None. What is wrong in a
    proof file is said before all verdicts; what Rattle does not prove by itself, right before the function's own."""
    lines, start, names = lines_of(log), 0, 0
    for at, line in enumerate(lines):
        verdict = VERDICT.match(line)
        if verdict and f"{verdict.group('name')}::".startswith(f"{module}::"):
            name, names = verdict.group("name"), names + 1
            folder = os.path.join("proofs", *name.split("::")[1:])
            own = [error for error in errors(lines) if os.path.dirname(error[0]) == folder]
            own += [error for error in errors(lines[start:at]) if error[0].startswith("src/")]
            if verdict.group("proved"):
                return f"{name} is proved with it"
            if said := judged(next(iter(own), None)):
                return f"{name}: {said}"
        start = at + 1 if verdict else start
    return None if names else f"its log speaks of no function of {module}"


def judged(first):
    """Why an error is no fact that fails, or None."""
    if first is None:
        return "its log shows no error"
    part, text = first
    if UNFIT.search(text):
        return f"it makes the proof file unfit and refutes nothing ({part}: {text[:160]})"
    computed = re.match(NOT_PROVED, text) or "computed as far as they go" in text
    if not part.startswith("proofs/") and not computed:
        return f"the edited text is itself in error ({part}: {text[:160]})"
    return None


def came_to(said):
    """What rt ci said of each edit, by CRATE/NAME."""
    return {found.group("name"): found.group("came") for found in TRIED.finditer(said)}


def told(came):
    """Whether what rt said of an edit settles it, and its problem or None. rt passes over names that are missing, tells
    the first fact alone and cuts it short: where that is none, and where it is that something is not proved, which may be
    for want of an answer that names another goal, all that a check says has to be looked at."""
    if came is None:
        return True, "it was not tried"
    if not came.startswith(REFUSED) or came.startswith(f"{REFUSED} ("):
        return True, f"it is not refused by a fact: {came[:200]}"
    first = next(errors([came[len(REFUSED) + 2 :]]), None)
    settled = judged(first) is None and (first[0].startswith("proofs/") or BROKEN[:24] in first[1])
    return settled, None


def text_of(path):
    with open(path, encoding="utf-8") as file:
        return file.read()


@contextlib.contextmanager
def copied(root):
    """The crates in a folder of their own, where an edit can be made. rt takes there what it has proved here."""
    with tempfile.TemporaryDirectory(prefix="gridprofile-edits-") as work:
        os.mkdir(os.path.join(work, ".git"))  # the top of a repository
        for name in ("crates.txt", "HANDLES"):
            if os.path.exists(os.path.join(root, name)):
                shutil.copy(os.path.join(root, name), work)
        for folder in glob.glob(os.path.join(root, "crates", "*", "")):
            for part in filter(lambda part: os.path.isdir(os.path.join(folder, part)), PARTS):
                shutil.copytree(os.path.join(folder, part), os.path.join(work, os.path.relpath(folder, root), part))
        yield work


def make(edit, folder):
    """Makes an edit in a crate's folder, and returns what stood there before, file by file."""
    path, old, before = "", "", {}
    for line in text_of(edit).split("\n"):
        word, _, rest = line.partition(":")
        if word == "file":
            path = os.path.join(folder, rest.strip())
        elif word == "old":
            old = rest.removeprefix(" ")
        elif word == "new":
            text = text_of(path)
            before.setdefault(path, text)
            with open(path, "w", encoding="utf-8") as file:
                file.write(text.replace(old, rest.removeprefix(" ")))
    return before


def fit(log, folder):
    """Brings the names of the edited conditions into the proof files of their functions, and returns what stood there
    before: an edit of a condition renames the goals behind it, and an answer under the old name refutes nothing."""
    before, left = {}, {new for goal in LEFT.findall(log) for new in CONDITION.findall(goal)}
    for file, text in errors(lines_of(log)):
        missing = MISSING.search(text)
        if not (missing and UNFIT.search(text) and file.startswith("proofs/")):
            continue
        paths = glob.glob(os.path.join(folder, os.path.dirname(file), "*.antt"))
        known = {name for path in paths for name in CONDITION.findall(text_of(path))}
        new = left - known or set(CONDITION.findall(text[missing.end() :])) - known
        old = [name for name in CONDITION.findall(missing.group(1)) if name in known]
        if len(new) != 1 or len(old) != 1:
            continue
        for path in paths:
            before.setdefault(path, text_of(path))
            name = re.compile(rf"\b((?:if|then|else)-){re.escape(old[0])}(?![\w-])", re.I)
            with open(path, "w", encoding="utf-8") as out:
                out.write(name.sub(rf"\g<1>{min(new)}", before[path]))
    return before


def log_of(edit, crate, work):
    """All that the check of a crate says with this edit. Where it says first that a name is missing, the proof files are
    made to fit, and it is checked once more."""
    folder = os.path.join(work, "crates", crate)
    pipe = {"stdin": subprocess.DEVNULL, "stdout": subprocess.PIPE, "stderr": subprocess.STDOUT}
    before = make(edit, folder)
    try:
        log = subprocess.run(["rt", "check"], cwd=folder, text=True, errors="replace", **pipe).stdout
        if problem(log) and (changed := fit(log, folder)):
            before = {**changed, **before}
            log = subprocess.run(["rt", "check"], cwd=folder, text=True, errors="replace", **pipe).stdout
        return log
    finally:
        for path, text in before.items():
            with open(path, "w", encoding="utf-8") as file:
                file.write(text)


def logs_of(root, edits):
    """What a check says with each of these edits, by its path. Crates are done side by side, each in a copy that no other has."""
    crates, logs, copies = {}, {}, queue.SimpleQueue()
    for edit in edits:
        crates.setdefault(edit.split(os.sep)[-3], []).append(edit)

    def logs_in(crate):
        work = copies.get()
        try:
            return {edit: log_of(edit, crate, work) for edit in crates[crate]}
        finally:
            copies.put(work)

    workers = max(1, min(len(crates), os.cpu_count() or 1))
    with contextlib.ExitStack() as stack, concurrent.futures.ThreadPoolExecutor(workers) as pool:
        for _ in range(workers):
            copies.put(stack.enter_context(copied(root)))
        for found in pool.map(logs_in, sorted(crates, key=lambda crate: -len(crates[crate]))):
            logs.update(found)
    return logs


def check(root, said):
    """A pair for each edit of each crate: what it is, and its problem or None, by what rt ci said. Where that does not
    tell, and where an edit has a line `each:`, the edit is made in a copy and its crate checked."""
    came, found, unclear = came_to(said), [], []
    for edit in sorted(glob.glob(os.path.join(root, "crates", "*", "must-fail", "*.edit"))):
        name = f"{edit.split(os.sep)[-3]}/{os.path.basename(edit)[: -len('.edit')]}"
        settled, wrong = told(came.get(name))
        modules = EACH.findall(text_of(edit))
        found.append((edit, name, settled, wrong, modules))
        if not wrong and (modules or not settled):
            unclear.append(edit)
    logs = logs_of(root, unclear)
    for edit, name, settled, wrong, modules in found:
        log = logs.get(edit, "")
        yield f"edit {name}", wrong if settled else problem(log)
        for module in modules:
            yield f"edit {name}, each of {module}", wrong or problem_of_each(log, module)

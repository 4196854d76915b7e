"""Tests of the gate's own judgements."""

import os
import sys
import tempfile
import unittest

sys.path.insert(0, os.path.dirname(os.path.abspath(__file__)))
import edits  # noqa: E402
import entries  # noqa: E402
import power  # noqa: E402
import sizes  # noqa: E402
import source  # noqa: E402
import stacks  # noqa: E402


class Edits(unittest.TestCase):
    def judge(self, log):
        return edits.problem(log)

    def test_a_fact_that_fails_counts(self):
        for said in (
            "./proofs/hex/Answers.antt:21:23: error: `read`: `search`: no proof of `a < b`",
            "specs/Table.antt:3:1: error: `t`: as printed, the two types differ\n"
            "  computed as far as they go, the two types differ",
        ):
            self.assertIsNone(self.judge(f"{said}\n"))

    def test_a_goal_that_rattle_does_not_prove_counts(self):
        said = "it is not proved that what the function ensures holds when it returns (`returns`)"
        self.assertIsNone(self.judge(f"fn a::b: proved\nnote: src/lib.rt:3:1: {said}\n"))

    def test_an_unfit_proof_file_does_not_count(self):
        for said in (
            "`r`: `goal.x`: module `Rattle.laws.proofs.hex.Goals` has no `x` that can be named from here",
            "`r`: expected type `goal.returns`, but this has type `goal.overflow_mul`",
            "`r`: the two types differ\n  expected type `Rattle.laws.proofs.hex.Goals.a`\n"
            "  but this has type `Rattle.laws.proofs.hex.Goals.b`",
            "`returns`: record `Lts.Else1`\n  has no field `args`",
            "`returns`: `x` is not in scope",
        ):
            self.assertIsNotNone(self.judge(f"./proofs/hex/Answers.antt:2:3: error: {said}\n"))

    def test_an_edit_that_does_not_parse_does_not_count(self):
        for said in (
            "specs/Hex.antt:13:1: error: the `(` at 12:16 is never closed",
            "specs/Hex.antt:12:16: error: `hex_of`: expected type `Bool`, but this has type `ℕ`",
            "src/lib.rt:33:17: error[unknown-name]: cannot find type `u9` in this scope",
        ):
            self.assertIsNotNone(self.judge(f"{said}\n"))

    def test_the_first_error_decides(self):
        fact = "./proofs/a/Answers.antt:1:1: error: `search`: no proof\n"
        unfit = "./proofs/b/Answers.antt:1:1: error: nothing that can be named from here\n"
        self.assertIsNone(self.judge(fact + unfit))
        self.assertIsNotNone(self.judge(unfit + fact))

    def test_a_log_without_an_error_does_not_count(self):
        self.assertIsNotNone(self.judge("logic=not-proved\n"))

    NOTE = "note: src/more.rt:3:1: it is not proved that what the function ensures holds\n"
    ERROR = "./proofs/more/c/Answers.antt:4:2: error: `returns`: expected type `A`\n"

    def judge_each(self, *lines, module="laws::more"):
        log = "".join(lines)
        return edits.problem(log) or edits.problem_of_each(log, module)

    def test_each_function_of_a_module_is_refused(self):
        a, b = (f"{self.NOTE}fn laws::more::{name}: no proof: expected x\n" for name in "ab")
        c = f"{self.ERROR}fn laws::more::c: not proved: expected x\n"
        self.assertIsNone(self.judge_each("fn laws::one: proved\n", a, b, c))
        self.assertIn("laws::more::d is proved", self.judge_each(a, "fn laws::more::d: proved\n", b))
        self.assertIn("no function of laws::more", self.judge_each(self.NOTE, "fn laws::moreover::a: no proof\n"))

    def test_a_type_that_promises_too_much_is_refused(self):
        note = "note: src/more.rt:3:1: `search` found no proof (`invariant_of-result`); `search` gave up\n"
        self.assertIsNone(self.judge_each(f"{note}fn laws::more::a: no proof: expected x\n"))

    def test_one_function_is_refused(self):
        a, b = f"{self.NOTE}fn laws::more::a: no proof: expected x\n", "fn laws::more::ab: proved\n"
        self.assertIsNone(self.judge_each(a, b, module="laws::more::a"))
        self.assertIn("laws::more::ab is proved", self.judge_each(a, b, module="laws::more::ab"))

    def test_each_function_is_refused_by_a_fact(self):
        a = f"{self.NOTE}fn laws::more::a: no proof: expected x\n"
        unfit = "./proofs/more/b/Answers.antt:1:1: error: nothing that can be named from here\n"
        for before in ("", unfit, "src/more.rt:3:1: error[x]: cannot find type `u9`\n", self.ERROR):
            self.assertIn("laws::more::b", self.judge_each(a, before, "fn laws::more::b: no proof: expected x\n"))


# rt ci and rt check in a repository of one crate. What rt check says stands in the source, which the edits change.
WRONG = "proofs/one/Answers.antt:1:1: error: `returns`: `search`: no proof"
UNFIT = "proofs/one/Answers.antt:1:1: error: `x` is not in scope"
SAID_OF = {
    "fact": f"refused, as it must be: ./{WRONG}",
    "cut": "refused, as it must be: specs/Laws.antt:1:1: error: `t`: as printed, the two types differ",
    "bare": "refused, as it must be",
    "left": "refused, as it must be: note: src/lib.rt:1:1: it is not proved that x (`returns`); `search` gave up",
    "broken": "refused, as it must be: note: src/lib.rt:1:1: it is not proved that x (`returns`); "
    "the facts known there allow val",
    "unfit": f"refused, as it must be (only because a proof file names what the edit took away): {UNFIT}",
    "limit": "refused, as it must be (only by a limit of the prover, which gave no verdict)",
    "bad": "BAD EDIT: an 'old:' text is in src/lib.rt 0 times, and not once",
    "proved": "NOT REFUSED: the crate is still proved with this edit",
    "untried": "NOT TRIED: its check was killed",
}
CHECK = """#!/bin/sh
echo "$*" >> "$CALLS"
cat src/lib.rt
"""


class Tries(unittest.TestCase):
    """The check over what rt ci said of each edit."""

    def setUp(self):
        folder = tempfile.TemporaryDirectory()
        self.addCleanup(folder.cleanup)
        self.root, self.calls = os.path.join(folder.name, "root"), os.path.join(folder.name, "calls")
        self.write("root/crates.txt", "laws:\n")
        self.write("root/crates/laws/src/lib.rt", "fn laws::one: proved\n")
        self.write("bin/rt", CHECK)
        os.chmod(os.path.join(folder.name, "bin/rt"), 0o755)
        old = dict(os.environ)
        self.addCleanup(lambda: (os.environ.clear(), os.environ.update(old)))
        os.environ.update(PATH=f"{os.path.join(folder.name, 'bin')}:{old['PATH']}", CALLS=self.calls)

    def write(self, path, text):
        path = os.path.join(os.path.dirname(self.root), path)
        os.makedirs(os.path.dirname(path), exist_ok=True)
        with open(path, "w") as file:
            file.write(text)

    def edit(self, name, new, *more):
        old = "file: src/lib.rt\nold: fn laws::one: proved\n"
        head = "".join(f"{line}\n" for line in more)
        self.write(f"root/crates/laws/must-fail/{name}.edit", f"{head}{old}new: {new}\n")

    def problems(self, **said):
        """What the check finds, and how often rt was called for it."""
        output = "".join(f"rt: must-fail laws/{name}.edit: {SAID_OF[word]}\n" for name, word in said.items())
        found = dict(edits.check(self.root, f"rt: laws proved\n{output}2 passed, 0 failed\n"))
        with open(os.path.join(self.root, "crates/laws/src/lib.rt")) as file:
            self.assertEqual(file.read(), "fn laws::one: proved\n")
        return found, self.times()

    def times(self):
        try:
            with open(self.calls) as file:
                return file.read().splitlines().count("check")
        except FileNotFoundError:
            return 0

    def test_what_rt_says_is_enough(self):
        said = {name: name for name in SAID_OF if name not in ("cut", "bare", "left")}
        for name in said:
            self.edit(name, WRONG)
        found, times = self.problems(**said)
        self.assertEqual(times, 0)
        self.assertEqual((found.pop("edit laws/fact"), found.pop("edit laws/broken")), (None, None))
        self.assertEqual(sorted(found), [f"edit laws/{name}" for name in sorted(said) if name not in ("fact", "broken")])
        self.assertTrue(all("not refused by a fact" in problem for problem in found.values()), found)

    def test_an_edit_that_was_not_tried(self):
        self.edit("lost", WRONG)
        self.assertEqual(self.problems(), ({"edit laws/lost": "it was not tried"}, 0))

    def test_where_rt_says_too_little_it_is_checked(self):
        for word in ("cut", "bare", "left"):
            for new, well in ((WRONG, True), (UNFIT, False), ("logic=not-proved", False)):
                self.edit("one", new)
                found, _ = self.problems(one=word)
                self.assertEqual(found["edit laws/one"] is None, well, (word, new, found))

    def fitted(self, *left, missing="returns-then-a-gt-MAX"):
        """What the answers are after a check that misses a name, with these goals left."""
        answers = "then-a-gt-MAX : goal.then-a-gt-MAX = f c.if-a-gt-MAX c.if-a-gt-MAX-2 c.if-b-eq0 goal.Then-a-gt-MAX"
        self.write("root/crates/laws/proofs/one/Answers.antt", answers)
        log = f"./proofs/one/Answers.antt:1:1: error: `r`: module `G` has no `{missing}` that can be named from here\n"
        log += "".join(f"note: src/lib.rt:1:1: it is not proved that x (`{goal}`)\n" for goal in left)
        folder = os.path.join(self.root, "crates/laws")
        before = edits.fit(log, folder)
        after = edits.text_of(os.path.join(folder, "proofs/one/Answers.antt"))
        self.assertEqual(list(before.values()), [answers] if after != answers else [])
        return after

    def test_an_edited_conditions_name_is_brought_over(self):
        fitted = "then-a-gt8 : goal.then-a-gt8 = f c.if-a-gt8 c.if-a-gt-MAX-2 c.if-b-eq0 goal.Then-a-gt8"
        self.assertEqual(self.fitted("returns-then-a-gt8"), fitted)
        self.assertEqual(self.fitted("returns-then-a-gt8", "returns-then-b-eq0", "returns"), fitted)
        for left in (("returns-then-a-gt8", "returns-then-c"), ("returns",), ()):
            self.assertNotIn("a-gt8", self.fitted(*left))
        for missing in ("returns-then-d", "overflow_add"):
            self.assertNotIn("a-gt8", self.fitted("returns-then-a-gt8", missing=missing))

    def test_each_is_checked(self):
        self.edit("one", f"{WRONG}", "each: laws")
        found, times = self.problems(one="fact")
        self.assertEqual((found["edit laws/one"], times), (None, 1))
        self.assertIn("no function of laws", found["edit laws/one, each of laws"])
        self.edit("one", "note: src/lib.rt:1:1: it is not proved that x", "each: laws::one", "each: laws::two")
        self.write("root/crates/laws/src/lib.rt", "fn laws::one: proved\nfn laws::one: no proof\n")
        output = f"rt: must-fail laws/one.edit: {SAID_OF['fact']}\n"
        found = dict(edits.check(self.root, output))
        self.assertIsNone(found["edit laws/one, each of laws::one"])
        self.assertIn("no function of laws::two", found["edit laws/one, each of laws::two"])

    def test_each_of_an_edit_that_rt_does_not_refuse(self):
        self.edit("one", WRONG, "each: laws")
        found, times = self.problems(one="proved")
        self.assertEqual(([problem is None for problem in found.values()], times), ([False, False], 0))


class Power(unittest.TestCase):
    def test_a_fault_is_planted_once(self):
        self.assertEqual(power.planted("a b c", "b", "x"), "a x c")
        self.assertIsNone(power.planted("a b b", "b", "x"))
        self.assertIsNone(power.planted("a c", "b", "x"))

    def test_only_the_verdict_asked_for_counts(self):
        said = "FAILED it is found\n"
        self.assertIsNone(power.unseen(1, f"ok flips: 3 checks\n{said}  a byte cut\n", "it is found"))
        for status, output in ((0, said), (-11, said), (2, said), (1, ""), (1, "FAILED it is found late\n")):
            self.assertIsNotNone(power.unseen(status, output, "it is found"))

    def test_every_run_counts(self):
        """With a program that never fails, the test passes and no planted fault is seen; one that does not compile is
        never taken for a fault that was seen."""
        for compiles, wrong in ((0, len(power.PLANTED)), (1, len(power.PLANTED) + 2)):
            with tempfile.TemporaryDirectory() as root:
                os.makedirs(os.path.join(root, "examples"))
                with open(os.path.join(root, power.BANKS), "w") as file:
                    file.write("\n".join({old for _, old, *_ in power.PLANTED}))
                ran = list(power.check(root, lambda *command: (compiles if command[0] == "gcc" else 0, "")))
            self.assertEqual(len(ran), len(power.PLANTED) + 2)
            self.assertEqual(sum(problem is not None for _, problem in ran), wrong)


class Sizes(unittest.TestCase):
    README = "| Linked | Text |\n|---|---|\n| verify | 29,582 |\n| load, lookup | 900 |\n"

    def test_true_figures(self):
        self.assertEqual(sizes.stated(self.README, "verify"), [29582])
        self.assertEqual(sizes.stated(self.README, "load, lookup"), [900])
        for used in (29582, 28800, 30400):
            self.assertIsNone(sizes.problem([29582], used))

    def test_other_figures(self):
        for used in (28000, 31000):
            self.assertIn(f"says 29582 bytes of text, and {used} were measured", sizes.problem([29582], used))

    def test_rows_that_are_missing_or_twice(self):
        for readme, times in ((self.README.replace("verify", "sign"), 0), (self.README * 2, 2)):
            self.assertIn(f"README has {times} such rows", sizes.problem(sizes.stated(readme, "verify"), 29582))

    def test_what_cannot_be_measured(self):
        with tempfile.TemporaryDirectory() as root:
            self.assertEqual(["it cannot be" in problem for _, problem in sizes.check(root)], [True] * len(sizes.ROWS))

    def test_the_functions_of_a_row(self):
        root, declared = os.path.dirname(os.path.dirname(os.path.abspath(__file__))), "gridprofile_category5_load"
        self.assertEqual(sizes.functions_of(root, ("category5_load",)), [declared])
        self.assertIn(declared, sizes.functions_of(root, ()))
        self.assertRaisesRegex(source.Problem, "category4_load", sizes.functions_of, root, ("load", "category4_load"))

    def test_what_the_linker_missed(self):
        said = "ld: a.o: in function `x':\n(.text.x+0x1): undefined reference to `memmove'\n" * 2
        self.assertEqual(sizes.unresolved(said + "y: undefined reference to `bcmp'\n"), ["bcmp", "memmove"])
        self.assertEqual(sizes.unresolved("ld: warning: cannot find entry symbol"), [])


class Stacks(unittest.TestCase):
    HEADER = ("/* Stack: 900 bytes. is no function's. */\n#define A 1\n\n/* The first.\n * Stack: 640 bytes. */\n"
              "void gridprofile_one(void);\n\n/* The second. Stack: 64 bytes. */\nuint8_t gridprofile_two(int a);\n")

    def problems(self, measured, old="", new=""):
        with tempfile.TemporaryDirectory() as root:
            os.makedirs(os.path.join(root, "include"))
            with open(os.path.join(root, entries.HEADER), "w") as file:
                file.write(self.HEADER.replace(old, new, 1) if old else self.HEADER)
            return dict(stacks.check(root, measured))

    def refuses(self, said, *arguments):
        found = self.problems(*arguments)
        self.assertIn(said, found["stack of one"])
        self.assertIsNone(found["stack of two"])

    def test_true_figures(self):
        for measured in (640, 600, 640 - stacks.SLACK):
            found = self.problems(f"one {measured}\ntwo 64\n")
            self.assertEqual(found, {"stack of one": None, "stack of two": None})

    def test_too_small(self):
        self.refuses("says 640 bytes of stack, and 641 were measured", "one 641\ntwo 64\n")

    def test_far_too_large(self):
        self.refuses("says 640 bytes of stack, and 383 were measured", f"one {639 - stacks.SLACK}\ntwo 64\n")

    def test_missing(self):
        self.refuses("says 0 times", "one 640\ntwo 64\n", "Stack: 640 bytes.", "Stack: some bytes.")
        self.refuses("says 2 times", "one 640\ntwo 64\n", "The first.", "Stack: 640 bytes.")
        self.refuses("was not measured", "two 64\n")

    def test_a_measured_function_is_declared(self):
        self.assertIn("says 0 times", self.problems("one 640\ntwo 64\nthree 8\n")["stack of three"])


# A small repository: entries that C calls through another crate, one where the sizes of a category decide, and one for
# callers in Rattle; and the functions that they call, which answer a `Result`.
ONE = "ensures { One classes 7 line.now out.old count result out.new }"
TWO = "ensures { Two p block.now out.old result out.new }"
THREE = "ensures { Three state.old last_word state.new }"
HEAD = "pub fn one(line: &[u8], out: &mut [u8], count: u32) -> u8"
INNER = f"""// The entry. /* no comment begins here
#![tactic(auto)]

pub mod more;

use outcome::BAD_SIZE as BAD;
use outcome::{{BAD_FIELD, lists::{{Part, part as piece}}, FULL}};
ghost use Rattle.std.specs.Prelude.{{◌≡◌}};
ghost use Rattle.inner.specs.Promises.{{
  One,
  classes,
}};

pub const SIZES: [usize; 2] = [1, 2];

#[derive(Clone, Copy)]
pub struct Pair<'a> {{
    pub first: &'a [u8],
}}

/* Comments nest: /* pub fn one() {{ */ and this is one still. */
{HEAD}
    {ONE}
{{
    look(b"}} // /* \\" pub fn one() {{", b'"', b'\\'', line)
}}

#[cycle(looks)]
fn look<'a>(text: &'a [u8], mut quote: u8, prime: u8, line: &'a [u8]) -> u8
    requires {{ quote ≡ prime }}
    ensures kept {{ result ≡ quote }}
    ensures {{ IfOk result (λ n. n ≡ prime) }}
{{
    'outer: while quote < 1 {{
        break 'outer;
    }}
    BAD
}}

mod beside {{
    pub fn other() {{}}
}}
"""
MORE = f"""ghost use Rattle.inner.specs.Promises.{{Three}};

pub fn three(state: &'a mut [u64], last_word: u8)
    {THREE}
{{
}}
"""
ONE_OF_RESULT = ONE.replace("result", "(number_in result)")
TURNED = f"""ghost use Rattle.std.specs.Prelude.{{ℕ}};
ghost use Rattle.outcome.specs.Result.{{number_in, length_in}};
ghost use Rattle.inner.specs.Promises.{{One, Four, Five, Packs, classes}};

use outcome::Refusal;

{HEAD.replace("-> u8", "-> Result<(), Refusal>")}
    {ONE_OF_RESULT}
{{
    look(line, out, count)
}}

fn look(line: &[u8], out: &mut [u8], count: u32) -> Result<(), Refusal>
    {ONE_OF_RESULT}
{{
    Ok(())
}}

pub fn four(line: &[u8], out: &mut [u8]) -> Result<usize, Refusal>
    ensures {{ (before : ℕ) → Four line.now out.old before (number_in result)
        out.new (length_in before result) }}
{{
    Ok(0)
}}

pub fn five(line: &[u8], out: &mut [u8]) -> Result<usize, Refusal>
    ensures {{ Five line.now out.old result out.new }}
{{
    Ok(0)
}}

pub fn pack<const W: usize>(fields: &[u8], packed: &mut [u8]) -> Result<(), Refusal>
    requires {{ 0 < W }}
    ensures {{ Packs W (2 ^ W - 1) fields.now packed.old (number_in result) packed.new }}
{{
    Ok(())
}}
"""
EXPORT = '#[unsafe(no_mangle)]\npub extern "C" fn'
FOUR = "ensures { Four line.now out.old length.old result out.new length.new }"
FIVE, PACKS = FOUR.replace("Four", "FiveTo"), "ensures { PacksBits fields.now packed.old result packed.new }"
# What C calls: each function's head, contract and body, and that of the function of its name that C has.
NAMED = (
    (HEAD.replace("one", "gridprofile_one"), ONE, "number_in(turned::one(line, out, count))", "line, out, count"),
    ("pub fn gridprofile_four(line: &[u8], out: &mut [u8], length: &mut usize) -> u8", FOUR,
     "store_length(turned::four(line, out), length)", "line, out, length"),
    ("pub fn gridprofile_five(line: &[u8], out: &mut [u8], length: &mut usize) -> u8", FIVE,
     "store_length(turned::five(line, out), length)", "line, out, length"),
    ("pub fn gridprofile_pack_bits(fields: &[u8], packed: &mut [u8]) -> u8", PACKS,
     "number_in(turned::pack::<BIT>(fields, packed))", "fields, packed"),
)


def named(head):
    return head[len("pub fn ") : head.index("(")]


LIBRARY = """pub mod category1;
pub mod entries;

ghost use Rattle.inner.specs.Promises.{One, Four, FiveTo, PacksBits, classes};

use outcome::{number_in, store_length};
use turned::BIT;
""" + "".join(f"\n{head}\n    {ensures}\n{{\n    {body}\n}}\n" for head, ensures, body, _ in NAMED)
INTERFACE = """pub mod category1;

ghost use Rattle.inner.specs.Promises.{One, Four, FiveTo, PacksBits, classes};
""" + "".join(
    f"\n{head.replace('pub fn', EXPORT)}\n    {ensures}\n{{\n    gridprofile::{named(head)}({lent})\n}}\n"
    for head, ensures, _, lent in NAMED
)
TWO_OF_SELF = TWO.replace("Two p", "Two self.now.category.sizes")
ROOM = """let mut room = [0u8; ROOM];
        let mut scratch = Scratch {
            category: self.category,
            room: &mut room,
        };"""
METHODS = f"""ghost use Rattle.std.specs.Prelude.{{◌≡◌}};

use deep::entry::drawn;
use expand::numbers;
use outcome::{{number_in, store_length}};
use parameters::Category;

#[derive(Clone, Copy)]
pub struct Entries<const ROOM: usize> {{
    pub category: Category,
    pub ghost room: {{ ROOM ≡ category.sizes.n * 2 }},
}}

impl<const ROOM: usize> Entries<ROOM> {{
    ghost use Rattle.outcome.specs.Result.{{number_in}};
    ghost use Rattle.deep.specs.Entries.{{Two, Makes, SamplesSix}};

    pub fn two(&self, block: &[u8], out: &mut [u8]) -> u8
        {TWO_OF_SELF}
    {{
        {ROOM}
        number_in(deep::entry::two(block, &mut scratch, out))
    }}

    pub fn free(&self, block: &[u8], out: &mut [u8]) -> Result<(), Refusal>
        {TWO_OF_SELF.replace("result", "(number_in result)")}
    {{
        {ROOM}
        deep::entry::two(block, &mut scratch, out)
    }}

    pub fn made(&self, block: &[u8], out: &mut [u8], length: &mut usize) -> u8
        ensures {{ Makes self.now.category.sizes block.now out.old length.old result out.new length.new }}
    {{
        {ROOM}
        let package = deep::entry::make(
            block,
            &mut scratch,
            out,
        );
        store_length(package, length)
    }}

    pub fn sample_six(&self, block: &[u8], out: &mut [u8]) -> u8
        ensures {{ SamplesSix self.now.category.sizes block.now out.old result out.new }}
    {{
        let sizes = self.category.sizes;
        let mut all = [0u8; ROOM];
        let room = &mut all[..sizes.t];
        let draw = numbers::six(self.category);
        number_in(drawn(out, room, block, draw, sizes.w))
    }}
}}

impl Model for Category {{
    ghost Value = {{ ℕ }};
}}
"""
FOR_SCRATCH = TWO.replace("Two p", "Two scratch.old.category.sizes").replace("result", "(number_in result)")
DEEP = f"""ghost use Rattle.std.specs.Prelude.{{◌≡◌, ◌≤◌, ℕ, length}};
ghost use Rattle.outcome.specs.Result.{{number_in, length_in}};
ghost use Rattle.deep.specs.Entries.{{Two, Makes}};
ghost use Rattle.deep.specs.Draws.{{Draws}};

use outcome::Refusal;

pub fn two(block: &[u8], scratch: &mut Scratch<'_>, out: &mut [u8]) -> Result<(), Refusal>
    {FOR_SCRATCH}
{{
    fill(block, scratch, out)
}}

pub fn make(block: &[u8], scratch: &mut Scratch<'_>, out: &mut [u8]) -> Result<usize, Refusal>
    ensures package {{ (before : ℕ) → Makes scratch.old.category.sizes block.now out.old before (number_in result)
        out.new (length_in before result) }}
    ensures category {{ scratch.new.category ≡ scratch.old.category }}
{{
    Ok(0)
}}

pub fn drawn(out: &mut [u8], room: &mut [u8], block: &[u8], d: Draw, w: usize) -> Result<(), Refusal>
    requires {{ d.count ≤ length room.old }}
    ensures {{ Draws d.width w (length room.old) block.now out.old (number_in result) out.new }}
{{
    Ok(())
}}
"""
CATEGORY = """use parameters::CATEGORY1 as P;
use parameters::Category;
ghost use Rattle.parameters.specs.Categories.{category1 as p};
ghost use Rattle.std.specs.Prelude.{◌≡◌};

use crate::entries::Entries;

const ROOM: usize = P.n * 2;

pub fn entries() -> Entries<ROOM>
    ensures { result.category.sizes ≡ p }
{
    Entries {
        category: Category { sizes: P },
    }
}
"""
C_CATEGORY = f"""ghost use Rattle.parameters.specs.Categories.{{category1 as p}};
ghost use Rattle.deep.specs.Entries.{{Two}};

{EXPORT} gridprofile_two(block: &[u8], out: &mut [u8]) -> u8
    {TWO}
{{
    gridprofile::category1::entries().two(block, out)
}}
"""
PROMISES = """-- What crate inner promises ("promises").
use Rattle.std.specs.Prelude.{ℕ}

abbrev pub classes : ℕ
classes = 3

pub record One (table width : ℕ) (line old : List ℕ) (count answer : ℕ) (new : List ℕ) : Type 0 where
  pub answers : answer ≡ 0

unfoldable pub Three : List ℕ → ℕ → List ℕ → Type 0
Three old word new = new ≡ old

abbrev pub Four : List ℕ → List ℕ → ℕ → ℕ → List ℕ → ℕ → Type 0
Four line old = AnswersFront (checks line) old

pub record Five (line old : List ℕ) (r : Result ℕ) (new : List ℕ) : Type 0 where
  pub answered : r ≡ answer (checks line) 5

abbrev pub FiveTo : List ℕ → List ℕ → ℕ → ℕ → List ℕ → ℕ → Type 0
FiveTo line old = AnswersFront (checks line) old

abbrev pub Packs : (w m : ℕ) (fields old : List ℕ) (r : ℕ) (new : List ℕ) → Type 0
Packs w m fields old = Answers (checks fields) old

abbrev pub PacksBits : (fields old : List ℕ) (r : ℕ) (new : List ℕ) → Type 0
PacksBits = Packs 1 1
"""
ENTRIES = """use Rattle.deep.specs.Draws.{Draws}

module _ (p : Params)
    (q : Params) where
  -- twice
  abbrev pub Two : List ℕ → List ℕ → ℕ → List ℕ → Type 0
  Two block old = Answers (checks p block) old

  abbrev pub Makes : List ℕ → List ℕ → ℕ → ℕ → List ℕ → ℕ → Type 0
  Makes block old = AnswersFront (checks p block) old

  abbrev pub SamplesSix : List ℕ → List ℕ → ℕ → List ℕ → Type 0
  SamplesSix = Draws 7 p.w p.t
"""
DRAWS = """abbrev pub Draws : ℕ → ℕ → ℕ → List ℕ → List ℕ → ℕ → List ℕ → Type 0
Draws width w n block old = Answers (checks width w n block) old
"""
HEADER = """/* uint8_t gridprofile_none(void); */
uint8_t gridprofile_one(const uint8_t *line, size_t line_len, uint8_t *out, size_t out_len, uint32_t count);
uint8_t gridprofile_four(const uint8_t *line, size_t line_len, uint8_t *out, size_t out_len, size_t *length);
uint8_t gridprofile_five(const uint8_t *line, size_t line_len, uint8_t *out, size_t out_len, size_t *length);
uint8_t gridprofile_pack_bits(const uint8_t *fields, size_t fields_len, uint8_t *packed, size_t packed_len);
uint8_t gridprofile_two(const uint8_t *block, size_t block_len, uint8_t *out,
                        size_t out_len);
"""
LIST = """# a comment
gridprofile::gridprofile_one  gridprofile_one  inner.Promises.One
gridprofile::entries::Entries::two  gridprofile_two  deep.Entries.Two
inner::one  -  inner.Promises.One
inner::more::three  -  inner.Promises.Three
gridprofile::gridprofile_four  gridprofile_four  inner.Promises.Four
gridprofile::gridprofile_five  gridprofile_five  inner.Promises.FiveTo
gridprofile::gridprofile_pack_bits  gridprofile_pack_bits  inner.Promises.PacksBits
"""
# Entries for callers in Rattle, which a test lists
FREE = "gridprofile::entries::Entries::free  -  deep.Entries.Two\n"
MADE = "gridprofile::entries::Entries::made  -  deep.Entries.Makes\n"
SIX = "gridprofile::entries::Entries::sample_six  -  deep.Entries.SamplesSix\n"
CATEGORIES = "abbrev pub category1 : Params\nabbrev pub category3 : Params\n"
REPOSITORY = {
    entries.LIST: LIST,
    entries.HEADER: HEADER,
    "crates/gridprofile_c/src/lib.rt": INTERFACE,
    "crates/gridprofile_c/src/category1.rt": C_CATEGORY,
    "crates/gridprofile/src/lib.rt": LIBRARY,
    "crates/gridprofile/src/category1.rt": CATEGORY,
    "crates/inner/src/lib.rt": INNER,
    "crates/inner/src/more.rt": MORE,
    "crates/inner/specs/Promises.antt": PROMISES,
    "crates/inner/specs/Others.antt": PROMISES,
    "crates/twin/specs/Promises.antt": PROMISES,
    "crates/gridprofile/src/entries.rt": METHODS,
    "crates/turned/src/lib.rt": TURNED,
    "crates/deep/src/lib.rt": "pub mod entry;\n",
    "crates/deep/src/entry.rt": DEEP,
    "crates/deep/specs/Entries.antt": ENTRIES,
    "crates/deep/specs/Draws.antt": DRAWS,
    "crates/parameters/src/lib.rt": "pub const CATEGORY1: Params = Params { n: 4 };\n",
    "crates/parameters/specs/Categories.antt": CATEGORIES,
}
INNER_FILE, MORE_FILE = "crates/inner/src/lib.rt", "crates/inner/src/more.rt"
METHODS_FILE, DEEP_FILE = "crates/gridprofile/src/entries.rt", "crates/deep/src/entry.rt"
TURNED_FILE = "crates/turned/src/lib.rt"
INTERFACE_FILE, C_CATEGORY_FILE = "crates/gridprofile_c/src/lib.rt", "crates/gridprofile_c/src/category1.rt"
LIBRARY_FILE, CATEGORY_FILE = "crates/gridprofile/src/lib.rt", "crates/gridprofile/src/category1.rt"
PROMISES_FILE, ENTRIES_FILE = "crates/inner/specs/Promises.antt", "crates/deep/specs/Entries.antt"


class Repository(unittest.TestCase):
    """The check over the small repository, with files changed or added."""

    @classmethod
    def setUpClass(cls):
        cls.folder = tempfile.TemporaryDirectory()
        cls.addClassCleanup(cls.folder.cleanup)
        cls.write(REPOSITORY)

    @classmethod
    def write(cls, texts):
        for path, text in texts.items():
            path = os.path.join(cls.folder.name, path)
            os.makedirs(os.path.dirname(path), exist_ok=True)
            with open(path, "w", newline="") as file:
                file.write(text)

    def problems(self, **changed):
        self.write(changed)
        found = [problem for _, problem in entries.check(self.folder.name) if problem]
        self.write({path: text for path, text in REPOSITORY.items() if path in changed})
        for added in changed.keys() - REPOSITORY.keys():
            os.remove(os.path.join(self.folder.name, added))
        return found

    def refuses(self, said, path, *changes, **changed):
        """The changes of a file, old and new by turns, make a problem that says this."""
        text = REPOSITORY[path]
        for old, new in zip(changes[::2], changes[1::2]):
            self.assertIn(old, text)
            text = text.replace(old, new)
        problems = self.problems(**{path: text}, **changed)
        self.assertTrue(any(said in problem for problem in problems), problems)


class Decoys(Repository):
    """A contract that is not the entry's own does not count."""

    def test_a_sound_repository_has_no_problem(self):
        self.assertEqual(self.problems(), [])

    def test_in_a_line_comment(self):
        self.refuses("inner::one has no ensures", INNER_FILE, ONE, "// " + ONE)

    def test_in_a_block_comment(self):
        self.refuses("inner::one has no ensures", INNER_FILE, ONE, f"/* {ONE} */")

    def test_in_a_nested_block_comment(self):
        self.refuses("inner::one has no ensures", INNER_FILE, ONE, f"/* /* */ {ONE} */")

    def test_in_a_byte_string(self):
        text = f'let text = b"{HEAD}\n    {ONE} {{ }}";'
        self.refuses("inner::one has no ensures", INNER_FILE, f"    {ONE}\n{{", f"{{\n    {text}")

    def test_in_an_inline_module(self):
        decoy = f"mod beside {{\n    {HEAD}\n    {ONE}\n    {{ 0 }}\n"
        self.refuses("one is declared twice", INNER_FILE, f"    {ONE}\n", "", "mod beside {\n", decoy)

    def test_in_an_inline_module_alone(self):
        decoy = f"mod beside {{\n    {HEAD}\n    {ONE}\n    {{ 0 }}\n"
        self.refuses("inline module", INNER_FILE, f"{HEAD}\n    {ONE}", "pub fn another()", "mod beside {\n", decoy)

    def test_in_a_private_function_of_the_name(self):
        private = HEAD.replace("pub fn", "fn")
        decoy = f"{private}\n    {ONE}\n{{ 0 }}\n{HEAD}"
        self.refuses("one is declared twice", INNER_FILE, f"{HEAD}\n    {ONE}", decoy)

    def test_in_a_block_of_a_type(self):
        decoy = f"impl Pair {{\n    {HEAD}\n    {ONE}\n    {{ 0 }}\n}}\nmod beside {{"
        self.refuses("one is declared twice", INNER_FILE, f"    {ONE}\n", "", "mod beside {", decoy)

    def test_in_a_file_that_no_mod_names(self):
        listed = LIST.replace("inner::one", "inner::orphan::one")
        orphan = INNER.replace("pub mod more;", "")
        problems = self.problems(**{entries.LIST: listed, "crates/inner/src/orphan.rt": orphan})
        self.assertTrue(any("no `mod` line of crates/inner/src/lib.rt" in problem for problem in problems), problems)

    def test_in_a_private_module(self):
        self.refuses("inner::more::three is not public", INNER_FILE, "pub mod more;", "mod more;")

    def test_in_another_module(self):
        self.refuses("three is declared nowhere in crates/inner/src/lib.rt", entries.LIST, "more::three", "three")
        more = {MORE_FILE: MORE + f"{HEAD}\n    {ONE}\n{{ 0 }}\n"}
        self.refuses("inner::one has no ensures", INNER_FILE, ONE, "", **more)

    def test_in_a_crate_of_two_roots(self):
        self.refuses("both src/lib.rt and src/main.rt", INNER_FILE, **{"crates/inner/src/main.rt": INNER})


class Promises(Repository):
    """What an entry asks and promises."""

    def test_it_is_public(self):
        self.refuses("inner::one is not public", INNER_FILE, HEAD, HEAD.replace("pub", "pub(crate)"))
        self.refuses("inner::one is not public", INNER_FILE, HEAD, HEAD.replace("pub ", ""))

    def test_it_asks_for_nothing(self):
        asked, named = "requires { Odd count }", "requires needed { Odd count }"
        for new in (f"{asked}\n    {ONE}", f"{named}\n    {ONE}", f"{ONE}\n    {named}"):
            self.refuses("inner::one has a requires", INNER_FILE, ONE, new)
        for file in (INTERFACE_FILE, LIBRARY_FILE):
            self.refuses("gridprofile_one has a requires", file, "-> u8\n", f"-> u8\n    {named}\n")

    def test_it_has_no_ghost_value(self):
        self.refuses("has a ghost clause", INNER_FILE, ONE, f"ghost {{ ⊥ }}\n    {ONE}")

    def test_it_promises_once(self):
        self.refuses("inner::one has no ensures", INNER_FILE, ONE, "")
        self.refuses("has 2 ensures", INNER_FILE, ONE, f"{ONE}\n    ensures within {{ result ≤ count }}")
        self.refuses("has 2 ensures", INNER_FILE, ONE, f"{ONE}\n    {ONE}")
        self.refuses("has a label, alone", INNER_FILE, ONE, ONE.replace("ensures", "ensures alone"))

    def test_it_promises_one_name(self):
        forms = ("One classes × Three count", "One classes ∗ Three", "out.new ≡ classes", "λ r. One r", "«⊤» One")
        for new in ("⊤", "", *forms):
            self.refuses("not one name applied", INNER_FILE, ONE, f"ensures {{ {new} }}")

    def test_its_arguments_are_plain(self):
        for new in ("(length line.now)", "(line.now)", "line.entry", "line.exit", "line.now.first"):
            said = "not one name applied" if new == "line.now.first" else "an argument, `"
            self.refuses(said, INNER_FILE, "line.now", new)

    def test_it_leaves_nothing_out(self):
        self.refuses("one leaves out line.now", INNER_FILE, " line.now", "")
        self.refuses("one leaves out out.old", INNER_FILE, " out.old", "")
        self.refuses("one leaves out out.new", INNER_FILE, " out.new", "")
        self.refuses("one leaves out count", INNER_FILE, " count result", " result")
        self.refuses("one leaves out the answer", INNER_FILE, " count result", " count")
        self.refuses("three leaves out state.new", MORE_FILE, " state.new", "")
        self.refuses("three leaves out last_word", MORE_FILE, " last_word state.new", " state.new")
        self.refuses("imports last_words 0 times", MORE_FILE, " last_word state", " last_words state")

    def test_a_reference_is_looked_through(self):
        self.refuses("where line.now is meant", INNER_FILE, "line.now", "line")
        self.refuses("has line.old where line.now is meant", INNER_FILE, "line.now", "line.old")
        self.refuses("has out.now where out.old is meant", INNER_FILE, "out.new", "out.now")
        self.refuses("count in the ensures of inner::one is no", INNER_FILE, "count result", "count.now result")
        self.refuses("result in the ensures of inner::one is no", INNER_FILE, "count result", "count result.now")

    def test_its_words_are_not_hidden(self):
        self.refuses("hidden", INNER_FILE, "count: u32", "One: u32", "count result", "One result")
        self.refuses("hidden", INNER_FILE, "count: u32", "result: u32", "count result", "result result")
        self.refuses("hidden", INNER_FILE, "One classes", "result classes")
        self.refuses("takes a word", INNER_FILE, "{◌≡◌}", "{◌≡◌, ◌count◌}")
        self.refuses("takes a word", INNER_FILE, "{◌≡◌}", "{◌≡◌, ◌new}")
        self.refuses("takes a word", INNER_FILE, "{◌≡◌}", "{◌≡◌, result}")


class Definitions(Repository):
    """The name that an entry promises is the listed definition."""

    def test_another_crates(self):
        said = "promises twin.Promises.One, and docs/entries.txt says inner."
        for file in (INNER_FILE, INTERFACE_FILE):
            self.refuses(said, file, "Rattle.inner", "Rattle.twin")
        self.refuses("and gridprofile::gridprofile_one twin.Promises.One", LIBRARY_FILE, "Rattle.inner", "Rattle.twin")
        c = {INTERFACE_FILE: INTERFACE.replace("{One", "{Two").replace("{ One", "{ Two")}
        said = "gridprofile_one promises inner.Promises.Two, and docs"
        self.refuses(said, LIBRARY_FILE, "{One", "{Two", "{ One", "{ Two", **c)

    def test_another_files(self):
        self.refuses("promises inner.Others.One", INNER_FILE, "Promises", "Others")
        none = "no file of a crate's definitions"
        self.refuses(none, INNER_FILE, "specs.Promises", "specs.Promises.More")
        self.refuses(none, INNER_FILE, "Rattle.inner.specs", "inner")
        self.refuses(none, INTERFACE_FILE, "Rattle.inner.", "Rattle.inner.proofs.")
        self.refuses(none, INTERFACE_FILE, "Rattle.inner.specs", "Rattle.inner.proofs")

    def test_another_of_the_list(self):
        self.refuses("promises inner.Promises.One", entries.LIST, "inner.Promises.One", "inner.Promises.Three")

    def test_imported_as_another(self):
        self.refuses("imports Free as One: another name", INNER_FILE, "  One,", "  Free as One,")
        self.refuses("imports Free as Spare: another name", INNER_FILE, "  One,", "  One, Free as Spare,")
        self.refuses("imports classes as p: another name", INNER_FILE, "  One,", "  One, classes as p,")
        whole = "classes};\nghost use Rattle.twin.specs as One"
        self.refuses("imports Rattle.twin.specs as One", INNER_FILE, "  One,", "", "  classes,\n}", whole)

    def test_an_inner_definition(self):
        inner = "ghost use Rattle.inner.specs.InnerStates.{one as one_of};\nghost use"
        text = REPOSITORY[INNER_FILE].replace("ghost use", inner, 1)
        self.assertEqual(self.problems(**{INNER_FILE: text}), [])
        self.refuses("no file of a crate's definitions", INNER_FILE, "specs.Promises", "specs.InnerStates")

    def test_imported_once(self):
        self.refuses("imports One 2 times", INNER_FILE, "  One,", "  One, Mine.One,")
        self.refuses("imports One 2 times", INNER_FILE, "mod beside {", "mod beside {\nghost use Rattle.twin.{One};")
        self.refuses("imports One 0 times", INNER_FILE, "  One,", "  Two,")

    def test_a_crates_definitions_are_under_their_own_name(self):
        item = "ghost use other.specs.Rattle;\nghost use Rattle"
        self.refuses("gives Rattle another meaning", INNER_FILE, "ghost use Rattle", item)

    def test_it_is_defined(self):
        gone, record = "defines One publicly 0 times", "pub record One"
        self.refuses(gone, PROMISES_FILE, record, "pub record Many")
        self.refuses(gone, PROMISES_FILE, record, "record One")
        self.refuses(gone, PROMISES_FILE, record, "-- pub record One")
        self.refuses(gone, PROMISES_FILE, record, "pub record Many : Type 0 where\n  pub One")
        self.refuses("One publicly 2 times", PROMISES_FILE, "unfoldable pub Three", "abbrev pub One : ℕ\npub Three")
        self.refuses("cannot be read", PROMISES_FILE, record, "{- pub record One\n-}\npub record Many")
        self.refuses("cannot be read", PROMISES_FILE, record, 'text = "\npub record One')
        held = "pub record Held : Type 0 where"
        self.refuses("defines Two publicly 0 times", ENTRIES_FILE, "-- twice", held, "  abbrev", "    abbrev")
        none = {MORE_FILE: MORE.replace("Promises", "None")}
        self.refuses("None.antt cannot be read", entries.LIST, "inner.Promises.Three", "inner.None.Three", **none)


class CFunctions(Repository):
    """A C function promises what the entry promises: the library's function of its name, or at a category the method of
    the entries at its sizes."""

    def test_its_form(self):
        for old, new in (("#[unsafe(no_mangle)]\n", ""), ('extern "C" ', "")):
            self.refuses('is not `#[unsafe(no_mangle)] pub extern "C"`', C_CATEGORY_FILE, old, new)
        self.refuses("gridprofile_two is not public", C_CATEGORY_FILE, "pub extern", "extern")
        said = "crate gridprofile_c does not export gridprofile_one"
        self.refuses(said, INTERFACE_FILE, "fn gridprofile_one", "fn gridprofile_none")

    def test_it_calls_the_listed_function_of_its_name(self):
        own, said = "gridprofile::gridprofile_one(", "and not the listed gridprofile::gridprofile_one of its own name"
        others = ("inner::one", "gridprofile::category1::gridprofile_one", "gridprofile::gridprofile_two")
        for other in (*others, "gridprofile::one"):
            self.refuses(said, INTERFACE_FILE, own, f"{other}(")
        method, said = "entries().two(", "and not the listed gridprofile::entries::Entries::two of its own name"
        self.refuses(said, C_CATEGORY_FILE, method, "entries().free(")
        self.refuses(said, C_CATEGORY_FILE, "gridprofile::category1::entries().two(", "gridprofile::gridprofile_two(")
        listed = {entries.LIST: LIST.replace("Entries::two", "Entries::free")}
        self.refuses(said.replace("two", "free"), C_CATEGORY_FILE, **listed)
        self.refuses("of its own name", C_CATEGORY_FILE, method, "entries().free(", **listed)
        self.refuses("the entries of another category", C_CATEGORY_FILE, "category1::entries", "category3::entries")

    def test_that_one_is_plain(self):
        self.refuses("is not a plain function", LIBRARY_FILE, "pub fn", 'pub extern "C" fn')
        self.refuses("gridprofile::gridprofile_one is not public", LIBRARY_FILE, "pub fn", "fn")
        self.refuses("gridprofile_one is declared nowhere", LIBRARY_FILE, "fn gridprofile_one", "fn gridprofile_none")
        self.refuses("Entries::two is not a plain function", METHODS_FILE, "pub fn two", 'pub extern "C" fn two')
        self.refuses("Entries::two is not public", METHODS_FILE, "pub fn two", "fn two")
        self.refuses("inline module or a block", METHODS_FILE, "impl<const ROOM: usize> Entries", "impl Others")
        self.refuses("inline module or a block", METHODS_FILE, "> Entries<ROOM> {", "> Two for Entries<ROOM> {")

    def test_a_method_promises_the_same(self):
        def promises(said, new):
            self.refuses(said, METHODS_FILE, TWO_OF_SELF, new)

        self.refuses("promises deep.Entries.Too", METHODS_FILE, "Two", "Too")
        promises("leaves out self.now", TWO_OF_SELF.replace("self.now.category.sizes ", ""))
        promises("not one name applied", TWO_OF_SELF.replace("category.sizes", "category.other"))
        promises("has 2 ensures", TWO_OF_SELF + TWO_OF_SELF)
        promises("has a label", TWO_OF_SELF.replace("ensures", "ensures named"))
        promises("has a requires", "requires { Odd count }\n        " + TWO_OF_SELF)
        self.refuses("entries.rt imports Free as Two", METHODS_FILE, "{Two,", "{Free as Two,")
        self.refuses("promises twin.Entries.Two", METHODS_FILE, "Rattle.deep", "Rattle.twin")

    def test_the_function_called_promises_the_same_name(self):
        self.refuses("promises deep.Entries.Two, and deep::entry::two deep.Entries.Too", DEEP_FILE, "Two", "Too")
        self.refuses("and deep::entry::two twin.Entries.Two", DEEP_FILE, "Rattle.deep", "Rattle.twin")
        self.refuses("entry.rt imports Free as Two", DEEP_FILE, "{Two,", "{Free as Two,")
        self.refuses("deep::entry::two has 2 ensures", DEEP_FILE, FOR_SCRATCH, FOR_SCRATCH + FOR_SCRATCH)
        self.refuses("has a label", DEEP_FILE, FOR_SCRATCH, FOR_SCRATCH.replace("ensures", "ensures named"))
        self.refuses("deep::entry::two has no ensures", DEEP_FILE, FOR_SCRATCH, "")
        self.refuses("and turned::one inner.Promises.Four", TURNED_FILE, "{ One classes 7", "{ Four")

    def test_it_may_keep_the_category_of_scratch(self):
        made, kept = {entries.LIST: LIST + MADE}, "scratch.new.category ≡ scratch.old.category"
        self.assertEqual(self.problems(**made), [])
        for other in ("scratch.new.category ≡ scratch.new.category", "scratch.old.category ≡ scratch.old.category", "⊤"):
            self.refuses("deep::entry::make has 2 ensures", DEEP_FILE, kept, other, **made)
        self.refuses("has a ghost clause", DEEP_FILE, "    ensures category", "    ghost { ⊥ }\n    ensures category", **made)

    def test_of_the_same_arguments(self):
        old, new = "line.now out.old", "out.old line.now"
        said = "where gridprofile::gridprofile_one has"
        self.refuses("speaks of parameter out old", INTERFACE_FILE, old, new)
        self.refuses("speaks of number 3", INTERFACE_FILE, "classes 7", "classes 3")
        self.refuses("speaks of number 7", INTERFACE_FILE, "classes 7", "7 classes")
        self.refuses("speaks of number 8", INTERFACE_FILE, "out.new", "out.new 8")
        self.refuses(f"speaks of parameter line now {said}", LIBRARY_FILE, old, new)
        for one, three in (("classes 7", "classes 3"), ("out.new", "out.new 3")):
            self.refuses(f"{said} number 3", LIBRARY_FILE, one, three)
        self.refuses("other parameters", INTERFACE_FILE, "(line, out, count)", "(line, out)")
        said = "gridprofile::gridprofile_one speaks of"
        self.refuses(f"{said} parameter out old", LIBRARY_FILE, old, new)
        self.refuses(f"{said} number 3", LIBRARY_FILE, "classes 7", "classes 3")
        self.refuses(f"{said} number 7", LIBRARY_FILE, "classes 7", "7 classes")
        self.refuses(f"{said} number 8", LIBRARY_FILE, "out.new", "out.new 8")
        self.refuses("speaks of parameter line now where turned::one has", TURNED_FILE, old, new)
        for one, three in (("classes 7", "classes 3"), ("out.new", "out.new 3")):
            c, says = {INTERFACE_FILE: INTERFACE.replace(one, three)}, f"{said} number 3 where turned::one has"
            self.refuses(says, LIBRARY_FILE, one, three, **c)
        self.refuses("turned::one has other parameters", LIBRARY_FILE, "turned::one(line, out, count)", "turned::one(line, out)")

    def test_of_the_answer_as_it_is_turned(self):
        said = "other parameters or another result"
        for result in ("u8", "Result<usize, Refusal>", "Result<(), Other>"):
            self.refuses(f"turned::one has {said}", TURNED_FILE, "count: u32) -> Result<(), Refusal>", f"count: u32) -> {result}")
        self.refuses(f"turned::four has {said}", TURNED_FILE, "Result<usize, Refusal>", "Result<(), Refusal>")
        self.refuses("speaks of answer where turned::one has answer itself", TURNED_FILE, "(number_in result)", "result")
        self.refuses("speaks of answer where turned::one has term ( number_of result )", TURNED_FILE, "number_in r", "number_of r")
        self.refuses(f"turned::one has {said}", LIBRARY_FILE, "number_in(turned::one(line, out, count))",
                     "turned::one(line, out, count)")
        four = "store_length(turned::four(line, out), length)"
        self.refuses(f"turned::four has {said}", LIBRARY_FILE, four, "number_in(turned::four(line, out))")
        says = "speaks of parameter length old where turned::four has"
        self.refuses(says, LIBRARY_FILE, four, four.replace("length)", "line)"))
        self.refuses(f"{says} number 7", TURNED_FILE, "out.old before", "out.old 7")
        says = "speaks of parameter length new where turned::four has"
        self.refuses(f"{says} parameter length old", TURNED_FILE, "(length_in before result)", "before")
        self.refuses(f"{says} term ( length_in 7 result )", TURNED_FILE, "length_in before", "length_in 7")
        made = {entries.LIST: LIST + MADE}
        self.refuses("call", METHODS_FILE, "store_length(package", "store_length(out", **made)
        self.refuses("hides block", METHODS_FILE, "let package", "let block", "(package", "(block", **made)

    def test_what_makes_a_number_of_a_result(self):
        free, other = {entries.LIST: LIST + FREE}, "Rattle.outcome.specs.Others"
        said = "is outcome.Others.number_in, and not outcome.Result.number_in"
        self.refuses(said, METHODS_FILE, "Rattle.outcome.specs.Result", other, **free)
        self.refuses(said, TURNED_FILE, "Rattle.outcome.specs.Result", other)
        self.refuses("imports number_in 0 times", METHODS_FILE, "ghost use Rattle.outcome.specs.Result.{number_in};", "", **free)
        self.refuses("imports number_of as number_in", METHODS_FILE, "{number_in};", "{number_of as number_in};", **free)
        said = "is outcome.Others.length_in, and not outcome.Result.length_in"
        self.refuses(said, TURNED_FILE, "{number_in, length_in}", "{number_in};\nghost use " + other + ".{length_in}")
        self.refuses("number_in in the ensures of turned::one is hidden", TURNED_FILE, "count: u32", "number_in: u32",
                     "out.old count", "out.old number_in")
        self.refuses("takes a word of the ensures of turned::one", TURNED_FILE, "{ℕ}", "{ℕ, ◌number_in◌}")
        for name, other in (("number_in", "store_length"), ("store_length", "number_in")):
            said = f"{name} in crates/gridprofile/src/lib.rt is not outcome::{name}"
            self.refuses(f"{name}, which crates/gridprofile/src/lib.rt calls", LIBRARY_FILE,
                         "use outcome::{number_in, store_length};", f"use outcome::{other};")
            self.refuses(said, LIBRARY_FILE, "use outcome::{number_in, store_length};",
                         f"use outcome::{other};\nuse turned::{name};")
            self.refuses(f"gives {name} another meaning", LIBRARY_FILE, "use turned::BIT;", f"use turned::BIT;\nfn {name}() {{}}")

    def test_of_the_same_definitions(self):
        imports = "};\nghost use Rattle.inner.specs.Others.{classes}"
        for file, said in ((INTERFACE_FILE, "speaks of"), (LIBRARY_FILE, "where gridprofile::gridprofile_one has"),
                           (LIBRARY_FILE, "gridprofile::gridprofile_one speaks of"), (TURNED_FILE, "where turned::one has")):
            self.refuses(f"{said} definition inner.Others.classes", file, ", classes}", imports)

    def test_of_a_definition_that_the_listed_is(self):
        said = "promises inner.Promises.PacksBits, and turned::pack inner.Promises.Packs"
        for old, new in (("PacksBits = Packs 1", "PacksBits = Packed 1"), ("PacksBits = Packs 1 1", "PacksBits = f (Packs 1 1)")):
            self.refuses(said, PROMISES_FILE, old, new)
        said = "gridprofile_pack_bits is not called after pack and its width"
        self.refuses(said, LIBRARY_FILE, "::<BIT>", "::<VALUE>")
        self.refuses("turned::pack, which gridprofile::gridprofile_pack_bits calls without", LIBRARY_FILE, "::<BIT>", "")
        self.refuses("speaks of parameter fields now where turned::pack has parameter packed old", TURNED_FILE,
                     "fields.now packed.old", "packed.old fields.now")
        self.refuses("parameter fields now where turned::pack has number 7", TURNED_FILE, "fields.now", "7")
        self.refuses("has other parameters", LIBRARY_FILE, "(fields, packed))", "(fields))")
        six = {entries.LIST: LIST + SIX}
        self.assertEqual(self.problems(**six), [])
        said = "promises deep.Entries.SamplesSix, and deep::entry::drawn deep.Draws.Draws"
        self.refuses(said, ENTRIES_FILE, "= Draws 7", "= Drawn 7", **six)
        lent = "lends `sizes . w` for w, where deep.Entries.SamplesSix has p.t"
        self.refuses(lent, ENTRIES_FILE, "p.w p.t", "p.t p.w", **six)
        self.refuses("lends `sizes . t` for w, where", METHODS_FILE, "draw, sizes.w", "draw, sizes.t", **six)
        self.refuses("lends `draw . w` for w, where", METHODS_FILE, "draw, sizes.w", "draw, draw.w", **six)
        for put in ("Draws 7 p.w", "Draws 7 p.w p.t 3"):
            self.refuses("SamplesSix puts in another number of arguments", ENTRIES_FILE, "Draws 7 p.w p.t", put, **six)
        self.refuses(said, ENTRIES_FILE, "use Rattle.deep.specs.Draws", "use Rattle.twin.specs.Draws", **six)
        self.refuses("where deep::entry::drawn has parameter out old", DEEP_FILE, "block.now out.old (number",
                     "out.old block.now (number", **six)

    def test_of_a_definition_beside_the_listed(self):
        said = "promises inner.Promises.FiveTo, and turned::five inner.Promises."
        fife = {TURNED_FILE: TURNED.replace("fn five", "fn fife")}
        self.refuses(said.replace("five", "fife") + "Five", LIBRARY_FILE, "turned::five", "turned::fife", **fife)
        self.refuses("and turned::five inner.Others.Five", TURNED_FILE,
                     "Five, Packs, classes};", "Packs, classes};\nghost use Rattle.inner.specs.Others.{Five};")
        self.refuses("where turned::five has parameter out old", TURNED_FILE, "Five line.now out.old", "Five out.old line.now")
        self.refuses("speaks of answer itself where turned::five has answer", TURNED_FILE,
                     "out.old result", "out.old (number_in result)")
        self.refuses("where turned::five has nothing", TURNED_FILE, "result out.new }\n{\n    Ok(0)", "result }\n{\n    Ok(0)")

    def test_of_the_arguments_of_the_call(self):
        other = "where gridprofile::entries::Entries::two has parameter out now"
        self.refuses(other, C_CATEGORY_FILE, "(block, out)", "(out, block)")
        self.refuses("other parameters", C_CATEGORY_FILE, "(block, out)", "(block)")
        other = "where deep::entry::two has parameter out now"
        self.refuses(other, METHODS_FILE, "(block, &mut scratch, out)", "(out, &mut scratch, block)")
        self.refuses("deep::entry::two has other parameters", METHODS_FILE, "(block, &mut scratch, out)", "(block, &mut scratch)")

    def test_the_librarys_calls_a_function_that_promises_it(self):
        said = "promises inner.Promises.One, and turned::four inner.Promises.Four"
        four = {TURNED_FILE: TURNED.replace("pub fn four(line: &[u8], out: &mut [u8]) -> Result<usize",
                                            "pub fn four(line: &[u8], out: &mut [u8], count: u32) -> Result<()")}
        self.refuses(said, LIBRARY_FILE, "turned::one(", "turned::four(", **four)
        self.refuses("turned::look is not public", LIBRARY_FILE, "turned::one(", "turned::look(")
        self.refuses("inner::look is not public", LIBRARY_FILE, "turned::one(", "inner::look(")
        self.refuses("and deep::entry::two deep.Entries.Two", LIBRARY_FILE, "turned::one(", "deep::entry::two(")
        self.refuses("there is no file for gone", LIBRARY_FILE, "turned::one(", "gone::one(")

    def test_the_function_called_asks_for_scratch_alone(self):
        asked = f"requires {{ Odd count }}\n    {ONE_OF_RESULT}"
        said = "turned::one, which gridprofile::gridprofile_one calls without scratch"
        self.refuses(said, TURNED_FILE, ONE_OF_RESULT, asked)
        own, asks = "number_in(turned::one(", {TURNED_FILE: TURNED.replace(ONE_OF_RESULT, asked)}
        self.refuses(said, LIBRARY_FILE, own, f"let mut scratch = [0u8; 3];\n    {own}", **asks)
        self.assertEqual(self.problems(**{DEEP_FILE: DEEP.replace(FOR_SCRATCH, "requires { Odd block }\n    " + FOR_SCRATCH)}), [])

    def test_it_makes_one_call(self):
        call = "gridprofile::gridprofile_one(line, out, count)"
        for body in (
            "0",
            "",
            "one(line, out, count)",
            f"{call};\n    {call}",
            f"let mut seen = [0u8; inner::size()];\n    {call}",
            f"if count < 1 {{\n        return 0;\n    }}\n    {call}",
            f"if count < 1 {{ {call} }} else {{ {call} }}",
            f"match {call} {{ n => 0 }}",
            f"{call} + 0",
            f"!{call}",
            f"out[0] = 1;\n    {call}",
            f"let count = 1;\n    {call}",
            "gridprofile::gridprofile_one(line, out, count + 1)",
            "gridprofile::gridprofile_one(line, out, inner::number(count))",
            "gridprofile::gridprofile_one(&line[1..], out, count)",
        ):
            self.refuses("call", INTERFACE_FILE, call, body)
            own = "number_in(turned::one(line, out, count))"
            body = body.replace(call, own).replace("gridprofile::gridprofile_one", "turned::one")
            self.refuses("call", LIBRARY_FILE, own, body if own in body or "turned::" not in body else f"number_in({body})")
        own, call = "number_in(deep::entry::two(block, &mut scratch, out))", "deep::entry::two(block, &mut scratch, out)"
        for body in (
            "0",
            "",
            "two(block, out)",
            "self.free(block, out)",
            f"number_in({call});\n        {own}",
            f"{own} + 0",
            f"!{own}",
            f"let answer = {own};\n        answer",
            f"let answer = {own};\n        if answer == 2 {{ shake::shake256(block, out); }}\n        answer",
            f"if block.len() < 1 {{ {own} }} else {{ {own} }}",
            f"match {own} {{ n => 0 }}",
            f"out[0] = 1;\n        {own}",
            f"number_in({call}.or(Ok(())))",
            f"number_in(Ok({call}))",
            own.replace("block", "&block[1..]"),
            own.replace("out", "deep::other(out)"),
            own.replace("two(", "two::<{ 3 }>("),
        ):
            self.refuses("call", METHODS_FILE, own, body)
        for body in ("0", "", "store_length(turned::four(line, out), &mut 3)", "store_length(turned::four(line, out), length, 1)",
                     "store_length(turned::four(line, out), length) + 1", "store_length(Ok(7), length)", "*length = 3;\n    0"):
            self.refuses("call", LIBRARY_FILE, "store_length(turned::four(line, out), length)", body)
        call = "gridprofile::category1::entries().two(block, out)"
        for body in ("0", f"{call};\n    {call}", f"{call} + 0", f"let block = out;\n    {call}", call.replace("()", "(P)"),
                     call.replace("out", "&mut out[1..]"), call.replace("gridprofile::", "crate::")):
            self.refuses("call", C_CATEGORY_FILE, call, body)

    def test_it_lends_its_own_parameters(self):
        lent, scratch = "lends `& mut scratch` for out, of which the contract speaks", "let mut scratch = [0u8; 3];\n    "
        call = "gridprofile::gridprofile_one(line, "
        self.refuses(lent, INTERFACE_FILE, f"{call}out", f"{scratch}{call}&mut scratch")
        self.refuses("lends `scratch` for line", INTERFACE_FILE, call, scratch + call.replace("line", "scratch"))
        self.refuses("hides line", INTERFACE_FILE, call, scratch.replace("scratch", "line") + call)
        self.refuses("hides P", INTERFACE_FILE, call, scratch.replace("scratch", "P") + call)
        own, call = "number_in(turned::one(line, ", "turned::one(line, "
        self.refuses(lent, LIBRARY_FILE, f"{own}out", f"{scratch}{own}&mut scratch")
        self.refuses("lends `scratch` for line", LIBRARY_FILE, own, scratch + own.replace("line", "scratch"))
        self.refuses("hides line", LIBRARY_FILE, own, scratch.replace("scratch", "line") + own)
        self.refuses("lends `7` for count", LIBRARY_FILE, "turned::one(line, out, count)", "turned::one(line, out, 7)")
        own = "deep::entry::two(block, &mut scratch, out)"
        self.refuses(lent, METHODS_FILE, own, "deep::entry::two(block, &mut scratch, &mut scratch)")
        self.refuses("lends `out` for scratch", METHODS_FILE, own, "deep::entry::two(block, out, &mut scratch)")
        self.refuses("lends `& mut room` for scratch", METHODS_FILE, own, "deep::entry::two(block, &mut room, out)")
        self.refuses("lends `scratch` for block", METHODS_FILE, own, "deep::entry::two(scratch, &mut scratch, out)")
        array = "let mut room = [0u8; ROOM]"
        for hidden in ("block", "room", "self"):
            self.refuses(f"hides {hidden}", METHODS_FILE, array, f"{array};\n        let mut {hidden} = [0u8; 3]")
        self.refuses("length of a local array of gridprofile::entries::Entries::two is a call", METHODS_FILE, array,
                     "let mut room = [0u8; deep::size()]")
        self.refuses("made of others, and not of its own array", METHODS_FILE, "room: &mut room", "room: &mut others")
        self.refuses("call", METHODS_FILE, "category: self.category,\n            room", "category: other,\n            room")
        self.refuses("call", METHODS_FILE, "category: self.category,\n            room", "room")

    def test_it_makes_its_own_draw(self):
        six, said = {entries.LIST: LIST + SIX}, "and not expand::numbers::six"
        for lent in ("self.category.sizes", "&self.category.sizes"):
            changed = {METHODS_FILE: METHODS.replace("six(self.category)", f"six({lent})")}
            self.assertEqual(self.problems(**changed, **six), [])
        self.refuses(said, METHODS_FILE, "numbers::six(", "numbers::seven(", **six)
        self.refuses(said, METHODS_FILE, "use expand::numbers", "use deep::numbers", **six)
        self.refuses("brought by no `use`", METHODS_FILE, "use expand::numbers;\n", "", **six)
        self.refuses("call", METHODS_FILE, "six(self.category)", "six(other)", **six)
        self.refuses("crate's name expand another", METHODS_FILE, "#[derive", "mod expand {}\n#[derive", **six)
        self.refuses("gives drawn another meaning", METHODS_FILE, "#[derive", "fn drawn() {}\n#[derive", **six)
        self.refuses("made of out, and not of its own array", METHODS_FILE, "&mut all[", "&mut out[", **six)
        self.refuses("made of draws, and not of its own sizes", METHODS_FILE, "[..sizes.t]", "[..draws.t]", **six)

    def test_a_crates_name_is_the_crate(self):
        name = "gridprofile"
        blocks = (f"mod {name} {{ pub fn one() {{}} }}", f"struct {name} {{ }}\nimpl {name} {{ pub fn one() {{}} }}")
        uses = (f"use other as {name};", f"use other::{name};")
        trees = (f"use other::{{more, part::{{{name}}}}};", f"use other::{{more as {name}, part}};")
        for item in (*blocks, f"mod {name};", *uses, *trees, f"fn {name}() {{}}"):
            self.refuses("crate's name gridprofile another", INTERFACE_FILE, "pub mod", f"{item}\npub mod")
            item = item.replace(name, "turned")
            self.refuses("crate's name turned another", LIBRARY_FILE, "use outcome", f"{item}\nuse outcome")
        self.refuses("there is no file for crate", LIBRARY_FILE, "turned::one(", "crate::one(")
        self.refuses("there is no file for crate", METHODS_FILE, "deep::entry::two(", "crate::entry::two(")
        self.refuses("crate's name parameters another", CATEGORY_FILE, "const ROOM", "mod parameters {}\nconst ROOM")

    def test_the_sizes_are_the_categorys(self):
        self.refuses("is not parameters::CATEGORY1", CATEGORY_FILE, "CATEGORY1 as P", "CATEGORY3 as P")
        self.refuses("is not parameters::CATEGORY1", CATEGORY_FILE, "use parameters::CATEGORY1 as P;\n", "")
        self.refuses("is not parameters.Categories.category1", CATEGORY_FILE, "category1 as p", "category3 as p")
        self.refuses("or other sizes", CATEGORY_FILE, "category1 as p", "category1 as p, category3")
        self.refuses("lends `P` for count", INTERFACE_FILE, "out, count)", "out, P)")
        said = "does not promise entries at the sizes p"
        own = "ensures { result.category.sizes ≡ p }"
        for new in ("", f"requires {{ Odd }}\n    {own}", own.replace("≡ p", "≡ q"), own.replace("ensures", "ensures at")):
            self.refuses(said, CATEGORY_FILE, own, new)
        self.refuses(said, CATEGORY_FILE, "entries()", "entries(n: usize)")
        self.refuses("entries is not public", CATEGORY_FILE, "pub fn", "fn")
        self.refuses("lends `P` for count", LIBRARY_FILE, "out, count)", "out, P)")

    def test_a_category_makes_entries_of_its_sizes(self):
        for result in ("Other<ROOM>", "Entries", "Entries<Entries<ROOM>>", "(Entries<ROOM>, u8)"):
            said = f"returns {' '.join(source.CODE.findall(result))}, and not Entries"
            self.refuses(said, CATEGORY_FILE, "-> Entries<ROOM>", f"-> {result}")
        self.refuses("returns nothing, and not Entries", CATEGORY_FILE, " -> Entries<ROOM>", "")
        said = "Entries in crates/gridprofile/src/category1.rt is not crate::entries::Entries"
        for use in ("use crate::others::Entries;", "use deep::entries::Entries;", "use crate::entries::Other as Entries;", ""):
            self.refuses(said, CATEGORY_FILE, "use crate::entries::Entries;", use)
        self.refuses(said, CATEGORY_FILE, "const ROOM", "pub struct Entries {}\nconst ROOM")
        said = "Category in crates/gridprofile/src/category1.rt is not parameters::Category"
        self.refuses(said, CATEGORY_FILE, "use parameters::Category;", "use deep::Category;")
        said, own = "is not Entries of the sizes P", "sizes: P }"
        for new in ("sizes: Q }", "sizes: parameters::CATEGORY3 }", "sizes: other(P) }", "sizes: P, more: 3 }"):
            self.refuses(said, CATEGORY_FILE, own, new)
        self.refuses(said, CATEGORY_FILE, "    Entries {\n", "    let P = other();\n    Entries {\n")
        self.refuses(said, CATEGORY_FILE, "    Entries {\n", "    others();\n    Entries {\n")

    def test_the_file_of_a_category_names_its_sizes(self):
        self.refuses("is not parameters.Categories.category1", C_CATEGORY_FILE, "category1 as p", "category3 as p")
        self.refuses("or other sizes", C_CATEGORY_FILE, "category1 as p", "category1 as p, category3")
        for item in ("use parameters::CATEGORY3 as P;", "const P: usize = 3;"):
            deep = "ghost use Rattle.deep"
            self.refuses("is not parameters::CATEGORY1", C_CATEGORY_FILE, deep, f"{item}\n{deep}")

    def test_a_method_for_callers_in_rattle(self):
        free = {entries.LIST: LIST + "gridprofile::entries::Entries::free  -  deep.Entries.Two\n"}
        self.assertEqual(self.problems(**free), [])
        listed = {entries.LIST: LIST + "gridprofile::entries::Entries::free  -  inner.Promises.One\n"}
        self.refuses("promises deep.Entries.Two", METHODS_FILE, **listed)
        without = {
            entries.LIST: LIST.replace(LIST.split("\n")[2] + "\n", "") + FREE,
            entries.HEADER: HEADER[: HEADER.index("uint8_t gridprofile_two")],
            C_CATEGORY_FILE: C_CATEGORY[: C_CATEGORY.index("#[")],
        }
        self.assertEqual(self.problems(**without), [])
        self.refuses("is not parameters.Categories.category1", CATEGORY_FILE, "category1 as p", "category3 as p", **without)
        self.refuses("does not promise entries at the sizes p", CATEGORY_FILE, "sizes ≡ p", "sizes ≡ q", **without)
        self.refuses("call", METHODS_FILE, "deep::entry::two(block, &mut scratch, out)\n", "Ok(())\n", **free)
        for new in ("number_of result", "number_in result result", "result"):
            self.refuses("an argument, `(`", METHODS_FILE, "(number_in result)", f"({new})", **free)

    def test_a_name_is_that_of_the_category(self):
        named = "gridprofile_category3_two"
        at = HEADER.index("uint8_t gridprofile_two")
        changed = {
            entries.LIST: LIST.replace("gridprofile_two", named),
            entries.HEADER: HEADER[:at],
            "include/gridprofile_category3.h": HEADER[at:].replace("gridprofile_two", named),
            C_CATEGORY_FILE: C_CATEGORY.replace("gridprofile_two", named),
        }
        said = f"gridprofile_c::category1::{named} has the name of another category"
        self.assertEqual(self.problems(**changed), [said])
        named = "gridprofile_category3_one"
        listed = {entries.LIST: LIST.replace("gridprofile_one", named)}
        self.refuses(f"{named} has the name", INTERFACE_FILE, "gridprofile_one", named, **listed)

    def test_the_file_of_a_category_uses_no_other(self):
        sizes_of_1 = CATEGORY[: CATEGORY.index("ghost use Rattle.std")]
        path = "crates/duty/src/category1.rt"
        for use in ("gridprofile::category1::gridprofile_two as two", "deep::categories", "parameters::CATEGORY1"):
            self.assertEqual(self.problems(**{path: f"{sizes_of_1}use {use};\n"}), [])
        for use in ("gridprofile::category3::gridprofile_two as two", "deep::{gridprofile_category5_two as two, three}",
                    "parameters::CATEGORY3 as Q", "deep::category10", "deep::gridprofile_category1x"):
            self.refuses("of another category", INNER_FILE, **{path: f"{sizes_of_1}use {use};\n"})
        self.refuses("is not parameters::CATEGORY1", INNER_FILE, **{path: "use other::CATEGORY1 as P;\n"})


class Lists(Repository):
    """List, exports and headers."""

    def test_the_list_has_a_line_once(self):
        self.refuses("has gridprofile::gridprofile_one twice", entries.LIST, "# a comment", LIST.split("\n")[1])
        two = LIST.split("\n")[2]
        self.refuses("has gridprofile::entries::Entries::two twice", entries.LIST, "# a comment", two)
        self.refuses("Entries::two twice", entries.LIST, "# a comment", two.replace(" gridprofile_two", " gridprofile_six"))
        self.refuses("has inner::one twice", entries.LIST, "# a comment", "inner::one  -  inner.Promises.One")
        self.refuses("has gridprofile_one twice", entries.LIST, "# a comment", "inner::two gridprofile_one inner.A.B")

    def test_a_line_has_three_parts(self):
        for line in ("a::b", "b  -  c.D.E", "a::b  -  c.E", "a::b  c.D.E", "a::b  -  c.D.E  f", "a::b;  -  c.D.E"):
            self.refuses("a line of docs/entries.txt is", entries.LIST, "# a comment", line)

    def test_exports_are_listed(self):
        self.refuses("lacks the exported gridprofile_one", entries.LIST, "gridprofile_one", "-")
        more, lacks = C_CATEGORY[C_CATEGORY.index("#[") :].replace("_two", "_six"), "lacks the exported gridprofile_six"
        two = f"{EXPORT} gridprofile_two"
        self.refuses(lacks, C_CATEGORY_FILE, two, f"mod in_here {{ {more} }}\n{two}")
        self.refuses(lacks, C_CATEGORY_FILE, **{"crates/gridprofile_c/src/orphan.rt": more})

    def test_an_exported_name_is_declared_once_beside_the_librarys(self):
        for crate in ("gridprofile_c", "gridprofile", "tiny_sizes", "inner"):
            orphan = {f"crates/{crate}/src/orphan.rt": "fn gridprofile_one() {}\n"}
            self.refuses("gridprofile_one is declared 3 times", INNER_FILE, **orphan)

    def test_only_the_interface_and_the_tests_export(self):
        export = f"{EXPORT} tiny_one() {{}}\n"
        marked = "#[unsafe(no_mangle)]\n" + HEAD
        self.refuses("crate inner exports one to C", INNER_FILE, HEAD, marked)
        self.refuses("crate gridprofile exports gridprofile_one to C", LIBRARY_FILE, "pub fn", EXPORT)
        self.refuses("crate twin exports tiny_one to C", INNER_FILE, **{"crates/twin/src/lib.rt": export})
        self.assertEqual(self.problems(**{"crates/tiny_sizes/src/lib.rt": export}), [])

    def test_the_header_declares_what_is_listed(self):
        self.refuses("gridprofile.h does not have gridprofile_two", entries.HEADER, "_two", "_six")
        self.refuses("entries.txt does not have gridprofile_six", entries.HEADER, "_two", "_six")
        none = "/* uint8_t gridprofile_none(void); */"
        self.refuses("entries.txt does not have gridprofile_six", entries.HEADER, none, "int\n*gridprofile_six (void);")
        self.refuses("gridprofile.h does not have gridprofile_one", entries.HEADER, "uint8_t gridprofile_one", "// g")

    def test_a_function_stands_in_its_own_header(self):
        two = HEADER[HEADER.index("uint8_t gridprofile_two") :]
        other = {"include/gridprofile_category3.h": two}
        self.refuses("gridprofile.h does not have gridprofile_two", entries.HEADER, two, "", **other)
        self.refuses("which belongs into include/gridprofile.h", entries.HEADER, two, "", **other)
        self.refuses("entries.txt does not have gridprofile_six", entries.HEADER,
                     **{"include/more.h": two.replace("_two", "_six")})

    def test_what_is_missing_is_a_problem(self):
        with tempfile.TemporaryDirectory() as root:
            self.assertEqual(len([problem for _, problem in entries.check(root) if problem]), 1)


class Sources(Repository):
    """What cannot be read is a problem, and never silence."""

    def test_unknown_forms(self):
        for old, new in (
            ("BAD\n}", "BAD\n"),
            ("BAD\n}", "BAD\n}}"),
            ("BAD\n}", "BAD)\n}"),
            ("// The entry.", "/* The entry."),
            ("// The entry.", "// The entry.\r"),
            ("SIZES", "SIZES\u200b"),
            ("pub mod more;", "$ pub mod more;"),
            ("pub mod more;", "static A: u8 = 3;\npub mod more;"),
            ("pub mod more;", "const fn two() {}\npub mod more;"),
            ("ensures kept {", "ensures kept firmly {"),
            ("BAD\n}", "'a'\n}"),
            ("BAD\n}", '"a\n}'),
            ("b'\"'", 'br#"a"#'),
            ("#[derive(Clone, Copy)]", "#[cfg(never)]"),
            ("#[derive(Clone, Copy)]", "#[derive(Clone), unsafe(no_mangle)]"),
            ("#[cycle(looks)]", "#[unsafe(no_mangle = one)]"),
            ("#![tactic(auto)]", "#![cfg(never)]"),
            ("pub mod more;", "pub mod more;\n#![tactic(auto)]"),
            ("FULL}", "self}"),
            ("FULL}", "*}"),
            ("pub mod more;", '#[path = "beside.rt"]\npub mod more;'),
            ("pub mod more;", "pub mod more;\nmod more {}"),
            ("pub mod more;", 'extern "C" { fn foreign(); }\npub mod more;'),
            ("pub mod more;", "use other::*;\npub mod more;"),
            ("{◌≡◌}", "*"),
            ("{◌≡◌}", "{◌≡◌ one}"),
            ("{ One", "{ -- One\n    One"),
            ("{ One", "{ {- } -} One"),
            ("{ One", '{ "}" One'),
            ("{ One", "{ // One\n    One"),
            ("count: u32", "(count, more): u32"),
            ("-> u8\n", "-> u8\n    where 'a: 'b\n"),
        ):
            with self.subTest(new):
                self.refuses("carriage return" if "\r" in new else "crates/inner/src/lib.rt:", INNER_FILE, old, new)

    def test_a_module_without_a_file(self):
        gone = {entries.LIST: LIST.replace("more::three", "gone::three")}
        self.refuses("there is no file for inner::gone", INNER_FILE, "pub mod more;", "pub mod more; mod gone;", **gone)

    def test_one_bad_entry_does_not_end_the_check(self):
        def fails():
            raise KeyError("x")

        self.assertEqual(entries.judged("it", fails), ("it", "it cannot be checked: KeyError('x')"))

    def test_what_a_function_declares(self):
        with tempfile.TemporaryDirectory() as root:
            os.makedirs(os.path.join(root, "crates/inner/src"))
            with open(os.path.join(root, INNER_FILE), "w") as file:
                file.write(INNER)
            module, _ = source.Tree(root).module(("inner",))
        one, look, other = module.functions
        self.assertEqual(one.parameters, (("line", "& [ u8 ]"), ("out", "& mut [ u8 ]"), ("count", "u32")))
        labels = [(word, label) for word, label, _ in look.clauses]
        self.assertEqual(labels, [("requires", None), ("ensures", "kept"), ("ensures", None)])
        self.assertEqual((look.public, look.result, other.path), (False, "u8", ("inner", "beside", "other")))
        self.assertEqual(one.body[2], 'b"} // /* \\" pub fn one() {"')
        self.assertEqual((module.children, module.names), ({"more": True}, ["one", "look", "other"]))
        used = [("BAD_SIZE", "BAD"), ("BAD_FIELD", "BAD_FIELD"), ("Part", "Part"), ("part", "piece"), ("FULL", "FULL")]
        self.assertEqual([(path[-1], local) for path, local in module.uses], used)
        self.assertEqual(module.uses[3][0], ("outcome", "lists", "part"))


if __name__ == "__main__":
    unittest.main()

"""Tests of what `make` says and where it fails: the Makefile and its scripts over a small list of crates, with
programs in place of rt, the compilers and the like that do nothing but what these tests look at."""

import os
import re
import shutil
import signal
import subprocess
import tempfile
import time
import unittest

ROOT = os.path.dirname(os.path.dirname(os.path.abspath(__file__)))
MAKE = shutil.which("make")
TOOLS = "awk cat cp dirname expand find grep mkdir rm sed setsid sh sha256sum sleep sort tail wc".split()
NEEDS = {
    "demo": ["rt", "gcc"],
    "cli": ["rt", "gcc"],
    "test": ["rt", "gcc", "g++", "ld", "size", "cargo", "python3"],
    "bench": ["rt", "gcc", "cargo"],
    "size": ["rt", "ld", "size", "python3"],
    "soak": ["rt", "cargo"],
    "memcheck": ["rt", "cargo", "valgrind"],
}
WHAT = {"rt": "the Rattle toolchain", "gcc": "the C compiler", "g++": "the C++ compiler", "ld": "of binutils",
        "size": "of binutils", "cargo": "Rust's build tool"}

# Four crates of these are the library: one, two, three and gridprofile_c.
CRATES = """# A line for each crate: its name, then the crates that it rests on.
one:
spare: one
two: one io  # and a library of the kit
three: two one libc
gridprofile_c staticlib: three
above: three
"""

# Writes the files and lines that rt writes. A library with a stamp is unchanged; HANG and FAIL name a crate.
RT = """#!/bin/sh
[ "$1" != version ] || { echo "kit $KIT"; exit; }
name=${PWD##*/}
echo "rt $* of $name" >> "$CALLS"
mkdir -p out
[ ! -e out/stamp ] || exit 0
echo "rt: $name: begins with what a check kept in another folder"
[ "$name" != "$HANG" ] || /bin/sh -c 'echo $$ $PPID > "$PIDS"; echo "rt: chose --jobs 2 for $HANG"; exec sleep 10'
echo "rt: chose --jobs 2 for $name" >&2
if [ "$name" = "$FAIL" ]; then
    for line in 1 2 3 4 5 6 7 8 9 10; do echo; echo; done
    echo "logic=not-proved"
    exit 1
fi
echo "crate $name: modules loaded=1 checked=2"
echo "logic=proved of $name"
if [ "$name" = gridprofile_c ]; then echo archive > out/lib$name.a; else echo stamp > out/stamp; fi
"""
# Writes the file that it is to write, which is its last word.
GCC = """#!/bin/sh
echo "gcc" >> calls
for last; do :; done
echo program > "$last"
"""
OTHER = """#!/bin/sh
echo "${0##*/}" >> "${CALLS:?}"
"""


def gone(pid):
    """No such process, or one that has ended and is not yet collected."""
    try:
        with open(f"/proc/{pid}/stat") as file:
            return file.read().rpartition(")")[2].split()[0] == "Z"
    except FileNotFoundError:
        return True


class Make(unittest.TestCase):
    """A temporary tree, and a PATH with these programs alone."""

    def setUp(self):
        folder = tempfile.TemporaryDirectory()
        self.addCleanup(folder.cleanup)
        self.tree = os.path.join(folder.name, "tree")
        self.path = os.path.join(folder.name, "bin")
        shutil.copytree(os.path.join(ROOT, "tools"), self.file("tools"))
        shutil.copytree(os.path.join(ROOT, "include"), self.file("include"))
        shutil.copy(os.path.join(ROOT, "Makefile"), self.tree)
        os.makedirs(self.file("peer/c"))
        self.write("peer/c/stack.c", "")
        self.write("crates.txt", CRATES)
        for name in ("one", "two", "three", "gridprofile_c"):
            self.write(f"crates/{name}/src/lib.rt", f"// {name}\n")
        self.program("tools/demo", 'echo "demo $1"')
        self.program("tools/gate", 'echo "gate"')
        os.mkdir(self.path)
        for tool in TOOLS:
            os.symlink(shutil.which(tool), os.path.join(self.path, tool))
        for name, text in {"rt": RT, "gcc": GCC}.items():
            self.program(os.path.join(self.path, name), text)
        for name in ("g++", "ld", "size", "cargo", "valgrind", "python3"):
            self.program(os.path.join(self.path, name), OTHER)

    def file(self, path):
        return os.path.join(self.tree, path)

    def write(self, path, text):
        os.makedirs(os.path.dirname(self.file(path)), exist_ok=True)
        with open(self.file(path), "w") as file:
            file.write(text)

    def program(self, path, text):
        self.write(path, text if text.startswith("#!") else f"#!/bin/sh\n{text}\n")
        os.chmod(self.file(path), 0o755)

    def read(self, path):
        try:
            with open(self.file(path)) as file:
                return file.read()
        except FileNotFoundError:
            return ""

    def start(self, *words, **environment):
        files = {"PATH": self.path, "CALLS": self.file("calls"), "PIDS": self.file("pids")}
        env = {**files, "KIT": "1", "HANG": "", "FAIL": "", **environment}
        pipes = {"stdout": subprocess.PIPE, "stderr": subprocess.STDOUT, "text": True, "start_new_session": True}
        # where these tests run in the background interrupts are ignored, and a shell cannot undo that
        heed = lambda: signal.signal(signal.SIGINT, signal.SIG_DFL)  # noqa: E731
        return subprocess.Popen([MAKE, *words], cwd=self.tree, env=env, preexec_fn=heed, **pipes)

    def make(self, *words, **environment):
        """The status, and what was printed."""
        with self.start(*words, **environment) as process:
            output, _ = process.communicate(timeout=30)
        return process.returncode, output

    def made(self, *words, **environment):
        """What a run printed that went well, line by line."""
        status, output = self.make(*words, **environment)
        self.assertEqual(status, 0, output)
        return output.splitlines()

    def calls(self):
        """The programs called since this was last asked."""
        called = self.read("calls").splitlines()
        self.write("calls", "")
        return called


class Listing(Make):
    def test_plain_make_lists_every_target_and_does_nothing_else(self):
        declared = " ".join(re.findall(r"^\.PHONY:(.*)", self.read("Makefile"), re.M)).split()
        before = sorted(os.listdir(self.tree))
        listed = [line.split() for line in self.made()[1:]]
        self.assertEqual(sorted(words[0] for words in listed), sorted(declared))
        self.assertTrue(all(len(words) > 1 for words in listed), listed)
        self.assertLessEqual(set(NEEDS), {words[0] for words in listed})
        self.assertEqual((sorted(os.listdir(self.tree)), self.calls()), (before, []))


class Missing(Make):
    def test_what_is_missing_is_said_before_anything_is_done(self):
        for target, programs in NEEDS.items():
            for name in programs:
                with self.subTest(target=target, missing=name):
                    there, away = os.path.join(self.path, name), self.file("away")
                    os.rename(there, away)
                    status, output = self.make(target)
                    os.rename(away, there)
                    said, *others = [line for line in output.splitlines() if not line.startswith("make: ***")]
                    self.assertNotEqual(status, 0)
                    self.assertTrue(said.startswith(f"make: {name}"), said)
                    self.assertRegex(said, rf"{re.escape(WHAT.get(name, name))},? is not on the PATH: \w+")
                    self.assertEqual((others, self.calls()), ([], []))

    def test_each_missing_program_is_said(self):
        for name in ("rt", "cargo", "python3"):
            os.remove(os.path.join(self.path, name))
        _, output = self.make("test")
        self.assertEqual(output.count("is not on the PATH"), 3)

    def test_with_all_there_the_gate_runs(self):
        self.assertEqual(self.made("test"), ["gate"])


class Progress(Make):
    STEPS = ["1 of 4: one", "2 of 4: two", "3 of 4: three", "4 of 4: gridprofile_c"]
    CALLS = [f"rt lib of {name}" for name in ("one", "two", "three", "gridprofile_c")]

    def steps(self, lines):
        return [line for line in lines if " of 4: " in line]

    def test_each_crate_is_said_once_and_first_what_happens(self):
        lines = self.made("cli")
        self.assertEqual(self.steps(lines), self.STEPS)
        self.assertIn("4 crates", lines[0])
        self.assertIn("ten minutes", lines[0])
        self.assertEqual(lines[2], self.STEPS[0])
        self.assertEqual(self.calls(), [*self.CALLS, "gcc"])
        self.assertEqual(self.read("target/cli/gridprofile"), "program\n")

    def test_the_provers_lines_are_in_the_log_alone(self):
        printed = "\n".join(self.made("cli"))
        self.assertNotIn("logic=proved", printed)
        self.assertNotIn("rt: ", printed)
        log = self.read("target/prove.log")
        for name in ("one", "two", "three", "gridprofile_c"):
            self.assertIn(f"logic=proved of {name}\n", log)
        self.assertIn("target/prove.log", printed)

    def test_the_demo_follows(self):
        lines = self.made("demo")
        self.assertEqual(self.steps(lines), self.STEPS)
        self.assertEqual(lines[-1], "demo target/cli/gridprofile")

    def test_bench_proves_in_the_same_way(self):
        self.assertEqual(self.steps(self.made("bench")), self.STEPS)
        self.assertEqual(self.calls(), [*self.CALLS, "gcc", "cargo"])


class Again(Make):
    """The second run."""

    def setUp(self):
        super().setUp()
        self.made("cli")
        self.calls()

    def test_nothing_has_changed(self):
        lines = self.made("cli")
        self.assertEqual(len(lines), 2, lines)
        self.assertIn("nothing has changed", lines[0])
        self.assertEqual(self.calls(), [])
        self.write("crates/two/must-fail/wrong.edit", "is not read by the archive\n")
        self.write("crates/two/out/kept", "is rt's own\n")
        self.assertEqual((self.made("cli"), self.calls()), (lines, []))

    def test_something_has_changed(self):
        for path, text in (
            ("crates/one/src/lib.rt", "// new\n"),
            ("crates/gridprofile_c/src/lib.rt", "// new\n"),
            ("crates/two/proofs/New.antt", ""),
            ("crates.txt", CRATES.replace("three: two one", "three: one two")),
            ("target/staticlib/libgridprofile.a", "another\n"),
        ):
            with self.subTest(path):
                self.write(path, text)
                lines = self.made("cli")
                self.assertIn("1 of 4: one, unchanged", lines)
                self.assertIn("4 of 4: gridprofile_c", lines)
                self.assertIn("rt lib of gridprofile_c", self.calls())

    def test_the_toolchain_has_changed(self):
        self.made("cli", KIT="2")
        self.assertIn("rt lib of gridprofile_c", self.calls())


class Failure(Make):
    def test_the_end_of_the_log_is_shown(self):
        status, output = self.make("demo", FAIL="two")
        self.assertNotEqual(status, 0)
        self.assertIn("rt failed. The end of target/prove.log:\n", output)
        self.assertIn("logic=not-proved\n", output)
        self.assertNotIn("logic=proved of one", output)
        self.assertEqual(self.calls(), ["rt lib of one", "rt lib of two"])

    def test_it_fails_again(self):
        self.made("cli")
        self.write("crates/two/src/lib.rt", "// wrong\n")
        os.remove(self.file("crates/two/out/stamp"))
        for _ in range(2):
            self.assertNotEqual(self.make("cli", FAIL="two")[0], 0)


class Interrupt(Make):
    def interrupted(self, send):
        """A run that is interrupted while the second crate is in work, which it has said by then."""
        with self.start("cli", HANG="two") as process:
            lines = []
            while not lines or not lines[-1].startswith("2 of 4: two"):
                lines.append(process.stdout.readline())
                self.assertTrue(lines[-1], lines)
            pids = self.read("pids").split()
            self.assertEqual([gone(pid) for pid in pids], [False, False])
            send(process.pid)
            output, _ = process.communicate(timeout=30)
        self.assertNotEqual(process.returncode, 0)
        self.assertIn("The crates that are proved stay proved", output)
        ends = time.monotonic() + 5
        while not all(gone(pid) for pid in pids) and time.monotonic() < ends:
            time.sleep(0.05)
        self.assertEqual([gone(pid) for pid in pids], [True, True])

    def test_an_interrupt_ends_the_prover_and_keeps_what_is_proved(self):
        self.interrupted(lambda pid: os.killpg(pid, signal.SIGINT))
        steps = [line for line in self.made("cli") if " of 4: " in line]
        self.assertEqual(steps[:2], ["1 of 4: one, unchanged", "2 of 4: two"])

    def test_so_does_an_end_of_make_alone(self):
        self.interrupted(lambda pid: os.kill(pid, signal.SIGTERM))


if __name__ == "__main__":
    unittest.main()

"""The command-line program and what surrounds it: files, streams, permissions, secrets, runs at the same time."""

import fcntl
import itertools
import os
import pty
import resource
import shutil
import stat
import subprocess
import time
import unittest

from cli_case import (CATEGORIES, DAMAGED_STORE, DEVICE, FILE_TROUBLE, FIRST, GIVEN, IMAGE, LINE, MEASURED, PRIVATE,
                      PROGRAM, RAILWAY, STORE, WRONG_USAGE, Case, device_of, line_of, sealed)

NOBODY = 65534


def no_file_may_grow():
    """Every write to a file fails from here on, as on a full disk; pipes go on."""
    resource.setrlimit(resource.RLIMIT_FSIZE, (0, 0))


def unprivileged():
    """How to run the program as somebody whom permissions bind, also where the tests run as root."""
    return {"user": NOBODY, "group": NOBODY, "extra_groups": []} if os.getuid() == 0 else {}


EMPTY = sealed(bytes(IMAGE))
# Commands that change a file that must be there.
CHANGES = ("load", "classes")
SIGN = ("sign", "private", "line", "-", *GIVEN)


class Streams(Case):
    def test_key_from_stream_to_stream(self):
        self.assertEqual(self.warned("key", "-", "-", stdin=PRIVATE)[0], self.get(self.key()))

    def test_each_input_of_sign_from_the_stream(self):
        wanted = self.get(self.package())
        for name in ("private", "line", "key", "master", "salt"):
            words = ["-" if word == name else word for word in SIGN]
            self.assertEqual(self.warned(*words, stdin=self.get(name))[0], wanted)

    def test_each_input_of_load_from_the_stream(self):
        key, package = self.get(self.key()), self.get(self.package())
        self.store(name="one"), self.store(name="two")
        self.done("load", "one", "-", "package", *DEVICE, stdin=key)
        self.done("load", "two", "key", "-", *DEVICE, stdin=package)
        piped, said = self.warned("load", "-", "key", "package", *DEVICE, stdin=EMPTY)
        self.assertIn("Accepted: country XA, class B, 50 Hz, serial 12\n", said)
        self.assertEqual({self.get("one"), self.get("two"), piped}, {piped})
        self.assertEqual(self.done("lookup", "-", *DEVICE, stdin=piped), LINE)
        self.assertIn(b"A store with 1 of 16", self.done("show", "-", stdin=piped))
        self.assertIn(b"holds", self.done("verify", "key", "-", stdin=package))

    def test_new_store_to_the_stream(self):
        self.assertEqual(self.warned("new-store", "-")[0], EMPTY)

    def test_refusals_write_nothing_to_the_stream(self):
        self.key(), self.package()
        self.refused(1, "load", "-", "key", "package", *DEVICE, stdin=b"")
        self.refused(6, "load", "-", "key", "package", "XA", "C", "50", stdin=EMPTY)
        self.refused(1, "key", "-", "-", stdin=b"short")
        self.refused(5, "sign", "private", "-", "-", stdin=b"x" * 50)

    def test_two_inputs_cannot_both_be_the_stream(self):
        self.key(), self.package()
        self.troubled(WRONG_USAGE, "verify", "-", "-", stdin=self.get("key"))
        self.troubled(WRONG_USAGE, "load", "-", "-", "package", *DEVICE, stdin=EMPTY)
        self.troubled(WRONG_USAGE, "sign", "-", "-", "out", stdin=PRIVATE)
        self.troubled(WRONG_USAGE, "sign", "-", "line", "out", "--key", "-", stdin=PRIVATE)

    def test_output_that_cannot_be_written(self):
        self.store(LINE)
        lines, table = self.put("lines", LINE), self.put("table", RAILWAY)
        with open("/dev/full", "wb") as full:
            for words in (["key", "private", "-"], SIGN, ["new-store", "-"], ["lookup", "store", *DEVICE],
                          ["nearest", "store", *MEASURED], ["show", "package"], ["show", table], ["preview", lines],
                          ["evaluate", lines], ["verify", "key", "package"], ["classes", "store"],
                          ["classes", "-", table], ["load", "-", "key", "package", *DEVICE], ["help"], ["--version"],
                          ["help", "sign"]):
                self.troubled(FILE_TROUBLE, *words, stdin=EMPTY, stdout=full)

    def test_new_key_that_cannot_be_printed(self):
        """The seed is there by then, and a seed is never removed."""
        with open("/dev/full", "wb") as full:
            ran = self.run_in("new-key", "fresh", "-", stdout=full)
        self.assertEqual((ran.returncode, len(self.get("fresh"))), (FILE_TROUBLE, 32))
        self.assertIn(b"fresh: the private seed is written; `gridprofile key` makes its key", ran.stderr)

    def test_bytes_are_not_written_to_a_terminal(self):
        self.package(), self.put("table", RAILWAY)
        controller, terminal = pty.openpty()
        self.addCleanup(os.close, controller)
        with os.fdopen(terminal, "wb") as out:
            for words in (["key", "private", "-"], SIGN, ["new-store", "-"], ["new-key", "fresh", "-"],
                          ["load", "-", "key", "package", *DEVICE], ["classes", "-", "table"]):
                said = self.troubled(WRONG_USAGE, *words, stdin=EMPTY, stdout=out)
                self.assertIn("standard output is a terminal", said)
            for words in (["show", "key"], ["classes", "-"]):
                self.assertEqual(self.run_in(*words, stdin=EMPTY, stdout=out).returncode, 0)

    def test_stream_by_the_name_of_a_device(self):
        self.package()
        for name in ("/dev/stdout", "/proc/self/fd/1"):
            said = self.troubled(FILE_TROUBLE, "sign", "private", "line", name)
            self.assertIn("it is not a plain file; `-` is standard output", said)

    def test_refusal_whose_output_cannot_be_written(self):
        """The refusal says more."""
        self.put("bad", bytes(STORE)), self.put("lines", LINE + LINE.replace(b",800,", b",8-,"))
        with open("/dev/full", "wb") as full:
            self.assertEqual(self.run_in("show", "bad", stdout=full).returncode, DAMAGED_STORE)
            self.assertEqual(self.run_in("evaluate", "lines", stdout=full).returncode, 11)

    def test_report_that_cannot_be_written(self):
        """The file is what was asked for, and it is written."""
        self.key(), self.package(), self.store()
        with open("/dev/full", "wb") as full:
            for at, words in enumerate((["key", "private"], ["sign", "private", "line"], ["new-key", "fresh"],
                                        ["new-store"])):
                _, said = self.warned(*words, f"out{at}", stdout=full)
                self.assertIn("what was asked for is done", said)
                self.assertNotEqual(self.get(f"out{at}"), b"")
            self.warned("load", "store", "key", "package", *DEVICE, stdout=full)
            self.warned("classes", self.store(name="railway"), self.put("table", RAILWAY), stdout=full)
        self.assertEqual(self.done("lookup", "store", *DEVICE), LINE)
        self.assertEqual(self.done("classes", "railway"), RAILWAY)

    def test_reader_that_goes_away(self):
        self.key(), self.package(), self.store(LINE)
        for words in (SIGN, ["show", "package"], ["nearest", "store", *MEASURED], ["evaluate", "line"],
                      ["classes", "store"]):
            reading, writing = os.pipe()
            os.close(reading)
            with os.fdopen(writing, "wb") as gone:
                self.troubled(FILE_TROUBLE, *words, stdout=gone)

    def test_closed_streams_are_not_taken_for_files(self):
        self.key(), self.package(), self.store()
        for stream, words in ((0, ["key", "-", "out"]), (0, ["nearest", "-", *MEASURED]), (1, ["key", "private", "-"]),
                              (1, ["show", "package"]), (1, ["nearest", self.store(LINE, name="held"), *MEASURED]),
                              (0, ["evaluate"]), (0, ["evaluate", "-"]), (1, ["evaluate", "line"]),
                              (0, ["classes", "-"]), (0, ["classes", "store", "-"]), (1, ["classes", "store"]),
                              (0, ["evaluate", "line", "--classes", "-"])):
            self.troubled(FILE_TROUBLE, *words, stdin=None, preexec_fn=lambda at=stream: os.close(at))
        said = self.troubled(FILE_TROUBLE, "load", "store", "key", "-", *DEVICE, stdin=None,
                             preexec_fn=lambda: os.close(0))
        self.assertEqual(said, "gridprofile: cannot read standard input: Bad file descriptor\n")
        for letter, status in (("C", 6), ("B", 0)):
            words = ["load", "store", "key", "package", "XA", letter, "50"]
            ran = self.run_in(*words, stdin=None, preexec_fn=lambda: os.closerange(0, 3))
            self.assertEqual(ran.returncode, status)
        self.assertEqual(self.done("lookup", "store", *DEVICE), LINE)
        for closed in ((0,), (1,), (2,), (0, 1), (1, 2), (0, 2)):
            name = "fresh" + "".join(map(str, closed))
            ran = self.run_in("new-key", name, name + ".key", stdin=None,
                              preexec_fn=lambda at=closed: [os.close(stream) for stream in at])
            self.assertEqual((ran.returncode, len(self.get(name)), len(self.get(name + ".key"))), (0, 32, 77))


class Inputs(Case):
    def every_input(self):
        """Every command with a place for each input."""
        self.package(), self.store(), self.put("table", RAILWAY)
        option = ["--classes", "table"]
        whole = (["key", "private", "-"], [*SIGN, *option], ["verify", "key", "package", *option],
                 ["load", "store", "key", "package", *DEVICE], ["classes", "store", "table"], ["classes", "store"],
                 ["lookup", "store", *DEVICE], ["nearest", "store", *MEASURED], ["show", "package", *option],
                 ["preview", "line", *option], ["evaluate", "line", *option])
        for words in whole:
            for at, word in enumerate(words[1:], 1):
                if os.path.exists(self.path(word)):
                    yield list(words), at

    def test_missing_files(self):
        for words, at in self.every_input():
            said = self.troubled(FILE_TROUBLE, *words[:at], "missing", *words[at + 1:])
            loads = at == 1 and (words[0] == "load" or words[0] == "classes" and len(words) == 3)
            told = "cannot load into missing: there is no such store" if loads else "cannot read missing: No such file"
            self.assertIn(told, said)

    def test_directories(self):
        os.mkdir(self.path("folder"))
        for words, at in self.every_input():
            self.assertIn("folder: ", self.troubled(FILE_TROUBLE, *words[:at], "folder", *words[at + 1:]))

    def test_unreadable_files(self):
        """As somebody who may not read them; root may read everything."""
        program = shutil.copy(PROGRAM, self.path("program"))
        shut = self.put("shut", bytes(100))
        cases = list(self.every_input())
        for name, mode in ((shut, 0), ("store", 0o666), ("private", 0o644), ("master", 0o644), ("", 0o777)):
            os.chmod(self.path(name), mode)
        if os.getuid() == 0:
            os.chown(self.path("store"), NOBODY, NOBODY)
        for words, at in cases:
            words = [program, *words[:at], shut, *words[at + 1:]]
            ran = subprocess.run(words, cwd=self.folder, capture_output=True, check=False, **unprivileged())
            self.assertEqual((ran.returncode, ran.stdout), (FILE_TROUBLE, b""), words)
            self.assertIn(b"shut: Permission denied", ran.stderr)

    def test_store_that_may_not_be_written_is_read(self):
        """In a folder that may not be written either, by somebody whom that binds; and nothing of it changes."""
        program = shutil.copy(PROGRAM, self.path("program"))
        os.mkdir(self.path("shut"))
        shutil.copy(self.path(self.store(LINE)), self.path("shut/store"))
        os.chmod(self.path("shut/store"), 0o444), os.chmod(self.path("shut"), 0o555)
        before = self.get("shut/store"), os.stat(self.path("shut/store")), os.stat(self.path("shut"))
        for status, words in ((0, ["lookup", "shut/store", *DEVICE]), (0, ["nearest", "shut/store", *MEASURED]),
                              (9, ["nearest", "shut/store", "XA", "60", "230"]),
                              (10, ["nearest", "shut/store", "XA", "50", "2001"]), (0, ["show", "shut/store"]),
                              (0, ["classes", "shut/store"])):
            ran = subprocess.run([program, *words], cwd=self.folder, capture_output=True, check=False, **unprivileged())
            self.assertEqual((ran.returncode, ran.stderr == b""), (status, status == 0), ran.stderr)
            after = self.get("shut/store"), os.stat(self.path("shut/store")), os.stat(self.path("shut"))
            self.assertEqual([after[0], *(state.st_mtime_ns for state in after[1:])],
                             [before[0], *(state.st_mtime_ns for state in before[1:])])


class Outputs(Case):
    """Files are written whole or not at all."""

    def writers(self, name):
        """Every command that writes a file; the last two change one that must be there."""
        self.key(), self.package(), self.put("table", RAILWAY)
        return (["new-key", "fresh", name], ["key", "private", name], ["sign", "private", "line", name],
                ["new-store", name], ["load", name, "key", "package", *DEVICE], ["classes", name, "table"])

    def test_nothing_but_the_file_is_left(self):
        for words in self.writers("out"):
            if words[0] in CHANGES:
                self.store(name="out")
            before = set(self.names())
            self.done(*words)
            made = {"new-key": {"out", "fresh"}}.get(words[0], {"out"})
            self.assertEqual(set(self.names()), before | made)
            os.remove(self.path("out"))

    def test_old_files_are_replaced_whole(self):
        for words in self.writers("out")[:4]:
            self.put("out", b"old" * 30_000)
            self.done(*words, "--force")
            self.assertIn(len(self.get("out")), (77, 19152 + len(LINE), STORE))

    def test_full_disk_leaves_no_file(self):
        for words in self.writers("out")[:4]:
            self.assertIn("File too large", self.troubled(FILE_TROUBLE, *words, preexec_fn=no_file_may_grow))
        self.store(LINE)
        newer = self.package(line_of(serial=13))
        self.troubled(FILE_TROUBLE, "load", "store", "key", newer, *DEVICE, preexec_fn=no_file_may_grow)
        self.troubled(FILE_TROUBLE, "classes", self.store(name="empty"), "table", preexec_fn=no_file_may_grow)

    def test_missing_folder(self):
        for name in ("missing/out", "key/out", ""):
            for words in self.writers(name):
                self.troubled(FILE_TROUBLE, *words)

    def test_bad_place_is_seen_before_the_inputs_are_read(self):
        self.key()
        os.mkdir(self.path("folder"))
        os.symlink("nothing", self.path("dangling"))
        os.symlink("loop", self.path("loop"))
        for name, why in (("key/out", "Not a directory"), ("loop", "Too many levels of symbolic links"),
                          ("dangling", "it is a link to nothing"), ("folder", "it is there and is not a plain file"),
                          ("key", "it exists; --force replaces it"), ("x" * 300, "File name too long")):
            said = self.troubled(FILE_TROUBLE, "key", "missing", name)
            self.assertEqual(said, f"gridprofile: cannot write {name}: {why}\n")
            said = self.troubled(FILE_TROUBLE, "new-key", "fresh", name)
            self.assertEqual(said, f"gridprofile: cannot write {name}: {why}\n")

    def test_names_that_are_too_long(self):
        self.put("private", PRIVATE)
        for count in (2047, 2048, 2500, 20_000):
            said = self.troubled(FILE_TROUBLE, "key", "private", "./" * count + "out")
            self.assertTrue(said.endswith("out: File name too long\n"), said[-100:])
        self.done("key", "private", "./" * 2046 + "out")
        self.assertEqual(len(self.get("out")), 77)

    def test_folder_of_a_name_in_the_root(self):
        """As somebody who may not write there. That folder is locked, and not the one where the program runs."""
        program = shutil.copy(PROGRAM, self.path("program"))
        folder = os.open(self.folder, os.O_RDONLY)
        self.addCleanup(os.close, folder)
        fcntl.flock(folder, fcntl.LOCK_EX)
        for name, wait, why in (("/gridprofile-test", "2", b"Permission denied"),
                                ("here", "0", b"another program holds the lock")):
            ran = subprocess.run([program, "new-store", name, "--wait", wait], cwd=self.folder, capture_output=True,
                                 check=False, **unprivileged())
            self.assertEqual(ran.returncode, FILE_TROUBLE, ran.stderr)
            self.assertIn(b"cannot write " + name.encode() + b": " + why, ran.stderr)

    def test_only_plain_files_are_replaced(self):
        os.mkdir(self.path("folder"))
        os.mkfifo(self.path("pipe"))
        os.symlink("nothing", self.path("dangling"))
        for name in ("folder", "pipe", "dangling", "/dev/null", "/dev/full"):
            for words in self.writers(name):
                options = [] if words[0] in CHANGES else ["--force"]
                self.troubled(FILE_TROUBLE, *words, *options)
        self.assertTrue(stat.S_ISCHR(os.stat("/dev/null").st_mode))

    def test_links_are_followed(self):
        self.package()
        os.mkdir(self.path("far"))
        self.put("far/store", EMPTY)
        os.symlink("far/store", self.path("link"))
        self.done("load", "link", "key", "package", *DEVICE)
        self.assertTrue(os.path.islink(self.path("link")))
        self.assertEqual(self.done("lookup", "far/store", *DEVICE), LINE)

    def test_output_that_is_an_input(self):
        self.key(), self.package()
        os.symlink("private", self.path("link"))
        os.link(self.path("master"), self.path("hard"))
        for words in (["key", "private", "private"], ["key", "private", "link"], ["key", "link", "./private"]):
            self.assertIn("also an input", self.troubled(WRONG_USAGE, *words, "--force"))
        for name in ("private", "master", "salt", "line", "key", "link", "hard"):
            words = ["sign", "private", "line", name, *GIVEN, "--force"]
            self.assertIn("also an input", self.troubled(WRONG_USAGE, *words))

    def test_folder_and_files_that_may_not_be_written(self):
        """As somebody who may not write there; root may write everywhere."""
        program = shutil.copy(PROGRAM, self.path("program"))
        os.mkdir(self.path("shut"))
        os.chmod(self.path("shut"), 0o555)
        cases = [words for words in self.writers("shut/out") if words[0] not in (*CHANGES, "new-key")]
        os.mkdir(self.path("open"))
        self.put("open/locked", EMPTY)
        os.chmod(self.path("open"), 0o777)
        os.chmod(self.path("open/locked"), 0o444)
        os.chmod(self.path("private"), 0o644)
        cases.append(["load", "open/locked", "key", "package", *DEVICE])
        cases.append(["classes", "open/locked", "table"])
        cases.append(["new-store", "open/locked", "--force"])
        cases.append(["new-key", "shut/fresh", "open/key"])
        for words in cases:
            before = self.look()
            ran = subprocess.run([program, *words], cwd=self.folder, capture_output=True, check=False, **unprivileged())
            self.assertEqual((ran.returncode, ran.stdout), (FILE_TROUBLE, b""), words)
            self.assertIn(b"Permission denied", ran.stderr)
            self.assertEqual(self.look(), before)
            self.assertEqual((os.listdir(self.path("shut")), os.listdir(self.path("open"))), ([], ["locked"]))
            self.assertEqual(self.get("open/locked"), EMPTY)

    def test_key_that_may_not_be_written(self):
        """Nothing is left of its seed then."""
        program = shutil.copy(PROGRAM, self.path("program"))
        for name, mode in (("shut", 0o555), ("open", 0o777)):
            os.mkdir(self.path(name))
            os.chmod(self.path(name), mode)
        ran = subprocess.run([program, "new-key", "open/fresh", "shut/key"], cwd=self.folder, capture_output=True,
                             check=False, **unprivileged())
        self.assertEqual((ran.returncode, ran.stdout), (FILE_TROUBLE, b""))
        self.assertIn(b"cannot write shut/key: Permission denied", ran.stderr)
        self.assertEqual((os.listdir(self.path("open")), os.listdir(self.path("shut"))), ([], []))

    def test_folder_that_cannot_be_read(self):
        """It cannot be locked then: only a load, which changes what is there, must have the lock."""
        program = shutil.copy(PROGRAM, self.path("program"))
        self.package(), self.put("table", RAILWAY)
        os.chmod(self.path("private"), 0o644)
        os.mkdir(self.path("drop"))
        self.put("drop/store", EMPTY)
        if os.getuid() == 0:
            os.chown(self.path("drop/store"), NOBODY, NOBODY)
        os.chmod(self.path("drop"), 0o333)
        for status, words in ((0, ["key", "private", "drop/key"]), (0, ["sign", "private", "line", "drop/package"]),
                              (FILE_TROUBLE, ["classes", "drop/store", "table"]),
                              (FILE_TROUBLE, ["load", "drop/store", "key", "package", *DEVICE])):
            ran = subprocess.run([program, *words], cwd=self.folder, capture_output=True, check=False, **unprivileged())
            self.assertEqual(ran.returncode, status, (words, ran.stderr))
        self.assertIn(b"cannot lock the folder of drop/store: Permission denied", ran.stderr)
        os.chmod(self.path("drop"), 0o755)
        self.assertEqual(sorted(os.listdir(self.path("drop"))), ["key", "package", "store"])

    def test_permissions_of_new_files(self):
        for mask, wanted in ((0o022, 0o644), (0, 0o644), (0o077, 0o600)):
            for words in self.writers("out")[:4]:
                self.done(*words, preexec_fn=lambda bits=mask: os.umask(bits))
                self.assertEqual(stat.S_IMODE(os.stat(self.path("out")).st_mode), wanted)
                os.remove(self.path("out"))
            self.assertEqual(stat.S_IMODE(os.stat(self.path("fresh")).st_mode), 0o600)
            os.remove(self.path("fresh"))

    def replaced(self):
        """Every command that replaces a file, over one that has this owner and these permissions."""
        for words in self.writers("out"):
            if words[0] in CHANGES:
                self.store(name="out")
            else:
                self.put("out", b"")
                words.append("--force")
            yield words

    def test_permissions_of_replaced_files(self):
        for mode in (0o640, 0o600, 0o666, 0o2664, 0o4600):
            for words in self.replaced():
                os.chmod(self.path("out"), mode)
                self.done(*words)
                self.assertEqual(stat.S_IMODE(os.stat(self.path("out")).st_mode), mode)
                if words[0] == "new-key":
                    os.remove(self.path("fresh"))

    @unittest.skipUnless(os.getuid() == 0, "only root can give files away")
    def test_owner_of_replaced_files(self):
        for owner, group in ((NOBODY, NOBODY - 1), (NOBODY, 0), (0, NOBODY)):
            for words in self.replaced():
                os.chown(self.path("out"), owner, group)
                os.chmod(self.path("out"), 0o640)
                self.done(*words)
                found = os.stat(self.path("out"))
                self.assertEqual((found.st_uid, found.st_gid, stat.S_IMODE(found.st_mode)), (owner, group, 0o640))
                if words[0] == "new-key":
                    os.remove(self.path("fresh"))

    @unittest.skipUnless(os.getuid() == 0, "only root can run as somebody else")
    def test_owner_that_cannot_be_kept(self):
        """Somebody who may write the store, but whose it is not: it stays as it is."""
        program = shutil.copy(PROGRAM, self.path("program"))
        self.package(), self.store()
        os.chmod(self.path(""), 0o777)
        os.chmod(self.path("store"), 0o666)
        before = self.look()
        ran = subprocess.run([program, "load", "store", "key", "package", *DEVICE], cwd=self.folder,
                             capture_output=True, check=False, **unprivileged())
        self.assertEqual((ran.returncode, ran.stdout), (FILE_TROUBLE, b""))
        self.assertIn(b"cannot write store: its owner cannot be kept, so that only its owner can write it: ",
                      ran.stderr)
        self.assertEqual(self.look(), before)


class Together(Case):
    def test_loads_at_the_same_time_lose_nothing(self):
        lines = [line_of(*triple) for triple in itertools.product(("XA", "XB"), "ABCD", (50, 60))]
        self.store()
        names = {line: self.package(line, "-".join(device_of(line))) for line in lines}
        words = [[PROGRAM, "load", "store", "key", name, *device_of(line)] for line, name in names.items()]
        runs = [subprocess.Popen(one, cwd=self.folder, stdout=subprocess.DEVNULL) for one in words]
        self.assertEqual([run.wait(60) for run in runs], [0] * 16)
        for line in lines:
            self.assertEqual(self.done("lookup", "store", *device_of(line)), line)


def memory(process):
    """Everything that a process can write to, as one string."""
    parts = []
    with open(f"/proc/{process.pid}/maps", encoding="ascii") as maps, open(f"/proc/{process.pid}/mem", "rb") as mem:
        for line in maps:
            where, rights = line.split()[:2]
            if rights.startswith("rw"):
                start, end = (int(part, 16) for part in where.split("-"))
                mem.seek(start)
                parts.append(mem.read(end - start))
    return b"|".join(parts)


def wait_for(true):
    until = time.monotonic() + 30
    while not true():
        if time.monotonic() > until:
            raise AssertionError("the program did not come so far")
        time.sleep(0.01)


def call_of(process):
    """The system call that a process waits in, and its first argument."""
    with open(f"/proc/{process.pid}/syscall", encoding="ascii") as file:
        return file.read().split()[:2]


# read(0) and write(1) on x86-64.
READS_INPUT = ["0", "0x0"]
WRITES_OUTPUT = ["1", "0x1"]


def full_pipe():
    """A pipe that takes no more, and how much is in it."""
    reading, writing = os.pipe()
    os.set_blocking(writing, False)
    held = 0
    try:
        while True:
            held += os.write(writing, bytes(4096))
    except BlockingIOError:
        os.set_blocking(writing, True)
    return reading, writing, held


def exponents(block, count):
    """The fields of three bits, lowest first, without sevens: so many of them, a byte each."""
    number = int.from_bytes(block, "little")
    fields = [number >> 3 * at & 7 for at in range(8 * len(block) // 3)]
    return bytes([field for field in fields if field != 7][:count])


def pieces(secret):
    """Of 16 bytes, the last one too: a part that is left is as bad as the whole."""
    return [secret[at:at + 16] for at in (*range(0, len(secret) - 16, 16), len(secret) - 16)]


def search_traces(seed):
    """What memmem of the C library leaves on the stack when it looks for these 16 bytes: a table with an entry for each
    two neighbours, which tells them. Here in pieces of four entries, since some of it may be written over."""
    table = bytearray(256)
    for at in range(1, 16):
        table[(seed[at] - 8 * seed[at - 1]) % 256] = at
    entries = [at for at in range(256) if table[at]]
    return [bytes(table[first:last + 1]) for first, last in zip(entries, entries[3:])]


def hidden(category):
    """A private and a master seed without a pattern, so that they stand in memory for no other reason."""
    return category.shake(b"a private seed", category.seed), category.shake(b"a master seed", category.master)


HIDDEN = hidden(FIRST)


@unittest.skipUnless(os.getuid() == 0, "only root can look into the program's memory")
class Memory(Case):
    """The program stands still before its first byte of output, at a pipe that is full, and its memory is searched."""

    def start(self, *words, **options):
        reading, writing, self.held = full_pipe()
        self.out = os.fdopen(reading, "rb")
        self.process = subprocess.Popen([self.program, *words], cwd=self.folder, stdin=subprocess.PIPE, stdout=writing,
                                        stderr=subprocess.DEVNULL, **options)
        os.close(writing)
        for last in (self.out.close, self.process.stdin.close, self.process.wait, self.process.kill):
            self.addCleanup(last)

    def memory_at(self, call):
        wait_for(lambda: call_of(self.process) == call)
        return memory(self.process)

    def written(self):
        return self.out.read()[self.held:]

    def key_secrets(self, category, private):
        """What only the private seed gives. Sixteen exponents are few enough to be told, and more than chance makes."""
        secret_seed = category.shake(b"\x0c" + private, 2 * category.seed)[:category.seed]
        block = category.shake(b"\x0a" + secret_seed, category.exponents)
        return pieces(private) + pieces(secret_seed) + pieces(exponents(block, category.places))

    def round_secrets(self, category, master, package):
        """What only the master seed gives: the seeds of the rounds that the signature does not show."""
        size = category.master
        seeds = category.shake(b"\x09" + master + category.seeds()[2], category.rounds * size)
        unseen = [seeds[at:at + size] for at in range(0, len(seeds), size) if seeds[at:at + size] not in package]
        self.assertEqual(len(unseen), category.rounds - category.ones)
        return pieces(master) + [piece for seed in unseen for piece in pieces(seed)]

    def check_signed(self, category, package, after):
        """What is in memory after signing: the package, and nothing of the seeds or of the search for them."""
        private, master = hidden(category)
        self.assertIn(package, after)
        secrets = self.key_secrets(category, private) + self.round_secrets(category, master, package)
        secrets += [trace for seed in (private, master) for piece in pieces(seed) for trace in search_traces(piece)]
        self.assertEqual([secret.hex() for secret in secrets if secret in after], [])


class Secrets(Memory):
    def test_key_is_wiped_before_the_output(self):
        for category in CATEGORIES:
            private = hidden(category)[0]
            key = self.get(self.key(private, category=category))
            self.start("key", "private", "-", *category.option())
            after = self.memory_at(WRITES_OUTPUT)
            self.assertEqual(self.written(), key)
            self.assertIn(key, after)
            self.assertEqual([secret for secret in self.key_secrets(category, private) if secret in after], [])

    def test_sign_is_wiped_before_the_output(self):
        for category in CATEGORIES:
            private, master = hidden(category)
            package = self.get(self.package(private=private, master=master, category=category))
            self.start(*("-" if word == "salt" else word for word in SIGN), *category.option())
            before = self.memory_at(READS_INPUT)
            self.process.stdin.write(category.seeds()[2])
            self.process.stdin.close()
            after = self.memory_at(WRITES_OUTPUT)
            self.assertEqual(self.written(), package)
            self.assertEqual([before.count(seed) for seed in (private, master)], [1, 1])
            self.check_signed(category, package, after)

    def test_new_key_is_wiped_before_the_output(self):
        for category in CATEGORIES:
            name = f"fresh{category.number}"
            self.start("new-key", name, "-", *category.option())
            after = self.memory_at(WRITES_OUTPUT)
            self.assertIn(self.written(), after)
            self.assertEqual([secret for secret in self.key_secrets(category, self.get(name)) if secret in after], [])

    def test_crash_leaves_no_core(self):
        """Also where a seed is given by mistake. Memory that must not be dumped belongs to root, whoever runs it."""
        for words in (["key", "-", "out"], ["verify", "-", "package"], ["show", "-"], ["preview"], ["evaluate"],
                      ["classes", "-"], ["evaluate", "/dev/null", "--classes", "-"]):
            self.start(*words, **unprivileged())
            wait_for(lambda: call_of(self.process) == READS_INPUT)
            self.assertEqual(os.stat(f"/proc/{self.process.pid}/mem").st_uid, 0)
            with open(f"/proc/{self.process.pid}/limits", encoding="ascii") as limits:
                self.assertRegex(limits.read(), r"Max core file size +0 +0 ")

    def test_never_printed(self):
        """Whatever the category of the seeds, and whatever the one that is asked for."""
        for category in CATEGORIES:
            private, master = hidden(category)
            self.package(private=private, master=master, category=category)
            self.put("long", private + master), self.put("store", EMPTY), self.put("table", RAILWAY)
            for words in self.commands_with_seeds():
                for asked in CATEGORIES if words[0] in ("key", "sign", "verify") else (None,):
                    ran = self.run_in(*words, *(asked.option() if asked else ()))
                    self.check_not_said((private, master), ran.stdout + ran.stderr, words)

    def commands_with_seeds(self):
        given = ["--key", "key", "--given-master-seed", "master", "--given-salt"]
        return (["key", "private", "-"], ["key", "long", "-"], ["key", "private", "missing/out"],
                SIGN, ["sign", "private", "private", "-"], ["sign", "private", "missing", "-"],
                ["sign", "long", "line", "-"], ["sign", "private", "line", "-", *given, "private"],
                ["sign", "private", "line", "-", *given, "long"],
                ["sign", "private", "line", "-", *given, "master"],
                ["verify", "private", "package"], ["verify", "key", "private"], ["lookup", "private", *DEVICE],
                ["nearest", "private", *MEASURED], ["nearest", "long", *MEASURED],
                ["show", "long"], ["show", "private"], ["show", "master"], ["preview", "private"],
                ["evaluate", "private"], ["evaluate", "master"], ["evaluate", "long"], ["classes", "private"],
                ["classes", "store", "private"], ["classes", "store", "master"], ["classes", "store", "long"],
                ["sign", "private", "line", "-", "--classes", "private"],
                ["verify", "key", "package", "--classes", "master"],
                ["show", "line", "--classes", "private"], ["show", "private", "--classes", "table"],
                ["preview", "private", "--classes", "table"], ["evaluate", "private", "--classes", "long"])

    def check_not_said(self, seeds, said, words):
        for seed in seeds:
            for at in range(0, len(seed), 8):
                part = seed[at:at + 8]
                for form in (part, part.hex().encode(), part.hex().upper().encode()):
                    self.assertNotIn(form, said, words)

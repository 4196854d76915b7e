"""What the command-line program does so that nobody is hurt: seeds that it draws, arguments that are exchanged or
reused, files that it does not replace, faults of the machine, locks, what killed runs leave, small stacks."""

import errno
import fcntl
import itertools
import os
import resource
import signal
import socket
import stat
import subprocess
import threading
import time

from cli_case import (ARCHIVE, CATEGORIES, DEVICE, FIFTH, FILE_TROUBLE, FIRST, GIVEN, IMAGE, KINDS, LINE, LINE_77,
                      LINE_C, MEASURED, NO_RANDOM_BYTES, PRIVATE, PROGRAM, RAILWAY, RAILWAY_LINE, ROOT, SALT,
                      SELF_CHECK_FAILED, SIGNATURE, STORE, WRONG_USAGE, Case, fingerprint, line_of, listing_of, sealed,
                      shake)
from test_cli_files import HIDDEN, NOBODY, READS_INPUT, WRITES_OUTPUT, Memory, call_of, hidden, wait_for

EMPTY = sealed(bytes(IMAGE))
UNFINISHED = ".gridprofile-unfinished-"

# Stands between the program and what it relies on. Random bytes come from a file, five at a time and with
# interruptions, and end where it ends. Where a test asks for it: files are read and written in parts and with
# interruptions too; the first draws are short; a package is made with a bit changed, or with a seed in it; a call
# fails; and where the new file would get its name, the run gets a signal, or another file has come by this name, or
# the file system cannot do it. Where there is no /dev/null, it cannot be opened.
PLANTED = r"""
#define _GNU_SOURCE
#include <errno.h>
#include <fcntl.h>
#include <signal.h>
#include <stdlib.h>
#include <string.h>
#include <sys/stat.h>
#include <unistd.h>
#include "gridprofile_category3.h"
#include "gridprofile_category5.h"

static int planted(const char *name)
{
    return getenv(name) == NULL ? 0 : atoi(getenv(name));
}

/* How much of this length is done: at most so many bytes, and every second time none at all. */
static size_t part(size_t length)
{
    static int turn;
    size_t most = (size_t)planted("PLANTED_PARTS");
    if (most == 0 || length == 0)
        return length;
    errno = EINTR;
    return turn++ % 2 == 1 ? 0 : length < most ? length : most;
}

ssize_t __real_read(int file, void *out, size_t length);
ssize_t __wrap_read(int file, void *out, size_t length);
ssize_t __wrap_read(int file, void *out, size_t length)
{
    size_t most = part(length);
    return most == 0 ? -1 : __real_read(file, out, most);
}

ssize_t __real_write(int file, const void *bytes, size_t length);
ssize_t __wrap_write(int file, const void *bytes, size_t length);
ssize_t __wrap_write(int file, const void *bytes, size_t length)
{
    size_t most = part(length);
    return most == 0 ? -1 : __real_write(file, bytes, most);
}

/* Whether this call fails, which is said by its name. */
static int fails(const char *name)
{
    const char *chosen = getenv("PLANTED_FAILS");
    errno = EIO;
    return chosen != NULL && strcmp(chosen, name) == 0;
}

int __real_close(int file);
int __wrap_close(int file);
int __wrap_close(int file)
{
    int answer = __real_close(file);
    return fails("close") ? -1 : answer;
}

int __real_flock(int file, int how);
int __wrap_flock(int file, int how);
int __wrap_flock(int file, int how)
{
    static int turn;
    errno = EINTR;
    if (planted("PLANTED_PARTS") != 0 && turn++ == 0)
        return -1;
    return fails("flock") ? -1 : __real_flock(file, how);
}

int __wrap_fsync(int file);
int __wrap_fsync(int file)
{
    struct stat found;
    if (fstat(file, &found) == 0 && S_ISDIR(found.st_mode) && getenv("PLANTED_FOLDER_SIGNAL") != NULL)
        (void)raise(planted("PLANTED_FOLDER_SIGNAL"));
    return fails("fsync") ? -1 : 0;
}

ssize_t __wrap_getrandom(void *out, size_t length, unsigned flags);
ssize_t __wrap_getrandom(void *out, size_t length, unsigned flags)
{
    static int file = -1, turn;
    ssize_t got;
    (void)flags;
    errno = EINTR;
    if (turn++ % 2 == 1)
        return -1;
    if (file < 0)
        file = open(getenv("PLANTED_RANDOM"), O_RDONLY);
    got = __real_read(file, out, length < 5 ? length : 5);
    errno = ENOSYS;
    return got > 0 ? got : -1;
}

int __real_renameat2(int from, const char *old, int to, const char *new, unsigned flags);
int __wrap_renameat2(int from, const char *old, int to, const char *new, unsigned flags);
int __wrap_renameat2(int from, const char *old, int to, const char *new, unsigned flags)
{
    static int turn;
    if (getenv("PLANTED_SIGNAL") != NULL)
        (void)raise(planted("PLANTED_SIGNAL"));
    if (++turn == planted("PLANTED_COMES"))
        (void)__real_close(open(new, O_WRONLY | O_CREAT, 0600));
    if (getenv("PLANTED_OLD_FILE_SYSTEM") == NULL)
        return __real_renameat2(from, old, to, new, flags);
    errno = planted("PLANTED_OLD_FILE_SYSTEM");
    return -1;
}

int __real_rename(const char *old, const char *new);
int __wrap_rename(const char *old, const char *new);
int __wrap_rename(const char *old, const char *new)
{
    return fails("rename") ? -1 : __real_rename(old, new);
}

int __real_link(const char *old, const char *new);
int __wrap_link(const char *old, const char *new);
int __wrap_link(const char *old, const char *new)
{
    if (getenv("PLANTED_NO_LINKS") == NULL)
        return __real_link(old, new);
    errno = EPERM;
    return -1;
}

int __real_open(const char *path, int flags, ...);
int __wrap_open(const char *path, int flags, ...);
int __wrap_open(const char *path, int flags, ...)
{
    if (getenv("PLANTED_NO_NULL") == NULL || strcmp(path, "/dev/null") != 0)
        return __real_open(path, flags, 0600);
    errno = ENOENT;
    return -1;
}

static uint8_t spoil_key(uint8_t answer)
{
    static int turn;
    return turn++ < planted("PLANTED_SHORT_KEYS") ? GRIDPROFILE_SHORT_DRAW : answer;
}

static uint8_t spoil_package(uint8_t answer, const uint8_t *seed, size_t seed_length, const uint8_t *master,
                             size_t master_length, uint8_t *package)
{
    static int turn;
    if (getenv("PLANTED_FAULT") != NULL)
        package[planted("PLANTED_FAULT")] ^= 4;
    if (getenv("PLANTED_LEAK") != NULL)
        memcpy(package + planted("PLANTED_LEAK"), seed + seed_length - 19, 16);
    if (getenv("PLANTED_MASTER_LEAK") != NULL)
        memcpy(package + planted("PLANTED_MASTER_LEAK"), master + master_length - 16, 16);
    return turn++ < planted("PLANTED_SHORT_PACKAGES") ? GRIDPROFILE_SHORT_DRAW : answer;
}

#define KEY_ARGUMENTS const uint8_t *seed, size_t seed_length, uint8_t *key, size_t room
#define PACKAGE_ARGUMENTS const uint8_t *table, size_t table_length, const uint8_t *seed, size_t seed_length,         \
    const uint8_t *master, size_t master_length, const uint8_t *salt, size_t salt_length, const uint8_t *line,        \
    size_t line_length, uint8_t *package, size_t room, size_t *length
#define WRAP(names)                                                                                                   \
    uint8_t __real_##names##make_key(KEY_ARGUMENTS);                                                                  \
    uint8_t __wrap_##names##make_key(KEY_ARGUMENTS);                                                                  \
    uint8_t __wrap_##names##make_key(KEY_ARGUMENTS)                                                                   \
    {                                                                                                                 \
        return spoil_key(__real_##names##make_key(seed, seed_length, key, room));                                     \
    }                                                                                                                 \
    uint8_t __real_##names##make_package(PACKAGE_ARGUMENTS);                                                          \
    uint8_t __wrap_##names##make_package(PACKAGE_ARGUMENTS);                                                          \
    uint8_t __wrap_##names##make_package(PACKAGE_ARGUMENTS)                                                           \
    {                                                                                                                 \
        uint8_t answer = __real_##names##make_package(table, table_length, seed, seed_length, master, master_length,  \
                                                      salt, salt_length, line, line_length, package, room, length);   \
        return spoil_package(answer, seed, seed_length, master, master_length, package);                              \
    }
WRAP(gridprofile_)
WRAP(gridprofile_category3_)
WRAP(gridprofile_category5_)
"""
WRAPPED = ["-Wl,--wrap=" + name for name in (
    "close", "flock", "fsync", "getrandom", "link", "open", "read", "rename", "renameat2", "write",
    *(f"gridprofile_{of}make_{what}" for of in ("", "category3_", "category5_") for what in ("key", "package")))]
BUILT = []


class Planted(Case):
    """A test of the program with what stands between, which is built once."""

    def setUp(self):
        super().setUp()
        if not BUILT:
            sources = os.path.join(ROOT, "tools/gridprofile")
            names = [os.path.join(sources, name) for name in sorted(os.listdir(sources)) if name.endswith(".c")]
            program = os.path.join(ROOT, "target/planted/gridprofile")
            os.makedirs(os.path.dirname(program), exist_ok=True)
            with open(program + ".c", "w", encoding="ascii") as file:
                file.write(PLANTED)
            gcc = ["gcc", "-std=c11", "-O2", "-Wall", "-Wextra", "-Werror", "-I", os.path.join(ROOT, "include"), *names,
                   program + ".c", ARCHIVE, *WRAPPED, "-Wl,-z,now", "-o", program]
            subprocess.run(gcc, check=True)
            BUILT.append(program)
        self.program = BUILT[0]
        self.put("random", shake(b"random bytes", 1000))

    def run_in(self, *words, **options):
        planted = {f"PLANTED_{name}": str(value) for name, value in options.pop("planted", {}).items()}
        options["env"] = {**os.environ, "PLANTED_RANDOM": self.path("random"), **planted}
        return super().run_in(*words, **options)


class NewKey(Case):
    def test_seed_and_its_key(self):
        said = self.done("new-key", "private", "key", preexec_fn=lambda: os.umask(0))
        private, key = self.get("private"), self.get("key")
        self.assertEqual((len(private), len(key)), (32, 77))
        self.assertEqual(stat.S_IMODE(os.stat(self.path("private")).st_mode), 0o600)
        self.assertTrue(said.startswith(b"PRIVATE is the private seed: keep it"), said)
        self.assertTrue(said.decode().endswith("\n" + fingerprint(key)), said)
        self.assertEqual(self.warned("key", "private", "-")[0], key)
        self.done("new-key", "private2", "key2")
        self.assertNotEqual(self.get("private2"), private)

    def test_private_seed_is_never_written_over_a_file(self):
        for data in (b"", PRIVATE, b"x" * 50, bytes(77), EMPTY):
            self.put("there", data)
            for options in ([], ["--force"]):
                self.assertIn("cannot write there: it exists", self.troubled(FILE_TROUBLE, "new-key", "there", "key",
                                                                              *options))

    def test_no_seed_is_left_without_its_key(self):
        for data, options in ((b"", []), (bytes(77), []), (PRIVATE, ["--force"]), (EMPTY, ["--force"])):
            self.put("key", data)
            self.troubled(FILE_TROUBLE, "new-key", "private", "key", *options)
        self.put("key", bytes(77))
        self.done("new-key", "private", "key", "--force")
        self.assertEqual(self.get("key"), self.warned("key", "private", "-")[0])

    def test_wrong_places(self):
        self.assertIn("to a file alone", self.troubled(WRONG_USAGE, "new-key", "-", "key"))
        os.symlink(".", self.path("here"))
        name = os.path.basename(self.folder)
        for name in ("a", "./a", "here/a", os.path.join(self.folder, "a"), f"../{name}/a"):
            for options in ([], ["--force"]):
                self.assertIn("the same file", self.troubled(WRONG_USAGE, "new-key", "a", name, *options))

    def test_no_seed_is_seen_before_its_key(self):
        """There is none while the key's folder is locked by somebody else, nor after an interruption."""
        os.mkdir(self.path("other"))
        folder = os.open(self.path("other"), os.O_RDONLY)
        self.addCleanup(os.close, folder)
        fcntl.flock(folder, fcntl.LOCK_EX)
        self.troubled(FILE_TROUBLE, "new-key", "private", "other/key", "--wait", "0")
        for number in (signal.SIGTERM, signal.SIGINT, signal.SIGHUP):
            process = subprocess.Popen([PROGRAM, "new-key", "private", "other/key"], cwd=self.folder,
                                       stderr=subprocess.PIPE,
                                       preexec_fn=lambda which=number: signal.signal(which, signal.SIG_DFL))
            self.assertIn(b"waiting", process.stderr.readline())
            self.assertEqual((self.names(), os.listdir(self.path("other"))), (["other"], []))
            process.send_signal(number)
            process.communicate(timeout=60)
            self.assertEqual((self.names(), os.listdir(self.path("other"))), (["other"], []))


class Drawn(Planted):
    """Seeds that the program draws, from a source that the test knows."""

    def test_private_seed_is_what_the_system_gave(self):
        for category in CATEGORIES:
            name = f"private{category.number}"
            self.done("new-key", name, name + ".key", *category.option())
            self.assertEqual(self.get(name), self.get("random")[:category.seed])

    def test_package_is_that_of_the_drawn_seeds(self):
        drawn = self.get("random")
        for category in CATEGORIES:
            self.package(category=category)
            self.done("sign", "private", "line", "drawn", "--force", *category.option())
            self.put("master", drawn[:category.master])
            self.put("salt", drawn[category.master:category.master + category.seed])
            self.done("sign", "private", "line", "given", *GIVEN, "--force", *category.option())
            self.assertEqual(self.get("drawn"), self.get("given"))
            self.assertEqual(self.get("drawn")[:category.seed], self.get("salt"))

    def test_system_that_gives_too_few_bytes(self):
        for category in CATEGORIES:
            self.package(category=category)
            private, master, both = category.seed, category.master, category.master + category.seed
            for size, words in ((0, ["new-key", "a", "b"]), (private - 1, ["new-key", "a", "b"]),
                                (master - 1, ["sign", "private", "line", "a"]),
                                (both - 1, ["sign", "private", "line", "a"])):
                self.put("random", PRIVATE[:1] * size)
                self.assertIn("no random bytes", self.troubled(NO_RANDOM_BYTES, *words, *category.option()))

    def test_system_that_gives_the_same_bytes(self):
        for category in CATEGORIES:
            self.package(category=category)
            private, master, salt = category.seeds()
            for data, told in ((bytes(category.master + category.seed), "MASTER and SALT"),
                               (master + private, "PRIVATE and SALT"),
                               (private[5:][:category.master] + salt, "PRIVATE and MASTER")):
                self.put("random", data)
                said = self.troubled(WRONG_USAGE, "sign", "private", "line", "out", *category.option())
                self.assertIn(told + " share bytes", said)

    def test_short_draws_are_drawn_again(self):
        """Three in a row. Nobody has seen one, so that they are planted."""
        drawn = self.get("random")
        for category in CATEGORIES:
            self.package(category=category)
            seed, both = category.seed, category.master + category.seed
            name = f"fresh{category.number}"
            self.done("new-key", name, name + ".key", *category.option(), planted={"SHORT_KEYS": 3})
            self.assertEqual(self.get(name), drawn[3 * seed:4 * seed])
            self.done("sign", "private", "line", "out", "--force", *category.option(), planted={"SHORT_PACKAGES": 3})
            self.assertEqual(self.get("out")[:seed], drawn[3 * both + category.master:4 * both])

    def test_short_draws_without_end_are_2(self):
        for category in CATEGORIES:
            self.package(category=category)
            for words, planted in ((["new-key", "fresh", "fresh.key"], {"SHORT_KEYS": 4}),
                                   (["sign", "private", "line", "out"], {"SHORT_PACKAGES": 4}),
                                   (["key", "private", "out"], {"SHORT_KEYS": 1}),
                                   (["sign", "private", "line", "out", *GIVEN], {"SHORT_PACKAGES": 1})):
                self.refused(2, *words, *category.option(), planted=planted)

    def test_two_signatures_of_a_line_differ(self):
        self.package()
        made = []
        for name in ("one", "two"):
            subprocess.run([PROGRAM, "sign", "private", "line", name], cwd=self.folder, check=True, capture_output=True)
            self.done("verify", "key", name)
            made.append(self.get(name))
        self.assertNotEqual(made[0][:32], made[1][:32])
        self.assertNotEqual(made[0][32:SIGNATURE], made[1][32:SIGNATURE])


class Faults(Planted):
    def test_package_that_does_not_verify_is_not_written(self):
        for category in CATEGORIES:
            self.package(category=category)
            seed, end = category.seed, category.signature
            for at in (0, seed - 1, seed, 3 * seed - 1, 3 * seed, 500, 9000, end - 1, end + 9):
                for options in ((), GIVEN):
                    said = self.troubled(SELF_CHECK_FAILED, "sign", "private", "line", "out", *options,
                                         *category.option(), planted={"FAULT": at})
                    self.assertIn("does not verify", said)
            ran = self.run_in("sign", "private", "line", "-", *category.option(), planted={"FAULT": 500})
            self.assertEqual((ran.returncode, ran.stdout), (SELF_CHECK_FAILED, b""))

    def test_package_with_a_seed_in_it_is_not_written(self):
        for category in CATEGORIES:
            self.package(category=category)
            for at in (0, 16, category.seed, 5000, category.signature - 16):
                for leak in ("LEAK", "MASTER_LEAK"):
                    said = self.troubled(WRONG_USAGE, "sign", "private", "line", "out", *category.option(),
                                         planted={leak: at})
                    self.assertIn("the bytes of a seed would stand in the package", said)

    def test_what_a_killed_run_left_is_removed_by_the_next(self):
        self.package()
        for words in (["sign", "private", "line", "out"], ["key", "private", "out"], ["new-key", "fresh", "out"],
                      ["new-store", "out"]):
            before = self.names()
            ran = self.run_in(*words, planted={"SIGNAL": int(signal.SIGKILL)})
            self.assertEqual(ran.returncode, -signal.SIGKILL)
            left = set(self.names()) - set(before)
            both = words[0] == "new-key"
            self.assertEqual([name.startswith(UNFINISHED) for name in left], [True, True] if both else [True])
            modes = sorted(stat.S_IMODE(os.stat(self.path(name)).st_mode) for name in left)
            self.assertEqual(modes, [0o600, 0o644] if both else [0o644])
            self.done(*words)
            self.check_nothing_is_left()
            os.remove(self.path("out"))

    def check_nothing_is_left(self):
        self.assertEqual([name for name in self.names() if name.startswith(UNFINISHED)], [])

    def test_interruption_waits_until_the_file_has_its_name(self):
        """And then ends the run, unless whoever started it chose to ignore it, as a shell does in the background."""
        self.package()
        for number in (signal.SIGTERM, signal.SIGINT):
            heed = {"preexec_fn": lambda which=number: signal.signal(which, signal.SIG_DFL)}
            ran = self.run_in("sign", "private", "line", "out", planted={"SIGNAL": int(number)}, **heed)
            self.assertEqual((ran.returncode, ran.stdout), (-number, b""))
            self.check_nothing_is_left()
            self.done("verify", "key", "out")
            os.remove(self.path("out"))
            ran = self.run_in("new-key", f"fresh{number}", f"key{number}", planted={"SIGNAL": int(number)}, **heed)
            self.assertEqual((ran.returncode, ran.stdout), (-number, b""))
            self.assertEqual(self.warned("key", f"fresh{number}", "-")[0], self.get(f"key{number}"))
            self.check_nothing_is_left()

    def test_file_system_that_cannot_refuse_by_name(self):
        """New files get their names by another call, and where there are no links either, by an empty file."""
        self.package()
        for planted in ({"OLD_FILE_SYSTEM": errno.EINVAL}, {"OLD_FILE_SYSTEM": errno.ENOSYS},
                        {"OLD_FILE_SYSTEM": errno.EINVAL, "NO_LINKS": 1}):
            self.done("sign", "private", "line", "out", planted=planted)
            self.done("verify", "key", "out")
            self.done("new-key", "fresh", "fresh.key", planted=planted)
            self.assertEqual(stat.S_IMODE(os.stat(self.path("fresh")).st_mode), 0o600)
            self.check_nothing_is_left()
            for name in ("out", "fresh", "fresh.key"):
                os.remove(self.path(name))

    def test_closed_stream_that_cannot_be_occupied(self):
        self.package()
        for stream in (0, 1, 2):
            ran = self.run_in("sign", "private", "line", "out", planted={"NO_NULL": 1},
                              preexec_fn=lambda at=stream: os.close(at))
            self.assertEqual((ran.returncode, ran.stdout, ran.stderr), (FILE_TROUBLE, b"", b""))
            self.assertNotIn("out", self.names())
        self.done("sign", "private", "line", "out", planted={"NO_NULL": 1})

    def test_file_that_comes_last_of_all_is_not_replaced(self):
        self.package()
        for old in ({}, {"OLD_FILE_SYSTEM": errno.EINVAL}, {"OLD_FILE_SYSTEM": errno.ENOSYS}):
            ran = self.run_in("sign", "private", "line", "out", planted={"COMES": 1, **old})
            self.assertEqual((ran.returncode, self.get("out")), (FILE_TROUBLE, b""))
            self.assertIn(b"cannot write out: File exists", ran.stderr)
            self.check_nothing_is_left()
            os.remove(self.path("out"))

    def test_name_that_was_taken_for_nothing(self):
        """By an empty file, on a file system that has no other way, where the file then does not get it."""
        self.package()
        planted = {"OLD_FILE_SYSTEM": errno.EINVAL, "NO_LINKS": 1, "FAILS": "rename"}
        self.troubled(FILE_TROUBLE, "sign", "private", "line", "out", planted=planted)

    def test_both_files_of_a_new_key_or_none(self):
        """A file comes by the name of the seed, or then by that of the key, last of all."""
        for turn, came in ((1, "fresh"), (2, "fresh.key")):
            for old in ({}, {"OLD_FILE_SYSTEM": errno.EINVAL}, {"OLD_FILE_SYSTEM": errno.EINVAL, "NO_LINKS": 1}):
                before = self.names()
                ran = self.run_in("new-key", "fresh", "fresh.key", planted={"COMES": turn, **old})
                self.assertEqual((ran.returncode, self.get(came)), (FILE_TROUBLE, b""))
                self.assertEqual(self.names(), sorted([*before, came]))
                os.remove(self.path(came))

    def test_reads_and_writes_in_parts_and_with_interruptions(self):
        wanted = self.get(self.package())
        for size in (1, 1000):
            name, parts = f"out{size}", {"planted": {"PARTS": size}}
            self.done("sign", "private", "line", name, *GIVEN, **parts)
            self.assertEqual(self.get(name), wanted)
            self.assertEqual(self.warned("sign", "private", "line", "-", *GIVEN, **parts)[0], wanted)
            self.done("verify", "key", name, **parts)
            self.done("load", self.store(name=f"store{size}"), "key", name, *DEVICE, **parts)

    def test_file_that_the_disk_did_not_take(self):
        """It is known only when the file is made to last, or closed."""
        self.package(), self.store()
        for call in ("fsync", "close"):
            for words in (["sign", "private", "line", "out"], ["load", "store", "key", "package", *DEVICE],
                          ["new-key", "fresh", "out"]):
                said = self.troubled(FILE_TROUBLE, *words, planted={"FAILS": call})
                self.assertIn("Input/output error", said)

    def test_file_system_without_locks(self):
        """Only a load, which changes what is there, must have the lock; and left-overs may be another run's then."""
        self.package(), self.store(), self.put(UNFINISHED + "abc123", b"being written")
        said = self.troubled(FILE_TROUBLE, "load", "store", "key", "package", *DEVICE, planted={"FAILS": "flock"})
        self.assertEqual(said, "gridprofile: a store must be in a folder that can be read and locked\n"
                               "gridprofile: cannot lock the folder of store: Input/output error\n")
        self.done("sign", "private", "line", "out", planted={"FAILS": "flock"})
        self.assertIn(UNFINISHED + "abc123", self.names())

    def test_name_is_made_to_last_when_the_file_has_it(self):
        self.package()
        ran = self.run_in("sign", "private", "line", "out", planted={"FOLDER_SIGNAL": int(signal.SIGKILL)})
        self.assertEqual(ran.returncode, -signal.SIGKILL)
        self.check_nothing_is_left()
        self.done("verify", "key", "out")


class DrawnSecrets(Planted, Memory):
    def test_drawn_seeds_are_wiped_before_the_output(self):
        for category in CATEGORIES:
            private, master = hidden(category)
            self.key(private, category=category), self.put("line", LINE)
            self.put("random", master + category.seeds()[2])
            self.start("sign", "private", "line", "-", *category.option(),
                       env={**os.environ, "PLANTED_RANDOM": self.path("random")})
            after = self.memory_at(WRITES_OUTPUT)
            self.check_signed(category, self.written(), after)


class Exchanged(Case):
    def sign(self, private="private", master="master", salt="salt", key="key"):
        return ["sign", private, "line", "out", "--key", key, "--given-master-seed", master, "--given-salt", salt]

    def test_private_seed_in_the_place_of_the_salt(self):
        self.package()
        self.assertIn("SALT is a file for its owner alone",
                      self.troubled(WRONG_USAGE, *self.sign("salt", "master", "private")))
        os.chmod(self.path("private"), 0o644)
        self.assertIn("KEY is not the public key of PRIVATE",
                      self.troubled(WRONG_USAGE, *self.sign("salt", "master", "private")))
        os.chmod(self.path("private"), 0o600)
        self.put("copy", PRIVATE)
        self.assertIn("PRIVATE and SALT share bytes", self.troubled(WRONG_USAGE, *self.sign(salt="copy")))

    def test_seed_of_another_key_in_the_place_of_the_salt(self):
        self.package()
        self.done("new-key", "other", "other.key")
        for mode, taken in ((0o600, False), (0o400, False), (0o640, True), (0o644, True)):
            os.chmod(self.path("other"), mode)
            words = self.sign(salt="other")
            self.done(*words, "--force") if taken else self.troubled(WRONG_USAGE, *words, "--force")

    def test_seeds_that_share_bytes(self):
        self.package()
        for at in range(17):
            self.put("part", PRIVATE[at:at + 16]), self.put("part-salt", SALT[at:at + 16])
            self.assertIn("PRIVATE and MASTER share", self.troubled(WRONG_USAGE, *self.sign(master="part")))
            self.assertIn("MASTER and SALT share", self.troubled(WRONG_USAGE, *self.sign(master="part-salt")))
        for salt in (PRIVATE[16:] + SALT[:16], SALT[:16] + PRIVATE[:16], SALT[:7] + PRIVATE[9:25] + SALT[:9]):
            self.put("mixed", salt)
            self.assertIn("PRIVATE and SALT share", self.troubled(WRONG_USAGE, *self.sign(salt="mixed")))
        self.put("near", SALT[:7] + PRIVATE[9:24] + SALT[:10])
        self.done(*self.sign(salt="near"))

    def test_seeds_that_share_their_last_bytes_at_each_category(self):
        """16 in a row, at the end of each, where a longer seed has bytes that category 1 has not; 15 are taken."""
        for category in CATEGORIES:
            self.package(category=category)
            private, master, salt = category.seeds()
            for name, data, shared in (("master", bytes(len(master) - 16) + private[-16:], "PRIVATE and MASTER"),
                                       ("master", bytes(len(master) - 16) + salt[-16:], "MASTER and SALT"),
                                       ("salt", salt[:-16] + private[-16:], "PRIVATE and SALT"),
                                       ("salt", salt[:-16] + master[-16:], "MASTER and SALT")):
                said = self.troubled(WRONG_USAGE, *self.sign(**{name: self.put("mixed", data)}), *category.option())
                self.assertIn(shared + " share bytes", said)
            self.put("near", salt[:-15] + private[-15:])
            self.done(*self.sign(salt="near"), *category.option())
            os.remove(self.path("out"))

    def test_given_seeds_come_with_one_another_and_the_key(self):
        self.package()
        whole = self.sign()
        for at in (4, 6, 8):
            said = self.troubled(WRONG_USAGE, *whole[:at], *whole[at + 2:])
            self.assertIn("given seeds come with one another and the key, missing: " + whole[at], said)

    def test_key_that_is_named_must_be_the_own(self):
        self.package(), self.put("own", self.get("key"))
        self.key(bytes(32), "other"), self.put("private", PRIVATE)
        self.assertIn("KEY is not", self.troubled(WRONG_USAGE, "sign", "private", "line", "out", "--key", "other"))
        self.done("sign", "private", "line", "out", "--key", "own")

    def test_each_byte_of_the_named_key_counts(self):
        for category in CATEGORIES:
            key = self.get(self.key(category=category))
            self.put("line", LINE)
            for at in (0, category.seed - 1, category.seed, category.key - 1):
                self.put("near", key[:at] + bytes([key[at] ^ 1]) + key[at + 1:])
                words = "sign", "private", "line", "out", "--key", "near", *category.option()
                self.assertIn("KEY is not the public key of PRIVATE", self.troubled(WRONG_USAGE, *words))

    def test_any_order_of_arguments_spares_seeds_keys_and_stores(self):
        """Every command with every choice of files: no seed, key or store is lost, and no seed stands elsewhere. The
        line has the size of a key."""
        self.package(LINE_77, private=HIDDEN[0], master=HIDDEN[1]), self.put("store", EMPTY)
        self.assertEqual(len(self.get("line")), FIRST.key)
        self.try_every_order((("sign", 3), ("key", 2), ("new-key", 2), ("new-store", 1)), ((), ("--force",)))

    def test_any_order_of_arguments_at_category_5(self):
        """Where a seed may also have the size of a line; --force asks for the most."""
        self.package(category=FIFTH), self.put("store", EMPTY), self.put("line", line_of(serial=1234567890))
        self.assertEqual(len(self.get("line")), FIFTH.seed)
        self.try_every_order((("sign", 3), ("key", 2), ("new-key", 2)), (("--force", *FIFTH.option()),))

    def try_every_order(self, commands, choices):
        kept = {name: self.get(name) for name in ("private", "master", "salt", "key", "store", "line", "package")}
        for command, count in commands:
            for words in itertools.product([*kept, "out"], repeat=count):
                for options in choices:
                    self.run_in(command, *words, *options)
                    self.check_kept(kept, (command, *words, *options))

    def check_kept(self, kept, words):
        """What was there is there, but for what --force asks for; each file is then put back."""
        same_kind = {"key": "key", "new-key": "key", "new-store": "store"}.get(words[0])
        private = kept["private"]
        for name in self.names():
            data = self.get(name)
            if name != "private":
                self.assertEqual([at for at in range(0, len(private), 16) if private[at:at + 16] in data], [], words)
            if name not in kept:
                os.remove(self.path(name))
            elif data != kept[name]:
                self.assertIn("--force", words)
                self.assertIn(name, ("line", "package", same_kind), words)
                self.put(name, kept[name])
        self.assertEqual(set(self.names()), set(kept), words)


class Existing(Case):
    def writers(self, category=FIRST):
        self.package(category=category)
        option = category.option()
        return {"key": ["key", "private", "out", *option], "package": ["sign", "private", "line", "out", *option],
                "store": ["new-store", "out"], "new key": ["new-key", "fresh", "out", *option]}

    def test_existing_output_is_replaced_only_when_asked(self):
        for words in self.writers().values():
            self.put("out", b"something else")
            said = self.troubled(FILE_TROUBLE, *words)
            self.assertIn("cannot write out: it exists; --force replaces it", said)
            self.done(*words, "--force")
            self.assertNotEqual(self.get("out"), b"something else")

    def drop(self, name):
        if name in self.names():
            os.remove(self.path(name))

    def test_seeds_keys_and_stores_are_never_replaced_by_something_else(self):
        """Those of every category, whichever is asked for; a line may have the size of a seed or of a key. A new store
        replaces one of a former layout too."""
        own = {"key": (77, 115, 153), "new key": (77, 115, 153), "package": (),
               "store": (1024, 1056, 1216, 1248, 1532, 1564)}
        lines = {64: line_of(serial=1234567890), 77: LINE_77}
        for category in CATEGORIES:
            for kind, words in self.writers(category).items():
                for size in (16, 24, 32, 48, 64, 77, 115, 153, 1024, 1056, 1216, 1248, 1532, 1564):
                    old = self.get(self.put("out", lines.get(size, bytes(size))))
                    if size in own[kind]:
                        self.done(*words, "--force")
                        self.assertNotEqual(self.get("out"), old)
                        self.drop("fresh")
                    else:
                        said = self.troubled(FILE_TROUBLE, *words, "--force")
                        self.assertEqual(said, f"gridprofile: cannot write out: it exists and has the size of "
                                         f"{KINDS[size]}, which nothing else replaces; choose another name, or remove "
                                         "it first\n")

    def test_file_that_comes_meanwhile_is_not_replaced(self):
        """The line comes by a pipe, so that the program waits for it after it has found its output."""
        self.package()
        os.mkfifo(self.path("pipe"))
        process = subprocess.Popen([PROGRAM, "sign", "private", "pipe", "out"], cwd=self.folder, stdout=subprocess.PIPE,
                                   stderr=subprocess.PIPE)
        with open(self.path("pipe"), "wb") as pipe:
            self.put("out", b"another run's")
            pipe.write(LINE)
        said = process.communicate(timeout=60)[1]
        self.assertEqual((process.returncode, self.get("out")), (FILE_TROUBLE, b"another run's"))
        self.assertIn(b"cannot write out: it exists; --force replaces it", said)
        self.assertEqual([name for name in self.names() if name.startswith(UNFINISHED)], [])

    def test_file_that_becomes_another_meanwhile_is_not_replaced(self):
        """As before, with a package that may be replaced: it is, unless a seed, a key or a store got its name since."""
        self.package()
        os.mkfifo(self.path("pipe"))
        for became, status in ((PRIVATE, FILE_TROUBLE), (self.get("key"), FILE_TROUBLE), (EMPTY, FILE_TROUBLE),
                               (self.get("package"), 0), (None, 0)):
            self.put("out", self.get("package"))
            os.chmod(self.path("out"), 0o600)
            if os.getuid() == 0:
                os.chown(self.path("out"), NOBODY, NOBODY)
            process = subprocess.Popen([PROGRAM, "sign", "private", "pipe", "out", "--force"], cwd=self.folder,
                                       stdout=subprocess.PIPE, stderr=subprocess.PIPE)
            with open(self.path("pipe"), "wb") as pipe:
                os.remove(self.path("out"))
                if became is not None:
                    self.put("out", became)
                pipe.write(LINE)
            said = process.communicate(timeout=60)[1]
            self.assertEqual(process.returncode, status)
            if status == 0:
                self.done("verify", "key", "out")
                made = os.stat(self.path("out"))
                self.assertEqual((stat.S_IMODE(made.st_mode), made.st_uid), (0o644, os.getuid()))
            else:
                self.assertEqual(self.get("out"), became)
                self.assertIn(b"cannot write out: it exists and has the size of ", said)
            self.assertEqual([name for name in self.names() if name.startswith(UNFINISHED)], [])


class Readable(Case):
    def test_seed_that_others_can_read_gets_a_warning(self):
        self.package()
        for mode in (0o644, 0o640, 0o604, 0o620, 0o602, 0o600, 0o400):
            warns = mode & 0o066 != 0
            for name, words in (("private", ["key", "private", "out"]), ("private", ["sign", "private", "line", "out"]),
                                ("master", ["sign", "private", "line", "out", *GIVEN])):
                for file in ("private", "master"):
                    os.chmod(self.path(file), 0o600)
                os.chmod(self.path(name), mode)
                ran = self.run_in(*words)
                self.assertEqual(ran.returncode, 0)
                os.remove(self.path("out"))
                told = f"warning: {name}: this seed is secret, but others can read or change".encode() in ran.stderr
                self.assertEqual((told, ran.stderr != b""), (warns, warns), (mode, words))

    def test_what_is_no_seed_gets_none(self):
        self.package()
        os.chmod(self.path("line"), 0o644)
        for words in (["key", "line", "out"], ["sign", "line", "line", "out"],
                      ["sign", "private", "line", "out", *GIVEN[:2], "--given-master-seed", "line", *GIVEN[4:]]):
            self.assertNotIn("warning", self.refused(1, *words))

    def test_seed_from_a_pipe_gets_none(self):
        os.mkfifo(self.path("pipe"))
        os.chmod(self.path("pipe"), 0o644)
        process = subprocess.Popen([PROGRAM, "key", "pipe", "out"], cwd=self.folder, stdout=subprocess.DEVNULL,
                                   stderr=subprocess.PIPE)
        with open(self.path("pipe"), "wb") as pipe:
            pipe.write(PRIVATE)
        self.assertEqual((process.communicate(timeout=60)[1], process.returncode), (b"", 0))


class Terminal(Case):
    NAME = b"a\x1b[2J\x07\r\n\x7f\xc2\x9b1m\x9b" + "ü€Ä😀".encode()
    SHOWN = rb"a\x1B[2J\x07\x0D\x0A\x7F\xC2\x9B1m\x9B" + "ü€Ä😀".encode()

    def test_names_give_a_terminal_no_orders(self):
        self.package(), self.put("store", bytes(STORE)), self.put(self.path(os.fsdecode(self.NAME)), bytes(32))
        for words in (["verify", "key", b"no" + self.NAME], ["verify", "key", self.NAME], ["show", self.NAME],
                      ["key", self.NAME, "out"], ["key", "private", self.NAME], ["key", self.NAME, self.NAME],
                      ["key", b"-" + self.NAME], [self.NAME], ["help", self.NAME],
                      ["new-store", "new", "--wait", self.NAME], ["key", "private", "new", "--category", self.NAME],
                      ["show", "line", "--classes", b"no" + self.NAME], ["classes", self.NAME],
                      ["sign", "private", "line", "new", "--key", self.NAME]):
            said = self.run_in(*words).stderr
            self.assertIn(self.SHOWN, said, words)
            self.assertNotRegex(said, rb"[\x00-\x09\x0b-\x1f\x7f]|\xc2[\x80-\x9f]")
        os.rename(self.path("store"), self.path(os.fsdecode(self.NAME)))
        for words in (["lookup", self.NAME, *DEVICE], ["nearest", self.NAME, *MEASURED], ["classes", self.NAME]):
            self.assertIn(b"the store " + self.SHOWN + b" is damaged", self.run_in(*words).stderr)

    def test_lines_are_said_whole(self):
        """So that what runs beside each other say is not mixed within a line."""
        reading, writing = socket.socketpair(socket.AF_UNIX, socket.SOCK_SEQPACKET)
        with reading, writing:
            self.run_in("show", self.put("private", PRIVATE), stderr=writing)
            reading.setblocking(False)
            self.assertEqual(reading.recv(1000).decode(), "gridprofile show: refused with 1: private has the size of "
                             f"{KINDS[32]}, of which nothing is shown\n")


class Locks(Case):
    def lock(self, seconds=None, how=fcntl.LOCK_EX):
        """Locks the folder as another program would, for so long."""
        folder = os.open(self.folder, os.O_RDONLY)
        fcntl.flock(folder, how)
        if seconds is None:
            self.addCleanup(os.close, folder)
        else:
            timer = threading.Timer(seconds, os.close, [folder])
            timer.start()
            self.addCleanup(timer.join)

    def writers(self):
        self.package(), self.store(), self.put("table", RAILWAY)
        return (["load", "store", "key", "package", *DEVICE], ["key", "private", "out"], ["new-store", "empty"],
                ["sign", "private", "line", "signed"], ["new-key", "fresh", "fresh.key"], ["classes", "store", "table"])

    def test_lock_is_waited_for_so_long(self):
        writers = self.writers()
        self.lock()
        for words in writers:
            self.assertIn("another program holds the lock", self.troubled(FILE_TROUBLE, *words, "--wait", "0"))
        start = time.monotonic()
        said = self.troubled(FILE_TROUBLE, *writers[0], "--wait", "2")
        self.assertGreaterEqual(time.monotonic() - start, 1.9)
        self.assertEqual([line.split(": ", 1)[1] for line in said.splitlines()],
                         ["warning: store: another program holds the lock on its folder; waiting",
                          "cannot write store: another program holds the lock on its folder; try again later, or "
                          "wait longer by --wait"])

    def test_lock_that_is_given_up(self):
        writers = self.writers()
        self.lock(3)
        _, said = self.warned(*writers[0])
        self.assertEqual(said.count("waiting"), 1)
        self.assertEqual(self.done("lookup", "store", *DEVICE), LINE)
        self.lock(0.2)
        self.done(*writers[1])

    def waits(self, *words):
        """The program, which waits for the lock on the folder and has said so; then what is done meanwhile."""
        self.package(), self.store()
        folder = os.open(self.folder, os.O_RDONLY)
        fcntl.flock(folder, fcntl.LOCK_EX)
        process = subprocess.Popen([PROGRAM, *words], cwd=self.folder, stdout=subprocess.PIPE, stderr=subprocess.PIPE)
        self.assertIn(b"waiting", process.stderr.readline())
        yield
        os.close(folder)
        said = process.communicate(timeout=60)[1]
        yield process.returncode, said

    def test_store_that_leads_elsewhere_meanwhile(self):
        self.store(LINE_C, name="a"), self.store(name="b")
        os.symlink("a", self.path("current"))
        run = self.waits("load", "current", "key", "package", *DEVICE)
        next(run)
        before = self.get("a"), self.get("b")
        os.remove(self.path("current")), os.symlink("b", self.path("current"))
        status, said = next(run)
        self.assertEqual((status, self.get("a"), self.get("b")), (FILE_TROUBLE, *before))
        self.assertIn(b"current: it leads to another file now; try again", said)

    def test_seed_that_comes_meanwhile_is_not_replaced(self):
        self.put("out", b"to be replaced")
        run = self.waits("sign", "private", "line", "out", "--force")
        next(run)
        self.put("new", HIDDEN[0]), os.rename(self.path("new"), self.path("out"))
        status, said = next(run)
        self.assertEqual((status, self.get("out")), (FILE_TROUBLE, HIDDEN[0]))
        self.assertIn(b"out: it exists and has the size of a private seed", said)

    def test_folder_that_is_another_meanwhile(self):
        self.package()
        for name in ("folder", "new"):
            os.mkdir(self.path(name))
            self.put(name + "/store", EMPTY)
        folder = os.open(self.path("folder"), os.O_RDONLY)
        fcntl.flock(folder, fcntl.LOCK_EX)
        process = subprocess.Popen([PROGRAM, "load", "folder/store", "key", "package", *DEVICE], cwd=self.folder,
                                   stdout=subprocess.PIPE, stderr=subprocess.PIPE)
        self.assertIn(b"waiting", process.stderr.readline())
        os.rename(self.path("folder"), self.path("old")), os.rename(self.path("new"), self.path("folder"))
        os.close(folder)
        said = process.communicate(timeout=60)[1]
        self.assertEqual((process.returncode, self.get("folder/store"), self.get("old/store")),
                         (FILE_TROUBLE, EMPTY, EMPTY))
        self.assertIn(b"folder/store: its folder is another one now; try again", said)

    def test_seed_that_comes_by_the_name_of_a_new_key_is_not_replaced(self):
        self.put("out", bytes(77))
        run = self.waits("new-key", "fresh", "out", "--force")
        next(run)
        self.put("new", HIDDEN[0]), os.rename(self.path("new"), self.path("out"))
        status, said = next(run)
        self.assertEqual((status, self.get("out")), (FILE_TROUBLE, HIDDEN[0]))
        self.assertNotIn("fresh", self.names())

    def test_permissions_that_change_meanwhile_count(self):
        run = self.waits("load", "store", "key", "package", *DEVICE)
        next(run)
        os.chmod(self.path("store"), 0o600)
        self.assertEqual(next(run)[0], 0)
        self.assertEqual(stat.S_IMODE(os.stat(self.path("store")).st_mode), 0o600)

    def test_load_waits_for_its_package_without_the_lock(self):
        self.package(), self.store()
        process = subprocess.Popen([PROGRAM, "load", "store", "key", "-", *DEVICE], cwd=self.folder,
                                   stdin=subprocess.PIPE, stdout=subprocess.PIPE)
        wait_for(lambda: call_of(process) == READS_INPUT)
        self.done("new-store", "other", "--wait", "0")
        process.communicate(self.get("package"), timeout=60)
        self.assertEqual(process.returncode, 0)
        self.assertEqual(self.done("lookup", "store", *DEVICE), LINE)

    def test_lock_is_shared_with_nobody(self):
        self.put("private", PRIVATE)
        self.lock(how=fcntl.LOCK_SH)
        self.troubled(FILE_TROUBLE, "key", "private", "key", "--wait", "0")

    def test_readers_do_not_wait(self):
        self.store(LINE)
        self.lock()
        self.assertEqual(self.done("lookup", "store", *DEVICE), LINE)
        self.assertTrue(self.done("nearest", "store", *MEASURED).startswith(LINE))
        self.done("show", "store"), self.done("classes", "store")

    def test_only_left_over_files_are_removed(self):
        self.put("private", PRIVATE)
        other = ["unfinished-abc123", ".gridprofile-backup", ".gridprofile-backup-of-tuesday",
                 UNFINISHED[:-1] + "_abc123", UNFINISHED + "abc12", UNFINISHED + "abc1234", "x" + UNFINISHED]
        for name in other:
            self.put(name, b"mine")
        os.mkdir(self.path(UNFINISHED + "folder"))
        os.symlink("private", self.path(UNFINISHED + "linked"))
        if os.getuid() == 0:
            other.append(self.put(UNFINISHED + "others", b"theirs"))
            os.chown(self.path(UNFINISHED + "others"), NOBODY, NOBODY)
        kept = {*self.names(), "key"}
        self.put(UNFINISHED + "abc123", b"left"), self.put(UNFINISHED + "ABCdef", b"")
        self.done("key", "private", "key")
        self.assertEqual(set(self.names()), kept)

    def test_a_run_that_waits_leaves_what_another_writes(self):
        """What another run has begun under the lock is there until that gives the lock up."""
        self.put("private", PRIVATE)
        self.lock()
        self.put(UNFINISHED + "abc123", b"being written")
        self.troubled(FILE_TROUBLE, "key", "private", "key", "--wait", "0")


class SmallStack(Case):
    def test_every_command(self):
        """The environment would stand on the stack too."""
        for category, kilobytes in itertools.product(CATEGORIES, (200, 64)):
            self.package(category=category)
            size, option = kilobytes * 1024, category.option()
            small = {"preexec_fn": lambda limit=size: resource.setrlimit(resource.RLIMIT_STACK, (limit, limit)),
                     "env": {}}
            name = f"at{category.number}-{kilobytes}-"
            self.done("new-key", name + "private", name + "key", *option, **small)
            self.done("key", "private", name + "same", *option, **small)
            self.done("sign", "private", "line", name + "package", *option, **small)
            self.done("verify", "key", name + "package", *option, **small)
            self.done("new-store", name + "store", **small)
            self.done("load", name + "store", "key", name + "package", *DEVICE, *option, **small)
            self.assertEqual(self.done("lookup", name + "store", *DEVICE, **small), LINE)
            self.assertTrue(self.done("nearest", name + "store", *MEASURED, **small).startswith(LINE))
            self.done("show", name + "store", **small)
            self.assertEqual(self.done("preview", "line", **small), listing_of(["XA,B,50,12"]))
            self.assertEqual(self.done("evaluate", "line", **small), LINE)
            self.refused(11, "evaluate", self.put("bad", LINE.replace(b",800,", b",(((((((((8,")), **small)
            self.done("new-store", name + "railway", **small)
            self.done("classes", name + "railway", self.put("table", RAILWAY), **small)
            self.assertEqual(self.done("classes", name + "railway", **small), RAILWAY)
            self.put("railway", RAILWAY_LINE)
            self.done("sign", "private", "railway", name + "signed", "--classes", "table", *option, **small)
            self.done("load", name + "railway", "key", name + "signed", "XA", "R", "50", *option, **small)


class Many(Case):
    def test_runs_at_the_same_time_in_one_folder(self):
        """Writers of different files in one folder, each of which clears what it takes for left over."""
        self.package()
        runs = [subprocess.Popen([PROGRAM, "sign", "private", "line", f"out{at}"], cwd=self.folder,
                                 stdout=subprocess.DEVNULL) for at in range(12)]
        self.assertEqual([run.wait(60) for run in runs], [0] * 12)
        for at in range(12):
            self.done("verify", "key", f"out{at}")
        self.assertEqual([name for name in self.names() if name.startswith(UNFINISHED)], [])

    def test_two_folders_are_locked_in_one_order(self):
        """Whichever of them gets the seed: so no two runs wait for one another."""
        os.mkdir(self.path("one")), os.mkdir(self.path("two"))
        first, second = (os.open(self.path(name), os.O_RDONLY) for name in ("one", "two"))
        fcntl.flock(first, fcntl.LOCK_EX)
        runs = [subprocess.Popen([PROGRAM, "new-key", *names], cwd=self.folder, stdout=subprocess.DEVNULL)
                for names in (("one/a", "two/a.key"), ("two/b", "one/b.key"))]
        time.sleep(0.5)
        fcntl.flock(second, fcntl.LOCK_EX | fcntl.LOCK_NB)
        os.close(first), os.close(second)
        self.assertEqual([run.wait(60) for run in runs], [0, 0])

    def test_one_of_many_makes_the_file(self):
        self.package()
        runs = [subprocess.Popen([PROGRAM, "new-key", f"private{at}", "pub"], cwd=self.folder,
                                 stdout=subprocess.DEVNULL, stderr=subprocess.DEVNULL) for at in range(8)]
        statuses = sorted(run.wait(60) for run in runs)
        self.assertEqual(statuses, [0] + [FILE_TROUBLE] * 7)
        left = [name for name in self.names() if name.startswith("private") and name != "private"]
        self.assertEqual(len(left), 1)
        self.assertEqual(self.warned("key", left[0], "-")[0], self.get("pub"))

"""What the tests of the command-line program share: a folder for each test, and the program run in it."""

import hashlib
import os
import shutil
import struct
import subprocess
import tempfile
import typing
import unittest

ROOT = os.path.dirname(os.path.dirname(os.path.abspath(__file__)))
PROGRAM = os.environ.get("GRIDPROFILE_PROGRAM", os.path.join(ROOT, "target/cli/gridprofile"))
ARCHIVE = os.environ.get("GRIDPROFILE_ARCHIVE", os.path.join(ROOT, "target/staticlib/libgridprofile.a"))
PREVIEW = os.environ.get("GRIDPROFILE_PREVIEW", os.path.join(ROOT, "crates/preview_main/out/preview_main"))

WRONG_USAGE = 64
DAMAGED_STORE = 65
SELF_CHECK_FAILED = 70
NO_RANDOM_BYTES = 71
FILE_TROUBLE = 74
# A profile's image, 16 such, a class table's, a store's of both, and the file that the program makes of that.
PROFILE = 76
SLOTS = 16 * PROFILE
TABLE = 316
IMAGE = SLOTS + TABLE
STORE = IMAGE + 32
# The lengths that a line may have.
LEAST_LINE, MOST_LINE = 42, 84


class Category(typing.NamedTuple):
    """What a category decides: bytes of its files, its hash, and numbers of the scheme."""
    number: int
    seed: int  # of a private seed, a salt and a digest
    master: int  # of a master seed, a round's seed and a fingerprint
    key: int
    signature: int
    hash: typing.Callable
    places: int
    exponents: int  # bytes of the block that they are drawn from
    rounds: int
    ones: int
    first_of_salt: int

    def shake(self, data, length):
        return self.hash(data).digest(length)

    def seeds(self):
        """Private seed, master seed and salt that examples/README.md tells."""
        return (bytes(range(self.seed)), bytes(range(100, 100 + self.master)),
                bytes(range(self.first_of_salt, self.first_of_salt + self.seed)))

    def option(self):
        return "--category", str(self.number)


FIRST = Category(1, 32, 16, 77, 19152, hashlib.shake_128, 127, 96, 163, 85, 200)
THIRD = Category(3, 48, 24, 115, 42682, hashlib.shake_256, 187, 144, 245, 127, 150)
FIFTH = Category(5, 64, 32, 153, 76298, hashlib.shake_256, 251, 192, 327, 169, 150)
CATEGORIES = FIRST, THIRD, FIFTH

# Of category 1.
SIGNATURE = FIRST.signature
PRIVATE, MASTER, SALT = FIRST.seeds()

LINE = b"GP1,XA,B,12,230,50,1150,100,800,1500,1500,100,-2500,100\n"
LINE_C = b"GP1,XA,C,5,400,50,1100,200,850,1500,1500,100,-2500,100\n"
# Of the half of the country that runs at 60 Hz.
LINE_60 = b"GP1,XA,B,1,230,60,1150,100,800,1500,1500,100,-2500,100\n"
# With a rate point.
RATE_LINE = b"GP2,XA,B,13,230,50,1150,100,800,1500,1500,100,-2500,100,2000,500\n"
# The shortest and the longest line of each kind.
SHORTEST = b"GP1,XA,A,1,100,50,1001,20,1,20,1,20,-1,20\n"
LONGEST = b"GP1,XA,D,4294967295,1000,60,1500,60000,999,60000,5000,60000,-5000,60000\n"
SHORTEST_RATE = b"GP2,XA,A,1,100,50,1001,20,1,20,1,20,-1,20,100,20\n"
LONGEST_RATE = b"GP2,XA,D,4294967295,1000,60,1500,60000,999,60000,5000,60000,-5000,60000,10000,60000\n"
# With the size of a public key of category 1.
LINE_77 = LONGEST_RATE.replace(b"4294967295", b"123")
# The class table of a railway, and a line that is one under it.
RAILWAY = b"E,100,199\nM,200,400\nR,600,900\nT,950,1000\n"
RAILWAY_LINE = b"GP1,XA,R,12,750,50,1150,100,800,1500,1500,100,-2500,100\n"
# A frequency that there is not.
BAD_LINE = LINE.replace(b",50,", b",55,")
# What a device is set to that takes the first of these lines, as words of a command; and one at 60 Hz.
DEVICE, DEVICE_60 = ("XA", "B", "50"), ("XA", "B", "60")
# What a fitter knows who has measured its volts.
MEASURED = ("XA", "50", "230")

# What has so many bytes, in the program's words.
KINDS = {16: "a master seed of category 1", 24: "a master seed of category 3",
         32: "a private seed or a salt of category 1, or a master seed of category 5",
         48: "a private seed or a salt of category 3, or a profile line",
         64: "a private seed or a salt of category 5, or a profile line",
         77: "a public key of category 1, or a profile line", 115: "a public key of category 3",
         153: "a public key of category 5", 1532: "a store without a checksum", 1564: "a store",
         1024: "a store of the layout before rate points, without a checksum",
         1056: "a store of the layout before rate points",
         1216: "a store of the layout before class tables, without a checksum",
         1248: "a store of the layout before class tables"}
# What of this a line is not.
RIVALS = {size: KINDS[size].removesuffix(", or a profile line") for size in (48, 64, 77)}

made = {}


def example(name):
    """What an example file holds."""
    with open(os.path.join(ROOT, "examples", name), "rb") as file:
        return file.read()


def formats():
    with open(os.path.join(ROOT, "docs/FORMATS.md"), encoding="utf-8") as file:
        return file.read()


def line_of(country="XA", letter="B", hertz=50, serial=12, rate=None, volts=None):
    """A line; with a rate point where there is a rate, and usual volts of the class where none are told."""
    volts = volts or {"A": 120, "B": 230, "C": 400, "D": 690}[letter]
    tag, point = ("GP1", "") if rate is None else ("GP2", f",{rate},500")
    trips = "1150,100,800,1500,1500,100,-2500,100"
    return f"{tag},{country},{letter},{serial},{volts},{hertz},{trips}{point}\n".encode()


def device_of(line):
    """The country, class and hertz that a line is for, as words of a command."""
    _, country, letter, _, _, hertz = line.decode().split(",")[:6]
    return country, letter, hertz


def rows_of(serials):
    """The rows of a preview's listing: country decides where one stands, then class, then hertz, and no serial does."""
    return [f"{country},{letter},{hertz},{serials[country, letter, hertz]}"
            for country, letter, hertz in sorted(serials)]


def listing_of(rows):
    """Every byte that a preview prints for these rows."""
    return "".join(row + "\n" for row in ("COUNTRY,CLASS,HERTZ,SERIAL", *rows)).encode()


def held(count, classes="Its classes are the built-in ones.\n"):
    """How `show` begins of a store with so many profiles."""
    return f"A store with {count} of 16 profiles.\n{classes}"


def shake(data, length):
    return hashlib.shake_128(data).digest(length)


def sealed(image):
    """The store file of an image: its checksum stands behind it."""
    return image + shake(image, 32)


def fingerprint(key, category=FIRST):
    """The line that names a key."""
    digits = category.shake(key, category.master).hex()
    return "key fingerprint: " + " ".join(digits[at:at + 4] for at in range(0, len(digits), 4)) + "\n"


# What each refusal says, and what it tells to do.
REFUSALS = {1: ("size", "gridprofile help|--category|new-store|gridprofile evaluate"),
            2: ("draw from the seeds is short", "make another key"),
            3: ("out of range", "fetch (both|it) again"), 4: ("signature does not hold", "do not use this package"),
            5: ("breaks a ", "correct the line|take a copy|gridprofile evaluate"),
            6: ("for another country, class or hertz", "which device .* hertz alone"),
            7: ("is not greater than", "greater serial|nothing can"),
            8: ("16 profiles are stored, none of them for this country, class and hertz", "another store"),
            9: ("nothing is stored for this country, class and hertz", "load a package .* other hertz"),
            10: ("is not two letters .*, the class none of the store's, or hertz not 50 or 60",
                 r"as in: XA [A-Z] 50; the (built-in )?classes (of this store )?are [A-Z]"),
            11: ("a limit is no formula", "correct the formula; `gridprofile help evaluate`"),
            12: ("divides by 0, or a result", "correct the formula; `gridprofile help evaluate`"),
            13: ("the class table breaks a rule of its file", "correct the table; `gridprofile help classes`"),
            14: ("the store holds profiles, and a class table can be loaded only while it is empty",
                 "another store by `gridprofile new-store`")}
# The same of `nearest`, which is asked for no class.
NEAREST_REFUSALS = {**REFUSALS,
                    9: (r"no stored profile of [A-Z]{2} and [56]0 Hz is within 40 V of the measured \d+ V",
                        "`gridprofile show STORE` lists what is stored"),
                    10: ("(the country is not two letters A to Z|the hertz are not 50 or 60|"
                         "the volts are not a whole number 0 to 2000)", r"0 to 2000, as in: XA 50 230\.")}
# The same of `evaluate`, which takes any file for a sheet of lines.
EVALUATE_REFUSALS = {**REFUSALS, 1: ("(a line is too long|the sheet has more than 65536 bytes)", "sheet"),
                     5: ("breaks a ", "correct the line; `gridprofile help line` and `gridprofile help evaluate`")}
OWN_REFUSALS = {"nearest": NEAREST_REFUSALS, "evaluate": EVALUATE_REFUSALS}

# The seeds are named so that a seed is a file which only its owner can read; a category's number may stand behind.
SECRET_NAMES = ("private", "master")
GIVEN = ("--key", "key", "--given-master-seed", "master", "--given-salt", "salt")


class Case(unittest.TestCase):
    """A test in a folder of its own, which it works in."""

    program = PROGRAM

    def setUp(self):
        self.folder = tempfile.mkdtemp(prefix="gridprofile-test-")
        self.addCleanup(shutil.rmtree, self.folder)
        os.chmod(self.folder, 0o755)

    def path(self, name):
        return os.path.join(self.folder, name)

    def put(self, name, data):
        with open(self.path(name), "wb") as file:
            file.write(data)
        if name.rstrip("135") in SECRET_NAMES:
            os.chmod(self.path(name), 0o600)
        return name

    def get(self, name):
        with open(self.path(name), "rb") as file:
            return file.read()

    def names(self):
        return sorted(os.listdir(self.folder))

    def run_in(self, *words, stdin=b"", **options):
        """Runs the program in the test's folder, with what it says caught unless the options say other."""
        options = {"input": stdin, "stdout": subprocess.PIPE, "stderr": subprocess.PIPE, **options}
        return subprocess.run([self.program, *words], cwd=self.folder, timeout=60, check=False, **options)

    def done(self, *words, **options):
        """The program does it and says nothing on standard error; what it prints."""
        ran = self.run_in(*words, **options)
        self.assertEqual((ran.returncode, ran.stderr), (0, b""), words)
        return ran.stdout

    def warned(self, *words, **options):
        """The program does it, and says something on standard error: what it prints, and that."""
        ran = self.run_in(*words, **options)
        self.assertEqual(ran.returncode, 0, (words, ran.stderr))
        self.assertNotEqual(ran.stderr, b"", words)
        return ran.stdout, ran.stderr.decode()

    def refused(self, number, *words, **options):
        """The program refuses with this number, says so and what to do, and changes no file."""
        before = self.look()
        ran = self.run_in(*words, **options)
        said = ran.stderr.decode()
        self.assertEqual(ran.returncode, number, (words, said))
        meaning, advice = OWN_REFUSALS.get(words[0], REFUSALS)[number]
        self.assertRegex(said, rf"refused with {number}: .*{meaning}.*\n(  .*\n)*  What to do: .*({advice})")
        self.assertEqual(ran.stdout, b"")
        self.assertEqual(self.look(), before, words)
        return said

    def troubled(self, status, *words, **options):
        """The program ends with 64 or 74, prints nothing but a reason, and changes no file."""
        before = self.look()
        ran = self.run_in(*words, **options)
        self.assertEqual(ran.returncode, status, (words, ran.stderr))
        self.assertTrue(ran.stderr.startswith(b"gridprofile"), ran.stderr)
        self.assertIn(ran.stdout, (b"", None))
        self.assertEqual(self.look(), before, words)
        return ran.stderr.decode()

    def look(self):
        """Every name in the folder with its inode, times and content."""
        seen = {}
        for name in self.names():
            state = os.lstat(self.path(name))
            plain = os.path.isfile(self.path(name)) and not os.path.islink(self.path(name))
            seen[name] = (state.st_ino, state.st_mode, state.st_mtime_ns, self.get(name) if plain else None)
        return seen

    def make(self, name, words, *parts):
        """A file with what a command makes of these files on standard output; each is made once."""
        key = (words[0], *(data for _, data in parts))
        for part in parts:
            self.put(*part)
        if key not in made:
            made[key], _ = self.warned(*words)
        return self.put(name, made[key])

    def key(self, private=None, name="key", category=FIRST):
        """The name of a file with the public key of a private seed."""
        private = private or category.seeds()[0]
        return self.make(name, ("key", "private", "-", *category.option()), ("private", private))

    def package(self, line=LINE, name="package", private=None, master=None, category=FIRST):
        """The name of a file with a package of a line."""
        own_private, own_master, salt = category.seeds()
        private, master = private or own_private, master or own_master
        self.key(private, category=category)
        parts = ("private", private), ("master", master), ("salt", salt), ("line", line)
        return self.make(name, ("sign", "private", "line", "-", *GIVEN, *category.option()), *parts)

    def store(self, *lines, name="store"):
        """The name of a file with an empty store, into which lines are then loaded."""
        self.put(name, sealed(bytes(IMAGE)))
        self.key()
        for line in lines:
            self.done("load", name, "key", self.package(line), *device_of(line))
        return name


# Reads lines, each behind its length, and prints for each what the library answers, and then what is said of it. A line
# ends where memory does, so that a byte read past it ends the program.
EXPLAIN_ALL = """
#include "program.h"
#include <sys/mman.h>
int main(void)
{
    uint8_t out[GRIDPROFILE_LINE_MAX_BYTES], *line;
    uint32_t length;
    size_t used = 0;
    uint8_t *room = mmap(NULL, 65536 + 4096, PROT_READ | PROT_WRITE, MAP_PRIVATE | MAP_ANONYMOUS, -1, 0);
    if (room == MAP_FAILED || mprotect(room + 65536, 4096, PROT_NONE) != 0)
        return 1;
    while (fread(&length, sizeof length, 1, stdin) == 1) {
        line = room + 65536 - length;
        if (fread(line, 1, length, stdin) != length)
            return 1;
        int answer = ANSWER;
        printf("%d\\n", answer);
        if (answer != 0)
            EXPLAIN;
        else if (used > 0)
            printf("  %.*s", (int)used, (char *)out);
    }
    return 0;
}
"""


class Explained(Case):
    """Lines by the thousand, with the program's own files that say what is wrong with them."""

    PARTS = ("explain.c", "kinds.c", "categories.c", "table.c")
    ANSWER = "read_profile(line, length, out)"
    EXPLAIN = "explain_line(stdout, line, length)"

    @classmethod
    def setUpClass(cls):
        """Compiled once, with traps for what C leaves undefined."""
        cls.built = tempfile.mkdtemp(prefix="gridprofile-test-")
        cls.addClassCleanup(shutil.rmtree, cls.built)
        source, cls.program = os.path.join(cls.built, "all.c"), os.path.join(cls.built, "all")
        with open(source, "w", encoding="ascii") as file:
            file.write(EXPLAIN_ALL.replace("ANSWER", cls.ANSWER).replace("EXPLAIN", cls.EXPLAIN))
        folder = os.path.join(ROOT, "tools/gridprofile")
        parts = [os.path.join(folder, name) for name in cls.PARTS]
        subprocess.run(["gcc", "-std=c11", "-O1", "-Wall", "-Wextra", "-Werror", "-fsanitize=undefined",
                        "-fsanitize-undefined-trap-on-error", "-I", os.path.join(ROOT, "include"), "-I", folder, source,
                        *parts, ARCHIVE, "-o", cls.program], check=True)

    def explained(self, lines):
        """For each line what the library answers, and what is said of it, line by line without the indent; with an
        answer of 0, what the library wrote."""
        records = b"".join(struct.pack("<I", len(line)) + line for line in lines)
        ran = subprocess.run([self.program], input=records, stdout=subprocess.PIPE, timeout=60, check=False)
        self.assertEqual(ran.returncode, 0)
        self.assertRegex(ran.stdout, rb"\A[ -~\n]*\Z")
        results = []
        for said in ran.stdout.decode().splitlines():
            if said.startswith("  "):
                results[-1][1].append(said[2:])
            else:
                results.append((int(said), []))
        self.assertEqual(len(results), len(lines))
        return results

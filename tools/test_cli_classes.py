"""Class tables on the command line: `gridprofile classes`, the classes that a store goes by, `--classes`, and what is
said of tables that are refused; beside rules written here from docs/FORMATS.md."""

import base64
import fcntl
import itertools
import os
import random
import re
import struct
import subprocess

from cli_case import (BAD_LINE, CATEGORIES, DAMAGED_STORE, DEVICE, EVALUATE_REFUSALS, FIFTH, FILE_TROUBLE, FIRST, GIVEN,
                      IMAGE, KINDS, LINE, LINE_77, LINE_C, LONGEST_RATE, MEASURED, PRIVATE, PROFILE, PROGRAM, RAILWAY,
                      RAILWAY_LINE, RATE_LINE, ROOT, SIGNATURE, SLOTS, STORE, TABLE, WRONG_USAGE, Case, Explained,
                      device_of, example, fingerprint, formats, held, line_of, listing_of, sealed)
from test_cli_files import READS_INPUT, call_of, wait_for
from test_cli_lines import FIELDS, answer, fault_said, faults, under, with_field

BUILT_IN = b"A,100,139\nB,140,259\nC,260,519\nD,520,1000\n"
LETTERS = b"ABCDEFGHIJKLMNOPQRSTUVWXYZ"
# The greatest table: every letter, and all volts in some class.
ALL = b"".join(b"%c,%d,%d\n" % (letter, 100 + 36 * at, 135 + 36 * at if at < 25 else 1000)
               for at, letter in enumerate(LETTERS))
# The shortest file of a table, and the longest.
SHORTEST, LONGEST = b"A,100,100\n", b"".join(b"%c,%d,%d\n" % (letter, at, at) for letter, at in
                                             zip(LETTERS, [*range(100, 125), 1000]))
MOST = 65536
# A device of the railway, as words of a command.
RAILWAY_DEVICE = ("XA", "R", "50")
RAILWAY_WORDS = """  class E         100 to 199 V
  class M         200 to 400 V
  no class        401 to 599 V
  class R         600 to 900 V
  no class        901 to 949 V
  class T         950 to 1000 V
"""
OWN = "Its classes are its own:\n"
# Lines of the railway with formulas.
SHEET = with_field(6, b"N+400", RAILWAY_LINE) + with_field(8, b"N-100", line_of(letter="E", volts=150))


def volts_fit(text):
    return bool(re.fullmatch(rb"[1-9][0-9]{2,3}", text)) and 100 <= int(text) <= 1000


def row_of(text):
    """Letter, low and high volts of a row without its LF, or None."""
    fields = text.split(b",")
    if len(fields) != 3 or not re.fullmatch(rb"[A-Z]", fields[0]) or not all(map(volts_fit, fields[1:])):
        return None
    letter, low, high = fields[0], int(fields[1]), int(fields[2])
    return (letter, low, high) if low <= high else None


def rows_of(file):
    """The rows of a table's file, or None where it breaks a rule."""
    *texts, rest = file.split(b"\n")
    rows = [row_of(text) for text in texts]
    if rest or not 1 <= len(rows) <= 26 or None in rows:
        return None
    rise = all(before[0] < after[0] and before[2] < after[1] for before, after in zip(rows, rows[1:]))
    return rows if rise else None


def image_of(file):
    """The image that a table's file is read into."""
    rows = rows_of(file)
    numbers = [len(rows), *(number for letter, low, high in rows for number in (letter[0], low, high))]
    return struct.pack(f"<{len(numbers)}I", *numbers).ljust(TABLE, b"\0")


def store_of(table, *profiles):
    """A store with a table's image and images of profiles, as loads could have left it."""
    return sealed(b"".join(profiles).ljust(SLOTS, b"\0") + table)


def named(file):
    """How a table is named when it is loaded."""
    letters = [letter.decode() for letter, _, _ in rows_of(file)]
    return f"a table of {len(letters)} class{'es' * (len(letters) > 1)}: {listed(letters)}.\n"


def listed(letters):
    *first, last = letters
    return f"{', '.join(first)} and {last}" if first else last


def in_words(file):
    """The rows of a table, and the gaps between them."""
    spans, after = [], 100
    for letter, low, high in rows_of(file):
        spans += [("no class", after, low - 1), ("class " + letter.decode(), low, high)]
        after = high + 1
    spans.append(("no class", after, 1000))
    return "".join(f"  {name:16}{f'{low} to {high}' if low < high else low} V\n"
                   for name, low, high in spans if low <= high)


def any_table(draw, count=None):
    """A sound table, with gaps and without, of rows of one volt and of many."""
    count = count or draw.choice((1, 2, 3, 4, 8, 9, 25, 26))
    letters = sorted(draw.sample(LETTERS, count))
    volts = sorted(draw.sample(range(100, 1001), 2 * count))
    rows = [[letter, low, high] for letter, low, high in zip(letters, volts[::2], volts[1::2])]
    for row, after in zip(rows, rows[1:]):
        row[2] = draw.choice((row[2], row[1], after[1] - 1))
    return b"".join(b"%c,%d,%d\n" % tuple(row) for row in rows)


class Classes(Case):
    """A table loaded into a store, and printed."""

    def load(self, table, store="store"):
        return self.done("classes", store, self.put("table", table)).decode()

    def test_example(self):
        """The example is the worked file of the document, and the store has its image behind the slots."""
        self.assertEqual(example("railway.classes"), RAILWAY)
        self.assertEqual(example("xa-r.line"), RAILWAY_LINE)
        self.store()
        self.assertEqual(self.load(RAILWAY), "Accepted: a table of 4 classes: E, M, R and T.\nIt replaces the built-in "
                         "classes.\n")
        self.assertEqual(self.get("store"), store_of(image_of(RAILWAY)))
        self.assertEqual(self.done("classes", "store"), RAILWAY)

    def test_built_in_classes(self):
        """They are printed as a file that can be loaded, and stand in the help."""
        self.done("new-store", "store")
        self.assertEqual(self.done("classes", "store"), BUILT_IN)
        shown = self.done("help", "classes").decode()
        self.assertIn("".join(f"  {row}\n" for row in BUILT_IN.decode().splitlines()), shown)
        self.assertEqual(self.load(BUILT_IN), "Accepted: a table of 4 classes: A, B, C and D.\nIt replaces the "
                         "built-in classes.\n")
        self.assertEqual((self.get("store"), self.done("classes", "store")), (store_of(image_of(BUILT_IN)), BUILT_IN))

    def test_replaced_while_the_store_is_empty(self):
        """Each time the whole table, also by the same one, and by a shorter one."""
        self.store()
        tables, before = [RAILWAY, ALL, SHORTEST, SHORTEST, LONGEST, BUILT_IN, RAILWAY], "the built-in classes.\n"
        for table in tables:
            self.assertEqual(self.load(table), f"Accepted: {named(table)}It replaces {before}")
            self.assertEqual(self.get("store"), store_of(image_of(table)))
            before = named(table)
        self.done("new-store", "store", "--force")
        self.assertEqual(self.done("classes", "store"), BUILT_IN)

    def test_any_table(self):
        """What is printed is the file that was loaded."""
        draw = random.Random(108)
        self.store()
        for count in (1, 2, 3, 7, 25, 26):
            table = any_table(draw, count)
            self.load(table)
            self.assertEqual(self.get("store"), store_of(image_of(table)))
            self.assertEqual(self.done("classes", "store"), table)

    def test_sizes_of_files(self):
        self.assertEqual((len(SHORTEST), len(LONGEST), len(RAILWAY)), (10, 262, 41))
        for name, number in (("BAD_TABLE", 13), ("STORE_IN_USE", 14), ("TABLE_ROWS", 26), ("TABLE_FILE_MIN_BYTES", 10),
                             ("TABLE_FILE_MAX_BYTES", 262), ("TABLE_IMAGE_BYTES", TABLE), ("STORE_IMAGE_BYTES", IMAGE),
                             ("STORE_TABLE_OFFSET", SLOTS)):
            with open(os.path.join(ROOT, "include/gridprofile.h"), encoding="utf-8") as file:
                self.assertRegex(file.read(), rf"(?m)^#define GRIDPROFILE_{name} {number}\b")

    def test_store_with_a_profile_is_14(self):
        """Whatever its table, and whatever the new one, the same too; and nothing changes."""
        self.store(LINE)
        self.put("railway", store_of(image_of(RAILWAY), profile_of(RAILWAY_LINE)))
        for store, table in itertools.product(("store", "railway"), (RAILWAY, BUILT_IN, ALL)):
            said = self.refused(14, "classes", store, self.put("table", table))
            self.assertEqual(said, "gridprofile classes: refused with 14: the store holds profiles, and a class table "
                             "can be loaded only while it is empty\n  What to do: make another store by `gridprofile "
                             "new-store`, and load the table into it before the packages.\n")
        self.assertEqual(self.done("classes", "railway"), RAILWAY)

    def test_the_advice_of_14_works(self):
        self.store(LINE), self.put("table", RAILWAY)
        self.refused(14, "classes", "store", "table")
        self.done("new-store", "other")
        self.done("classes", "other", "table")
        self.done("load", "other", "key", railway_package(self), *RAILWAY_DEVICE)
        self.assertEqual(self.done("lookup", "other", *RAILWAY_DEVICE), RAILWAY_LINE)

    def test_profile_in_any_slot_is_14(self):
        self.put("table", RAILWAY)
        for slot in range(16):
            self.put("store", store_of(bytes(TABLE), bytes(PROFILE * slot), profile_of(LINE)))
            self.refused(14, "classes", "store", "table")

    def test_1_comes_before_13_and_13_before_14(self):
        self.store(LINE)
        for table in (b"", b"E,100\n", RAILWAY[:-1]):
            self.put("table", table)
            self.refused(13, "classes", "store", "table")
            for size in (0, IMAGE - 1, IMAGE + 1, STORE - 1, STORE + 1):
                said = self.refused(1, "classes", self.put("bad", bytes(size)), "table")
                self.assertRegex(said, rf"\n  STORE \(bad\) has (at least )?{size} bytes; ")
                self.assertIn("; it must have 1564 or 1532\n", said)
                self.assertIn("; it must have 1564 or 1532\n", self.refused(1, "classes", "bad"))
        self.refused(14, "classes", "store", self.put("table", RAILWAY))

    def test_missing_store_is_an_error(self):
        """None is made by that, as by no load."""
        self.put("table", RAILWAY)
        self.assertEqual(self.troubled(FILE_TROUBLE, "classes", "missing", "table"), "gridprofile: cannot load into "
                         "missing: there is no such store; `gridprofile new-store` makes an empty one\n")
        self.assertIn("cannot read missing: No such file", self.troubled(FILE_TROUBLE, "classes", "missing"))

    def test_exchanged_files(self):
        self.store(), self.put("table", RAILWAY)
        said = self.refused(1, "classes", "table", "store")
        self.assertIn("  STORE (table) has 41 bytes; it must have 1564 or 1532\n", said)
        self.assertIn("  STORE (key) has 77 bytes", self.refused(1, "classes", "key", "table"))

    def test_streams(self):
        """The table or the store from standard input; the store then goes to standard output."""
        self.store(), self.put("table", RAILWAY)
        self.done("classes", "store", "-", stdin=RAILWAY)
        self.assertEqual(self.done("classes", "store"), RAILWAY)
        empty = sealed(bytes(IMAGE))
        piped, said = self.warned("classes", "-", "table", stdin=empty)
        self.assertEqual((piped, said), (store_of(image_of(RAILWAY)), f"Accepted: {named(RAILWAY)}It replaces the "
                                         "built-in classes.\n"))
        self.assertEqual(self.done("classes", "-", stdin=piped), RAILWAY)
        self.assertIn("only one input can be standard input",
                      self.troubled(WRONG_USAGE, "classes", "-", "-", stdin=empty))
        self.refused(13, "classes", "-", self.put("bad", b"x"), stdin=empty)

    def test_endless_and_long_tables(self):
        """So much is looked at, and no more is needed: such a file is none."""
        self.store()
        self.refused(13, "classes", "store", "/dev/zero")
        for size in (MOST - 1, MOST, MOST + 1, 3 * MOST):
            said = self.refused(13, "classes", "store", self.put("table", (ALL * (size // len(ALL) + 1))[:size]))
            self.assertIn("  row 27 is one too many; a table has at most 26\n", said)

    def test_options(self):
        self.store(), self.put("table", RAILWAY)
        for words in (["--force"], ["--category", "1"], ["--classes", "table"], ["--wait", "x"]):
            self.troubled(WRONG_USAGE, "classes", "store", "table", *words)
        self.done("classes", "store", "table", "--wait", "3")

    def test_lock(self):
        """It is held for the store alone, and the table is read before."""
        self.store(), self.put("table", RAILWAY)
        folder = os.open(self.folder, os.O_RDONLY)
        self.addCleanup(os.close, folder)
        fcntl.flock(folder, fcntl.LOCK_EX)
        said = self.troubled(FILE_TROUBLE, "classes", "store", "table", "--wait", "0")
        self.assertIn("cannot write store: another program holds the lock on its folder", said)
        self.assertEqual(self.done("classes", "store"), BUILT_IN)
        fcntl.flock(folder, fcntl.LOCK_UN)
        process = subprocess.Popen([PROGRAM, "classes", "store", "-"], cwd=self.folder, stdin=subprocess.PIPE,
                                   stdout=subprocess.PIPE)
        wait_for(lambda: call_of(process) == READS_INPUT)
        self.done("new-store", "other", "--wait", "0")
        process.communicate(RAILWAY, timeout=60)
        self.assertEqual((process.returncode, self.done("classes", "store")), (0, RAILWAY))

    def test_load_that_comes_meanwhile(self):
        """The store is looked at under the lock: a table is refused that was offered before the profile was there."""
        self.store()
        process = subprocess.Popen([PROGRAM, "classes", "store", "-"], cwd=self.folder, stdin=subprocess.PIPE,
                                   stdout=subprocess.PIPE, stderr=subprocess.PIPE)
        wait_for(lambda: call_of(process) == READS_INPUT)
        self.done("load", "store", "key", self.package(), *DEVICE)
        _, said = process.communicate(RAILWAY, timeout=60)
        self.assertEqual(process.returncode, 14, said)
        self.assertEqual(self.done("lookup", "store", *DEVICE), LINE)


def profile_of(line):
    """The image of a line of `line_of`, whatever its class, written here from docs/FORMATS.md."""
    _, country, letter, serial, volts, hertz = line.split(b",")[:6]
    trips = (0, 1150, 100), (0, 800, 1500), (1, 1500, 100), (2, 2500, 100), (0, 0, 0)
    numbers = int(serial), int(volts), int(hertz), *itertools.chain(*trips)
    return struct.pack("<B2sc18I", 1, country, letter, *numbers)


def package_under(case, table, line, name="package", category=FIRST):
    """The name of a file with a package of a line that is one under a table."""
    private, master, salt = category.seeds()
    case.key(private, category=category)
    words = "sign", "private", "line", "-", *GIVEN, "--classes", "signed", *category.option()
    parts = ("private", private), ("master", master), ("salt", salt), ("line", line), ("signed", table)
    return case.make(name, words, *parts)


def railway_package(case, line=RAILWAY_LINE, **more):
    return package_under(case, RAILWAY, line, **more)


class Damage(Case):
    """Stores whose table is damaged, or that have no checksum."""

    def damaged(self, how, *words):
        before = self.look()
        ran = self.run_in(*words)
        self.assertEqual(ran.returncode, DAMAGED_STORE, (words, ran.stderr))
        self.assertIn(f" is damaged: {how}\n  What to do: take a copy", ran.stderr.decode())
        self.assertEqual(self.look(), before)
        return ran.stdout

    def test_each_byte_of_the_table_counts(self):
        whole = store_of(image_of(RAILWAY))
        self.put("table", RAILWAY)
        for at in (*range(SLOTS, SLOTS + 60, 5), *range(SLOTS + 60, STORE, 17)):
            self.put("bad", whole[:at] + bytes([whole[at] ^ 1 << at % 8]) + whole[at + 1:])
            for words in (["classes", "bad"], ["classes", "bad", "table"], ["lookup", "bad", *RAILWAY_DEVICE]):
                self.damaged("its checksum does not fit what it holds", *words)

    def unsound(self):
        """Images of tables that no load leaves: rows behind the last, none that count, more than there may be, numbers
        that a file does not have, rows in a wrong order."""
        image = image_of(RAILWAY)
        yield bytes(4) + image[4:]
        yield bytes(TABLE - 1) + b"\x01"
        yield image[:-1] + b"\x01"
        yield image[:52] + struct.pack("<3I", 90, 1, 2) + image[64:]
        for used in (3, 5, 26, 27, 2**32 - 1):
            yield struct.pack("<I", used) + image[4:]
        for row in ((0, 100, 199), (64, 100, 199), (91, 100, 199), (101, 100, 199), (256 + 69, 100, 199), (69, 99, 199),
                    (69, 200, 199), (69, 100, 200), (78, 100, 199), (69, 0, 2**32 - 1), (27, 100, 199)):
            yield image[:4] + struct.pack("<3I", *row) + image[16:]
        yield image[:40] + struct.pack("<3I", 84, 950, 1001) + image[52:]
        yield image_of(ALL)[:-4] + struct.pack("<I", 1001)
        yield struct.pack("<I", 27) + image_of(ALL)[4:]

    def test_tables_that_no_load_leaves(self):
        """With and without a checksum: nothing is loaded into such a store, and its table is not printed."""
        how = "its class table is one that no load leaves there"
        self.put("table", RAILWAY), railway_package(self)
        for image in self.unsound():
            for store in (store_of(image), store_of(image)[:IMAGE]):
                self.put("bad", store)
                for words in (["classes", "bad"], ["classes", "bad", "table"], ["nearest", "bad", *MEASURED],
                              ["load", "bad", "key", "package", *RAILWAY_DEVICE]):
                    self.assertEqual(self.damaged(how, *words), b"")
                self.assertEqual(self.damaged(how, "show", "bad").decode(), held(0, "Its class table is damaged.\n"))

    def test_what_is_there_is_found_all_the_same(self):
        """The other parts of a store are not judged where a lookup finds something; the library goes by the table as it
        is."""
        image = image_of(RAILWAY)[:-1] + b"\x01"
        self.put("bad", store_of(image, profile_of(RAILWAY_LINE)))
        self.assertEqual(self.done("lookup", "bad", *RAILWAY_DEVICE), RAILWAY_LINE)
        shown = self.damaged("its class table is one that no load leaves there", "show", "bad").decode()
        self.assertTrue(shown.startswith(held(1, "Its class table is damaged.\ncountry XA, class R, 50 Hz, ")), shown)

    def test_slots_are_judged_by_the_table(self):
        """A class that the table does not have, one of other volts, and volts in a gap; what is one of its own is
        sound."""
        good = profile_of(RAILWAY_LINE)
        for line in (LINE, LINE_C, line_of(letter="R", volts=100), line_of(letter="E", volts=600),
                     line_of(letter="R", volts=500), line_of(letter="Z", volts=930)):
            for store in (store_of(image_of(RAILWAY), good, profile_of(line)),
                          store_of(image_of(RAILWAY), good, profile_of(line))[:IMAGE]):
                self.put("bad", store)
                how = "slot 2 holds what no load leaves there"
                for words in (["show", "bad"], ["load", "bad", self.key(), railway_package(self), *RAILWAY_DEVICE],
                              ["lookup", "bad", "XB", "R", "50"]):
                    self.damaged(how, *words)
                self.assertEqual(self.run_in("lookup", "bad", *RAILWAY_DEVICE).stdout, RAILWAY_LINE)
        self.put("good", store_of(image_of(RAILWAY), good, profile_of(line_of(letter="E", volts=100))))
        self.done("show", "good")
        self.refused(9, "lookup", "good", "XA", "M", "50")

    def test_stored_profile_of_another_class_is_5(self):
        self.put("bad", store_of(image_of(RAILWAY), profile_of(line_of(letter="R", volts=500))))
        for words in (["lookup", "bad", *RAILWAY_DEVICE], ["nearest", "bad", "XA", "50", "500"]):
            self.assertIn("the stored profile breaks a rule: the store is damaged", self.refused(5, *words))

    def test_letters_that_are_none_are_not_printed(self):
        """They could be orders to a terminal."""
        image = struct.pack("<4I", 1, 27, 100, 1000).ljust(TABLE, b"\0")
        ran = self.run_in("lookup", self.put("bad", store_of(image)), *DEVICE)
        self.assertEqual(ran.returncode, 10)
        self.assertTrue(ran.stderr.endswith(b"as in: XA B 50; the classes of this store are ?.\n"), ran.stderr)

    def test_image_without_checksum_gets_one(self):
        self.put("table", RAILWAY), self.put("bare", bytes(IMAGE))
        printed, said = self.warned("classes", "bare")
        self.assertEqual(printed, BUILT_IN)
        self.assertIn("bare: this store has no checksum", said)
        printed, said = self.warned("classes", "bare", "table")
        self.assertIn("bare: this store has no checksum", said)
        self.assertEqual(self.get("bare"), store_of(image_of(RAILWAY)))
        self.put("bad", bytes(PROFILE) + b"\0x" + bytes(IMAGE - PROFILE - 2))
        self.damaged("slot 2 holds what no load leaves there", "classes", "bad", "table")


class Store(Case):
    """What a store does by its own classes."""

    def railway(self, *lines):
        self.key(), self.put("store", store_of(image_of(RAILWAY)))
        for line in lines:
            self.done("load", "store", "key", railway_package(self, line), *device_of(line))

    def test_load_and_lookup(self):
        self.railway()
        said = self.done("load", "store", "key", railway_package(self), *RAILWAY_DEVICE).decode()
        self.assertEqual(said, "Accepted: country XA, class R, 50 Hz, serial 12\nNothing was stored for this country, "
                         "class and hertz before.\n" + fingerprint(self.get("key")))
        self.assertEqual(self.get("store"), store_of(image_of(RAILWAY), profile_of(RAILWAY_LINE)))
        self.assertEqual(self.done("lookup", "store", *RAILWAY_DEVICE), RAILWAY_LINE)
        self.assertEqual(self.done("nearest", "store", "XA", "50", "760"),
                         RAILWAY_LINE + b"Class R, 750 V nominal: 10 V below the measured 760 V.\n")

    def test_every_category(self):
        self.railway()
        for at, category in enumerate(CATEGORIES):
            line = line_of(letter="T", volts=950 + at, serial=1 + at)
            package = railway_package(self, line, category=category)
            self.done("verify", "key", package, "--classes", "signed", *category.option())
            self.done("load", "store", "key", package, "XA", "T", "50", *category.option())
            self.assertEqual(self.done("lookup", "store", "XA", "T", "50"), line)

    def test_serials_and_other_devices(self):
        self.railway(RAILWAY_LINE)
        package = railway_package(self)
        said = self.refused(7, "load", "store", "key", package, *RAILWAY_DEVICE)
        self.assertIn("the serial, 12, is not greater than the stored one, 12\n", said)
        for device in (("XA", "M", "50"), ("XB", "R", "50"), ("XA", "R", "60")):
            self.refused(6, "load", "store", "key", package, *device)
        said = self.done("load", "store", "key", railway_package(self, line_of(letter="R", volts=600, serial=13)),
                         *RAILWAY_DEVICE).decode()
        self.assertIn("It replaces serial 12.\n", said)

    def test_classes_that_the_store_has_not_are_10(self):
        """Those of another table, the built-in ones too; the message names those of the store."""
        self.railway(RAILWAY_LINE)
        package = railway_package(self)
        for letter in [chr(letter) for letter in range(64, 92) if letter not in b"EMRT"] + ["", "r", "RT", "\u00c4"]:
            device = "XA", letter, "50"
            for words in (["load", "store", "key", package, *device], ["lookup", "store", *device]):
                self.assertEqual(self.refused(10, *words), f"gridprofile {words[0]}: refused with 10: the country is "
                                 "not two letters A to Z, the class none of the store's, or hertz not 50 or 60\n  What "
                                 "to do: write them as in: XA E 50; the classes of this store are E, M, R and T.\n")
        for letter in "EMT":
            self.refused(9, "lookup", "store", "XA", letter, "50")
        said = self.refused(10, "lookup", self.store(name="empty"), *RAILWAY_DEVICE)
        self.assertTrue(said.endswith("as in: XA B 50; the built-in classes are A, B, C and D.\n"), said)
        for device in (("xa", "R", "50"), ("XA", "R", "55")):
            self.refused(10, "lookup", "store", *device)

    def test_every_letter(self):
        """Each is a class where all are."""
        self.put("store", store_of(image_of(ALL)))
        for letter in LETTERS:
            self.refused(9, "lookup", "store", "XA", chr(letter), "50")
        said = self.refused(10, "lookup", "store", "XA", "a", "50")
        self.assertIn(f"the classes of this store are {listed(LETTERS.decode())}.\n", said)

    def test_store_of_a_wrong_size_has_the_built_in_classes(self):
        """As in the library: 10 comes before 1, and goes by them."""
        bad = self.put("bad", store_of(image_of(RAILWAY)) + b"x")
        self.refused(10, "lookup", bad, *RAILWAY_DEVICE)
        self.refused(1, "lookup", bad, *DEVICE)

    def test_lines_of_other_classes_are_5(self):
        """A package carries no table: that of the store decides, and the message says what is wrong under it."""
        self.railway()
        gap = "in a gap of the class table; it must be in E (100 to 199 V), M (200 to 400), R (600 to 900) or T (950 " \
              "to 1000)\n"
        advice = "  What to do: correct the line and sign it again, or load the package into a store with its class " \
                 "table; `gridprofile classes STORE` prints that of a store.\n"
        other = b"E,100,100\nM,101,500\nR,501,949\nT,950,1000\n"
        for line, device, said in (
                (line_of(letter="R", volts=599), "R", f'  field 5, nominal volts, is "599", {gap}'),
                (line_of(letter="M", volts=401), "M", f'  field 5, nominal volts, is "401", {gap}'),
                (line_of(letter="R", volts=901), "R", f'  field 5, nominal volts, is "901", {gap}'),
                (line_of(letter="R", volts=949), "T", f'  field 5, nominal volts, is "949", {gap}'),
                (line_of(letter="M", volts=101), "M", '  field 3, class, is "M", but 101 volts are of class E\n')):
            package = package_under(self, other, line)
            shown = self.refused(5, "load", "store", "key", package, "XA", device, "50")
            self.assertTrue(shown.endswith(said + advice), shown)
        shown = self.refused(5, "load", "store", "key", self.package(), "XA", "M", "50")
        self.assertTrue(shown.endswith('  field 3, class, is "B"; it must be E (100 to 199 V), M (200 to 400), R (600 '
                                       'to 900) or T (950 to 1000)\n' + advice), shown)
        shown = self.refused(5, "load", self.store(name="plain"), "key", railway_package(self), *DEVICE)
        self.assertTrue(shown.endswith('  field 3, class, is "R"; it must be A (100 to 139 V), B (140 to 259), C (260 '
                                       'to 519) or D (520 to 1000)\n' + advice), shown)

    def test_lines_of_the_same_class_in_both_tables(self):
        """What both tables read alike is loaded under either."""
        line = line_of(letter="C", volts=300)
        self.put("store", store_of(image_of(b"C,300,300\n")))
        self.done("load", "store", self.key(), self.package(line), "XA", "C", "50")
        self.assertEqual(self.done("lookup", "store", "XA", "C", "50"), line)

    def test_seventeenth_class_is_8(self):
        """Of one country and hertz, which has more classes here than there are slots."""
        self.put("store", store_of(image_of(ALL)))
        lines = [line_of(letter=chr(letter), volts=100 + 36 * at) for at, letter in enumerate(LETTERS[:17])]
        for line in lines[:16]:
            self.done("load", "store", self.key(), package_under(self, ALL, line), *device_of(line))
        self.refused(8, "load", "store", "key", package_under(self, ALL, lines[16]), *device_of(lines[16]))
        for line in lines[:16]:
            self.assertEqual(self.done("lookup", "store", *device_of(line)), line)
        self.assertTrue(self.done("show", "store").decode().startswith(held(16, OWN)))

    def test_nearest_finds_in_every_class(self):
        lines = [line_of(letter=letter, volts=volts) for letter, volts in
                 (("E", 199), ("M", 200), ("R", 600), ("T", 1000))]
        self.put("store", store_of(image_of(RAILWAY), *map(profile_of, lines)))
        for measured, letter, volts in ((199, "E", 199), (200, "M", 200), (239, "M", 200), (640, "R", 600),
                                        (1040, "T", 1000)):
            printed = self.done("nearest", "store", "XA", "50", str(measured))
            self.assertTrue(printed.startswith(line_of(letter=letter, volts=volts) + b"Class %c, " % ord(letter)))
        self.refused(9, "nearest", "store", "XA", "50", "500")


class Shown(Case):
    def test_table(self):
        shown = self.done("show", self.put("table", RAILWAY)).decode()
        self.assertEqual(shown, "A class table with 4 rows.\n" + RAILWAY_WORDS)
        self.assertEqual(in_words(RAILWAY), RAILWAY_WORDS)
        self.assertEqual(self.done("show", "-", stdin=RAILWAY).decode(), shown)
        shown = self.done("show", self.put("table", b"Q,300,300\n")).decode()
        self.assertEqual(shown, "A class table with 1 row.\n  no class        100 to 299 V\n  class Q         300 V\n"
                         "  no class        301 to 1000 V\n")

    def test_any_table(self):
        """Also where its file has the size of a line, or of a seed."""
        draw, seed = random.Random(109), b"A,100,100\nB,101,101\nC,1000,1000\n"
        tables = [BUILT_IN, ALL, SHORTEST, LONGEST, seed, *(any_table(draw) for _ in range(60)),
                  *(any_table(draw, count) for count in (5, 6, 7, 8) for _ in range(5))]
        self.assertLessEqual({32, 50, 60, 70, 80}, {len(table) for table in tables})
        for table in tables:
            shown = self.done("show", self.put("table", table)).decode()
            count = len(rows_of(table))
            self.assertEqual(shown, f"A class table with {count} row{'s' * (count > 1)}.\n{in_words(table)}")

    def test_text_of_any_size_is_a_table(self):
        """As many bytes as a seed, a line, a key, a store or a package has."""
        for size in (16, 24, 48, 64, 77, 115, 153, 1024, 1056, 1216, 1248, IMAGE, STORE, 19200, 42740, 76360):
            said = self.refused(13, "show", self.put("table", (SHORTEST * 8000)[:size]))
            self.assertIn("\n  row 2, ", said)

    def test_what_looks_like_a_table_is_refused_as_one(self):
        for table in (RAILWAY[:-1], RAILWAY.replace(b"\n", b"\r\n"), b"E,100", b"E,1", b"E,100,199\nM;200;400\n",
                      b"A,1" * 500):
            self.refused(13, "show", self.put("table", table))
        for other in (b"E", b"E,", b"E,x", b"e,100,199\n", b" E,100,199\n", b"EM,100,199\n", RAILWAY[:-1] + b"\0",
                      b"\xef\xbb\xbf" + RAILWAY[:-10], "Ä,100,199\n".encode()):
            self.assertIn("and is no class table\n", self.refused(1, "show", self.put("table", other)))

    def test_what_may_be_a_seed_is_not_shown(self):
        """It begins as a table does, but is no text."""
        draw = random.Random(110)
        for size in (16, 24, 32, 48, 64):
            for at in range(40):
                text = bytearray(b"E,1" + bytes(draw.choice(b"ABC,19\n") for _ in range(size - 3)))
                text[3 + at % (size - 3)] = draw.choice((0, 1, 27, 127, 128, 255))
                data = bytes(text)
                self.assertIn(f"has the size of {KINDS[size]}", self.refused(1, "show", self.put("seed", data)))

    def test_store(self):
        """The classes come before the profiles, and these in their order."""
        lines = [line_of(letter=letter, volts=volts) for letter, volts in (("T", 999), ("E", 150), ("R", 750))]
        self.put("store", store_of(image_of(RAILWAY), *map(profile_of, lines)))
        shown = self.done("show", "store").decode()
        self.assertTrue(shown.startswith(held(3, OWN) + RAILWAY_WORDS + "country XA, class E, 50 Hz, serial 12\n  "
                                         "nominal         150 V, 50 Hz\n"), shown)
        self.assertEqual(re.findall(r"^country XA, class (.)", shown, re.M), ["E", "R", "T"])
        for table in (RAILWAY, BUILT_IN, ALL, SHORTEST):
            shown = self.done("show", self.put("empty", store_of(image_of(table)))).decode()
            self.assertEqual(shown, held(0, OWN) + in_words(table))
        self.assertEqual(self.done("show", self.put("empty", store_of(bytes(TABLE)))).decode(), held(0))


class Option(Case):
    """`--classes` for the commands on lines and packages."""

    def put_all(self):
        self.put("table", RAILWAY), self.put("railway", RAILWAY_LINE), self.put("sheet", SHEET)
        os.rename(self.path(railway_package(self)), self.path("signed.package"))

    def commands(self, table="table"):
        """Every command that takes it, over files that are read under the table of a railway."""
        option = ["--classes", table]
        return (["sign", "private", "railway", "-", *option], ["verify", "key", "signed.package", *option],
                ["show", "railway", *option], ["show", "signed.package", *option], ["preview", "railway", *option],
                ["evaluate", "sheet", *option])

    def test_sign(self):
        """Under another table the same seeds and the same line make the same package."""
        self.package(), self.put("table", RAILWAY), self.put("line", RAILWAY_LINE), self.put("other", b"R,100,1000\n")
        said = self.done("sign", "private", "line", "out", "--classes", "table").decode()
        self.assertEqual(said, "Signed and verified: country XA, class R, 50 Hz, serial 12\n" +
                         fingerprint(self.get("key")))
        self.assertEqual(self.get("out")[SIGNATURE:], RAILWAY_LINE)
        made = {self.warned("sign", "private", "line", "-", *GIVEN, "--classes", table)[0]
                for table in ("table", "other")}
        self.assertEqual(len(made), 1)
        said = self.refused(5, "sign", "private", "line", "out2")
        self.assertTrue(said.endswith(f'  field 3, class, is "R"; it must be {FIELDS[2][3]}\n  What to do: correct the '
                                      "line, or name the class table that it is for by --classes; `gridprofile help "
                                      "line` has the rules.\n"), said)
        self.put("line", LINE)
        self.refused(5, "sign", "private", "line", "out2", "--classes", "table")

    def test_verify(self):
        railway_package(self), self.put("table", RAILWAY)
        wanted = "The signature holds, and the line is a profile: country XA, class R, 50 Hz, serial 12\n"
        said = self.done("verify", "key", "package", "--classes", "table").decode()
        self.assertEqual(said, wanted + fingerprint(self.get("key")))
        said = self.refused(5, "verify", "key", "package")
        self.assertIn("or name the class table that it is for by --classes", said)
        self.refused(5, "verify", "key", self.package(), "--classes", "table")
        signature = self.get(railway_package(self))[:SIGNATURE]
        self.put("package", signature[:-1] + bytes([signature[-1] ^ 1]) + LINE)
        self.assertIn(self.run_in("verify", "key", "package", "--classes", "table").returncode, (3, 4))

    def test_show(self):
        self.put_all()
        for name in ("railway", "signed.package"):
            shown = self.done("show", name, "--classes", "table").decode()
            self.assertIn("country XA, class R, 50 Hz, serial 12\n  nominal         750 V, 50 Hz\n", shown)
            ran = self.run_in("show", name)
            self.assertEqual(ran.returncode, 5)
            self.assertIn(b"name the class table that it is for by --classes", ran.stderr)
            self.assertEqual(self.run_in("show", self.put("line", LINE), "--classes", "table").returncode, 5)

    def test_show_of_what_has_no_need_of_it(self):
        self.put_all(), self.store()
        for name, advice in (("store", "leave it out: a store is shown under its own classes"), ("key", "leave it out"),
                             ("table", "leave it out")):
            self.assertEqual(self.troubled(WRONG_USAGE, "show", name, "--classes", "table"), "gridprofile show: "
                             f"--classes is for a line or a package\n  What to do: {advice}.\n")
        self.assertIn("has the size of", self.refused(1, "show", "private", "--classes", "table"))

    def test_preview(self):
        lines = [line_of(letter=letter, volts=volts) for letter, volts in
                 (("R", 750), ("B", 230), ("M", 230), ("T", 930), ("E", 100), ("E", 200))]
        self.put("table", RAILWAY), self.put("lines", b"".join(lines))
        shown, said = self.warned("preview", "lines", "--classes", "table")
        self.assertEqual(shown, listing_of(["XA,E,50,12", "XA,M,50,12", "XA,R,50,12"]))
        self.assertEqual(said, "gridprofile preview: 3 of 6 lines skipped; the first is line 2:\n  field 3, class, is "
                         '"B"; it must be E (100 to 199 V), M (200 to 400), R (600 to 900) or T (950 to 1000)\n')
        self.assertEqual(self.warned("preview", "lines")[0], listing_of(["XA,B,50,12"]))
        self.assertEqual(self.done("preview", "--classes", "table", stdin=lines[0]), listing_of(["XA,R,50,12"]))
        self.assertEqual(self.done("preview", "--classes=-", self.put("one", lines[0]), stdin=RAILWAY),
                         listing_of(["XA,R,50,12"]))
        said = self.warned("preview", "--classes", "table", stdin=lines[3])[1]
        self.assertIn('  field 5, nominal volts, is "930", in a gap of the class table; it must be in E (', said)

    def test_preview_of_many_classes(self):
        """Of one country and hertz the first sixteen."""
        lines = [line_of(letter=chr(letter), volts=100 + 36 * at) for at, letter in enumerate(LETTERS)]
        rows = [f"XA,{chr(letter)},50,12" for letter in LETTERS]
        self.put("table", ALL)
        shown, said = self.warned("preview", "--classes", "table", stdin=b"".join(lines))
        self.assertEqual(shown, listing_of(rows[:16]))
        self.assertIn("10 of 26 lines skipped; the first is line 17:\n", said)
        shown, _ = self.warned("preview", "--classes", "table", stdin=b"".join(reversed(lines)))
        self.assertEqual(shown, listing_of(rows[10:]))

    def test_evaluate(self):
        self.put("table", RAILWAY)
        sheet = with_field(6, b"N+400", RAILWAY_LINE) + with_field(6, b"N+200", line_of(letter="T", volts=950))
        plain = RAILWAY_LINE + line_of(letter="T", volts=950)
        self.assertEqual(self.done("evaluate", "--classes", "table", stdin=sheet), plain)
        said = self.refused(5, "evaluate", stdin=sheet)
        self.assertIn('  2 of 2 lines refused, and none printed; the first is line 1:\n  field 3, class, is "R"', said)
        said = self.refused(5, "evaluate", "--classes", "table", stdin=sheet.replace(b"750", b"550"))
        self.assertIn('the first is line 1:\n  field 5, nominal volts, is "550", in a gap of the class table', said)
        said = self.refused(5, "evaluate", "--classes", "table", stdin=sheet.replace(b"R,12", b"M,12"))
        self.assertIn('the first is line 1:\n  field 3, class, is "M", but 750 volts are of class R\n', said)
        for number, formula, words in ((11, b"N+", '"N+"; it is no formula'),
                                       (12, b"N/0", '"N/0" (N is 750); a divisor'),
                                       (5, b"N*2", '"N*2", which gives 1500 (N is 750)')):
            at = 6 if number != 5 else 8
            said = self.refused(number, "evaluate", "--classes", "table", stdin=with_field(at, formula, RAILWAY_LINE))
            self.assertIn(words, said)

    def test_formulas_are_hinted_at_under_the_table(self):
        self.put("private", PRIVATE), self.put("table", RAILWAY)
        self.put("line", with_field(6, b"N+400", RAILWAY_LINE))
        said = self.refused(5, "sign", "private", "line", "out", "--classes", "table")
        self.assertIn("What to do: this line has formulas: `gridprofile evaluate`", said)
        said = self.refused(5, "sign", "private", "line", "out")
        self.assertIn("What to do: correct the line and sign it again; `gridprofile help line` has the rules.\n", said)

    def test_bad_table_is_13(self):
        """For every command, before any other refusal, and nothing is printed."""
        self.put_all()
        for words in self.commands("bad"):
            for table in (b"", RAILWAY[:-1], b"E,200,199\n", RAILWAY + b"\n", LINE):
                said = self.refused(13, words[0], *words[1:-2], "--classes", self.put("bad", table))
                self.assertEqual(len(said.splitlines()), 3, said)
        self.put("bad", b"x")
        for words in (["sign", "private", self.put("wrong", BAD_LINE), "-"], ["sign", "key", "line", "-"],
                      ["verify", "table", "table"], ["verify", "key", "key"], ["show", "key"], ["show", "private"],
                      ["preview", "key"], ["evaluate", "wrong"]):
            self.refused(13, *words, "--classes", "bad")

    def test_built_in_table_by_its_file(self):
        self.package(), self.put("table", BUILT_IN)
        for words in (["verify", "key", "package"], ["show", "line"], ["show", "package"], ["preview", "line"],
                      ["evaluate", "line"]):
            self.assertEqual(self.done(*words, "--classes", "table"), self.done(*words))

    def test_missing_table(self):
        self.put_all()
        for words in self.commands("missing"):
            self.assertIn("cannot read missing: No such file", self.troubled(FILE_TROUBLE, *words))

    def test_table_from_the_stream(self):
        self.put_all()
        for words in self.commands("-"):
            self.assertEqual(self.run_in(*words, stdin=RAILWAY).returncode, 0)
        for words in (["sign", "private", "-", "out"], ["sign", "-", "railway", "out"],
                      ["verify", "-", "signed.package"], ["verify", "key", "-"], ["show", "-"], ["preview", "-"],
                      ["preview"], ["evaluate", "-"], ["evaluate"]):
            said = self.troubled(WRONG_USAGE, *words, "--classes", "-", stdin=RAILWAY)
            self.assertIn("only one input can be standard input", said)

    def test_wrong_usage(self):
        self.put_all(), self.store()
        for words in self.commands():
            for wrong, what in (([*words, "--classes", "table"], "given twice: --classes"),
                                (words[:-1], "a value is missing after --classes"),
                                ([*words[:-2], "--class", "table"], "there is no option --class")):
                self.assertIn(what, self.troubled(WRONG_USAGE, *wrong))
        for words in (["new-key", "a", "b"], ["key", "private", "a"], ["new-store", "a"], ["classes", "store"],
                      ["load", "store", "key", "package", *DEVICE], ["lookup", "store", *DEVICE],
                      ["nearest", "store", *MEASURED]):
            self.assertIn("there is no option --classes", self.troubled(WRONG_USAGE, *words, "--classes", "table"))

    def test_output_that_is_the_table(self):
        self.package(), self.put("table", RAILWAY)
        for options in ([], ["--force"]):
            said = self.troubled(WRONG_USAGE, "sign", "private", "line", "table", "--classes", "table", *options)
            self.assertIn("the output file is also an input file: table", said)

    def test_with_given_seeds(self):
        """In whatever order the options stand."""
        self.package(), self.put("table", RAILWAY), self.put("line", RAILWAY_LINE)
        pairs = [GIVEN[:2], GIVEN[2:4], GIVEN[4:], ("--classes", "table")]
        made = {self.warned("sign", "private", "line", "-", *itertools.chain(*order))[0]
                for order in itertools.permutations(pairs)}
        self.assertEqual([package[SIGNATURE:] for package in made], [RAILWAY_LINE])

    def test_line_of_another_table_is_taken_for_no_seed(self):
        """A whole profile line is none, whatever its classes are."""
        line = line_of(letter="R", volts=750, serial=1234567890)
        self.assertEqual(len(line), FIFTH.seed)
        self.package(category=FIFTH), self.put("line", line)
        os.chmod(self.path("line"), 0o600)
        for options in ([], ["--classes", self.put("table", RAILWAY)]):
            said = self.troubled(WRONG_USAGE, "sign", "line", "line", "out", *options, *FIFTH.option())
            self.assertIn("PRIVATE is a profile line, which everybody may know", said)


def plain_row(file):
    """The row, from 1, of the first byte that is not of a text in plain ASCII; or None."""
    found = re.search(rb"[^ -~\t\n\r]", file)
    return file.count(b"\n", 0, found.start()) + 1 if found else None


def faulty_row(file):
    """The first row that makes a table of those before it none: its number, its bytes, and the row before."""
    texts = re.findall(rb"[^\n]*\n|[^\n]+\Z", file)
    for number in range(1, len(texts) + 1):
        if rows_of(b"".join(texts[:number])) is None:
            return number, texts[number - 1], row_of(texts[number - 2][:-1]) if number > 1 else None
    raise AssertionError(file)


NAMES = "class", "low volts", "high volts"
MUSTS = "one letter A to Z", "100 to 1000", "100 to 1000"


def field_words(number, field, text, rest):
    """What is said of a field, as a pattern: it is shown in 24 characters at most."""
    shown = "".join(chr(byte) if 32 <= byte < 127 and byte not in b'"\\' else f"\\x{byte:02X}" for byte in text)
    quoted = re.escape(f'"{shown}"') if len(shown) <= 24 else rf'"{re.escape(shown[:20])}.{{0,4}}"\.\.\.'
    return f"row {number}, {NAMES[field]}, is " + (quoted if text else "empty") + rest


def row_words(number, text, before):
    """Patterns of what is said of the fields of a row that is refused."""
    fields = text.split(b",")
    if not text:
        return [f"row {number} is empty"]
    if len(fields) != 3:
        return [f"row {number} has {len(fields)} field{'s' * (len(fields) > 1)}; it must have 3, parted by commas: "
                "class, low volts, high volts"]
    for field, (one, fits) in enumerate(zip(fields, (lambda text: re.fullmatch(b"[A-Z]", text), volts_fit, volts_fit))):
        if not fits(one):
            return [field_words(number, field, one, f"(?:, [a-zA-Z -]+)?; it must be {MUSTS[field]}")]
    low, high = int(fields[1]), int(fields[2])
    if before and fields[0] <= before[0]:
        return [field_words(number, 0, fields[0], f"; it must come after {before[0].decode()}, the class of row "
                            f"{number - 1}")]
    if low > high:
        return [field_words(number, 1, fields[1], f"; it must be at most the high volts, {high}")]
    if before and low <= before[2]:
        rest = f"; it must be above {before[2]}, the high volts of row {number - 1}"
        return [field_words(number, 1, fields[1], rest)]
    return []


def end_words(number, row):
    """Patterns of what is said of the end of a row."""
    if row.endswith(b"\r\n"):
        return [f"row {number} ends in CR LF, as Windows writes it; it must end in LF alone"]
    if row.endswith(b"\n"):
        return []
    return [rf"row {number} ends in CR \(0D\); it must end in LF \(0A\)"] if row.endswith(b"\r") else \
        [f"the line feed at the end of row {number} is missing"]


def table_words(file):
    """Patterns of all that is said of a table that is refused; and a name for the kind of fault."""
    size = "(?:; the file has the size of .+)?"
    if not file:
        return "empty", ["the file is empty; a table has 1 to 26 rows"]
    if file[:2] in (b"\xff\xfe", b"\xfe\xff"):
        return "utf-16", ["a byte order mark of UTF-16 stands in front; save the file as plain ASCII"]
    if file.startswith(b"\xef\xbb\xbf"):
        return "mark", [r"a byte order mark \(EF BB BF\) stands in front; save the file without it"]
    if plain_row(file):
        return "bytes", [f"row {plain_row(file)} has bytes that are not plain ASCII{size}"]
    if file.startswith((b"GP1,", b"GP2,")):
        return "line", ["row 1 begins as a profile line does; see whether files are exchanged"]
    number, row, before = faulty_row(file)
    text = row.removesuffix(b"\n").removesuffix(b"\r")
    if number == 27:
        return "27", ["row 27 is one too many; a table has at most 26"]
    if number == 1 and text and len(re.findall(rb"[,;\t]", text)) < 2:
        return "no table", [f"row 1 is no row of a class table, such as E,100,199{size}"]
    said, end = row_words(number, text, before), end_words(number, row)
    kind = re.sub(r'"?[0-9]+"?|is ".*?"|[A-Z]\b', "", said[0])[:40] if said else end[0].split(" ")[-1]
    return kind, said + end


class Words(Case):
    """What people meet, word for word."""

    ADVICE = "  What to do: correct the table; `gridprofile help classes` has the rules.\n"

    def check(self, table, *said):
        """From the command, from the option, and where it looks like a table from `show`."""
        self.put("table", table)
        rest = "".join(f"  {one}\n" for one in said) + self.ADVICE
        if "store" not in self.names():
            self.store()
        for words in (["classes", "store", "table"], ["evaluate", "--classes", "table"]):
            self.assertEqual(self.refused(13, *words), f"gridprofile {words[0]}: refused with 13: the class table "
                             f"breaks a rule of its file\n{rest}")
        if re.match(rb"[A-Z],[0-9]", table) and not plain_row(table):
            self.assertTrue(self.refused(13, "show", "table").endswith(rest))

    def test_letters(self):
        letter = "it must be one letter A to Z"
        for row, said in ((b"e,100,199", f'"e", in lower case; {letter}'), (b"EE,100,199", f'"EE"; {letter}'),
                          (b"1,100,199", f'"1"; {letter}'), (b",100,199", f"empty; {letter}"),
                          (b" E,100,199", f'" E", with a space or a tab; {letter}'),
                          (b'"E",100,199', f'"\\x22E\\x22", with a quote; {letter}')):
            self.check(row + b"\n", f"row 1, class, is {said}")
            self.check(b"A,100,100\n" + row.replace(b"100", b"101") + b"\nZ,200,300\n", f"row 2, class, is {said}")

    def test_letters_that_do_not_rise(self):
        self.check(b"E,100,199\nE,200,400\n", 'row 2, class, is "E"; it must come after E, the class of row 1')
        self.check(b"M,100,199\nE,200,400\n", 'row 2, class, is "E"; it must come after M, the class of row 1')
        self.check(b"A,100,199\nM,200,300\nL,301,400\nB,1,1\n",
                   'row 3, class, is "L"; it must come after M, the class of row 2')

    def test_volts(self):
        volts = "it must be 100 to 1000"
        for text, said in ((b"99", f'"99"; {volts}'), (b"1001", f'"1001"; {volts}'), (b"0", f'"0"; {volts}'),
                           (b"0100", f'"0100", with a leading zero; {volts}'), (b"", f"empty; {volts}"),
                           (b"+100", f'"+100", with a plus; {volts}'), (b"-100", f'"-100", with a minus; {volts}'),
                           (b" 100", f'" 100", with a space or a tab; {volts}'),
                           (b"100V", f'"100V", not digits alone; {volts}'),
                           (b"100.5", f'"100.5", with a decimal point or a thousands mark; {volts}'),
                           (b"4294967396", f'"4294967396"; {volts}'), (b"9" * 30, f'"{"9" * 24}"...; {volts}')):
            self.check(b"E,%s,199\n" % text, f"row 1, low volts, is {said}")
            self.check(b"E,100,%s\n" % text, f"row 1, high volts, is {said}")
            self.check(RAILWAY[:-11] + b"T,950,%s\n" % text, f"row 4, high volts, is {said}")

    def test_ranges(self):
        self.check(b"E,200,199\n", 'row 1, low volts, is "200"; it must be at most the high volts, 199')
        self.check(b"E,100,199\nM,199,400\n",
                   'row 2, low volts, is "199"; it must be above 199, the high volts of row 1')
        self.check(b"E,100,199\nM,200,400\nR,100,900\n",
                   'row 3, low volts, is "100"; it must be above 400, the high volts of row 2')

    def test_fields(self):
        for row, count in ((b"E,100", 2), (b"E,100,199,", 4), (b"E,100,199,V", 4), (b"E,1,000,1,000", 5),
                           (b"E;100;199", 1), (b"E\t100\t199", 1)):
            said = f"has {count} field{'s' * (count > 1)}; it must have 3, parted by commas: class, low volts, high " \
                "volts"
            if count != 2:
                self.check(row + b"\n", f"row 1 {said}")
            self.check(SHORTEST + row.replace(b"E", b"F") + b"\n", f"row 2 {said}")

    def test_ends(self):
        windows = "ends in CR LF, as Windows writes it; it must end in LF alone"
        self.check(RAILWAY[:-1], "the line feed at the end of row 4 is missing")
        self.check(SHORTEST[:-1], "the line feed at the end of row 1 is missing")
        self.check(RAILWAY.replace(b"\n", b"\r\n"), f"row 1 {windows}")
        self.check(RAILWAY[:-1] + b"\r\n", f"row 4 {windows}")
        self.check(RAILWAY[:-1] + b"\r", "row 4 ends in CR (0D); it must end in LF (0A)")
        self.check(RAILWAY + b"\n", "row 5 is empty")
        self.check(b"\n" + RAILWAY, "row 1 is empty")
        self.check(RAILWAY.replace(b"\n", b"\n\n"), "row 2 is empty")
        self.check(b"E,100,99\r\n", 'row 1, high volts, is "99"; it must be 100 to 1000', f"row 1 {windows}")
        self.check(b"", "the file is empty; a table has 1 to 26 rows")

    def test_too_many_rows(self):
        self.check(ALL + b"Z,1000,1000\n", "row 27 is one too many; a table has at most 26")
        self.check(LONGEST + b"\n", "row 27 is one too many; a table has at most 26")

    def test_bytes(self):
        self.check(b"\xef\xbb\xbf" + RAILWAY, "a byte order mark (EF BB BF) stands in front; save the file without it")
        for code in ("utf-16", "utf-16-be"):
            text = RAILWAY.decode().encode(code)
            self.check(b"\xfe\xff" * (code != "utf-16") + text,
                       "a byte order mark of UTF-16 stands in front; save the file as plain ASCII")
        self.check("Ä,100,199\n".encode(), "row 1 has bytes that are not plain ASCII")
        self.check(RAILWAY[:-2] + b"\0\n", "row 4 has bytes that are not plain ASCII")
        self.check(b"E,100,199\nM,200,\x1b[2J\n", "row 2 has bytes that are not plain ASCII")

    def test_other_files(self):
        self.package(), self.store()
        no_row = "row 1 is no row of a class table, such as E,100,199"
        self.check(LINE, "row 1 begins as a profile line does; see whether files are exchanged")
        self.check(LINE_77, "row 1 begins as a profile line does; see whether files are exchanged")
        for name, size in (("key", KINDS[77]), ("package", "a package of category 1"), ("store", "a store")):
            shown = self.refused(13, "classes", "store", name)
            told = rf"\n  row \d+ has bytes that are not plain ASCII; the file has the size of {size}\n"
            self.assertRegex(shown, told)
        self.check(b"classes of the railway\n", no_row)
        self.check(b"x" * 77, f"{no_row}; the file has the size of {KINDS[77]}")
        self.check(b"x" * 32, f"{no_row}; the file has the size of {KINDS[32]}")

    def test_nothing_is_shown_of_a_seed(self):
        """Given for a table by mistake, as bytes or in letters."""
        draw = random.Random(108)
        self.store()
        for seed in (draw.randbytes(length) for length in (16, 24, 32, 48, 64) * 4):
            for text in (seed, seed.hex().encode(), base64.b64encode(seed), seed.hex(" ").encode() + b"\n"):
                said = self.refused(13, "classes", "store", self.put("table", text))
                other = self.refused(13, "evaluate", "--classes", "table")
                self.assertEqual(other.splitlines()[1:], said.splitlines()[1:])
                self.assertRegex(said, r"\n  row \d+ (is no row of a class table, such as E,100,199|has bytes that are "
                                       r"not plain ASCII)(; the file has the size of .+)?\n")
                for at in range(0, len(text) - 3):
                    self.assertNotIn(text[at:at + 4], said.replace("ASCII", "").encode())


def changed_tables(table):
    """One byte in the place of each, before each, and taken away; and the file cut short at each place."""
    odd = [bytes([byte]) for byte in b"\0\t\n\r ,;019aEZ\x7f\x80"]
    for at in range(len(table) + 1):
        for byte in odd:
            yield table[:at] + byte + table[at + 1:]
            yield table[:at] + byte + table[at:]
        yield table[:at] + table[at + 1:]
        yield table[:at]


class Tables(Explained):
    """The library and what is said of a table beside the rules above."""

    PARTS = (*Explained.PARTS, "table_file.c")
    ANSWER = "gridprofile_read_table(line, length, classes, sizeof classes)"
    EXPLAIN = "explain_table(stdout, &(struct input){.bytes = line, .length = length, .size = length, " \
              ".begins_as_line = length > 3 && line[0] == 'G' && line[1] == 'P' && (line[2] == '1' || " \
              "line[2] == '2') && line[3] == ','}), (void)out"

    def agree(self, tables):
        """Library and rules refuse the same tables, and all is said of each that the rules find, and nothing else; the
        kinds of faults that were seen."""
        tables, seen = list(tables), set()
        for table, (number, said) in zip(tables, self.explained(tables)):
            self.assertEqual(number, 0 if rows_of(table) else 13, table)
            if number == 0:
                self.assertEqual(said, [], table)
                continue
            kind, patterns = table_words(table)
            self.assertEqual(len(said), len(patterns), (table, said))
            for one, pattern in zip(said, patterns):
                self.assertRegex(one, rf"\A{pattern}\Z", table)
            seen.add(kind)
        return seen

    def test_tables_with_one_change(self):
        seen = self.agree(one for table in (RAILWAY, SHORTEST, b"B,100,999\nC,1000,1000\n") for one in
                          changed_tables(table))
        self.assertGreaterEqual(len(seen), 12)

    def test_every_byte_at_every_place(self):
        self.agree(SHORTEST[:at] + bytes([byte]) + SHORTEST[at + 1:] for at in range(10) for byte in range(256))

    def test_bounds(self):
        """Volts on both sides of each bound, in each place."""
        volts = [b"%d" % number for number in (0, 9, 10, 99, 100, 101, 199, 200, 201, 999, 1000, 1001, 10000, 2**32,
                                               2**32 + 100, 2**64 + 100)]
        volts += [b"", b"0100", b"+100", b"-100", b"100 ", b"1e2"]
        self.agree(b"%s,%s\n" % (letter, b",".join(pair)) for letter in (b"A", b"Z", b"@", b"[", b"a", b"")
                   for pair in itertools.product(volts, repeat=2))
        self.agree(b"E,150,200\n%s,%s\n" % (letter, b",".join(pair)) for letter in (b"D", b"E", b"F")
                   for pair in itertools.product(volts, repeat=2))

    def test_each_two_ranges(self):
        """They touch in a volt, overlap, or leave a gap."""
        some = (100, 101, 102, 103, 104)
        self.agree(b"A,%d,%d\nB,%d,%d\n" % four for four in itertools.product(some, repeat=4))

    def test_numbers_of_rows(self):
        """To 30; the letters end at 26."""
        draw = random.Random(26)
        rows = [b"%c,%d,%d\n" % (65 + at, 100 + at, 100 + at) for at in range(30)]
        seen = self.agree(b"".join(rows[:count]) + end for count in range(31) for end in (b"", b"\n", b"x", SHORTEST))
        self.assertIn("27", seen)
        self.agree(any_table(draw) for _ in range(300))
        for at in range(26):
            self.agree(b"".join([*rows[:at], row, *rows[at + 1:26]]) for row in
                       (b"", b"\n", b"a,100,100\n", rows[at][:-1], rows[at] * 2, rows[25 - at],
                        b"%c,1000,1000\n" % (65 + at)))

    def test_chance(self):
        """Sound tables with some changes at random, and random bytes."""
        draw, tables = random.Random(108), []
        for _ in range(4000):
            table = any_table(draw)
            for _ in range(draw.randint(1, 3)):
                at = draw.randint(0, len(table))
                byte = bytes([draw.choice(b"\n\r,0123456789AEZ ae;\t")])
                table = table[:at] + draw.choice((byte, b"", b"\r\n")) + table[at + draw.randint(0, 1):]
            rows = table.splitlines(keepends=True)
            tables += [table, b"".join(draw.sample(rows, len(rows))), draw.randbytes(draw.randint(0, 40)),
                       bytes(draw.choice(b"AEM,019\n") for _ in range(draw.randint(1, 40)))]
        self.assertGreaterEqual(len(self.agree(tables)), 15)

    def test_other_files(self):
        self.agree([LINE, LINE_77, RATE_LINE, LONGEST_RATE, b"GP1", b"GP1,", b"GP2,\n", b"GP3,1,2\n", bytes(77),
                    b"\n" * MOST, b"," * MOST, b"A" * MOST, ALL * 200, RAILWAY[:-1] + b"\0", b"\xff" * 316])


def ranges_of(table):
    """The volts of each class."""
    return {letter: range(low, high + 1) for letter, low, high in rows_of(table)}


def reads_under(table):
    """C that reads a line under a table."""
    text = table.decode().replace("\n", "\\n")
    return f'(gridprofile_read_table((const uint8_t *)"{text}", {len(table)}, classes, sizeof classes), ' \
        "read_profile(line, length, out))"


class Lines(Explained):
    """What is said of lines under the table of a railway, beside the rules of test_cli_lines."""

    ROWS = RAILWAY
    ANSWER = reads_under(ROWS)

    def agree(self, lines):
        lines, found = list(lines), set()
        for line, (number, said) in zip(lines, self.explained(lines)):
            self.assertEqual(number, answer(line), line)
            expected = faults(line) if number else set()
            told = [fault_said(one, line) for one in said]
            self.assertEqual(sorted(map(str, told)), sorted(map(str, expected)), (line, said))
            found |= expected
        return found

    def test_every_class_and_all_volts(self):
        """Only the class that volts have is taken; in a gap none."""
        ranges = ranges_of(self.ROWS)
        with under(ranges):
            letters = sorted({*b"ABDZ", *b"".join(ranges)})
            lines = [line_of(letter=chr(letter), volts=volts) for letter in letters for volts in range(98, 1003)]
            found = self.agree(lines)
            self.assertEqual(found, {("field", 3), ("field", 5)})
            taken = {(line.split(b",")[2], int(line.split(b",")[4])) for line in lines if answer(line) == 0}
        self.assertEqual(taken, {(letter, volts) for letter, span in ranges.items() for volts in span})

    def test_classes_and_volts_that_are_none(self):
        with under(ranges_of(self.ROWS)):
            volts = b"", b"99", b"0750", b"750", b"500", b"1001", b"+750", b"750V", b"930", b"4294968046"
            self.agree(with_field(2, letter, with_field(4, field, line)) for line in (RAILWAY_LINE, RATE_LINE)
                       for letter in (b"", b"e", b"r", b"EM", b"@", b"[", b" R", b"R ", b"\xc4", b"A", b"R")
                       for field in volts)

    def test_other_fields(self):
        """Which come before the volts, and behind them."""
        with under(ranges_of(self.ROWS)):
            others = (0, b"GP2"), (0, b"GP3"), (1, b"xa"), (3, b"0"), (5, b"55"), (6, b"0"), (13, b"")
            self.agree(with_field(at, field, with_field(4, volts, RAILWAY_LINE)) for volts in (b"500", b"300", b"750")
                       for at, field in others)

    def test_bytes_of_a_line(self):
        odd = [bytes([byte]) for byte in b"\0\n\r ,09AEMRT\xff"]
        with under(ranges_of(self.ROWS)):
            for line in (RAILWAY_LINE, with_field(4, b"500", RAILWAY_LINE)):
                self.agree(line[:at] + byte + line[at + more:] for at in range(len(line)) for byte in odd
                           for more in (0, 1))


class ManyClasses(Lines):
    """The same under a table of more rows, whose classes are named by their letters alone."""

    ROWS = LONGEST[10:100] + LONGEST[-12:]
    ANSWER = reads_under(ROWS)

    def test_words(self):
        letters = "B, C, D, E, F, G, H, I, J and Z"
        for line, said in ((line_of(letter="A", volts=101), f'field 3, class, is "A"; it must be one of {letters}'),
                           (line_of(letter="C", volts=101), 'field 3, class, is "C", but 101 volts are of class B'),
                           (line_of(letter="B", volts=100), 'field 5, nominal volts, is "100", in a gap of the class '
                            f"table; it must be in one of {letters}")):
            self.assertEqual(self.explained([line]), [(5, [said])])


class Worked(Case):
    """What the document works out."""

    def section(self):
        return formats().split("\n## Class tables\n")[1].split("\n## ")[0]

    def test_file(self):
        block = re.search(r"\n\n((?:    [A-Z],\d+,\d+\n)+)", self.section()).group(1)
        self.assertEqual(re.sub("(?m)^    ", "", block).encode(), RAILWAY)
        self.assertIn(RAILWAY_LINE.decode().rstrip("\n"), self.section())

    def test_table_of_files(self):
        """Each file that it lists, and what answers."""
        self.store()
        rows = re.findall(r"^\| (.*?) \| (\d+) \| ", self.section().split("| File | Answer | Why |\n")[1], re.M)
        cases = [(file, int(number)) for files, number in rows for file in files.split("; ")]
        self.assertGreaterEqual(len(cases), 14)
        for text, number in cases:
            file = b"" if text == "an empty file" else file_of(text)
            self.assertEqual(0 if rows_of(file) else 13, number, text)
            words = ["classes", "store", self.put("table", file)]
            self.done(*words) if number == 0 else self.refused(number, *words)

    def test_image(self):
        """The bytes of the table's image."""
        part = formats().split("The table of the worked file is read as the 4 bytes `")[1].split("zeros.")[0]
        count, rows = bytes.fromhex(part.split("`")[0]), re.findall(r"^    ((?:[0-9A-F]{2} *){12})", part, re.M)
        image = count + bytes.fromhex("".join(rows))
        self.assertEqual(image.ljust(TABLE, b"\0"), image_of(RAILWAY))
        self.assertTrue(part.endswith(f"and {TABLE - len(image)} "))

    def test_classes_of_the_worked_table(self):
        """Each volt that the text names, and the device that it allows."""
        self.put("table", RAILWAY)
        for volts, letter in ((199, "E"), (200, "M"), (400, "M"), (600, "R"), (750, "R")):
            self.done("evaluate", "--classes", "table", stdin=line_of(letter=letter, volts=volts))
        for volts in (401, 599, 901, 949):
            for letter in "EMRT":
                ran = self.run_in("evaluate", "--classes", "table", stdin=line_of(letter=letter, volts=volts))
                self.assertEqual(ran.returncode, 5)
                self.assertRegex(ran.stderr.decode(), EVALUATE_REFUSALS[5][0])
        self.refused(5, "evaluate", stdin=RAILWAY_LINE)
        self.done("evaluate", stdin=RAILWAY_LINE.replace(b",R,", b",D,"))
        self.refused(5, "evaluate", "--classes", "table", stdin=RAILWAY_LINE.replace(b",R,", b",D,"))

    def test_help(self):
        """It tells the rules, in lines that a terminal has room for."""
        shown = self.done("help", "classes").decode()
        self.assertTrue(shown.startswith("usage: gridprofile classes STORE [TABLE] [--wait SECONDS]\n\nLoad a class "
                                         "table, or print a store's.\n"), shown)
        for words in ("1 to 26 rows", "a letter A to Z", "Letters rise", "100 to 1000, without leading zeros",
                      "the last one too", "in a gap have no class", "hold no profile", "--classes"):
            self.assertIn(words, shown)
        for name in ("sign", "verify", "show", "preview", "evaluate"):
            shown = self.done("help", name).decode()
            self.assertIn(" [--classes TABLE]", shown.splitlines()[0])
            self.assertIn("TABLE", shown.split("\n", 1)[1])
            self.assertLessEqual(max(len(line) for line in shown.splitlines()[1:]), 100)
        self.assertLessEqual(max(len(line) for line in self.done("help", "classes").decode().splitlines()), 100)


def file_of(text):
    """A file as the document writes it: quoted parts, LF and CR behind them."""
    parts = re.findall(r"`([^`]*)`|(LF)|(CR)", text)
    return b"".join(part.encode() or (b"\n" if feed else b"\r") for part, feed, _ in parts)

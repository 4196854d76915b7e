"""The command-line program end to end: every command, and every refusal that can be reached through it. Refusal 2 is
planted, by test_cli_safe: nobody knows seeds whose draws are short. Prints a line for each test, and then the count."""

import itertools
import os
import random
import re
import shlex
import shutil
import struct
import subprocess
import sys
import unittest

sys.dont_write_bytecode = True
sys.path.insert(0, os.path.dirname(os.path.abspath(__file__)))
from cli_case import (ARCHIVE, BAD_LINE, CATEGORIES, DAMAGED_STORE, DEVICE, DEVICE_60, FIFTH,  # noqa: E402
                      FILE_TROUBLE, FIRST, GIVEN, IMAGE, KINDS, LEAST_LINE, LINE, LINE_60, LINE_C, LONGEST,
                      LONGEST_RATE, MASTER, MEASURED, MOST_LINE, NO_RANDOM_BYTES, PREVIEW, PRIVATE, PROFILE, PROGRAM,
                      RAILWAY, RAILWAY_LINE, RATE_LINE, ROOT, SALT, SELF_CHECK_FAILED, SHORTEST, SHORTEST_RATE,
                      SIGNATURE, SLOTS, STORE, TABLE, THIRD, WRONG_USAGE, Case, device_of, example, fingerprint,
                      formats, held, line_of, listing_of, rows_of, sealed, shake)
import test_cli_categories  # noqa: E402
import test_cli_classes  # noqa: E402
import test_cli_files  # noqa: E402
import test_cli_formulas  # noqa: E402
import test_cli_lines  # noqa: E402
import test_cli_safe  # noqa: E402


class Key(Case):
    def test_key_begins_with_the_public_seed(self):
        said = self.done("key", self.put("private", PRIVATE), "key")
        key = self.get("key")
        self.assertEqual(len(key), 77)
        self.assertEqual(key[:32], shake(b"\x0c" + PRIVATE, 64)[32:])
        self.assertEqual(key[76] >> 5, 0)
        self.assertEqual(said.decode(), fingerprint(key))

    def test_seeds_of_other_sizes_are_1(self):
        for size, has in ((0, "0 bytes"), (31, "31 bytes"), (33, "33 bytes"), (65, "at least 65 bytes"),
                          (100_000, "100000 bytes"), (77, f"77 bytes, the size of {KINDS[77]}"),
                          (16, "16 bytes, the size of a master seed of category 1")):
            said = self.refused(1, "key", self.put("private", bytes(size)), "key")
            self.assertIn(f"PRIVATE (private) has {has}; it must have 32 at category 1\n", said)

    def test_endless_seed_is_1(self):
        self.refused(1, "key", "/dev/zero", "key")


class Sign(Case):
    def test_package_is_signature_and_line(self):
        package = self.get(self.package())
        self.assertEqual(len(package), SIGNATURE + len(LINE))
        self.assertEqual(package[:32], SALT)
        self.assertEqual(package[SIGNATURE:], LINE)

    def test_what_it_says(self):
        self.package()
        said = self.done("sign", "private", "line", "out").decode()
        wanted = "Signed and verified: country XA, class B, 50 Hz, serial 12\n" + fingerprint(self.get("key"))
        self.assertEqual(said, wanted)
        _, said = self.warned("sign", "private", "line", "-")
        self.assertEqual(said, wanted)
        self.done("verify", "key", "out")

    def test_examples_come_of_the_seeds_told(self):
        for name, made in (("xa-b.line", LINE), ("xa-c.line", LINE_C), ("xa-b.rate.line", RATE_LINE),
                           ("xa-b.60hz.line", LINE_60), ("key", self.get(self.key())),
                           ("xa-b.package", self.get(self.package()))):
            with open(os.path.join(ROOT, "examples", name), "rb") as file:
                self.assertEqual(file.read(), made, name)

    def test_shortest_and_longest_line(self):
        lines = SHORTEST, LONGEST, SHORTEST_RATE, LONGEST_RATE
        self.assertEqual([len(line) for line in lines], [LEAST_LINE, 72, 49, MOST_LINE])
        for line in lines:
            self.done("verify", self.key(), self.package(line))
            self.assertTrue(self.done("show", "package").startswith(b"A package of category 1. "))

    def test_wrong_sizes_are_1(self):
        self.key()
        whole = {"PRIVATE": PRIVATE, "MASTER": MASTER, "SALT": SALT, "LINE": LINE, "KEY": self.get("key")}
        for role, sizes in (("PRIVATE", (31, 33)), ("MASTER", (15, 17)), ("SALT", (0, 31, 33)), ("LINE", (0, 41, 85)),
                            ("KEY", (0, 76, 78))):
            for size in sizes:
                for name, data in {**whole, role: (whole[role] * 2)[:size]}.items():
                    self.put(name.lower(), data)
                self.assertIn(f"{role} ({role.lower()}) has ",
                              self.refused(1, "sign", "private", "line", "package", *GIVEN))

    def test_lines_that_break_a_rule_are_5(self):
        fields = RATE_LINE.decode().rstrip("\n").split(",")
        spoils = {0: "GP3", 1: "xa", 2: "C", 3: "0", 4: "99", 5: "55", 6: "1000", 7: "19", 8: "1000", 9: "60001",
                  10: "5001", 11: "0100", 12: "2500", 13: "", 14: "99", 15: "60001"}
        self.package()
        for tag, count in (("GP1", 14), ("GP2", 16)):
            for at, bad in list(spoils.items())[:count]:
                line = ",".join([tag, *fields[1:count]][:at] + [bad] + fields[at + 1:count]) + "\n"
                said = self.refused(5, "sign", "private", self.put("line", line.encode()), "out")
                self.assertIn(f"field {at + 1}, ", said)
        for line in (LINE[:-1] + b" ", LINE + b"x", b"GP1" + RATE_LINE[3:], b"GP2" + LINE[3:],
                     LONGEST[:-1] + b"0\n", LONGEST[:-1] + b"0" * 12 + b"\n", b"GP2" + SHORTEST[3:]):
            self.refused(5, "sign", "private", self.put("line", line), "out")

    def test_causes_are_said_in_words(self):
        """What people meet: how a line is saved, and how it is typed. Also where the line is then too long or short."""
        causes = ((lambda line: line[:-1] + b"\r\n", "ends in CR LF"),
                  (lambda line: line[:-1], "line feed at the end is"),
                  (lambda line: b"\xef\xbb\xbf" + line, "byte order mark (EF BB BF)"),
                  (lambda line: line.replace(b"XA", b"xa"), 'field 2, country, is "xa", in lower case; it must be'),
                  (lambda line: line.replace(b",60,", b",50,").replace(b",50,", b", 50,"),
                   "field 6, hertz, is \" 50\", with a space or a tab"),
                  (lambda line: line + line, "bytes stand after the line feed"))
        self.package()
        for line in (SHORTEST, LINE, LONGEST, LONGEST_RATE):
            for change, words in causes:
                bad = change(line)
                number = 5 if LEAST_LINE <= len(bad) <= MOST_LINE else 1
                said = self.refused(number, "sign", "private", self.put("line", bad), "out")
                self.assertIn(words, said)
                self.assertIn("What to do: correct the line", said)

    def test_causes_are_said_of_any_length(self):
        """Also of nothing, and of more than the program reads; and only where it is the line that is wrong."""
        self.package()
        for line, words in ((b"", "the line is empty"), (LINE * 40, "bytes stand after the line feed"),
                            (LINE[:-1] + b"0" * 3000, "no line feed stands in its first 84 bytes"),
                            (b"x" * 3000, "this does not look like a profile line")):
            said = self.refused(1, "sign", "private", self.put("line", line), "out").splitlines()
            self.assertIn(f"LINE (line) has {len(line)} bytes", said[1])
            self.assertTrue(any(words in one for one in said[2:-1]), said)
        said = self.refused(1, "sign", "private", "-", "out", stdin=LINE * 40)
        self.assertIn("LINE (standard input) has at least 1024 bytes; it must have 42 to 84\n", said)
        for line in (LINE, SHORTEST, LONGEST, SHORTEST_RATE, LONGEST_RATE):
            said = self.refused(1, "sign", "key", self.put("line", line), "out").splitlines()
            self.assertEqual([one.split(" (")[0] for one in said[1:-1]], ["  PRIVATE"], said)

    def test_greatest_serial_gets_a_warning(self):
        for serial, warns in ((4294967295, True), (4294967294, False)):
            self.package(), self.put("line", line_of(serial=serial))
            ran = self.run_in("sign", "private", "line", "out", "--force")
            self.assertEqual(ran.returncode, 0)
            self.assertEqual(b"warning: line: this serial is the greatest" in ran.stderr, warns)


# Signs any message, as only somebody with the private seed can, so that a bad line comes under a good signature.
SIGN_ANY = """
#include <stdio.h>
#include "gridprofile_category3.h"
#include "gridprofile_category5.h"
int main(void)
{
    uint8_t seeds[2 * SEED + MASTER], line[85], signature[SIGNATURE], *master = seeds + SEED, *salt = master + MASTER;
    size_t length = fread(seeds, 1, sizeof seeds, stdin) == sizeof seeds ? fread(line, 1, 85, stdin) : 0;
    if (SIGN(seeds, SEED, master, MASTER, salt, SEED, line, length, signature, sizeof signature) != 0)
        return 1;
    return fwrite(signature, 1, sizeof signature, stdout) + fwrite(line, 1, length, stdout) == 0;
}
"""


def package_any(case, line, category=FIRST):
    """The name of a file with a package of any bytes of a line's length."""
    case.put("any.c", SIGN_ANY.encode())
    function = "gridprofile_sign" if category is FIRST else f"gridprofile_category{category.number}_sign"
    names = {"SIGN": function, "SEED": category.seed, "MASTER": category.master, "SIGNATURE": category.signature}
    gcc = ["gcc", "-std=c11", "-I", os.path.join(ROOT, "include"), case.path("any.c"), ARCHIVE, "-o", case.path("any")]
    subprocess.run([*gcc, *(f"-D{name}={value}" for name, value in names.items())], check=True)
    given = b"".join(category.seeds()) + line
    made = subprocess.run([case.path("any")], input=given, stdout=subprocess.PIPE, check=True)
    return case.put("package", made.stdout)


def flip(data, at, bit=1):
    return data[:at] + bytes([data[at] ^ bit]) + data[at + 1:]


class Verify(Case):
    def test_good_package(self):
        said = self.done("verify", self.key(), self.package()).decode()
        wanted = "The signature holds, and the line is a profile: country XA, class B, 50 Hz, serial 12\n"
        self.assertEqual(said, wanted + fingerprint(self.get("key")))

    def test_wrong_sizes_are_1(self):
        key, package = self.get(self.key()), self.get(self.package())
        for bad in (b"", key[:-1], key + b"\0"):
            self.refused(1, "verify", self.put("bad", bad), "package")
        for bad in (b"", package[:19193], package + bytes(19237 - len(package))):
            self.refused(1, "verify", "key", self.put("bad", bad))

    def test_exchanged_files_are_named(self):
        self.package()
        said = self.refused(1, "verify", "package", "key")
        self.assertIn("KEY (package) has 19208 bytes, the size of a package of category 1; it must have 77 at category "
                      "1\n", said)
        self.assertIn(f"PACKAGE (key) has 77 bytes, the size of {KINDS[77]}; it must have 19194 to 19236 at category "
                      "1\n", said)
        self.assertIn("What to do: give the files in the order of the usage; ", said)

    def test_damage_is_3_or_4(self):
        key, package = self.get(self.key()), self.get(self.package())
        self.refused(3, "verify", self.put("bad", flip(key, 76, 0x80)), "package")
        self.refused(4, "verify", "key", self.put("bad", flip(package, SIGNATURE - 1)))
        for at in (0, 40, 80, 500, SIGNATURE + 9):
            ran = self.run_in("verify", "key", self.put("bad", flip(package, at)))
            self.assertIn(ran.returncode, (3, 4))  # what else changes with it is as good as random

    def test_other_key_is_4(self):
        self.package()
        said = self.refused(4, "verify", self.key(bytes(32)), "package")
        self.assertIn("  " + fingerprint(self.get("key")), said)

    def test_signed_line_that_breaks_a_rule_is_5(self):
        for category in CATEGORIES:
            words = "verify", self.key(category=category), package_any(self, BAD_LINE, category), *category.option()
            self.assertIn("field 6, ", self.refused(5, *words))
        package_any(self, b"GP2" + LINE[3:])
        self.assertIn("field 15, rate of change, is missing", self.refused(5, "verify", self.key(), "package"))
        package_any(self, LONGEST_RATE.replace(b"10000,", b"10001,"))
        self.assertIn('field 15, rate of change, is "10001"', self.refused(5, "verify", "key", "package"))


# Words for HERTZ that are none: other numbers, also those that cut to 32 or to 64 bits would be 50 or 60, and what is
# not written as numbers are.
NO_HERTZ = ("0", "1", "5", "49", "51", "55", "59", "61", "500", "4294967295", "4294967296", "4294967346", "4294967356",
            "18446744073709551666", "99999999999999999999", "", "050", "060", "+50", "-50", "50 ", " 50", "\t50",
            "50\n", "50.0", "50,60", "5 0", "5O", "50Hz", "0x32", "0x3C", "5e1", "-", "B", "\u0665\u0660")


class Load(Case):
    def load(self, line, *device):
        """The words of a load; on the device that the line is for, where none is named."""
        if "store" not in self.names():
            self.store()
        return ["load", "store", self.key(), self.package(line), *(device or device_of(line))]

    def test_store_is_image_and_checksum(self):
        said = self.done("new-store", "store")
        self.assertEqual((said, self.get("store")), (b"An empty store.\n", sealed(bytes(IMAGE))))
        self.done(*self.load(LINE, *DEVICE))
        store = self.get("store")
        self.assertEqual((len(store), store.count(b"\x01XAB\x0c\0\0\0")), (STORE, 1))
        self.assertEqual(store, sealed(store[:IMAGE]))

    def test_missing_store_is_an_error(self):
        self.package()
        said = self.troubled(FILE_TROUBLE, "load", "store", "key", "package", *DEVICE)
        self.assertIn("store: there is no such store; `gridprofile new-store` makes an empty one", said)

    def test_what_it_says(self):
        wanted = "Accepted: country XA, class B, 50 Hz, serial {}\n{}\n"
        for serial, before in ((12, "Nothing was stored for this country, class and hertz before."),
                               (13, "It replaces serial 12."), (4294967294, "It replaces serial 13.")):
            said = self.done(*self.load(line_of(serial=serial), *DEVICE)).decode()
            self.assertEqual(said, wanted.format(serial, before) + fingerprint(self.get("key")))
        said = self.done(*self.load(LINE_C, "XA", "C", "50")).decode()
        self.assertTrue(said.startswith("Accepted: country XA, class C, 50 Hz, serial 5\nNothing was stored"), said)

    def test_two_classes_of_a_country_stand_side_by_side(self):
        self.done(*self.load(LINE, *DEVICE))
        self.done(*self.load(LINE_C, "XA", "C", "50"))
        self.assertEqual(self.done("lookup", "store", *DEVICE), LINE)
        self.assertEqual(self.done("lookup", "store", "XA", "C", "50"), LINE_C)

    def test_both_hertz_of_a_country_stand_side_by_side(self):
        """The lower serial of the other half is taken, and pushes nothing out."""
        self.done(*self.load(LINE))
        said = self.done(*self.load(LINE_60)).decode()
        self.assertEqual(said, "Accepted: country XA, class B, 60 Hz, serial 1\nNothing was stored for this country, "
                         "class and hertz before.\n" + fingerprint(self.get("key")))
        shown = self.done("show", "store").decode()
        self.assertEqual(shown, held(2) + WORDS + WORDS_60)
        for line in (LINE, LINE_60):
            self.assertEqual(self.done("lookup", "store", *device_of(line)), line)

    def test_serials_count_within_country_class_and_hertz(self):
        """A half is replaced by its own greater serials alone, and the other's bytes stay."""
        serials = {60: 0, 50: 0}
        for hertz, serial in ((60, 9), (50, 1), (50, 1), (60, 9), (60, 8), (50, 9), (50, 8), (60, 10), (60, 4294967294),
                              (50, 10), (50, 11), (60, 12), (50, 4294967293), (50, 12)):
            words, older = self.load(line_of(hertz=hertz, serial=serial)), serials[hertz]
            before = self.get("store")
            if serial <= older:
                said = self.refused(7, *words)
                self.assertIn(f"the serial, {serial}, is not greater than the stored one, {older}\n", said)
                continue
            said = self.done(*words).decode()
            nothing = "Nothing was stored for this country, class and hertz before."
            then = f"It replaces serial {older}." if older else nothing
            wanted = f"Accepted: country XA, class B, {hertz} Hz, serial {serial}\n{then}\n"
            self.assertTrue(said.startswith(wanted), said)
            changed = {at // PROFILE for at in range(IMAGE) if before[at] != self.get("store")[at]}
            self.assertEqual(len(changed), 1)
            serials[hertz] = serial
            for of, last in serials.items():
                words = "lookup", "store", "XA", "B", str(of)
                self.assertEqual(self.done(*words), line_of(hertz=of, serial=last)) if last else self.refused(9, *words)

    def test_rate_point_comes_and_goes(self):
        """A newer profile replaces the whole of the older one, whichever of them has a rate point."""
        for line, image in ((LINE, bytes(12)), (RATE_LINE, struct.pack("<3I", 1, 2000, 500)),
                            (line_of(serial=14, rate=100), struct.pack("<3I", 1, 100, 500)),
                            (line_of(serial=15), bytes(12))):
            self.done(*self.load(line, *DEVICE))
            self.assertEqual(self.done("lookup", "store", *DEVICE), line)
            store = self.get("store")
            self.assertEqual(store[store.index(b"\x01XAB") + 64:][:12], image)
        self.refused(7, *self.load(RATE_LINE, *DEVICE))

    def test_serials(self):
        for serial, answer in ((12, 0), (12, 7), (13, 0), (12, 7), (13, 7), (4294967294, 0), (1, 7)):
            words = self.load(line_of(serial=serial), *DEVICE)
            self.done(*words) if answer == 0 else self.refused(answer, *words)
        self.assertEqual(self.done("lookup", "store", *DEVICE), line_of(serial=4294967294))

    def test_greatest_serial(self):
        _, said = self.warned(*self.load(line_of(serial=4294967295), *DEVICE))
        self.assertIn("this serial is the greatest: nothing can replace the profile", said)
        said = self.refused(7, *self.load(line_of(serial=4294967295), *DEVICE))
        self.assertIn("the stored serial is the greatest, which nothing can replace", said)

    def test_serials_are_told(self):
        self.done(*self.load(line_of(serial=1000), *DEVICE))
        said = self.refused(7, *self.load(line_of(serial=999), *DEVICE))
        self.assertIn("refused with 7: the serial, 999, is not greater than the stored one, 1000\n", said)

    def fill(self, triples):
        """A store with these 16, each of which was new to it."""
        self.store()
        for country, letter, hertz in triples:
            said = self.done(*self.load(line_of(country, letter, hertz))).decode()
            accepted = f"Accepted: country {country}, class {letter}, {hertz} Hz, serial 12\nNothing "
            self.assertTrue(said.startswith(accepted), said)
        shown = self.done("show", "store").decode()
        self.assertTrue(shown.startswith(held(16)), shown)
        found = re.findall("^country (..), class (.), (..) Hz, serial 12$", shown, re.M)
        self.assertEqual([(country, letter, int(hertz)) for country, letter, hertz in found], sorted(triples))

    def test_seventeenth_triple_is_8(self):
        """Also where it is the other hertz of a country and class that is stored; newer profiles of those stored are
        taken as before."""
        countries = "XA", "XB", "XC", "XD"
        for triples, more in ((list(itertools.product(countries, "ABCD", (50,))), [("XE", "B", 50), ("XA", "B", 60)]),
                              (list(itertools.product(countries[:2], "ABCD", (50, 60))), [("XE", "B", 60)])):
            self.fill(triples)
            for triple in more:
                self.refused(8, *self.load(line_of(*triple, serial=99)))
            self.done(*self.load(line_of(serial=13)))
            self.assertEqual(self.done("lookup", "store", *DEVICE), line_of(serial=13))
            for triple in triples:
                if triple != ("XA", "B", 50):
                    self.assertEqual(self.done("lookup", "store", *map(str, triple)), line_of(*triple))

    def test_other_devices_are_6(self):
        for device in (("XA", "C", "50"), ("XB", "B", "50"), ("AX", "B", "50")):
            self.refused(6, *self.load(LINE, *device))

    def test_other_hertz_alone_are_6(self):
        """Whatever is stored for the device."""
        for stored in ((), (LINE,), (LINE_60,), (LINE, LINE_60)):
            self.store(*stored)
            self.refused(6, *self.load(line_of(serial=99), *DEVICE_60))
            self.refused(6, *self.load(line_of(hertz=60, serial=99), *DEVICE))

    def test_devices_that_do_not_exist_are_10(self):
        for device in (("xa", "B"), ("X", "B"), ("", "B"), ("XAB", "B"), ("X1", "B"), ("XA", "E"), ("XA", "b"),
                       ("XA", ""), ("XA", "BB"), ("XA", "66"), ("\u00c4", "B"), ("XA", "\u00c4")):
            self.refused(10, *self.load(LINE, *device, "50"))

    def test_hertz_that_do_not_exist_are_10(self):
        """After a word that ends the options, since one of them looks like an option."""
        for line in (LINE, LINE_60):
            for hertz in NO_HERTZ:
                self.refused(10, *self.load(line, "XA", "B", "--", hertz))
        for hertz, answer in (("50", 0), ("60", 6)):
            words = self.load(LINE, "XA", "B", "--", hertz)
            self.done(*words) if answer == 0 else self.refused(answer, *words)

    def test_10_comes_before_1(self):
        for name in ("store", "key", "package"):
            self.put(name, b"")
        for device in (("XA", "E", "50"), ("XA", "B", "55"), ("XA", "B", "")):
            said = self.refused(10, "load", "store", "key", "package", *device)
            self.assertEqual(len(said.splitlines()), 2, said)

    def test_wrong_sizes_are_1(self):
        words = self.load(LINE, *DEVICE)
        self.done(*words)
        for at, role, least, most in ((1, "STORE", STORE, STORE), (2, "KEY", 77, 77), (3, "PACKAGE", 19194, 19236)):
            for size in (0, least - 1, most + 1, IMAGE - 1, IMAGE + 1, 200_000):
                bad = self.put("bad", (self.get(words[at]) + bytes(200_000))[:size])
                said = self.refused(1, *words[:at], bad, *words[at + 1:])
                self.assertEqual(re.findall("(?m)^  ([A-Z]+) .* has ", said), [role])
        for name in ("private", "line", "key", "package"):
            self.assertIn(f"STORE ({name}) has ", self.refused(1, "load", name, *words[2:]))

    def test_damage_is_3_or_4(self):
        words = self.load(LINE, *DEVICE)
        key, package = self.get("key"), self.get("package")
        self.put("key", flip(key, 76, 0x80))
        self.refused(3, *words)
        self.put("key", key)
        self.put("package", package[:96] + b"\xff" * 576 + package[672:])
        self.refused(3, *words)
        self.put("package", flip(package, SIGNATURE - 1))
        self.refused(4, *words)

    def test_signed_line_that_breaks_a_rule_is_5(self):
        self.store()
        for category in CATEGORIES:
            words = "load", "store", self.key(category=category), package_any(self, BAD_LINE, category), *DEVICE
            self.assertIn("field 6, ", self.refused(5, *words, *category.option()))
            self.refused(10, *words[:-1], "55", *category.option())

    def test_every_refusal_of_a_stocked_store_leaves_it(self):
        self.done(*self.load(LINE, *DEVICE))
        package = self.get("package")
        for number, data, *more in ((10, package, "Z", "50"), (10, package, "B", "16"), (1, package[:5], "B", "50"),
                                    (4, flip(package, SIGNATURE - 1), "B", "50"), (6, package, "A", "50"),
                                    (6, package, "B", "60"), (7, package, "B", "50")):
            self.refused(number, "load", "store", "key", self.put("bad", data), "XA", *more)


def image_of(country="XA", hertz=50, serial=12, volts=230, letter="B"):
    """The image of the profile that `line_of` has, written here from docs/FORMATS.md."""
    trips = (0, 1150, 100), (0, 800, 1500), (1, 1500, 100), (2, 2500, 100), (0, 0, 0)
    numbers = serial, volts, hertz, *itertools.chain(*trips)
    return struct.pack("<B2sc18I", 1, country.encode(), letter.encode(), *numbers)


def store_of(*lines):
    """A store with these lines, which `line_of` has, in this order, as loads could have left it."""
    images = []
    for line in lines:
        _, country, letter, serial, volts, hertz = line.decode().split(",")[:6]
        images.append(image_of(country, int(hertz), int(serial), int(volts), letter))
    return sealed(b"".join(images).ljust(IMAGE, b"\0"))


class Damage(Case):
    """Stores that are damaged, or have no checksum."""

    def damaged(self, *words):
        """The program says that the store is damaged, and what to do about it, and changes no file."""
        before = self.look()
        ran = self.run_in(*words)
        self.assertEqual(ran.returncode, DAMAGED_STORE, (words, ran.stderr))
        self.assertEqual(ran.stderr.count(b" is damaged: "), 1, ran.stderr)
        self.assertIn(b"What to do: take a copy", ran.stderr)
        self.assertEqual(self.look(), before)
        return ran

    def readers(self, name):
        return (["load", name, "key", self.package(line_of(serial=99)), *DEVICE], ["lookup", name, *DEVICE],
                ["show", name])

    def test_each_byte_of_a_store_counts(self):
        whole = self.get(self.store(LINE))
        for at in range(0, STORE, 7):
            self.damaged("lookup", self.put("bad", flip(whole, at, 1 << at % 8)), *DEVICE)
            self.damaged("nearest", "bad", *MEASURED)

    def test_damaged_store_is_refused(self):
        whole = self.get(self.store(LINE))
        for words in self.readers(self.put("bad", flip(whole, 20))):
            self.assertIn(b"its checksum does not fit", self.damaged(*words).stderr)

    def test_show_prints_what_it_can(self):
        whole = self.get(self.store(LINE, LINE_C))
        shown = self.damaged("show", self.put("bad", flip(whole, STORE - 1))).stdout
        self.assertIn(WORDS.encode(), shown)

    def test_image_without_checksum_gets_a_warning(self):
        image = self.get(self.store(LINE))[:IMAGE]
        load, lookup, show = self.readers("bare")
        self.put("bare", image)
        for words, printed in ((lookup, LINE), (["nearest", "bare", *MEASURED], suggestion(LINE, 230)),
                               (show, (held(1) + WORDS).encode())):
            shown, said = self.warned(*words)
            self.assertEqual(shown, printed)
            self.assertIn("bare: this store has no checksum", said)
        self.assertIn("no checksum", self.warned(*load)[1])
        self.assertEqual(self.done(*lookup), line_of(serial=99))
        self.assertEqual(self.get("bare"), sealed(self.get("bare")[:IMAGE]))

    def test_profile_that_breaks_a_rule_is_damage(self):
        """With and without a checksum; a lookup of a profile that is whole still answers. One of no hertz is found by
        no lookup."""
        image = (image_of() + image_of("XB", volts=260) + image_of("XC", hertz=51)).ljust(IMAGE, b"\0")
        for data in (image, sealed(image)):
            self.put("bad", data)
            said = self.refused(5, "lookup", "bad", "XB", "B", "50")
            self.assertIn("the stored profile breaks a rule: the store is damaged", said)
            self.assertNotIn("correct the line", said)
            self.assertEqual(self.run_in("lookup", "bad", *DEVICE).stdout, LINE)
            for words in (["lookup", "bad", "XC", "B", "50"], ["lookup", "bad", "XC", "B", "60"],
                          ["nearest", "bad", "XC", "50", "230"], ["nearest", "bad", "XC", "60", "230"]):
                self.damaged(*words)
            load, _, show = self.readers("bad")
            self.assertIn(b"slot 2 holds what no load leaves there", self.damaged(*load).stderr)
            for slot in (b"2", b"3"):
                self.assertIn(b"slot " + slot + b": damaged, breaks a rule\n", self.damaged(*show).stdout)

    def test_every_slot_is_looked_at(self):
        image = self.get(self.store(LINE))[:IMAGE]
        broken = image[image.index(b"\x01XAB"):][:PROFILE].replace(b"\x32\0\0\0", b"\x33\0\0\0")
        load, _, show = self.readers("bad")
        for slot in range(16):
            self.put("bad", sealed((bytes(PROFILE * slot) + broken).ljust(IMAGE, b"\0")))
            self.assertIn(f"slot {slot + 1} holds what no load leaves there".encode(), self.damaged(*load).stderr)
            self.assertIn(f"\nslot {slot + 1}: damaged, breaks a rule\n".encode(), self.damaged(*show).stdout)
        self.put("bad", self.get("bad")[:IMAGE] + bytes(32))
        self.assertIn(b"\nslot 16: damaged, breaks a rule\n", self.damaged(*show).stdout)

    def test_images_that_no_load_made_are_damaged(self):
        """A load would put a checksum over them: a slot that is not used but for its first byte, a used byte of 2, a
        country, class and hertz that stand twice, a kind or a presence that is written otherwise, numbers of a rate
        point that is absent, and rate points that break a rule."""
        image = self.get(self.store(RATE_LINE, LINE_C))[:IMAGE]
        at, other = image.index(b"\x01XAB"), image.index(b"\x01XAC")
        wrong = [image[:at] + b"\0" + image[at + 1:], image[:at] + b"\x02" + image[at + 1:],
                 image[:other] + image[at:at + PROFILE] + image[other + PROFILE:],
                 image[:at + 52] + b"\x03" + image[at + 53:], bytes(SLOTS - 1) + b"\x01" + bytes(TABLE)]
        for point in ((2, 2000, 500), (256, 2000, 500), (0, 2000, 500), (0, 2000, 0), (0, 0, 500), (1, 99, 500),
                      (1, 10001, 500), (1, 2000, 19), (1, 2000, 60001), (1, 0, 0)):
            wrong.append(image[:at + 64] + struct.pack("<3I", *point) + image[at + PROFILE:])
        for data in wrong:
            self.put("bad", data)
            load, _, show = self.readers("bad")
            for words in (load, show):
                self.assertIn(b"holds what no load leaves there", self.damaged(*words).stderr)

    def test_country_class_and_hertz_that_stand_twice_are_damage(self):
        """Whatever else differs, in whichever slots, and with the other hertz between them."""
        one, other = image_of(), image_of(hertz=60)
        load, _, show = self.readers("bad")
        for again in (one, image_of(serial=13), image_of(volts=231), image_of(serial=1, volts=259)):
            for slots in ((one, again), (one, other, again), (other, one, again), (one, bytes(PROFILE), again),
                          (one, *(image_of(f"X{letter}") for letter in "BCDEFGHIJKLMNO"), again)):
                image = b"".join(slots).ljust(IMAGE, b"\0")
                for data in (image, sealed(image)):
                    self.put("bad", data)
                    said = self.damaged(*show).stderr
                    self.assertIn(f"slot {len(slots)} holds what no load leaves there".encode(), said)
                self.put("bad", image)
                self.assertIn(b"holds what no load leaves there", self.damaged(*load).stderr)

    def test_both_hertz_of_a_country_and_class_are_sound(self):
        """In whichever slots: an image of a device gets its checksum, and a lookup that finds nothing is 9."""
        one, other = image_of(), image_of(hertz=60, serial=1)
        for slots in ((one, other), (other, one), (other, bytes(PROFILE), one), (bytes(PROFILE) * 14, one, other)):
            image = b"".join(slots).ljust(IMAGE, b"\0")
            self.put("both", sealed(image))
            self.assertTrue(self.done("show", "both").decode().startswith(held(2)))
            for line in (LINE, LINE_60):
                self.assertEqual(self.done("lookup", "both", *device_of(line)), line)
            self.refused(9, "lookup", "both", "XA", "C", "60")
            self.put("both", image)
            self.assertIn("no checksum", self.warned(*self.readers("both")[0])[1])
            self.assertEqual(self.get("both"), sealed(image.replace(one, image_of(serial=99))))

    def test_full_store_of_both_hertz_is_sound(self):
        halves = [("X" + letter, hertz) for letter in "ABCDEFGH" for hertz in (60, 50)]
        self.put("full", sealed(b"".join(image_of(*half) for half in halves) + bytes(TABLE)))
        self.assertTrue(self.done("show", "full").decode().startswith(held(16)))
        for country, hertz in halves:
            self.assertEqual(self.done("lookup", "full", country, "B", str(hertz)), line_of(country, hertz=hertz))
        self.refused(9, "lookup", "full", "XI", "B", "50")
        self.done(*self.readers("full")[0])
        self.refused(8, "load", "full", "key", self.package(line_of("XI")), "XI", "B", "50")

    def test_store_made_when_it_went_by_country_and_class_alone(self):
        """It has each pair once, at either hertz: it is taken as it is, and the other hertz come beside it."""
        whole = sealed((image_of() + image_of("XB", hertz=60)).ljust(IMAGE, b"\0"))
        self.put("before", whole)
        for line, other in ((LINE, "60"), (line_of("XB", hertz=60), "50")):
            country, letter, hertz = device_of(line)
            self.assertEqual(self.done("lookup", "before", country, letter, hertz), line)
            self.refused(9, "lookup", "before", country, letter, other)
            beside = line_of(country, letter, other, serial=1)
            self.done("load", "before", self.key(), self.package(beside), country, letter, other)
            self.assertEqual(self.done("lookup", "before", country, letter, other), beside)
            self.assertEqual(self.done("lookup", "before", country, letter, hertz), line)

    def test_lookup_that_finds_nothing_says_so_of_a_damaged_image(self):
        image = self.get(self.store(LINE))[:IMAGE]
        for bad in (image.replace(b"\x01XAB", b"\x01XAZ"), image.replace(b"\x32\0\0\0", b"\x33\0\0\0")):
            self.damaged("lookup", self.put("bad", bad), *DEVICE)

    def test_nearest_that_breaks_a_rule_is_5(self):
        """With and without a checksum: volts that no class has, a class that does not fit the volts or is none, a
        serial of 0. One that is further away does no harm."""
        for volts, image in ((60, image_of(volts=99)), (1020, image_of(volts=1001, letter="D")),
                             (262, image_of(volts=260)), (230, image_of(letter="Z")), (230, image_of(serial=0)),
                             (0, image_of(volts=0)), (2000, image_of(volts=2040)), (40, image_of(volts=0))):
            for data in (image.ljust(IMAGE, b"\0"), sealed(image.ljust(IMAGE, b"\0"))):
                said = self.refused(5, "nearest", self.put("bad", data), "XA", "50", str(volts))
                self.assertIn("the stored profile breaks a rule: the store is damaged\n", said)
                self.assertNotIn("correct the line", said)
        self.put("bad", sealed((image_of(volts=260) + image_of(serial=1)).ljust(IMAGE, b"\0")))
        self.assertEqual(self.done("nearest", "bad", "XA", "50", "245"), suggestion(line_of(serial=1), 245))
        self.refused(5, "nearest", "bad", "XA", "50", "246")

    def test_nearest_that_finds_nothing_says_so_of_a_damaged_image(self):
        """Whatever the damaged slot has to do with what is asked for. Volts do not go round the end of 32 bits."""
        whole = image_of().ljust(IMAGE, b"\0")
        for volts, bad in ((230, image_of("X1")), (230, image_of(hertz=51)), (230, image_of(volts=271)),
                           (230, b"\0" + image_of()[1:]), (0, image_of(volts=2**32 - 1)),
                           (30, image_of(volts=2**32 - 10)), (2000, image_of(volts=2**31 + 2000))):
            for data in (bad.ljust(IMAGE, b"\0"), sealed(bad.ljust(IMAGE, b"\0")),
                         whole[:SLOTS - PROFILE] + bad + bytes(TABLE)):
                country = "XB" if data.startswith(whole[:PROFILE]) else "XA"
                self.damaged("nearest", self.put("bad", data), country, "50", str(volts))
        self.refused(9, "nearest", self.put("good", whole), "XB", "50", "230")

    def test_first_of_several_with_the_same_volts_is_the_nearest(self):
        """No loads leave them: a class that stands twice, or one that does not fit its volts."""
        for one, other in ((image_of(), image_of(serial=13)), (image_of(serial=13), image_of())):
            self.put("bad", sealed((bytes(PROFILE) + image_of(volts=200) + one + other).ljust(IMAGE, b"\0")))
            serial = struct.unpack_from("<I", one, 4)[0]
            self.assertEqual(self.done("nearest", "bad", "XA", "50", "216"), suggestion(line_of(serial=serial), 216))
        for one, other, answer in ((image_of(), image_of(letter="C"), 0), (image_of(letter="C"), image_of(), 5)):
            self.put("bad", sealed((one + other).ljust(IMAGE, b"\0")))
            self.assertEqual(self.run_in("nearest", "bad", *MEASURED).returncode, answer)

    def test_store_of_a_wrong_size_may_be_damaged(self):
        whole = self.get(self.store(LINE))
        for data in (whole[:1548], whole[:500], b"", whole + b"x"):
            self.put("bad", data)
            for words in (["lookup", "bad", *DEVICE], ["nearest", "bad", *MEASURED]):
                self.assertIn("If it was a store, it is damaged", self.refused(1, *words))
        for words in (["lookup", "key", *DEVICE], ["nearest", "key", *MEASURED]):
            self.assertNotIn("damaged", self.refused(1, *words))


class Former(Case):
    """Stores of the layouts before rate points and before class tables, with and without a checksum."""

    IMAGE = struct.pack("<4B3I12I", 1, *b"XAB", 12, 230, 50, 0, 1150, 100, 0, 800, 1500, 1, 1500, 100, 2, 2500, 100)
    ADVICE = ("  What to do: a store of this layout is not converted: make a new one by `gridprofile new-store` and "
              "load its packages again.\n")

    def stores(self):
        """Of each layout one with a profile and an empty one."""
        for image in (self.IMAGE + bytes(15 * 64), bytes(1024), image_of().ljust(SLOTS, b"\0"), bytes(SLOTS)):
            yield image
            yield sealed(image)

    def told(self, command, name, size):
        return (f"gridprofile {command}: refused with 1: a file has a wrong size\n  STORE ({name}) has {size} bytes, "
                f"the size of {KINDS[size]}; it must have 1564 or 1532\n")

    def test_they_are_refused_with_1(self):
        self.package()
        for data in self.stores():
            self.put("old", data)
            self.put("table", RAILWAY)
            for command, *more in (("load", "key", "package", *DEVICE), ("lookup", *DEVICE), ("nearest", *MEASURED),
                                   ("classes",), ("classes", "table")):
                for name, shown in (("old", "old"), ("-", "standard input")):
                    said = self.refused(1, command, name, *more, stdin=data)
                    self.assertEqual(said, self.told(command, shown, len(data)) + self.ADVICE)
            self.assertEqual(self.refused(1, "show", "old"), f"gridprofile show: refused with 1: old has the size of "
                             f"{KINDS[len(data)]}, of which nothing is shown\n{self.ADVICE}")

    def test_the_advice_works(self):
        self.package()
        for size in (1024, SLOTS):
            self.put("old", sealed(bytes(size)))
            self.assertIn("old: it exists; --force replaces it", self.troubled(FILE_TROUBLE, "new-store", "old"))
            self.done("new-store", "old", "--force")
            self.done("load", "old", "key", "package", *DEVICE)
            self.assertEqual(self.done("lookup", "old", *DEVICE), LINE)

    def test_10_comes_before_1(self):
        self.package()
        for size in (1024, SLOTS):
            self.put("old", sealed(bytes(size)))
            for device in (("XA", "E", "50"), ("XA", "B", "55")):
                self.refused(10, "load", "old", "key", "package", *device)
                self.refused(10, "lookup", "old", *device)
            for measured in (("X", "50", "230"), ("XA", "55", "230"), ("XA", "50", "2001")):
                self.refused(10, "nearest", "old", *measured)

    def test_other_files_of_a_wrong_size_are_named_too(self):
        self.package(category=THIRD)
        for size in (1024, SLOTS):
            self.put("old", sealed(bytes(size)))
            said = self.refused(1, "load", "old", "key", "package", *DEVICE)
            self.assertEqual(re.findall("(?m)^  ([A-Z]+) .* has ", said), ["STORE", "KEY", "PACKAGE"])
            self.assertTrue(said.endswith(" at category 1\n" + self.ADVICE), said)

    def test_in_the_place_of_another_file(self):
        """They are named there too, but a new store would not help."""
        self.package()
        for size in (1056, 1248):
            self.put("old", bytes(size))
            said = self.refused(1, "verify", "old", "package")
            self.assertIn(f"KEY (old) has {size} bytes, the size of {KINDS[size]}; it must have 77 at category 1\n",
                          said)
            self.assertIn("What to do: give the files in the order of the usage; ", said)


class Lookup(Case):
    def test_stored_line(self):
        self.assertEqual(self.done("lookup", self.store(LINE), *DEVICE), LINE)

    def test_nothing_stored_is_9(self):
        self.store(LINE)
        for device in (("XA", "C", "50"), ("XB", "B", "50")):
            self.refused(9, "lookup", "store", *device)
        self.refused(9, "lookup", self.store(name="empty"), *DEVICE)

    def test_other_hertz_are_9(self):
        self.refused(9, "lookup", self.store(LINE), *DEVICE_60)
        self.refused(9, "lookup", self.store(LINE_60), *DEVICE)

    def test_devices_that_do_not_exist_are_10(self):
        for device in (("Xa", "B"), ("XAA", "B"), ("XA", "F"), ("XA", "")):
            self.refused(10, "lookup", self.store(name="empty"), *device, "50")

    def test_hertz_that_do_not_exist_are_10(self):
        self.store(LINE, LINE_60)
        for hertz in NO_HERTZ:
            self.refused(10, "lookup", "store", "XA", "B", "--", hertz)
        for line in (LINE, LINE_60):
            self.assertEqual(self.done("lookup", "store", "XA", "B", "--", device_of(line)[2]), line)

    def test_wrong_sizes_are_1(self):
        for size in (0, 1023, 1025, 1055, 1057, 1215, 1217, 1247, 1249, 1531, 1533, 1563, 1565):
            said = self.refused(1, "lookup", self.put("bad", bytes(size)), *DEVICE)
            self.assertIn("it must have 1564 or 1532\n", said)


# Words for VOLTS that are none: over 2000, also those that cut to 32 or to 64 bits would be 230 or 0, and what is not
# written as numbers are.
NO_VOLTS = ("2001", "2300", "4294967295", "4294967296", "4294967526", "18446744073709551616", "18446744073709551846",
            "99999999999999999999", "", "00", "0230", "+230", "-1", "-0", "-230", "230.5", "230.0", "230,5", " 230",
            "230 ", "\t230", "230\n", "2 30", "230V", "0xE6", "2e2", "23O", "-", "--", "B", "\u0662\u0663\u0660")


def suggestion(line, volts):
    """What `nearest` prints of a line that it found: the line, and how far that is."""
    letter, nominal = (line.decode().split(",")[at] for at in (2, 4))
    away = int(nominal) - volts
    side = "above" if away > 0 else "below"
    where = f"{abs(away)} V {side} the measured {volts} V" if away else "the measured voltage"
    return line + f"Class {letter}, {nominal} V nominal: {where}.\n".encode()


def nearest_of(lines, country, hertz, volts):
    """The line that docs/FORMATS.md chooses, written here in its words; or None."""
    found = []
    for line in lines:
        fields = line.decode().split(",")
        if (fields[1], fields[5]) == (country, hertz) and abs(int(fields[4]) - volts) <= 40:
            found.append((abs(int(fields[4]) - volts), int(fields[4]), line))
    return min(found)[2] if found else None


class Nearest(Case):
    def stored(self, *lines):
        self.put("store", store_of(*lines))

    def found(self, line, *measured):
        """It finds this line, says so, and changes no file."""
        before = self.look()
        self.assertEqual(self.done("nearest", "store", *map(str, measured)), suggestion(line, int(measured[-1])))
        self.assertEqual(self.look(), before)

    def asks(self, lines, *measured):
        """It finds what the rule chooses of these lines."""
        line = nearest_of(lines, *measured)
        self.refused(9, "nearest", "store", *map(str, measured)) if line is None else self.found(line, *measured)

    def test_what_it_prints(self):
        """Of a store that was loaded; the first line as a lookup prints it."""
        self.store(LINE, LINE_C, LINE_60)
        for volts, where in ((237, b"7 V below the measured 237 V"), (223, b"7 V above the measured 223 V"),
                             (230, b"the measured voltage"), (231, b"1 V below the measured 231 V"),
                             (190, b"40 V above the measured 190 V"), (270, b"40 V below the measured 270 V")):
            printed = self.done("nearest", "store", "XA", "50", str(volts))
            self.assertEqual(printed, LINE + b"Class B, 230 V nominal: " + where + b".\n")
            self.assertTrue(printed.startswith(self.done("lookup", "store", *DEVICE)))
        self.assertEqual(self.done("nearest", "store", "XA", "50", "405"),
                         LINE_C + b"Class C, 400 V nominal: 5 V below the measured 405 V.\n")
        self.assertEqual(self.done("nearest", "store", "XA", "60", "229"),
                         LINE_60 + b"Class B, 230 V nominal: 1 V above the measured 229 V.\n")

    def worked(self):
        """The lines of the table of docs/FORMATS.md, and each thing that it asks for with what answers."""
        section = formats().split("Worked: a store holds the profiles of the lines\n")[1].split("\n## ")[0]
        lines = [line.encode() for line in re.findall(r"^    (GP1,.*\n)", section, re.M)]
        cases = []
        for row in re.findall(r"^\| (`.*?) \| (.*?) \| ", section, re.M):
            asked = [part.replace("`", "").split(", ") for part in re.split("; | and ", row[0])]
            whole = [part if len(part) == 3 else [*asked[0][:2], *part] for part in asked]
            answers = [re.sub(r"^the (\w+).*", r"\1", answer) for answer in row[1].split("; ")]
            answers = answers * len(whole) if len(answers) == 1 else answers
            cases += zip(whole, answers, strict=True)
        return lines, cases

    def test_worked_table(self):
        """As it stands in the document, over a store that was loaded in any order."""
        lines, cases = self.worked()
        self.assertEqual((len(lines), len(cases)), (3, 14))
        names = dict(zip(("first", "second", "third"), lines))
        for order in itertools.permutations(lines):
            self.store(*order)
            for measured, answer in cases:
                if answer in names:
                    self.found(names[answer], *measured)
                else:
                    self.refused(int(answer), "nearest", "store", *measured)

    def test_of_two_equally_far_the_lower_wins(self):
        """In whichever slots, also where both are just within reach, and where a third is further away."""
        for low, high, volts in ((230, 300, 265), (230, 310, 270), (259, 261, 260), (139, 141, 140), (519, 521, 520),
                                 (100, 140, 120), (500, 580, 540)):
            pair = [line_of(letter="ABCD"[(nominal > 139) + (nominal > 259) + (nominal > 519)], volts=nominal)
                    for nominal in (low, high)]
            further = line_of(letter="A", volts=100) if low > 139 else line_of(letter="D", volts=1000)
            for lines in itertools.permutations([*pair, further]):
                self.stored(*lines)
                self.found(pair[0], "XA", "50", volts)
                self.found(pair[0], "XA", "50", volts - 1)
                self.found(pair[1], "XA", "50", volts + 1)

    def test_reach(self):
        """40 volts on either side and not 41, of the least and the greatest nominal volts of each class."""
        for letter, nominal in zip("AABBCCDD", (100, 139, 140, 259, 260, 519, 520, 1000)):
            line = line_of(letter=letter, volts=nominal)
            self.stored(line)
            for away in (-40, -39, -1, 0, 1, 39, 40):
                self.found(line, "XA", "50", nominal + away)
            for away in (-42, -41, 41, 42):
                self.refused(9, "nearest", "store", "XA", "50", str(nominal + away))

    def test_every_class_of_both_hertz(self):
        """A full store, of two countries: what is asked for near each nominal voltage, and halfway to the next."""
        volts = {("XA", 50): (120, 180, 260, 520), ("XA", 60): (100, 179, 261, 590), ("XB", 50): (139, 140, 300, 1000),
                 ("XB", 60): (110, 259, 331, 666)}
        lines = [line_of(country, letter, hertz, volts=nominal)
                 for (country, hertz), four in volts.items() for letter, nominal in zip("ABCD", four)]
        self.stored(*lines[::-1])
        for (country, hertz), four in volts.items():
            between = [(low + high) // 2 + more for low, high in zip(four, four[1:]) for more in (-1, 0, 1)]
            near = [nominal + away for nominal in four for away in (-41, -40, 0, 40, 41)]
            for measured in {*between, *near}:
                self.asks(lines, country, str(hertz), measured)

    def test_volts_that_may_be_measured(self):
        """0 and 2000 are such, although nothing is stored near them."""
        self.stored(line_of(letter="A", volts=100), line_of(letter="D", volts=1000))
        for volts in (0, 1, 59, 1041, 1999, 2000):
            said = self.refused(9, "nearest", "store", "XA", "50", str(volts))
            self.assertEqual(said, "gridprofile nearest: refused with 9: no stored profile of XA and 50 Hz is within "
                             f"40 V of the measured {volts} V\n  What to do: `gridprofile show STORE` lists what is "
                             "stored, which may be for other hertz or further away.\n")

    def test_volts_that_do_not_exist_are_10(self):
        """After a word that ends the options, since some of them look like options."""
        self.store(LINE)
        for volts in NO_VOLTS:
            said = self.refused(10, "nearest", "store", "XA", "50", "--", volts)
            self.assertIn(": refused with 10: the volts are not a whole number 0 to 2000\n", said)
        self.assertEqual(self.done("nearest", "store", "XA", "50", "--", "230"), suggestion(LINE, 230))

    def test_hertz_that_do_not_exist_are_10(self):
        self.store(LINE, LINE_60)
        for hertz in NO_HERTZ:
            said = self.refused(10, "nearest", "store", "XA", "--", hertz, "230")
            self.assertIn(": refused with 10: the hertz are not 50 or 60\n", said)

    def test_countries_that_do_not_exist_are_10(self):
        self.store(LINE)
        for country in ("", "X", "xa", "Xa", "XAA", "X1", "XA1", "XA ", " XA", "@A", "[A", "A@", "A[", "\u00c4",
                        "XA\u00c4"):
            said = self.refused(10, "nearest", "store", country, "50", "230")
            self.assertIn(": refused with 10: the country is not two letters A to Z\n", said)

    def test_10_says_which(self):
        """Each that is wrong and no other, in the order of the words."""
        country, hertz, volts = ("the country is not two letters A to Z", "the hertz are not 50 or 60",
                                 "the volts are not a whole number 0 to 2000")
        for measured, which in ((("xa", "60", "2000"), (country,)), (("XA", "55", "0"), (hertz,)),
                                (("XA", "60", "2001"), (volts,)), (("xa", "55", "230"), (country, hertz)),
                                (("xa", "50", "2001"), (country, volts)), (("XA", "230", "50.0"), (hertz, volts)),
                                (("50", "XA", "B"), (country, hertz, volts))):
            said = self.refused(10, "nearest", self.store(), *measured)
            self.assertEqual(said, f"gridprofile nearest: refused with 10: {', and '.join(which)}\n  What to do: write "
                             "COUNTRY as two letters A to Z, HERTZ as 50 or 60 and VOLTS as a whole number 0 to 2000, "
                             "as in: XA 50 230.\n")

    def test_nothing_near_is_9(self):
        """An empty store, another country, and other hertz."""
        self.refused(9, "nearest", self.store(), *MEASURED)
        self.store(LINE)
        for country, hertz in (("XA", "60"), ("XB", "50"), ("AX", "50"), ("YA", "50"), ("XB", "60")):
            self.refused(9, "nearest", "store", country, hertz, "230")

    def test_newer_profile_counts(self):
        """With its own volts, and the older one is not found any more; a rate point comes with the line."""
        newer = line_of(serial=13, rate=2000, volts=259)
        self.store(LINE, newer)
        self.found(newer, "XA", "50", 230)
        self.found(newer, "XA", "50", 299)
        self.refused(9, "nearest", "store", "XA", "50", "218")

    def test_nothing_is_loaded(self):
        """What is suggested is there as before, and so is its room: a load goes on as if nobody had asked."""
        self.store(LINE)
        before = self.get("store")
        for volts in range(180, 281, 5):
            self.asks([LINE], "XA", "50", volts)
        self.assertEqual(self.get("store"), before)
        self.refused(7, "load", "store", "key", "package", *DEVICE)

    def test_10_comes_before_1_and_1_before_9(self):
        for size in (0, IMAGE - 1, IMAGE + 1, STORE - 1, STORE + 1):
            self.put("bad", bytes(size))
            for measured in (("XA", "50", "2001"), ("XA", "55", "230"), ("X", "50", "230"), ("XA", "50", "")):
                said = self.refused(10, "nearest", "bad", *measured)
                self.assertEqual(len(said.splitlines()), 2, said)
            said = self.refused(1, "nearest", "bad", *MEASURED)
            self.assertIn("it must have 1564 or 1532\n", said)

    def test_store_from_the_stream(self):
        store = self.get(self.store(LINE))
        self.assertEqual(self.done("nearest", "-", "XA", "50", "237", stdin=store), suggestion(LINE, 237))
        printed, said = self.warned("nearest", "-", "XA", "50", "237", stdin=store[:IMAGE])
        self.assertEqual(printed, suggestion(LINE, 237))
        self.assertIn("warning: standard input: this store has no checksum", said)
        self.refused(9, "nearest", "-", "XA", "60", "237", stdin=store)
        ran = self.run_in("nearest", "-", *MEASURED, stdin=flip(store, 5))
        self.assertEqual((ran.returncode, ran.stdout), (DAMAGED_STORE, b""))
        self.assertIn(b"the store standard input is damaged: its checksum does not fit", ran.stderr)


WORDS = """country XA, class B, 50 Hz, serial 12
  nominal         230 V, 50 Hz
  over-voltage    115.0 % of nominal (264.500 V), after 100 ms
  under-voltage   80.0 % of nominal (184.000 V), after 1500 ms
  over-frequency  1500 mHz above nominal (51.500 Hz), after 100 ms
  under-frequency 2500 mHz below nominal (47.500 Hz), after 100 ms
"""
WORDS_60 = (WORDS.replace("serial 12", "serial 1").replace("50 Hz", "60 Hz").replace("51.500", "61.500")
            .replace("47.500", "57.500"))
RATE_WORDS = WORDS.replace("serial 12", "serial 13") + \
    "  rate of change  2000 mHz per second (2.000 Hz/s), after 500 ms\n"


class Show(Case):
    def test_package(self):
        shown = self.done("show", self.package()).decode()
        told = "A package of category 1. Showing does not verify it; `verify` and `load` do.\n"
        self.assertEqual(shown, told + WORDS)

    def test_line(self):
        for line, words in ((LINE, WORDS), (LINE_60, WORDS_60)):
            self.assertEqual(self.done("show", self.put("line", line)).decode(), "A line, not signed.\n" + words)

    def test_rate_point(self):
        """It comes last, in a line, a package and a store; of a profile without one nothing is said of it."""
        self.assertEqual(self.done("show", self.put("line", RATE_LINE)).decode(), "A line, not signed.\n" + RATE_WORDS)
        for category in CATEGORIES:
            shown = self.done("show", self.package(RATE_LINE, category=category)).decode()
            self.assertEqual(shown.partition("\n")[2], RATE_WORDS)
        shown = self.done("show", self.store(RATE_LINE, LINE_C)).decode()
        self.assertIn(RATE_WORDS, shown)
        self.assertEqual(shown.count("rate of change"), 1)

    def test_key(self):
        shown = self.done("show", self.key()).decode()
        self.assertEqual(shown, "A public key of category 1.\n" + fingerprint(self.get("key")))
        self.assertRegex(shown, r"\nkey fingerprint:( [0-9a-f]{4}){8}\n$")
        for key in (b"\xff" * 77, flip(self.get("key"), 76, 0x80)):
            self.assertIn("a field is out of range", self.refused(3, "show", self.put("bad", key)))
        for value in range(8):
            shown = self.done("show", self.put("key", bytes([value]) * 77)).decode()
            self.assertEqual(shown, "A public key of category 1.\n" + fingerprint(self.get("key")))

    def test_store(self):
        shown = self.done("show", self.store(LINE, LINE_C)).decode()
        self.assertTrue(shown.startswith(held(2)), shown)
        self.assertIn(WORDS, shown)
        self.assertIn("country XA, class C, 50 Hz, serial 5\n  nominal         400 V, 50 Hz\n", shown)
        self.assertIn("  under-voltage   85.0 % of nominal (340.000 V), after 1500 ms\n", shown)
        self.assertEqual(self.done("show", self.store(name="empty")).decode(), held(0))

    def test_store_in_order(self):
        """By country, class and hertz, whichever slots hold the profiles and whatever their serials."""
        triples = ("AZ", "D", 60), ("BA", "A", 50), ("BA", "A", 60), ("BA", "C", 50), ("BC", "B", 60)
        lines = [line_of(*triple, serial=9 - at) for at, triple in enumerate(triples)]
        words = [self.done("show", self.put("line", line)).decode().partition("\n")[2] for line in lines]
        for order in itertools.permutations(lines):
            shown = self.done("show", self.put("store", store_of(*order))).decode()
            self.assertEqual(shown, held(5) + "".join(words))

    def test_damaged_slots_in_order(self):
        """A profile that breaks a rule is named by its slot, where it would be listed; of equals the first slot comes
        first."""
        slots = [image_of("XB"), bytes(PROFILE), image_of(hertz=55), image_of(hertz=60), image_of(serial=9), image_of()]
        ran = self.run_in("show", self.put("store", sealed(b"".join(slots).ljust(IMAGE, b"\0"))))
        told = re.findall(r"^(?:country|slot) .*$", ran.stdout.decode(), re.M)
        wanted = ["country XA, class B, 50 Hz, serial 9", "country XA, class B, 50 Hz, serial 12",
                  "slot 3: damaged, breaks a rule", "country XA, class B, 60 Hz, serial 12",
                  "country XB, class B, 50 Hz, serial 12"]
        self.assertEqual((ran.returncode, told), (DAMAGED_STORE, wanted))

    def test_every_digit_is_shown(self):
        line = b"GP1,QZ,D,4294967295,1000,60,1499,60000,7,20,1,59999,-4999,33\n"
        shown = self.done("show", self.put("line", line)).decode()
        for words in ("country QZ, class D, 60 Hz, serial 4294967295\n", "1000 V, 60 Hz",
                      "149.9 % of nominal (1499.000 V), after 60000 ms", "0.7 % of nominal (7.000 V), after 20 ms",
                      "1 mHz above nominal (60.001 Hz), after 59999 ms",
                      "4999 mHz below nominal (55.001 Hz), after 33 ms"):
            self.assertIn(words, shown)
        for rate, words in ((100, "0.100"), (101, "0.101"), (999, "0.999"), (1000, "1.000"), (9876, "9.876"),
                            (10000, "10.000")):
            shown = self.done("show", self.put("line", line_of(rate=rate))).decode()
            self.assertIn(f"\n  rate of change  {rate} mHz per second ({words} Hz/s), after 500 ms\n", shown)

    def test_other_sizes_are_1(self):
        for size in (0, 41, 85, 114, 116, 152, 154, 1023, 1025, 1055, 1057, 1215, 1217, 1247, 1249, 1531, 1533, 1563,
                     1565, 19193, 19237, 42723, 42767, 76339, 76383, 9999):
            self.assertIn("bad has the size of no line, key, store or package, and is no class table\n",
                          self.refused(1, "show", self.put("bad", bytes(size))))

    def test_what_breaks_a_rule_is_5(self):
        package = self.get(self.package())[:SIGNATURE] + BAD_LINE
        for data in (BAD_LINE, package):
            ran = self.run_in("show", self.put("bad", data))
            self.assertEqual(ran.returncode, 5)
            self.assertIn(b"refused with 5: ", ran.stderr)
            self.assertIn(b"field 6, ", ran.stderr)
            self.assertNotIn(b"55", ran.stdout)

    def test_what_has_the_size_of_a_line_is_taken_for_one(self):
        for size in (42, 47, 49, 63, 65, 72, 73, 76, 78, 84):
            ran = self.run_in("show", self.put("bad", b"x" * size))
            self.assertEqual((ran.returncode, ran.stdout), (5, b"A line, not signed.\n"))

    def test_what_is_wrong_comes_after_what_is_shown(self):
        """Where both streams go to one file."""
        for data, first in ((BAD_LINE, b"A line, not signed.\n"), (bytes(IMAGE - 1) + b"x", b"A store with 0 of 16")):
            ran = self.run_in("show", self.put("bad", data), stderr=subprocess.STDOUT)
            told = [ran.stdout.find(words) for words in (first, b"What to do: ")]
            self.assertTrue(0 <= told[0] < told[1], ran.stdout)

    def test_line_of_a_wrong_length_is_told(self):
        for line in (LINE * 2, LINE[:30]):
            ran = self.run_in("show", self.put("bad", line))
            self.assertEqual((ran.returncode, ran.stdout), (1, b"A line, not signed.\n"))
            self.assertIn(b"refused with 1: ", ran.stderr)


def listing(text):
    """The rows that the requirements make of lines that are all good: the last of each growing serial."""
    serials = {}
    for line in text.decode().splitlines():
        _, country, letter, serial, _, hertz = line.split(",")[:6]
        triple = country, letter, int(hertz)
        if int(serial) > serials.get(triple, 0) and (triple in serials or len(serials) < 16):
            serials[triple] = int(serial)
    return rows_of(serials)


def lines_for(rows):
    """A line for each of these rows."""
    fields = (row.split(",") for row in rows)
    return b"".join(line_of(country, letter, int(hertz), int(serial)) for country, letter, hertz, serial in fields)


class Preview(Case):
    # As they stand in a listing. Between neighbours decide the first letter, hertz, class, and twice the second letter;
    # whatever counts less than one of these, the serial too, is the other way round where that one decides.
    ROWS = ["AZ,D,60,30", "BA,A,50,7", "BA,A,60,4", "BA,C,50,2", "BC,B,60,1", "BD,B,50,99"]
    MANY = b"".join(line_of("X" + chr(65 + n * 7 % 6), "ABCD"[n * 5 % 4], (50, 60)[n // 12 % 2], 1 + n * 37 % 101)
                    for n in range(900))

    def listed(self, *words, **options):
        """What it prints, whatever it says of skipped lines; test_cli_lines looks at that."""
        ran = self.run_in(*words, **options)
        self.assertEqual(ran.returncode, 0, ran.stderr)
        return ran.stdout

    def agree(self, text, rows):
        """The program, from a file and from standard input, and the proved program beside it."""
        shown = [self.listed("preview", self.put("lines", text))]
        shown += [self.listed("preview", *words, stdin=text) for words in ((), ("-",))]
        if os.path.exists(PREVIEW):
            shown.append(subprocess.run([PREVIEW], input=text, stdout=subprocess.PIPE, check=True).stdout)
        for one in shown:
            self.assertEqual(one, listing_of(rows))
        return shown

    def test_example(self):
        self.agree(LINE + LINE_C, ["XA,B,50,12", "XA,C,50,5"])
        self.agree(LINE + LINE_C + RATE_LINE + LINE_60, ["XA,B,50,13", "XA,B,60,1", "XA,C,50,5"])

    def test_every_order_of_the_worked_lines(self):
        for lines in itertools.permutations((line_of("XB", hertz=60, serial=9), LINE_C, LINE_60, LINE)):
            self.agree(b"".join(lines), ["XA,B,50,12", "XA,B,60,1", "XA,C,50,5", "XB,B,60,9"])

    def test_lines_in_descending_order(self):
        text = lines_for(self.ROWS[::-1])
        self.assertEqual(listing(text), self.ROWS)
        self.agree(text, self.ROWS)

    def test_each_two_rows(self):
        """Their lines stand the other way round."""
        for pair in itertools.combinations(self.ROWS, 2):
            self.agree(lines_for(pair[::-1]), pair)

    def test_both_hertz_of_a_country_and_class(self):
        """Each by its own serials, in either order."""
        for text in (LINE + LINE_60, LINE_60 + LINE):
            self.agree(text, ["XA,B,50,12", "XA,B,60,1"])
            self.agree(text + line_of(serial=11) + line_of(hertz=60, serial=2), ["XA,B,50,12", "XA,B,60,2"])
            self.agree(text + line_of(serial=13) + line_of(hertz=60, serial=1), ["XA,B,50,13", "XA,B,60,1"])

    def test_both_hertz_of_several_classes(self):
        """Each class has its 50 before its 60, also where all lines of 60 come first."""
        two = ["XA,A,50,1", "XA,A,60,2", "XA,D,50,2", "XA,D,60,1"]
        for order in itertools.permutations(two):
            self.agree(lines_for(order), two)
        four = [f"XA,{letter},{hertz},{100 - hertz}" for letter in "ABCD" for hertz in (50, 60)]
        for order in (four[::-1], four[1::2] + four[::2], four[::-2] + four[-2::-2]):
            self.agree(lines_for(order), four)

    def test_sixteen_rows(self):
        """Given in descending order, in ascending, and as chance has it: of few countries, and of as many."""
        draw = random.Random(106)
        for triples in (itertools.product(("AZ", "ZA"), "ABCD", (50, 60)),
                        itertools.product(("AB", "BA", "BB", "CA"), "AD", (50, 60)),
                        zip(map("".join, itertools.product("ABYZ", repeat=2)), "DCBA" * 4, (60, 60, 50, 50) * 4)):
            rows = [f"{country},{letter},{hertz},{draw.randint(1, 4294967295)}" for country, letter, hertz in triples]
            self.assertEqual(len(rows), 16)
            for order in (rows[::-1], rows, *(draw.sample(rows, 16) for _ in range(6))):
                self.assertEqual(listing(lines_for(order)), rows)
                self.agree(lines_for(order), rows)

    def test_newer_serial_does_not_move_its_row(self):
        """Whether it comes last or right behind the older one."""
        for at, row in enumerate(self.ROWS):
            newer = row.rpartition(",")[0] + ",4294967295"
            rows = [*self.ROWS[:at], newer, *self.ROWS[at + 1:]]
            for order in ([*self.ROWS, newer], [*self.ROWS[::-1], newer], [*self.ROWS[:at], row, *rows[at:]]):
                self.agree(lines_for(order), rows)

    def test_two_runs_give_the_same_paper(self):
        """Of the same lines, and of those alone that were stored, in another order."""
        self.put("lines", self.MANY), self.put("stored", lines_for(reversed(listing(self.MANY))))
        papers = [self.listed("preview", name) for name in ("lines", "lines", "stored")]
        self.assertEqual(papers, papers[:1] * 3)

    def test_seventeen_triples(self):
        """The last is skipped, also where it is the other hertz of a country and class that is listed."""
        both = list(itertools.product(("XA", "XB", "XC"), "ABCD", (50, 60)))
        for triples in (both[:17], [*both[:16], both[-1]], [*both[::2][:12], *both[1::2][:5]]):
            lines = [line_of(*triple) for triple in triples]
            rows = [f"{country},{letter},{hertz},12" for country, letter, hertz in sorted(triples[:16])]
            text = b"".join(lines)
            self.assertEqual((len(lines), listing(text)), (17, rows))
            self.agree(text, rows)
            newer = text + line_of(*triples[15], serial=13) + line_of(*triples[16], serial=99)
            self.agree(newer, listing(newer))

    def test_longest_listing(self):
        """16 rows of the greatest length: it fills what is lent."""
        lines = [line_of(*triple, serial=4294967295) for triple in itertools.product(("XA", "ZZ"), "ABCD", (50, 60))]
        text = b"".join(lines)
        for one in self.agree(text, listing(text)):
            self.assertEqual(len(one), 27 + 16 * 19)

    def test_nothing(self):
        for text in (b"", b"\n\n\n", LINE[:-1], BAD_LINE, b"x" * 65536, bytes(range(256)) * 200):
            self.agree(text, [])

    def test_bad_and_unfinished_lines_are_skipped(self):
        self.agree(BAD_LINE + LINE + b"\n" + LINE_C[:-1], ["XA,B,50,12"])

    def test_many_lines(self):
        self.assertLessEqual(len(self.MANY), 65536)
        self.agree(self.MANY, listing(self.MANY))

    def test_longest_input(self):
        text = LINE + b"\n" * (65536 - len(LINE))
        self.agree(text, ["XA,B,50,12"])
        self.assertEqual(self.listed("preview", stdin=text + b"\n"), b"too long\n")
        self.assertEqual(self.listed("preview", "/dev/zero"), b"too long\n")


class Usage(Case):
    COUNTS = {"new-key": (2, 2), "key": (2, 2), "sign": (3, 3), "verify": (2, 2), "new-store": (1, 1),
              "classes": (1, 2), "load": (6, 6), "lookup": (4, 4), "nearest": (4, 4), "show": (1, 1), "preview": (0, 1),
              "evaluate": (0, 1)}

    def test_help(self):
        shown = self.done("help").decode()
        for words in (["--help"], ["-h"], ["help", "--help"], ["help", "-h"], ["help", "help"]):
            self.assertEqual(self.done(*words).decode(), shown)
        for name in self.COUNTS:
            self.assertRegex(shown, rf"(?m)^  {name} ")
        for number in range(1, 15):
            self.assertRegex(shown, rf"(?m)^  {number:2}  \w")
        self.assertLessEqual(max(len(line) for line in shown.splitlines()), 100)
        for number in (WRONG_USAGE, DAMAGED_STORE, SELF_CHECK_FAILED, NO_RANDOM_BYTES, FILE_TROUBLE):
            self.assertRegex(shown, rf"[;:]\s{number} ")
        self.assertIn("\nCOUNTRY is two letters A to Z, CLASS a letter of the store's class table (A to D where it has "
                      "the\nbuilt-in one), HERTZ 50 or 60, VOLTS 0 to 2000.\n", shown)
        self.assertIn("\nFor nearest, 9 is that no profile of COUNTRY and HERTZ is within 40 volts; 10 is ", shown)
        self.assertIn("\nFor evaluate, 1 is a line of more than 400 bytes, or a sheet of more than 65536.\n", shown)

    def test_help_of_a_command(self):
        for name in self.COUNTS:
            shown = self.done("help", name).decode()
            self.assertTrue(shown.startswith(f"usage: gridprofile {name} "), shown)
            for words in ([name, "--help"], [name, "-h"], [name, "a", "b", "--help"], [name, "--force", "-h"]):
                self.assertEqual(self.done(*words).decode(), shown)

    def test_help_of_nearest(self):
        """It tells the rule, in lines that a terminal has room for."""
        shown = self.done("help", "nearest").decode()
        self.assertTrue(shown.startswith("usage: gridprofile nearest STORE COUNTRY HERTZ VOLTS\n\nPrint the stored "
                                         "line nearest to measured VOLTS.\n"), shown)
        for words in ("whatever their class", "most 40 away", "equally far the lower", "0 to 2000", "is loaded"):
            self.assertIn(words, shown)
        self.assertLessEqual(max(len(line) for line in shown.splitlines()), 100)

    def test_help_of_preview(self):
        """It tells the order of the rows, in lines that a terminal has room for."""
        shown = self.done("help", "preview").decode()
        self.assertIn(" the rows stand in the order of country, class and hertz.", shown)
        self.assertLessEqual(max(len(line) for line in shown.splitlines()), 100)

    def test_help_of_the_line(self):
        shown = self.done("help", "line").decode()
        examples = re.findall(r"^  (GP[12],.*\n)", shown, re.M)
        self.assertEqual([example[:4] for example in examples], ["GP1,", "GP2,"])
        for example in examples:
            self.done("show", self.put("line", example.encode()))
        self.assertEqual(re.findall(r"^ +(\d+) [a-z]", shown, re.M), [str(at) for at in range(1, 17)])

    def test_version(self):
        with open(os.path.join(ROOT, "include/gridprofile.h"), encoding="utf-8") as file:
            version = re.search(r'GRIDPROFILE_VERSION "(.*)"', file.read()).group(1)
        self.assertEqual(self.done("--version").decode(), f"gridprofile {version}\n")

    def wrong(self, *words):
        """Wrong usage is told in three lines: what is wrong, what is expected, and where there is more."""
        said = self.troubled(WRONG_USAGE, *words).splitlines()
        self.assertEqual(len(said), 3, said)
        self.assertTrue(said[1].startswith("usage: gridprofile "), said)
        self.assertRegex(said[2], "^`gridprofile help.*` says more.$")
        return said

    def test_wrong_usage(self):
        for words in ([], [""], ["nothing"], ["Key"], ["keys", "a", "b"], ["help", "nothing"], ["--force"]):
            said = self.wrong(*words)
            for name in self.COUNTS:
                self.assertIn(f" {name}", said[1])

    def test_wrong_counts(self):
        for name, (least, most) in self.COUNTS.items():
            for count in {max(least - 1, 0), most + 1, 0, 9} - set(range(least, most + 1)):
                said = self.wrong(name, *["x"] * count)
                self.assertIn(f"gridprofile {name}: ", said[0])
                self.assertTrue(said[1].startswith(f"usage: gridprofile {name} "), said)

    def test_command_without_its_hertz(self):
        """As it was written before they counted."""
        self.package(), self.store()
        for words in (["load", "store", "key", "package", "XA", "B"], ["lookup", "store", "XA", "B"]):
            said = self.wrong(*words)
            self.assertEqual(said[0], f"gridprofile {words[0]}: an argument is missing")
            self.assertIn(" COUNTRY CLASS HERTZ", said[1])

    def test_wrong_options(self):
        self.package()
        for words in (["show", "--force", "key"], ["key", "private", "out", "--forc"],
                      ["key", "private", "out", "-key"],
                      ["key", "private", "out", "--key", "key"], ["lookup", "store", *DEVICE, "--wait", "1"],
                      ["key", "private", "out", "--wait"], ["key", "private", "out", "--wait", "x"],
                      ["key", "private", "out", "--wait", "-1"], ["key", "private", "out", "--wait", ""],
                      ["key", "private", "out", "--wait", "86401"], ["key", "private", "out", "--wait", "9" * 30],
                      ["key", "private", "out", "--wait", "3s"], ["key", "private", "out", "--forc", "5"],
                      ["key", "private", "out", "-force", "5"], ["sign", "private", "line", "out", "-key", "5"],
                      ["key", "private", "out", "--force]", "5"],
                      ["key", "private", "out", "--wait SECONDS", "5"],
                      ["key", "private", "out", "--wait SECONDS]", "5"],
                      ["load", "store", "key", "package", *DEVICE, "--force"],
                      ["load", "store", "key", "package", "XA", "B", "-50"], ["lookup", "store", "XA", "B", "-50"],
                      ["nearest", "store", "XA", "50", "-1"], ["nearest", "store", *MEASURED, "--force"],
                      ["verify", "key", "package", "--wait", "1"],
                      ["evaluate", "line", "--force"], ["evaluate", "-x"], ["evaluate", "line", "--wait", "1"],
                      ["sign", "private", "line", "out", "--key"], ["sign", "private", "line", "out", "-x"],
                      ["sign", "private", "line", "out", "--key", "key", "--key", "key"]):
            self.wrong(*words)
        self.assertRegex(self.wrong("key", "private", "out", "--wait", "")[0], ', not ""$')

    def test_values_behind_an_equals_sign(self):
        self.package()
        self.done("sign", "private", "line", "out", "--wait=3", "--key=key")
        for words in (["--force=1"], ["--wait="], ["--wait=x"], ["--key=key", "--key", "key"], ["--=1"]):
            self.wrong("sign", "private", "line", "out2", *words)

    def test_value_that_looks_like_a_call_for_help(self):
        self.package()
        self.troubled(FILE_TROUBLE, "sign", "private", "line", "out", "--key", "-h")

    def test_two_streams_are_told_with_the_arguments_of_the_command(self):
        self.package()
        self.assertIn("usage: gridprofile verify KEY PACKAGE", self.wrong("verify", "-", "-")[1])
        self.assertIn("usage: gridprofile sign PRIVATE", self.wrong("sign", "-", "-", "out")[1])

    def test_options_stand_anywhere(self):
        self.put("private", PRIVATE), self.put("--force", b"x" * 90)
        self.done("key", "--force", "--wait", "3", "private", "--", "--force")
        self.assertEqual(len(self.get("--force")), 77)
        self.troubled(FILE_TROUBLE, "show", "--", "--help")
        self.assertIn("cannot read --: ", self.troubled(FILE_TROUBLE, "show", "--", "--"))

    def test_seconds(self):
        self.put("private", PRIVATE)
        for seconds in ("0", "1", "86400"):
            self.done("key", "private", "out", "--force", "--wait", seconds)


def readme_line(start):
    """The one line of README that begins so, as a reader would paste it."""
    with open(os.path.join(ROOT, "README.md"), encoding="utf-8") as file:
        found = [line.strip() for line in file if line.startswith("    " + start)]
    if len(found) != 1:
        raise AssertionError(f"README has {len(found)} lines that begin with {start}")
    return found[0]


def blocks_of(text):
    """The indented blocks, in their order and without the indent."""
    return [re.sub("(?m)^    ", "", block) for block in re.findall(r"\n\n((?:    .*\n)+)", text)]


def readme_blocks():
    """The blocks of commands; the last block of the README is a list of places."""
    with open(os.path.join(ROOT, "README.md"), encoding="utf-8") as file:
        return blocks_of(file.read().split("## Where things are")[0])


def readme_shown():
    """What commands print, as it stands there: `show` of a line, and `evaluate`."""
    with open(os.path.join(ROOT, "README.md"), encoding="utf-8") as file:
        return [shown.encode() for shown in re.findall(r"\n```\n((?:.+\n)+)```\n", file.read())]


class Readme(Case):
    def test_blocks_one_after_the_other(self):
        """As a reader pastes them into one shell, in a folder with what the repository has. The archive is there
        already, so that the prover stands aside: what it does is the gate's first part."""
        for name in ("Makefile", "include", "examples", "tools", "crates.txt", "crates"):
            os.symlink(os.path.join(ROOT, name), self.path(name))
        os.makedirs(self.path("target/staticlib")), os.mkdir(self.path("bin"))
        shutil.copy2(ARCHIVE, self.path("target/staticlib"))
        self.put("bin/rt", b"#!/bin/sh\n")
        os.chmod(self.path("bin/rt"), 0o755)
        blocks = readme_blocks()
        self.assertGreaterEqual(len(blocks), 3)
        ran = subprocess.run(["sh", "-e"], input="\n".join(blocks).encode(), cwd=self.folder, capture_output=True,
                             check=False, env={**os.environ, "TMPDIR": self.folder,
                                               "PATH": self.path("bin") + ":" + os.environ["PATH"]})
        self.assertEqual((ran.returncode, ran.stderr), (0, b""), ran.stdout)
        self.assertEqual(len(readme_shown()), 2)
        for told in (b"\nDone: ", b"\n" + LINE, b"load answers 0\n", *readme_shown(),
                     b"\n" + LINE + b"Class B, 230 V nominal: 7 V below the measured 237 V.\n"):
            self.assertIn(told, ran.stdout)

    def test_every_command_is_in_the_table(self):
        """With the arguments that its own help names."""
        with open(os.path.join(ROOT, "README.md"), encoding="utf-8") as file:
            named = dict(re.findall(r"^\| `([a-z-]+) ([A-Z\[\] ]+)` \|", file.read(), re.M))
        self.assertEqual(sorted(named), sorted(Usage.COUNTS))
        for name, arguments in named.items():
            synopsis = self.done("help", name).decode().splitlines()[0]
            self.assertEqual(synopsis.split(" [--")[0], f"usage: gridprofile {name} {arguments}")

    def test_order_of_the_preview(self):
        """In the words of its help."""
        with open(os.path.join(ROOT, "README.md"), encoding="utf-8") as file:
            row = re.search(r"^\| `preview .*\| lists, (in the order of .+), what ", file.read(), re.M)
        self.assertIn(f" {row.group(1)}.", self.done("help", "preview").decode())


def shortened(data):
    """As the document writes what is too long for a line."""
    return f"{data[:8].hex(' ').upper()} .. {data[-8:].hex(' ').upper()}"


class Formats(Case):
    def test_worked_bytes_are_those_of_the_examples(self):
        text = formats()
        hexadecimal = "".join(re.findall(r"\b[0-9A-F]{2}(?: [0-9A-F]{2}){7,}", text)).replace(" ", "")
        key, package = self.get(self.key()), self.get(self.package())
        wanted = {"public seed": key[:32], "packed syndrome": key[32:], "digest of the key": shake(key, 32),
                  "c": package[32:64], "h": package[64:96], "seed of round 1": package[96:112],
                  "c0(1)": package[112:144], "last bytes": package[19120:SIGNATURE],
                  "digest of the signature": shake(package[:SIGNATURE], 32),
                  "digest of the package": shake(package, 32)}
        self.assertEqual([name for name, data in wanted.items() if data.hex().upper() not in hexadecimal], [])

    def test_fingerprints(self):
        for category in CATEGORIES:
            key = self.get(self.key(category=category))
            self.assertIn("\n    " + fingerprint(key, category).split(": ")[1], formats())

    def test_worked_bytes_of_categories_3_and_5(self):
        for category, first_round in ((THIRD, {"seed of round 1": (0, 24), "c0(1)": (24, 72)}),
                                      (FIFTH, {"y": (0, 220), "sigma": (220, 315), "c1(1)": (315, 379)})):
            seed, (private, master, salt) = category.seed, category.seeds()
            key, package = self.get(self.key(category=category)), self.get(self.package(category=category))
            seeds = category.shake(b"\x09" + master + salt, category.rounds * category.master)
            wanted = {"secret seed": category.shake(b"\x0c" + private, 2 * seed)[:seed], "public seed": key[:seed],
                      "packed s": key[seed:], "c": package[seed:2 * seed], "h": package[2 * seed:3 * seed],
                      "first round seed": seeds[:category.master], "last round seed": seeds[-category.master:]}
            wanted |= {name: package[3 * seed + at:3 * seed + end] for name, (at, end) in first_round.items()}
            text = formats()
            self.assertEqual([name for name, data in wanted.items() if shortened(data) not in text], [])
            for whole in (key, package, package[:category.signature]):
                self.assertIn(category.shake(whole, 32).hex(" ").upper() + "\n", text)

    def test_package_of_the_line_with_a_rate_point(self):
        """It has a master seed and a salt of its own."""
        self.package(RATE_LINE), self.put("master", bytes(range(132, 148))), self.put("salt", bytes(range(64, 96)))
        self.done("sign", "private", "line", "out", *GIVEN)
        package = self.get("out")
        with open(os.path.join(ROOT, "examples/xa-b.rate.package"), "rb") as file:
            self.assertEqual(file.read(), package)
        for whole in (package[:SIGNATURE], package):
            self.assertIn("\n    " + shake(whole, 32).hex(" ").upper() + "\n", formats())

    def test_worked_preview(self):
        """In every order of its lines; and what the worked `GP2` line after them changes."""
        section = formats().split("\n## Preview\n")[1].split("\n## ")[0]
        lines, shown = (block.encode() for block in blocks_of(section))
        words = " ".join(section.split())
        self.assertIn(" and it is the same for these four lines in any other order. ", words)
        row, newer, older = re.search(r" With the worked `GP2` line after them, `(.*?)` has (\d+) in place of (\d+); "
                                      r"its row stays where it is\.", words).groups()
        then = shown.replace(f"\n{row},{older}\n".encode(), f"\n{row},{newer}\n".encode())
        self.assertNotEqual(then, shown)
        self.assertIn(f"\n    {RATE_LINE.decode()}", formats())
        orders = list(itertools.permutations(lines.splitlines(keepends=True)))
        self.assertEqual(len(orders), 24)
        for text in map(b"".join, orders):
            self.assertEqual(self.done("preview", stdin=text), shown)
            self.assertEqual(self.done("preview", stdin=text + RATE_LINE), then)

    def commands(self, category):
        """Those of the document, as a reader pastes them, with the words that its table has for the category."""
        section = formats().split("## Reproducing the worked bytes")[1]
        block = re.search(r"\n((?:    .*\n)+)", section).group(1)
        rows = re.findall(r"^\| [a-z].*", section, re.M)
        self.assertEqual(len(rows), 6)
        for cells in ([cell.strip(" `") for cell in row.split("|")[2:-1]] for row in rows):
            old, new = cells[0], cells[CATEGORIES.index(category)]
            place = re.escape(old) if old else "(?<=gridprofile key)|(?<=gridprofile sign)"
            block, count = re.subn(place, new if old else " " + new, block)
            self.assertGreaterEqual(count, 1)
        return "\n".join(line for line in block.splitlines() if "openssl" not in line)

    def test_reproducing_them(self):
        for category in CATEGORIES:
            folder = self.path(str(category.number))
            os.makedirs(os.path.join(folder, "target/cli"))
            os.symlink(PROGRAM, os.path.join(folder, "target/cli/gridprofile"))
            os.symlink(os.path.join(ROOT, "examples"), os.path.join(folder, "examples"))
            ran = subprocess.run(["sh", "-e"], input=self.commands(category).encode(), cwd=folder, capture_output=True,
                                 check=False)
            self.assertEqual((ran.returncode, ran.stderr), (0, b""))
            of = "" if category is FIRST else f".category{category.number}"
            with open(os.path.join(ROOT, f"examples/xa-b{of}.package"), "rb") as file:
                self.assertEqual(self.get(f"{category.number}/package"), file.read())


class Firmware(Case):
    SOURCE = "examples/firmware.c"
    PROGRAM = "target/firmware"
    TAKES = "memcpy(cells[bank] + offset, bytes, length);"

    def setUp(self):
        """Builds it by the README's own line."""
        super().setUp()
        self.command = shlex.split(readme_line("cc "))
        self.build(self.command)

    def build(self, command):
        built = subprocess.run(command, cwd=ROOT, capture_output=True, check=False)
        self.assertEqual((built.returncode, built.stdout + built.stderr), (0, b""))

    def with_other(self, old, new, line=LINE):
        """A firmware whose simulated flash or setting is another: how it ends with a package, and what it says."""
        with open(os.path.join(ROOT, self.SOURCE), encoding="utf-8") as file:
            text = file.read()
        self.assertEqual(text.count(old), 1, old)
        changed = {self.SOURCE: self.path(self.put("other.c", text.replace(old, new).encode())),
                   self.PROGRAM: self.path("other")}
        self.assertLessEqual(set(changed), set(self.command))
        self.build([changed.get(word, word) for word in self.command] + ["-I", "examples"])
        package = self.get(self.package(line))
        ran = subprocess.run([self.path("other")], input=package, capture_output=True, check=False)
        return ran.returncode, ran.stdout

    def test_good_package_by_the_line_of_the_readme(self):
        ran = subprocess.run(readme_line("target/firmware "), shell=True, cwd=ROOT, capture_output=True, check=False)
        said = b"verify answers 0\nload answers 0\ncommitted\nlookup answers 0\n" + LINE
        self.assertEqual((ran.returncode, ran.stdout), (0, said + b"load of the same package again answers 7\n"))

    def test_package_with_a_rate_point(self):
        package = self.get(self.package(RATE_LINE))
        ran = subprocess.run([os.path.join(ROOT, self.PROGRAM)], input=package, capture_output=True, check=False)
        said = b"verify answers 0\nload answers 0\ncommitted\nlookup answers 0\n" + RATE_LINE
        self.assertEqual((ran.returncode, ran.stdout), (0, said + b"load of the same package again answers 7\n"))

    def test_device_of_each_category(self):
        """It takes the package of its own category, and refuses those of the others with 1."""
        packages = [self.get(self.package(category=category)) for category in CATEGORIES]
        for at, category in enumerate(CATEGORIES):
            made = self.path("device")
            self.build([made if word == self.PROGRAM else word for word in self.command] +
                       [f"-DCATEGORY={category.number}"])
            for package, answer in zip(packages, (0 if other == at else 1 for other in range(len(packages)))):
                ran = subprocess.run([made], input=package, capture_output=True, check=False)
                said = b"verify answers %d\nload answers %d\n" % (answer, answer)
                self.assertEqual((ran.returncode, ran.stdout[:len(said)]), (answer, said))

    def railway(self, package, *more):
        """How a device of the railway ends with a package, and what it says after it has left the factory."""
        made = self.path("device")
        self.build([made if word == self.PROGRAM else word for word in self.command] + ["-DRAILWAY", *more])
        ran = subprocess.run([made], input=package, capture_output=True, check=False)
        factory = b"loading the classes answers 0\ncommitted\ncommitted\n"
        self.assertTrue(ran.stdout.startswith(factory), ran.stdout)
        return ran.returncode, ran.stdout[len(factory):]

    def test_device_with_a_class_table(self):
        """It goes by the table that it got in the factory, in every category, and keeps it."""
        for category in CATEGORIES:
            package = self.get(test_cli_classes.railway_package(self, category=category))
            said = b"verify answers 0\nload answers 0\ncommitted\nlookup answers 0\n" + RAILWAY_LINE + \
                b"reading it answers 0\nnominal volts 750\nload of the same package again answers 7\n" \
                b"loading the classes again answers 14\n"
            self.assertEqual(self.railway(package, f"-DCATEGORY={category.number}"), (0, said))

    def test_line_of_another_table_on_a_device_with_one(self):
        """And the line of such a device on one that has none. While nothing is stored, a table may come again."""
        said = b"verify answers 0\nload answers %d\nlookup answers 9\nload of the same package again answers %d\n"
        self.assertEqual(self.railway(self.get(self.package())),
                         (5, said % (5, 5) + b"loading the classes again answers 0\n"))
        package = self.get(test_cli_classes.railway_package(self))
        ran = subprocess.run([os.path.join(ROOT, self.PROGRAM)], input=package, capture_output=True, check=False)
        self.assertEqual((ran.returncode, ran.stdout), (5, said % (5, 5)))

    def test_table_of_the_firmware_is_the_example(self):
        with open(os.path.join(ROOT, self.SOURCE), encoding="utf-8") as file:
            text = re.search(r' table\[\] = "(.*)";', file.read()).group(1)
        self.assertEqual(text.replace("\\n", "\n").encode(), example("railway.classes"))

    def test_flash_that_does_not_take_the_new_store(self):
        """The last byte of the second record is lost: the device goes on with the store that it had."""
        ran = self.with_other(self.TAKES, self.TAKES.replace("length", "length - bank"))
        said = b"verify answers 0\nload answers 0\ncommit answers 3\nlookup answers 9\n"
        self.assertEqual(ran, (100, said + b"load of the same package again answers 0\n"))

    def test_banks_in_a_program_in_cpp(self):
        main = b'#include "banks.h"\nint main() { return banks_format(nullptr) == BANKS_DONE; }\n'
        include = ["-Wall", "-Wextra", "-Werror", "-pedantic", "-I", "include", "-I", "examples"]
        self.build(["gcc", "-std=c11", *include, "-c", "examples/banks.c", "-o", self.path("banks.o")])
        self.build(["g++", "-std=c++11", *include, self.path(self.put("main.cpp", main)), self.path("banks.o"), ARCHIVE,
                    "-o", self.path("program")])

    def test_flash_without_a_store(self):
        """The last byte of every record is lost: the device does not start with an empty store."""
        ran = self.with_other(self.TAKES, self.TAKES.replace("length", "length - 1"))
        self.assertEqual(ran, (101, b"reading the store answers 2\n"))

    def test_device_in_the_other_half_of_the_country(self):
        """It takes the package of its own hertz, and refuses the other; one of no hertz takes none."""
        for hertz, line, answer, then, again in ((60, LINE_60, 0, b"committed\nlookup answers 0\n" + LINE_60, 7),
                                                 (60, LINE, 6, b"lookup answers 9\n", 6),
                                                 (55, LINE, 10, b"lookup answers 10\n", 10)):
            said = b"verify answers 0\nload answers %d\n%sload of the same package again answers %d\n"
            ran = self.with_other("hertz = 50;", f"hertz = {hertz};", line)
            self.assertEqual(ran, (answer, said % (answer, then, again)))

    def test_refused_packages(self):
        package, others = self.get(self.package()), [self.get(self.package(line)) for line in (LINE_C, LINE_60)]
        for verify, load, data in ((4, 4, flip(package, SIGNATURE - 1)), (1, 1, package[:100]), (1, 1, b""),
                                   (1, 1, package + bytes(99)), *((0, 6, other) for other in others)):
            ran = subprocess.run([os.path.join(ROOT, "target/firmware")], input=data, capture_output=True, check=False)
            self.assertEqual(ran.returncode, load)
            said = b"verify answers %d\nload answers %d\nlookup answers 9\n" % (verify, load)
            self.assertTrue(ran.stdout.startswith(said), ran.stdout)


class Demo(Case):
    def test_demo(self):
        ran = subprocess.run([os.path.join(ROOT, "tools/demo"), PROGRAM], env={**os.environ, "TMPDIR": self.folder},
                             capture_output=True, check=False)
        self.assertEqual(ran.returncode, 0, ran.stderr)
        for words in (b"\nAccepted: country XA, class B, 60 Hz, serial 1\nNothing was stored for ", b"refused with 6: ",
                      b"exit status 6\n", b"A store with 2 of 16 profiles.\n", RATE_WORDS.encode(), WORDS_60.encode(),
                      b" XA B 50\n" + RATE_LINE, b" XA B 60\n" + LINE_60,
                      b"\n$ gridprofile nearest store XA 50 237\n" + suggestion(RATE_LINE, 237),
                      b"\n$ gridprofile evaluate xa.sheet\n" + example("xa.lines"), b"It replaces serial 13.\n",
                      b"\n$ gridprofile evaluate wrong.sheet\ngridprofile evaluate: refused with 11: ",
                      b'; the first is line 2:\n  field 7, over-voltage, is "N*1.1*1000/N", with a decimal point',
                      b"exit status 11\n", b"\n$ cat railway.classes\n" + RAILWAY,
                      b"\nAccepted: a table of 4 classes: E, M, R and T.\n", b" XA R 50\n" + RAILWAY_LINE,
                      held(1, "Its classes are its own:\n").encode(), b"refused with 14: ", b"exit status 14\n",
                      b'\n  field 5, nominal volts, is "500", in a gap of the class table; ', b"exit status 5\n",
                      b"\n$ gridprofile verify key.5 xa-b.5.package --category 5\nThe signature holds", b"\nDone: "):
            self.assertIn(words, ran.stdout)
        self.assertEqual(self.names(), [])


class Result(unittest.TestResult):
    """One line for each test, which the gate counts."""

    def say(self, verdict, test, why=""):
        print(f"{verdict} program {type(test).__name__}.{test.id().split('.')[-1]}{why}", flush=True)

    def addSuccess(self, test):
        super().addSuccess(test)
        self.say("ok", test)

    def addFailure(self, test, err):
        super().addFailure(test, err)
        self.say("FAILED", test, "\n" + self.failures[-1][1])

    def addError(self, test, err):
        super().addError(test, err)
        self.say("FAILED", test, "\n" + self.errors[-1][1])


def main():
    load = unittest.defaultTestLoader.loadTestsFromModule
    result = Result()
    modules = (sys.modules[__name__], test_cli_categories, test_cli_classes, test_cli_files, test_cli_formulas,
               test_cli_lines, test_cli_safe)
    unittest.TestSuite([load(module) for module in modules]).run(result)
    bad = len(result.failures) + len(result.errors)
    print(f"program: {result.testsRun - bad} ok, {bad} failed")
    sys.exit(1 if bad or result.testsRun == 0 else 0)


if __name__ == "__main__":
    main()

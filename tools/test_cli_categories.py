"""The command-line program at categories 1, 3 and 5: every command from a new key to a lookup, what is said of files of
another category, sizes that several kinds of file share, and the option that chooses the category."""

import itertools
import os
import stat

from cli_case import (CATEGORIES, DEVICE, DEVICE_60, FIFTH, FILE_TROUBLE, FIRST, GIVEN, IMAGE, KINDS, LEAST_LINE, LINE,
                      LINE_60, LINE_77, LINE_C, LONGEST_RATE, MEASURED, MOST_LINE, RATE_LINE, RIVALS, ROOT, SHORTEST,
                      STORE, THIRD, WRONG_USAGE, Case, device_of, fingerprint, line_of)
from test_cli_lines import NO_LINE

# Lines with the size of a seed of category 3 and of one of category 5.
LINE_48 = b"GP1,XA,A,1234567,100,50,1001,20,1,20,1,20,-1,20\n"
LINE_64 = line_of(serial=1234567890)
RATE_LINE_64 = RATE_LINE.replace(b",13,", b",9,")

ORDER = "give the files in the order of the usage; `gridprofile help` lists their sizes"
DIFFERENT = "these files are of different categories: take files of one, and name it by `--category`"


def flip(data, at, bit=1):
    at %= len(data)
    return data[:at] + bytes([data[at] ^ bit]) + data[at + 1:]


class Each(Case):
    """Every command at each category."""

    def test_from_a_new_key_to_a_lookup(self):
        for category in CATEGORIES:
            option, number = category.option(), category.number
            private, key, package, store = (f"{name}{number}" for name in ("private", "key", "package", "store"))
            said = self.done("new-key", private, key, *option).decode()
            name = fingerprint(self.get(key), category)
            self.assertTrue(said.startswith("PRIVATE is the private seed: keep it"), said)
            self.assertTrue(said.endswith("\n" + name), said)
            self.assertEqual((len(self.get(private)), len(self.get(key))), (category.seed, category.key))
            self.assertEqual(stat.S_IMODE(os.stat(self.path(private)).st_mode), 0o600)
            self.assertEqual(self.done("key", private, f"again{number}", *option).decode(), name)
            self.assertEqual(self.get(f"again{number}"), self.get(key))
            said = self.done("sign", private, self.put("line", LINE), package, *option).decode()
            device = "country XA, class B, 50 Hz, serial 12\n"
            self.assertEqual(said, "Signed and verified: " + device + name)
            self.assertEqual(len(self.get(package)), category.signature + len(LINE))
            said = self.done("verify", key, package, *option).decode()
            self.assertEqual(said, "The signature holds, and the line is a profile: " + device + name)
            self.done("new-store", store)
            said = self.done("load", store, key, package, *DEVICE, *option).decode()
            self.assertEqual(said, f"Accepted: {device}Nothing was stored for this country, class and hertz before.\n"
                             + name)
            self.assertEqual(self.done("lookup", store, *DEVICE), LINE)

    def test_show_says_the_category(self):
        for category in CATEGORIES:
            shown = self.done("show", self.key(category=category)).decode()
            self.assertEqual(shown, f"A public key of category {category.number}.\n"
                             + fingerprint(self.get("key"), category))
            self.assertRegex(shown, r"\nkey fingerprint:( [0-9a-f]{4}){%d}\n$" % (category.master // 2))
            shown = self.done("show", self.package(category=category)).decode()
            self.assertTrue(shown.startswith(f"A package of category {category.number}. Showing does not verify it; "
                                             "`verify` and `load` do.\ncountry XA, class B, 50 Hz, serial 12\n"), shown)

    def test_show_looks_at_each_field_of_a_key(self):
        for category in CATEGORIES:
            key = self.get(self.key(category=category))
            for bad in (flip(key, -1, 0x80), key[:category.seed] + b"\xff" * (category.key - category.seed),
                        key[:-3] + b"\xff" * 2 + key[-1:]):
                self.assertIn("a field is out of range", self.refused(3, "show", self.put("bad", bad)))
            self.done("show", self.put("any", b"\xff" * category.seed + bytes(category.key - category.seed)))

    def test_key_begins_with_the_public_seed(self):
        for category in CATEGORIES:
            seed, private = category.seed, category.seeds()[0]
            key = self.get(self.key(category=category))
            self.assertEqual(key[:seed], category.shake(b"\x0c" + private, 2 * seed)[seed:])

    def test_package_is_signature_and_line(self):
        """A line of every size that there may be, and of those which a seed has; each comes out again."""
        longest = LONGEST_RATE.replace(b"4294967295", b"4294967294")
        lines = SHORTEST, LINE_48, LINE_64, RATE_LINE_64, LINE_77, longest
        self.assertEqual([len(line) for line in lines], [LEAST_LINE, 48, 64, 64, 77, MOST_LINE])
        for category, line in itertools.product(CATEGORIES, lines):
            package = self.get(self.package(line, category=category))
            self.assertEqual((package[:category.seed], package[category.signature:]), (category.seeds()[2], line))
            self.done("verify", "key", "package", *category.option())

    def test_given_seeds_make_the_same_package(self):
        """In every run, and the one of examples/."""
        for category in CATEGORIES:
            self.package(category=category)
            for name in ("one", "two"):
                self.done("sign", "private", "line", name, *GIVEN, *category.option(), "--force")
            self.assertEqual(self.get("one"), self.get("two"))
            self.assertEqual(self.get("one"), self.get("package"))
            of = "" if category is FIRST else f".category{category.number}"
            for example, made in (("key" + of, "key"), (f"xa-b{of}.package", "one")):
                with open(os.path.join(ROOT, "examples", example), "rb") as file:
                    self.assertEqual(file.read(), self.get(made), example)

    def test_category_1_is_the_default(self):
        self.package()
        self.done("key", "private", "made-key"), self.done("sign", "private", "line", "made-package", *GIVEN)
        self.assertEqual(self.get("made-key"), self.get("key"))
        self.assertEqual(self.get("made-package"), self.get("package"))
        self.done("new-key", "fresh", "fresh.key")
        self.assertEqual((len(self.get("fresh")), len(self.get("fresh.key"))), (FIRST.seed, FIRST.key))
        for option in ((), FIRST.option()):
            self.done("verify", "key", "package", *option)
            self.done("load", self.store(), "key", "package", *DEVICE, *option)

    def test_one_store_takes_packages_of_each(self):
        self.store()
        lines = [line_of(serial=serial) for serial in (12, 13, 14)]
        for category, line in zip((FIFTH, FIRST, THIRD), lines):
            self.done("load", "store", self.key(category=category), self.package(line, category=category), *DEVICE,
                      *category.option())
            self.assertEqual(self.done("lookup", "store", *DEVICE), line)
            self.assertTrue(self.done("nearest", "store", *MEASURED).startswith(line))
        self.done("load", "store", "key", self.package(LINE_C, category=THIRD), "XA", "C", "50", *THIRD.option())
        said = self.refused(7, "load", "store", self.key(category=FIFTH), self.package(lines[1], category=FIFTH),
                            *DEVICE, *FIFTH.option())
        self.assertIn("the serial, 13, is not greater than the stored one, 14\n", said)
        self.assertTrue(self.done("show", "store").startswith(b"A store with 2 of 16 profiles.\n"))

    def test_both_hertz_at_each(self):
        """Every loader goes by the hertz: it takes each half's package on a device of that half alone, and stores it
        beside the other's, whose serial is greater."""
        for category in CATEGORIES:
            self.store()
            for line, other in ((LINE, DEVICE_60), (LINE_60, DEVICE)):
                words = "load", "store", self.key(category=category), self.package(line, category=category)
                self.refused(6, *words, *other, *category.option())
                self.refused(10, *words, *other[:2], "55", *category.option())
                self.done(*words, *device_of(line), *category.option())
                self.refused(7, *words, *device_of(line), *category.option())
            for line in (LINE, LINE_60):
                self.assertEqual(self.done("lookup", "store", *device_of(line)), line)

    def test_damage_is_3_or_4(self):
        for category in CATEGORIES:
            self.store(), self.package(category=category)
            key, package = self.get("key"), self.get("package")
            for number, bad_key, bad_package in ((3, flip(key, -1, 0x80), package),
                                                 (4, key, flip(package, category.signature - 1)),
                                                 (4, flip(key, 0), package)):
                self.put("bad", bad_key), self.put("bad-package", bad_package)
                for words in (["verify", "bad", "bad-package"], ["load", "store", "bad", "bad-package", *DEVICE]):
                    said = self.refused(number, *words, *category.option())
                    self.assertEqual("\n  " + fingerprint(bad_key, category) in said, number == 4, said)

    def test_sizes_beside_the_own_are_1(self):
        for category in CATEGORIES:
            self.package(category=category)
            sign = ["sign", "private", "line", "out", *GIVEN, *category.option()]
            for words, name, least, most in (
                    (sign, "private", category.seed, category.seed), (sign, "master", category.master, category.master),
                    (sign, "salt", category.seed, category.seed), (sign, "key", category.key, category.key),
                    (["verify", "key", "package", *category.option()], "package", category.signature + LEAST_LINE,
                     category.signature + MOST_LINE)):
                for size in (0, least - 1, most + 1):
                    bad = self.put("bad", (self.get(name) + bytes(99))[:size])
                    said = self.refused(1, *(bad if word == name else word for word in words))
                    self.assertIn(f"\n  {name.upper()} (bad) has ", said)
                    self.assertIn(f" at category {category.number}\n  What to do: {ORDER}.\n", said)


def size_said(role, name, size, must, asked):
    """What is said of a file whose size is another."""
    kinds = {**KINDS, **{one.signature + len(LINE): f"a package of category {one.number}" for one in CATEGORIES}}
    return (f"  {role} ({name}) has {size} bytes, the size of {kinds[size]}; it must have {must} at category "
            f"{asked.number}\n")


class Other(Case):
    """Files of another category than the one that is asked for: each is told, and what to do."""

    SIZES = {"private": lambda of: of.seed, "master": lambda of: of.master, "salt": lambda of: of.seed,
             "key": lambda of: of.key, "package": lambda of: of.signature + len(LINE)}

    def setUp(self):
        """A file of each kind and category, named so, and a store."""
        super().setUp()
        self.store()
        for category in CATEGORIES:
            self.package(category=category)
            for name in self.SIZES:
                self.put(f"{name}{category.number}", self.get(name))

    def check(self, words, asked, *parts):
        """The command with files of these categories refuses with 1, names those of another category than the one that
        is asked for, and says which category is for all of them, where there is one."""
        wrong = [(name, of) for name, of in parts if of is not asked]
        said = self.refused(1, *words, *asked.option())
        told = ""
        for name, of in wrong:
            size, must = self.SIZES[name](of), str(self.SIZES[name](asked))
            if name == "package":
                must = f"{asked.signature + LEAST_LINE} to {asked.signature + MOST_LINE}"
            told += size_said(name.upper(), f"{name}{of.number}", size, must, asked)
        of_all = {of.number for _, of in parts}
        advice = DIFFERENT if len(of_all) > 1 else (f"`--category {of_all.pop()}` is for files of these sizes; "
                                                    "`gridprofile help` lists all sizes")
        self.assertEqual(said, f"gridprofile {words[0]}: refused with 1: a file has a wrong size\n{told}"
                         f"  What to do: {advice}.\n")

    def chosen(self, names):
        """Every choice of categories for these files, and of the one that is asked for, but all of the same."""
        for asked, *of in itertools.product(CATEGORIES, repeat=len(names) + 1):
            if set(of) != {asked}:
                yield asked, tuple(zip(names, of))

    def test_verify_and_load(self):
        for asked, parts in self.chosen(("key", "package")):
            files = [f"{name}{of.number}" for name, of in parts]
            self.check(["verify", *files], asked, *parts)
            self.check(["load", "store", *files, *DEVICE], asked, *parts)

    def test_key(self):
        for asked, parts in self.chosen(("private",)):
            self.check(["key", f"private{parts[0][1].number}", "out"], asked, *parts)

    def test_sign(self):
        for asked, parts in self.chosen(("private",)):
            self.check(["sign", f"private{parts[0][1].number}", "line", "out"], asked, *parts)
        for asked, parts in self.chosen(("private", "key")):
            private, key = (f"{name}{of.number}" for name, of in parts)
            self.check(["sign", private, "line", "out", "--key", key], asked, *parts)

    def test_sign_with_given_seeds(self):
        """One of them of another category, and all of them."""
        names = "private", "key", "master", "salt"
        for asked, other in itertools.permutations(CATEGORIES, 2):
            for odd in (*([name] for name in names), names):
                parts = [(name, other if name in odd else asked) for name in names]
                private, key, master, salt = (f"{name}{of.number}" for name, of in parts)
                self.check(["sign", private, "line", "out", "--key", key, "--given-master-seed", master, "--given-salt",
                            salt], asked, *parts)

    def test_from_a_stream(self):
        """Which has no size but what was read of it."""
        for asked, of in itertools.permutations(CATEGORIES, 2):
            for words, name in ((["key", "-", "out"], "private"), (["verify", "-", f"package{of.number}"], "key"),
                                (["verify", f"key{of.number}", "-"], "package"),
                                (["sign", "-", "line", "out"], "private")):
                said = self.refused(1, *words, *asked.option(), stdin=self.get(f"{name}{of.number}"))
                size = self.SIZES[name](of)
                self.assertIn(f"{name.upper()} (standard input) has {size} bytes, the size of ", said)
                self.assertIn(f"  What to do: `--category {of.number}` is for files of these sizes; ", said)

    def test_that_category_takes_them(self):
        """What the advice says is so."""
        for asked, of in itertools.permutations(CATEGORIES, 2):
            words = ["verify", f"key{of.number}", f"package{of.number}"]
            self.refused(1, *words, *asked.option())
            self.done(*words, *of.option())

    def test_exchanged_or_damaged_files_are_not_of_another_category(self):
        """Also where one of them could be: a file that no category has in its place says more."""
        self.put("cut", self.get("package3")[:-30]), self.put("open", self.get("master1"))
        for words in (["verify", "package3", "key3"], ["verify", "key3", "private3"], ["verify", "key3", "store"],
                      ["verify", "key3", "cut"], ["load", "store", "package5", "key5", *DEVICE],
                      ["key", "key3", "out"], ["key", "package5", "out"],
                      ["sign", "private1", "line", "out", "--key", "key1", "--given-master-seed", "salt1",
                       "--given-salt", "open"]):
            self.assertIn(f"  What to do: {ORDER}.\n", self.refused(1, *words))

    def test_10_comes_before_1(self):
        for device in (("XA", "E", "50"), ("XA", "B", "55")):
            said = self.refused(10, "load", "store", "key3", "package3", *device)
            self.assertEqual(len(said.splitlines()), 2, said)


class Shared(Case):
    """Sizes that several kinds of file have."""

    def test_kinds_are_named_by_size(self):
        for size, name in KINDS.items():
            words = "verify", self.put("bad", b"\xff" * size), self.package()
            if size == 77:
                words = "verify", "key", "bad"
            self.assertIn(f" (bad) has {size} bytes, the size of {name}; it must have ", self.refused(1, *words))
        for size in (42, 47, 49, 63, 65, 72, 73, 76, 78, 84):
            said = self.refused(1, "verify", self.put("bad", b"\xff" * size), "package")
            self.assertIn(f"has {size} bytes, the size of a profile line; it must have ", said)

    def test_nothing_is_shown_of_what_may_be_a_seed(self):
        for size in (16, 24, 32, 48, 64):
            for data in (b"\xff" * size, FIFTH.shake(b"a seed", size), b"gp1," + b"x" * (size - 4), b"GP1" * size,
                         b"GP2" * size, b"GP3," * size):
                data = data[:size]
                why = ", and does not begin as a line does, with GP1 or GP2: nothing of it is shown" if size > 42 else \
                    ", of which nothing is shown"
                said = self.refused(1, "show", self.put("bad", data))
                self.assertEqual(said, f"gridprofile show: refused with 1: bad has the size of {KINDS[size]}{why}\n"
                                 "  What to do: `gridprofile help` lists the sizes.\n")

    def test_line_with_the_size_of_a_seed_is_shown(self):
        for line in (LINE_48, LINE_64, RATE_LINE_64):
            self.assertIn(len(line), (THIRD.seed, FIFTH.seed))
            shown = self.done("show", self.put("line", line)).decode()
            self.assertTrue(shown.startswith("A line, not signed.\ncountry XA, class "), shown)
            self.assertEqual(self.done("show", "-", stdin=line).decode(), shown)
            ran = self.run_in("show", self.put("bad", line.replace(b",50,", b",55,")))
            self.assertEqual((ran.returncode, ran.stdout), (5, b"A line, not signed.\n"))
            self.assertIn(b"field 6, hertz, is \"55\"", ran.stderr)

    def test_line_in_the_place_of_a_seed(self):
        """What begins as a line is named a line. Where it has the size that is asked for, it is not taken either."""
        for line, own in ((LINE_48, THIRD), (LINE_64, FIFTH), (RATE_LINE_64, FIFTH)):
            self.put("line", line)
            for category in CATEGORIES:
                for words in (["key", "line", "out"], ["sign", "line", "line", "out"]):
                    if category is own:
                        said = self.troubled(WRONG_USAGE, *words, *category.option())
                        self.assertIn("PRIVATE is a profile line, which everybody may know\n  What to do: see whether",
                                      said)
                    else:
                        said = self.refused(1, *words, *category.option())
                        self.assertIn(f"PRIVATE (line) has {len(line)} bytes, the size of a profile line; it", said)
                        self.assertIn(f"What to do: {ORDER}.", said)

    def test_line_in_the_place_of_a_salt(self):
        for line, own in ((LINE_48, THIRD), (LINE_64, FIFTH), (RATE_LINE_64, FIFTH)):
            self.package(category=own), self.put("profile", line)
            given = ["profile" if word == "salt" else word for word in GIVEN]
            said = self.troubled(WRONG_USAGE, "sign", "private", "line", "out", *given, *own.option())
            self.assertIn("SALT is a profile line, which everybody may know", said)

    def test_seed_that_only_begins_as_a_line(self):
        """One in two thousand millions does, and is a seed all the same."""
        for category, tag in itertools.product(CATEGORIES, (b"GP1,", b"GP2,")):
            private = tag + category.shake(b"a seed", category.seed - 4)
            self.done("key", self.put("private", private), "out", "--force", *category.option())

    def test_seed_in_the_place_of_a_line(self):
        for category in (THIRD, FIFTH):
            self.package(category=category)
            self.put("seed", category.shake(b"a seed", category.seed))
            said = self.refused(5, "sign", "private", "seed", "out", *category.option())
            self.assertIn(f"\n  {NO_LINE}, but has the size of {RIVALS[category.seed]}\n", said)
            self.assertEqual(len(said.splitlines()), 3, said)


# A private seed whose key begins as a line does. It was searched for: one in two thousand millions does.
SEED_OF_KEY_LIKE_LINE = (480386638).to_bytes(32, "little")


class LineOrKey(Case):
    """77 bytes may be a public key of category 1 or a profile line. In the place of a key they are a key, in that of a
    line a line; for `show`, and in what is said of them, what they begin with tells."""

    BAD = LINE_77.replace(b",60,", b",55,")

    def setUp(self):
        """A key, its package, a store, a line, and one that breaks a rule."""
        super().setUp()
        self.store(), self.package(), self.put("good", LINE_77), self.put("bad", self.BAD)
        self.assertEqual({len(self.get(name)) for name in ("key", "good", "bad")}, {77})

    def key_like_line(self):
        """It comes with its private seed and a package."""
        self.package(private=SEED_OF_KEY_LIKE_LINE)
        key = self.get("key")
        self.assertEqual((key[:4], len(key)), (b"GP2,", 77))
        return key

    def test_key_that_begins_as_a_line(self):
        """It is a key all the same, wherever one is asked for."""
        key = self.key_like_line()
        self.assertIn(fingerprint(key).encode(), self.done("verify", "key", "package"))
        self.done("load", "store", "key", "package", *DEVICE)
        self.done("sign", "private", "line", "out", "--key", "key")
        self.done("verify", "-", "out", stdin=key)
        self.done("key", "private", "key", "--force")
        self.assertEqual(self.get("key"), key)

    def test_show(self):
        key = self.get("key")
        self.assertEqual(self.done("show", "key").decode(), "A public key of category 1.\n" + fingerprint(key))
        shown = self.done("show", "good")
        self.assertTrue(shown.startswith(b"A line, not signed.\ncountry XA, class D, 60 Hz, serial 123\n"), shown)
        self.assertEqual((self.done("show", "-", stdin=key), self.done("show", "-", stdin=LINE_77)),
                         (self.done("show", "key"), shown))
        self.assertIn("a field is out of range", self.refused(3, "show", self.put("damaged", flip(key, -1, 0x80))))
        for data, told in ((self.BAD, b'field 6, hertz, is "55"'),
                           (self.key_like_line(), b"\n  field 2, country, is ")):
            ran = self.run_in("show", self.put("bad", data))
            self.assertEqual((ran.returncode, ran.stdout), (5, b"A line, not signed.\n"))
            self.assertIn(told, ran.stderr)

    def test_line_in_the_place_of_a_key(self):
        sign = "sign", "private", "line", "out", "--key"
        said = self.troubled(WRONG_USAGE, *sign, "good")
        self.assertEqual(said, "gridprofile sign: KEY is a profile line\n"
                         "  What to do: see whether files are exchanged.\n")
        self.assertIn("KEY is not the public key of PRIVATE", self.troubled(WRONG_USAGE, *sign, "bad"))
        self.put("odd", LINE_77[:-1] + b"\xff")
        for number, name in ((4, "good"), (4, "bad"), (3, "odd")):
            for words in (["verify", name, "package"], ["load", "store", name, "package", *DEVICE]):
                said = self.refused(number, *words)
                self.assertIn(f"\n  KEY ({name}) begins as a profile line does; see whether files are exchanged\n",
                              said)
                self.assertEqual("\n  " + fingerprint(self.get(name)) in said, number == 4)
        for number, at, bit in ((4, 0, 1), (3, -1, 0x80)):
            self.put("odd", flip(self.get("key"), at, bit))
            self.assertNotIn("profile line does", self.refused(number, "verify", "odd", "package"))

    def test_key_in_the_place_of_a_line(self):
        said = self.refused(5, "sign", "private", "key", "out")
        self.assertIn(f"\n  {NO_LINE}, but has the size of a public key of category 1\n", said)
        self.assertEqual(len(said.splitlines()), 3, said)
        ended = self.get("key")[:-1].replace(b"\n", b"x") + b"\n"
        shown, said = self.warned("preview", self.put("ended", ended))
        self.assertEqual((shown, said), (b"COUNTRY,CLASS,HERTZ,SERIAL\n",
                                         "gridprofile preview: 1 of 1 lines skipped; the first is line 1:\n"
                                         f"  {NO_LINE}, but has the size of a public key of category 1\n"))
        self.key_like_line()
        said = self.refused(5, "sign", "private", "key", "out")
        self.assertIn("\n  field 2, country, is ", said)
        self.assertNotIn("public key", said)

    def test_line_in_its_own_place(self):
        self.done("sign", "private", "good", "out")
        self.done("verify", "key", "out")
        self.done("load", "store", "key", "out", *device_of(LINE_77))
        self.assertEqual(self.done("lookup", "store", *device_of(LINE_77)), LINE_77)
        self.assertEqual(self.done("preview", "good"), b"COUNTRY,CLASS,HERTZ,SERIAL\nXA,D,60,123\n")
        self.assertIn('field 6, hertz, is "55"', self.refused(5, "sign", "private", "bad", "out2"))

    def test_in_the_place_of_other_files(self):
        given = ["--key", "key", "--given-master-seed", "master", "--given-salt", "salt"]
        for role, *words in (("PRIVATE", "key", "?", "out"), ("PRIVATE", "sign", "?", "line", "out"),
                             ("MASTER", "sign", "private", "line", "out", *given[:3], "?", *given[4:]),
                             ("SALT", "sign", "private", "line", "out", *given[:5], "?"),
                             ("PACKAGE", "verify", "key", "?"), ("PACKAGE", "load", "store", "key", "?", *DEVICE),
                             ("STORE", "load", "?", "key", "package", *DEVICE), ("STORE", "lookup", "?", *DEVICE),
                             ("STORE", "nearest", "?", *MEASURED),
                             ("KEY", "verify", "?", "package", *THIRD.option())):
            for name, kind in (("key", KINDS[77]), ("good", "a profile line"), ("bad", "a profile line")):
                said = self.refused(1, *(name if word == "?" else word for word in words))
                self.assertIn(f"  {role} ({name}) has 77 bytes, the size of {kind}; it must have ", said)

    def test_advice_on_the_category(self):
        """A key tells its category, a line none."""
        for name, advice in (("key", "`--category 1` is for files of these sizes; "), ("good", ORDER), ("bad", ORDER)):
            said = self.refused(1, "verify", name, "package", *THIRD.option())
            self.assertIn(f"\n  What to do: {advice}", said)


class Option(Case):
    TAKES = {"new-key": ["fresh", "fresh.key"], "key": ["private", "out"], "sign": ["private", "line", "out"],
             "verify": ["key", "package"], "load": ["store", "key", "package", *DEVICE]}
    OTHERS = {"new-store": ["fresh"], "classes": ["store"], "lookup": ["store", *DEVICE],
              "nearest": ["store", *MEASURED], "show": ["key"], "preview": ["line"], "evaluate": ["line"]}

    def wrong(self, what, *words):
        said = self.troubled(WRONG_USAGE, *words).splitlines()
        self.assertEqual(said[0], f"gridprofile {words[0]}: {what}")
        self.assertTrue(said[1].startswith(f"usage: gridprofile {words[0]} "), said)
        self.assertEqual(said[2:], [f"`gridprofile help {words[0]}` says more."])

    def test_values(self):
        self.package(), self.store()
        for name, words in self.TAKES.items():
            for value in ("0", "2", "4", "6", "13", "35", "01", "1 ", " 1", "+1", "-1", "1.0", "3x", "x", "\u0663"):
                self.wrong(f"--category takes 1, 3 or 5, not {value}", name, *words, "--category", value)
            for option in (["--category", ""], ["--category="]):
                self.wrong('--category takes 1, 3 or 5, not ""', name, *words, *option)
            self.wrong("a value is missing after --category", name, *words, "--category")

    def test_given_twice(self):
        self.package(), self.store()
        for name, words in self.TAKES.items():
            for options in (["--category", "1", "--category", "1"], ["--category=3", "--category", "5"]):
                self.wrong("given twice: --category", name, *words, *options)

    def test_commands_that_do_not_depend_on_it(self):
        self.package(), self.store()
        for name, words in self.OTHERS.items():
            for value in ("1", "3", "5"):
                self.wrong("there is no option --category", name, *words, "--category", value)
                self.wrong(f"there is no option --category={value}", name, *words, f"--category={value}")

    def test_where_it_may_stand(self):
        for words in (["--category", "5", "key", "private", "out"], ["-category", "5"]):
            self.assertEqual(self.run_in(*words).returncode, WRONG_USAGE)
        for at, option in enumerate((["--category", "5"], ["--category=5"])):
            for place in range(3):
                words = ["key", self.put("private", FIFTH.seeds()[0]), f"out{at}{place}"]
                self.done(*words[:1 + place], *option, *words[1 + place:])
                self.assertEqual(len(self.get(f"out{at}{place}")), FIFTH.key)

    def test_value_is_no_call_for_help(self):
        self.put("private", FIRST.seeds()[0])
        self.wrong("--category takes 1, 3 or 5, not -h", "key", "private", "out", "--category", "-h")
        self.assertEqual(self.done("key", "--category", "5", "-h"), self.done("help", "key"))

    def test_help_says_the_sizes(self):
        shown = self.done("help").decode()
        self.assertIn("\n  --category 1|3|5  the category of seeds, key and package (1), ", shown)
        for words, sizes in (("PRIVATE  private seed, secret: {} bytes at category 1, {} at 3, {} at 5", "seed"),
                             ("KEY      public key: {} bytes at category 1, {} at 3, {} at 5", "key"),
                             ("MASTER   master seed, secret: {} bytes at category 1, {} at 3, {} at 5", "master")):
            self.assertIn("\n  " + words.format(*(getattr(one, sizes) for one in CATEGORIES)) + "\n", shown)
        packages = "\n  PACKAGE  signature and line: {} to {} bytes at category 1, {} to {} at 3, {} to {} at 5\n"
        bounds = [one.signature + more for one in CATEGORIES for more in (LEAST_LINE, MOST_LINE)]
        self.assertIn(packages.format(*bounds), shown.replace(",\n           ", ", "))
        self.assertIn(f"\n  LINE     one profile line, {LEAST_LINE} to {MOST_LINE} bytes with its line feed ", shown)
        self.assertIn(f"\n  STORE    16 profiles, a class table and a checksum, {STORE} bytes; {IMAGE} without the "
                      "checksum\n", shown)
        for line in shown.splitlines():
            self.assertLessEqual(len(line), 100)

    def test_help_of_a_command_names_it(self):
        for name in (*self.TAKES, *self.OTHERS):
            synopsis = self.done("help", name).decode().splitlines()[0]
            self.assertEqual(" [--category 1|3|5]" in synopsis, name in self.TAKES, synopsis)


class BothOrNone(Case):
    def test_new_key_at_each_category(self):
        """No seed is left where its key cannot be written, and none is written over a file."""
        for category in CATEGORIES:
            self.put("there", bytes(category.seed))
            for words in (["fresh", "there"], ["there", "fresh.key"], ["fresh", "missing/key"]):
                self.troubled(FILE_TROUBLE, "new-key", *words, *category.option(), "--force")
            self.put("old-key", bytes(FIRST.key))
            self.done("new-key", f"fresh{category.number}", "old-key", *category.option(), "--force")
            self.assertEqual(len(self.get("old-key")), category.key)

"""`gridprofile evaluate`: lines whose limits are formulas, beside rules written here from docs/FORMATS.md; and what is
said of those that are refused: which line of the sheet, which field, and what is wrong with it."""

import ast
import base64
import itertools
import operator
import os
import random
import re

from cli_case import (LINE, LINE_60, LINE_C, LONGEST, LONGEST_RATE, PRIVATE, RATE_LINE, ROOT, SHORTEST, SHORTEST_RATE,
                      Case, Explained, device_of, example, formats, line_of)
from test_cli_lines import FIELDS, NO_LINE, QUOTED, answer, fault_said, faults, first_broken, unquoted, with_field

MOST_LINE, MOST_SHEET = 400, 65536
# The fields of the limits, from 0, and a number that each may have.
GOOD = {6: b"1001", 8: b"1", 10: b"1", 12: b"-1", 14: b"100"}
# The worked line of the document, which is the first of the example sheet, and what it gives.
FORMULAS = b"GP1,XA,B,14,230,50,(N+23)*1000/N+50,100,N*80/100+616,1500,50*30,100,0-50*50,100\n"
PLAIN = b"GP1,XA,B,14,230,50,1150,100,800,1500,1500,100,-2500,100\n"
# What is said of a limit that the grammar does not derive, behind the field itself.
GRAMMAR = ["a formula has whole numbers up to 1000000 without leading zeros, N, + - * / and ( ), and no spaces;",
           "a minus in front stands only before a plain number, as in -2500"]
OUTSIDE = "a result in it is outside -2000000000 to 2000000000"


def padded(formula, length):
    """The same number in as many characters, or one less."""
    return formula + b"+0" * ((length - len(formula)) // 2)


def depth(field):
    """How deep parentheses stand, counted as they come."""
    depths = itertools.accumulate(field, lambda deep, sign: max(deep + (sign == 40) - (sign == 41), 0), initial=0)
    return max(depths)


def is_formula(field):
    """Whether the grammar derives it, within its bounds. What stands in parentheses is an atom, from the inside out."""
    if re.fullmatch(rb"-[1-9][0-9]{0,6}", field):
        return int(field) >= -1000000
    numbers = re.findall(rb"[0-9]+", field)
    if any(len(number) > 7 or int(number) > 1000000 or number != b"%d" % int(number) for number in numbers):
        return False
    if len(field) > 64 or depth(field) > 8 or not re.fullmatch(rb"[0-9N()+*/-]+", field):
        return False
    shape, before = re.sub(rb"[0-9]+|N", b"a", field), b""
    while shape != before:
        before, shape = shape, re.sub(rb"\(a(?:[-+*/]a)*\)", b"a", shape)
    return bool(re.fullmatch(rb"a(?:[-+*/]a)*", shape))


def divide(left, right):
    """The remainder is dropped towards zero."""
    quotient = abs(left) // abs(right)
    return quotient if (left < 0) == (right < 0) else -quotient


STEPS = {ast.Add: operator.add, ast.Sub: operator.sub, ast.Mult: operator.mul, ast.Div: divide}


def worth(node):
    """The number of a formula as Python takes it apart: its operators bind and go as those of the document do."""
    if isinstance(node, ast.Constant):
        return node.value
    result = STEPS[type(node.op)](worth(node.left), worth(node.right))
    if abs(result) > 2_000_000_000:
        raise OverflowError
    return result


def limit(field, volts):
    """What a limit gives: 0 and its number, or 11 or 12 and nothing."""
    if not is_formula(field):
        return 11, None
    if field.startswith(b"-"):
        return 0, int(field)
    try:
        return 0, worth(ast.parse(field.decode().replace("N", str(volts)), mode="eval").body)
    except ArithmeticError:
        return 12, None


def limits_of(fields):
    """Where the limits of a line stand, from 0."""
    return [at for at in GOOD if at < len(fields)]


def bare(line):
    """The line with good numbers in the place of its limits."""
    text = line.removesuffix(b"\n").removesuffix(b"\r")
    return b",".join(GOOD.get(at, field) for at, field in enumerate(text.split(b","))) + line[len(text):]


def evaluated(line):
    """The answer, the line that is printed or None, and where a limit is what is wrong, its field, from 1."""
    if len(line) > MOST_LINE:
        return 1, None, None
    if line.find(b"\n") != len(line) - 1 or answer(bare(line)) != 0:
        return 5, None, None
    fields = line[:-1].split(b",")
    for at in limits_of(fields):
        number, value = limit(fields[at], int(line.split(b",")[4]))
        if number != 0:
            return number, None, at + 1
        fields[at] = b"%d" % value
    plain = b",".join(fields) + b"\n"
    return (0, plain, None) if answer(plain) == 0 else (5, None, first_broken(fields))


def value_words(field, fields):
    """Of a number outside its range: which it is, where some limit of the line may be that, and it is not seen."""
    _, value = limit(fields[field - 1], int(fields[4]))
    known = any(value in FIELDS[at][2] for at in limits_of(fields)) and b"%d" % value != fields[field - 1]
    return f", which gives {value}" if known else ", which is outside its range"


def limit_words(number, field, line):
    """What is said behind the field, as a pattern; a hint at what people write may stand in front of it."""
    fields = line[:-1].split(b",")
    formula, at_volts = fields[field - 1], fr" \(N is {fields[4].decode()}\)" if b"N" in fields[field - 1] else ""
    if number == 5:
        return re.escape(value_words(field, fields)) + at_volts + re.escape(f"; it must be {FIELDS[field - 1][3]}")
    if number == 12:
        return at_volts + "; " + ("a divisor in it is 0, or " if b"/" in formula else "") + OUTSIDE
    if not formula:
        return "; it must be a formula or a number"
    if len(formula) > 64:
        return f", of {len(formula)} characters; a formula has at most 64"
    if depth(formula) > 8:
        return f", with parentheses {depth(formula)} deep; they may be at most 8 deep"
    return "(?:, with [a-zA-Z ]+)?; it is no formula"


def limit_said(said, number, field, line):
    """Whether this is what is to be said of a limit."""
    formula = line[:-1].split(b",")[field - 1]
    found = re.fullmatch(rf"field {field}, {FIELDS[field - 1][0]}, is (?:empty|{QUOTED})(.*)", said[0])
    if found is None or not re.fullmatch(limit_words(number, field, line), found[3]):
        return False
    shown = unquoted(found[1] or "")
    rest = GRAMMAR if said[0].endswith("; it is no formula") else []
    return (formula.startswith(shown) if found[2] else formula == shown) and said[1:] == rest


class Evaluate(Case):
    def gives(self, sheet, printed):
        """From a file, and from standard input."""
        self.assertEqual(self.done("evaluate", self.put("sheet", sheet)), printed)
        for words in ((), ("-",)):
            self.assertEqual(self.done("evaluate", *words, stdin=sheet), printed)

    def faulty(self, number, sheet, refused=1, lines=1, first=1):
        """What is said of the first line that is refused; nothing is printed."""
        said = self.refused(number, "evaluate", self.put("sheet", sheet))
        self.assertEqual(self.refused(number, "evaluate", stdin=sheet), said)
        head = f"  {refused} of {lines} lines refused, and none printed; the first is line {first}:"
        said = said.splitlines()
        self.assertEqual(said[1], head)
        return [one.removeprefix("  ") for one in said[2:-1]]

    def test_worked_line(self):
        self.gives(FORMULAS, PLAIN)

    def test_example(self):
        """The sheet gives the lines beside it, its first line is the worked one, and every line can be signed."""
        sheet, lines = example("xa.sheet"), example("xa.lines")
        self.gives(sheet, lines)
        self.assertEqual([text.splitlines(keepends=True)[0] for text in (sheet, lines)], [FORMULAS, PLAIN])
        self.assertEqual({line[:4] for line in sheet.splitlines()}, {b"GP1,", b"GP2,"})
        self.store()
        for line in lines.splitlines(keepends=True):
            self.done("load", "store", "key", self.package(line), *device_of(line))
            self.assertEqual(self.done("lookup", "store", *device_of(line)), line)

    def test_profile_lines_stay(self):
        lines = [LINE, LINE_60, LINE_C, RATE_LINE, SHORTEST, LONGEST, SHORTEST_RATE, LONGEST_RATE]
        for line in lines:
            self.gives(line, line)
        self.gives(b"".join(lines), b"".join(lines))

    def test_each_limit_of_each_kind_of_line(self):
        for line, (at, number) in itertools.product((LINE, RATE_LINE), enumerate(LINE[:-1].split(b","))):
            if at in GOOD:
                self.gives(with_field(at, b"(%d+0)*1/1" % abs(int(number)) if at != 12 else b"0-2500", line), line)
        self.gives(with_field(14, b"N*10-300", RATE_LINE), RATE_LINE)

    def test_each_line_has_its_own_volts(self):
        sheet = [with_field(8, b"N-(N-N/2)", line_of("XA", letter)) for letter in "ABCD"]
        halves = {"A": b"60", "B": b"115", "C": b"200", "D": b"345"}
        self.gives(b"".join(sheet), b"".join(with_field(8, halves[letter], line_of("XA", letter)) for letter in "ABCD"))

    def test_many_lines_in_their_order(self):
        """The same triple may come again, and serials may fall: a sheet is no store."""
        serials = [1 + n * 37 % 101 for n in range(700)]
        sheet = b"".join(with_field(10, b"%d*10" % serial, line_of(serial=serial)) for serial in serials)
        printed = b"".join(with_field(10, b"%d0" % serial, line_of(serial=serial)) for serial in serials)
        self.assertLessEqual(len(sheet), MOST_SHEET)
        self.gives(sheet, printed)

    def test_longest_line(self):
        """Five formulas of 64 characters, among the longest other fields."""
        line = LONGEST_RATE
        for at, start in ((6, b"1500"), (8, b"1000-1"), (10, b"5000"), (12, b"0-5000"), (14, b"N*10")):
            line = with_field(at, padded(start, 64), line)
        self.assertEqual(len(line), 63 + 5 * 64)
        self.gives(line, LONGEST_RATE)

    def test_longest_sheet(self):
        sheet = LINE * 1169 + with_field(8, b"800+0+0+0+0+0+0+0+0")
        self.assertEqual(len(sheet), MOST_SHEET)
        self.gives(sheet, LINE * 1170)
        more = self.put("more", sheet[:-1] + b"0\n")
        for words in (["evaluate", more], ["evaluate", "/dev/zero"]):
            self.assertEqual(self.refused(1, *words), "gridprofile evaluate: refused with 1: the sheet has more than "
                             "65536 bytes\n  What to do: cut it into several sheets.\n")

    def test_lines_that_are_too_long(self):
        """400 bytes are judged: there a formula is too long. One more is 1."""
        longest, longer = (with_field(6, b"1" * count) for count in (348, 349))
        self.assertEqual((len(longest), len(longer)), (400, 401))
        self.assertEqual(self.faulty(11, longest),
                         [f'field 7, over-voltage, is "{"1" * 64}"..., of 348 characters; a formula has at most 64'])
        for sheet, lines, first, size in ((longer, 1, 1, 401), (b"," * 400 + b"\n" + LINE, 2, 1, 401),
                                          (LINE + b"x" * 5000, 2, 2, 5000)):
            self.assertEqual(self.faulty(1, sheet, 1, lines, first), [f"it has {size} bytes; it must have at most 400"])

    def test_empty_limits_in_a_line_of_400_bytes(self):
        """With numbers in their place it would be too long."""
        line = with_field(6, b"1" * 340, with_field(8, b"", with_field(10, b"", with_field(12, b""))))
        line = with_field(6, b"1" * (740 - len(line)), line)
        self.assertEqual((len(line), self.faulty(11, line)[0][:26]), (400, "field 7, over-voltage, is "))

    def test_nothing_is_printed_where_one_line_is_refused(self):
        """Wherever it stands; the first one decides."""
        bad = {11: with_field(8, b"N*"), 12: with_field(8, b"N/0"), 5: with_field(8, b"N*N"), 1: b"x" * 400 + b"\n"}
        for number, line in bad.items():
            for at in range(4):
                self.faulty(number, FORMULAS * at + line + FORMULAS * (3 - at), 1, 4, at + 1)
        for (one, first), (_, second) in itertools.permutations(bad.items(), 2):
            self.faulty(one, FORMULAS + first + second + FORMULAS, 2, 4, 2)

    def test_empty_sheet_and_empty_lines(self):
        self.assertEqual(self.faulty(5, b""), ["the line is empty"])
        self.assertEqual(self.faulty(5, b"\n"), ["the line is empty"])
        self.assertEqual(self.faulty(5, FORMULAS + b"\n", 1, 2, 2), ["the line is empty"])
        self.assertEqual(self.faulty(5, b"\n" + FORMULAS + b"\n", 2, 3, 1), ["the line is empty"])
        self.assertEqual(self.faulty(5, b"\n" * MOST_SHEET, MOST_SHEET, MOST_SHEET), ["the line is empty"])

    def test_line_ends(self):
        """Also of a line that is longer than one that is signed."""
        missing = ["the line feed at the end is missing"]
        windows = ["the line ends in CR LF, as Windows writes it; it must end in LF alone"]
        longest = with_field(6, padded(b"1500+0", 64), LONGEST_RATE)
        for line in (LINE, FORMULAS, RATE_LINE, longest):
            self.assertEqual(self.faulty(5, line[:-1]), missing)
            self.assertEqual(self.faulty(5, LINE + line[:-1], 1, 2, 2), missing)
            self.assertEqual(self.faulty(5, line.replace(b"\n", b"\r\n") * 3, 3, 3), windows)
            self.assertEqual(self.faulty(5, line[:-1] + b"\r"), ["the line ends in CR (0D); it must end in LF (0A)"])
        fields = 'field 4, serial, is "' + "1" * 24 + '"...; it must be 1 to 4294967295'
        self.assertEqual(self.faulty(5, with_field(3, b"1" * 90, FORMULAS)[:-1]), [fields, *missing])

    def test_other_fields(self):
        """No word of the limits, of which some are faulty too."""
        limits = {6: b"N", 8: b"", 10: b"1/0", 12: b"5", 14: b"x"}
        for line in (LINE, RATE_LINE):
            for at in limits_of(line.split(b",")):
                line = with_field(at, limits[at], line)
            for at, bad in ((0, b"GP3"), (1, b"xa"), (2, b"C"), (3, b"0"), (4, b"1001"), (5, b"55"), (7, b"19"),
                            (9, b"0100"), (11, b"60001"), (13, b""), (15, b"N")):
                if at < len(line.split(b",")):
                    said = self.faulty(5, with_field(at, bad, line))
                    self.assertEqual([one.split(", is ")[0] for one in said], [f"field {at + 1}, {FIELDS[at][0]}"])

    def test_numbers_of_fields(self):
        for line, said in (
                (FORMULAS.replace(b"GP1", b"GP2"),
                 ["field 15, rate of change, is missing; it must be 100 to 10000 mHz per second",
                  "the line has 14 fields; it must have 16 under GP2: rate of change and its delay are missing, or the "
                  "tag must be GP1"]),
                (FORMULAS[:-1] + b",N*10,500\n",
                 ["the line has 16 fields; it must have 14 under GP1: a rate point needs GP2"]),
                (FORMULAS[:-1] + b",\n",
                 ["the line has 15 fields; it must have 14 under GP1, and no comma within a number"]),
                (RATE_LINE[:-1] + b",\n",
                 ["the line has 17 fields; it must have 16 under GP2, and no comma within a number"]),
                (FORMULAS[:-5] + b"\n", ["field 14, under-frequency delay, is missing; it must be 20 to 60000 ms",
                                         "the line has 13 fields; it must have 14 under GP1, parted by commas"])):
            self.assertEqual(self.faulty(5, line), said)

    def test_what_stands_in_front(self):
        mark = "a byte order mark (EF BB BF) stands in front; save the file without it"
        self.assertEqual(self.faulty(5, b"\xef\xbb\xbf" + FORMULAS + PLAIN, 1, 2), [mark])
        self.assertEqual(self.faulty(5, b"\xff\xfe" + FORMULAS.decode().encode("utf-16-le"), 2, 2),
                         ["a byte order mark of UTF-16 stands in front; save the file as plain ASCII"])
        self.assertEqual(self.faulty(5, b"COUNTRY,CLASS,HERTZ,SERIAL\n" + FORMULAS, 1, 2), [NO_LINE])

    def test_nothing_is_shown_of_a_seed(self):
        """Given for a sheet by mistake, as bytes or in letters."""
        seeds = [random.Random(107).randbytes(length).replace(b"\n", b"x") for length in (16, 24, 32, 48, 64)]
        for text in (text for seed in seeds for text in (seed, seed.hex().encode(), base64.b64encode(seed))):
            for sheet in (text, text + b"\n"):
                self.assertTrue(self.faulty(5, sheet)[0].startswith(NO_LINE))


class Words(Case):
    """What people meet, word for word."""

    def check(self, number, at, formula, said, *more, line=LINE):
        shown = self.refused(number, "evaluate", stdin=with_field(at, formula, line)).splitlines()
        self.assertEqual(shown[2:-1], [f"  field {at + 1}, {FIELDS[at][0]}, is {said}", *(f"  {one}" for one in more)])

    def test_no_formula(self):
        point = ", with a decimal point or a thousands mark; it is no formula"
        for formula, said in ((b"N*1.15", f'"N*1.15"{point}'), (b"1'150", f'"1\'150"{point}'),
                              (b"N * 5", '"N * 5", with a space or a tab; it is no formula'),
                              (b" 1150", '" 1150", with a space or a tab; it is no formula'),
                              (b'"1150"', '"\\x221150\\x22", with a quote; it is no formula'),
                              (b"n*5", '"n*5", with n in lower case; it is no formula'),
                              ("N×5".encode(), '"N\\xC3\\x975", with bytes that are not plain ASCII; it is no formula'),
                              (b"\x1b[2J", '"\\x1B[2J"; it is no formula'), (b"=N*5", '"=N*5"; it is no formula'),
                              (b"N*", '"N*"; it is no formula'), (b"-N", '"-N"; it is no formula'),
                              (b"007", '"007"; it is no formula'), (b"(1", '"(1"; it is no formula'),
                              (b"((((((((1+))))))))", '"((((((((1+))))))))"; it is no formula'),
                              (b"1\r", '"1\\x0D", with a carriage return; it is no formula'),
                              (b"1/0+", '"1/0+"; it is no formula'), (b"1000001", '"1000001"; it is no formula')):
            self.check(11, 6, formula, said, *GRAMMAR)

    def test_other_faults_of_the_form(self):
        deep = '"(((((((((N)))))))))", with parentheses 9 deep; they may be at most 8 deep'
        long = f'"{"1" * 64}"..., of 65 characters; a formula has at most 64'
        for at in GOOD:
            self.check(11, at, b"", "empty; it must be a formula or a number", line=RATE_LINE)
            self.check(11, at, b"1" * 65, long, line=RATE_LINE)
            self.check(11, at, b"(" * 9 + b"N" + b")" * 9, deep, line=RATE_LINE)
        self.check(11, 8, b"\xff" * 65, '"' + "\\xFF" * 16 + '"..., of 65 characters; a formula has at most 64')

    def test_names_of_the_fields(self):
        names = "over-voltage", "under-voltage", "over-frequency", "under-frequency", "rate of change"
        for at, name in zip(GOOD, names, strict=True):
            for number, formula in ((11, b"x"), (12, b"1/0"), (5, b"0")):
                said = self.refused(number, "evaluate", stdin=with_field(at, formula, RATE_LINE))
                self.assertIn(f'\n  field {at + 1}, {name}, is "{formula.decode()}"', said)

    def test_steps(self):
        for at in GOOD:
            divisor = f"; a divisor in it is 0, or {OUTSIDE}"
            self.check(12, at, b"1/0", f'"1/0"{divisor}', line=RATE_LINE)
            self.check(12, at, b"1/(N-230)", f'"1/(N-230)" (N is 230){divisor}', line=RATE_LINE)
            self.check(12, at, b"1000000*2000+1", f'"1000000*2000+1"; {OUTSIDE}', line=RATE_LINE)
        self.check(12, 8, b"N*N*N*N", f'"N*N*N*N" (N is 400); {OUTSIDE}', line=LINE_C)

    def test_numbers_outside_their_range(self):
        share = "it must be 1001 to 1500 thousandths of nominal"
        self.check(5, 6, b"N", f'"N", which gives 230 (N is 230); {share}')
        self.check(5, 6, b"N*115/100", f'"N*115/100", which gives 264 (N is 230); {share}')
        self.check(5, 6, b"2000", f'"2000", which is outside its range; {share}')
        self.check(5, 6, b"500-1000", f'"500-1000", which gives -500; {share}')
        self.check(5, 6, b"1000+0", f'"1000+0", which gives 1000; {share}')
        self.check(5, 6, b"0*N", f'"0*N", which is outside its range (N is 230); {share}')
        self.check(5, 6, b"N*N", f'"N*N", which is outside its range (N is 230); {share}')
        self.check(5, 8, b"1000", '"1000", which is outside its range; it must be 1 to 999 thousandths of nominal')
        self.check(5, 10, b"5*1001", '"5*1001", which is outside its range; it must be 1 to 5000 mHz above nominal')
        self.check(5, 10, b"5*1001", '"5*1001", which gives 5005; it must be 1 to 5000 mHz above nominal',
                   line=RATE_LINE)
        self.check(5, 12, b"2500", '"2500", which is outside its range; it must be -5000 to -1 mHz')
        self.check(5, 12, b"50*50", '"50*50", which gives 2500; it must be -5000 to -1 mHz')
        self.check(5, 12, b"-5001", '"-5001", which is outside its range; it must be -5000 to -1 mHz')
        self.check(5, 14, b"N/10", '"N/10", which gives 23 (N is 230); it must be 100 to 10000 mHz per second',
                   line=RATE_LINE)

    def test_the_first_fault_decides(self):
        """As the document has it, of two formulas the left one; a delay before both; and a range last."""
        for number, left, right, field in ((12, b"1/0", b"", 7), (11, b"", b"1/0", 7), (11, b"2000", b"x", 9),
                                           (12, b"N", b"N/0", 9), (5, b"2000", b"0", 7), (5, b"1150", b"0", 9)):
            line = with_field(6, left, with_field(8, right))
            said = self.refused(number, "evaluate", stdin=line).splitlines()
            self.assertTrue(said[2].startswith(f"  field {field}, "), said)
            for delay in (7, 13):
                said = self.refused(5, "evaluate", stdin=with_field(delay, b"19", line)).splitlines()
                self.assertTrue(said[2].startswith(f"  field {delay + 1}, "), said)


class Hint(Case):
    """Who signs or shows a line of formulas is told what turns them into numbers."""

    HINT = ("  What to do: this line has formulas: `gridprofile evaluate` turns them into numbers; sign what it "
            "prints.\n")
    OTHER = "  What to do: correct the line and sign it again; `gridprofile help line` has the rules.\n"

    def test_sign(self):
        self.put("private", PRIVATE)
        for number, line in ((5, FORMULAS), (5, with_field(6, b"N*5")), (5, with_field(14, b"N*9", RATE_LINE)),
                             (1, with_field(6, padded(b"N*5", 63))), (1, example("xa.sheet").splitlines(True)[2])):
            self.assertTrue(self.refused(number, "sign", "private", self.put("line", line), "out").endswith(self.HINT))

    def test_show(self):
        for number, line in ((5, FORMULAS), (1, with_field(6, padded(b"N*5", 63)))):
            ran = self.run_in("show", self.put("line", line))
            self.assertEqual((ran.returncode, ran.stdout), (number, b"A line, not signed.\n"))
            self.assertTrue(ran.stderr.decode().endswith(self.HINT))

    def test_other_lines_get_none(self):
        self.put("private", PRIVATE)
        for line in (with_field(6, b"N*5+"), with_field(6, b"N/0"), with_field(6, b"N"), with_field(6, b"2000"),
                     with_field(7, b"N"), FORMULAS[:-1], FORMULAS.replace(b"\n", b"\r\n"), FORMULAS * 2, b""):
            ran = self.run_in("sign", "private", self.put("line", line), "out")
            self.assertIn(ran.returncode, (1, 5))
            self.assertTrue(ran.stderr.decode().endswith(self.OTHER), ran.stderr)


def worked():
    """The limits of the document's table, each with what it gives as the document writes it."""
    section = formats().split("\n## Lines with formulas\n")[1].split("\n## ")[0]
    rows = re.findall(r"^\| (.+?) \| (.+?) \|", section.split("\n| Limit | Gives | Why |\n")[1], re.M)[1:]
    for texts, gives in rows:
        limits = [text.strip() for text in texts.split(" ; ")]
        results = [result.strip() for result in gives.split(";")]
        yield from zip(limits, results * len(limits) if len(results) == 1 else results, strict=True)


def written(text):
    """A limit as the table tells it."""
    if text == "an empty field":
        return b""
    start, times, more = re.fullmatch(r"`([^`]+)`(?: and then (\d+) times `([^`]+)`)?", text).groups()
    return (start + (more or "") * int(times or 0)).encode()


class Worked(Case):
    """What the document works out."""

    def test_limits(self):
        rows = [(written(text), int(gives)) for text, gives in worked()]
        self.assertGreaterEqual(len(rows), 40)
        self.assertEqual({gives for _, gives in rows} & {11, 12}, {11, 12})
        for formula, gives in rows:
            self.assertEqual(limit(formula, 230), (gives, None) if gives in (11, 12) else (0, gives), formula)
            for at in GOOD:
                line = with_field(at, formula, RATE_LINE)
                if gives in (11, 12):
                    self.refused(gives, "evaluate", stdin=line)
                elif gives in FIELDS[at][2]:
                    self.assertEqual(self.done("evaluate", stdin=line), with_field(at, b"%d" % gives, RATE_LINE))
                else:
                    self.refused(5, "evaluate", stdin=line)

    def test_numbers_that_no_limit_may_be(self):
        """Seen in a formula around them."""
        rows = [(written(text), int(gives)) for text, gives in worked()]
        great = [(formula, gives) for formula, gives in rows
                 if (gives == 0 or abs(gives) >= 1000000) and not formula.startswith(b"-")]
        self.assertEqual({gives for _, gives in great}, {0, 1000000, 2000000000, -2000000000})
        for formula, gives in great:
            number = divide(gives, 1000000) + 1
            at = 10 if number > 0 else 12
            self.assertEqual(self.done("evaluate", stdin=with_field(at, b"(%s)/1000000+1" % formula)),
                             with_field(at, b"%d" % number))

    def test_line(self):
        section = formats().split("\n## Lines with formulas\n")[1].split("\n## ")[0]
        lines = re.findall(r"^    (GP.*\n)", section, re.M)
        self.assertEqual([line.encode() for line in lines], [FORMULAS, PLAIN])

    def test_examples_of_the_help(self):
        shown = self.done("help", "evaluate").decode()
        told = re.findall(r"([0-9N()+*/-]+) gives (-?[0-9]+)", shown.split("At 230 volts ")[1])
        self.assertEqual(len(told), 4)
        for formula, gives in told:
            at = 12 if gives.startswith("-") else 10
            line = with_field(at, formula.encode())
            self.assertEqual(self.done("evaluate", stdin=line), with_field(at, gives.encode()))
        self.assertLessEqual(max(len(line) for line in shown.splitlines()), 100)
        for words in ("up to 1000000 without leading zeros", "at most 8 deep", "at most 64 characters", "65536 bytes",
                      "400 bytes", "towards zero", "-2000000000 to 2000000000", "or nothing is printed"):
            self.assertIn(words, shown)

    def test_bounds_of_the_header(self):
        with open(os.path.join(ROOT, "include/gridprofile.h"), encoding="utf-8") as file:
            header = file.read()
        for name, number in (("BAD_FORMULA", 11), ("BAD_STEP", 12), ("FORMULA_LINE_MAX_BYTES", MOST_LINE)):
            self.assertRegex(header, rf"(?m)^#define GRIDPROFILE_{name} {number}\b")


SIGNS = b"0123456789N()+-*/"


def any_formula(draw, depth_left=3):
    """What the grammar derives, mostly small."""
    def atom():
        kind = draw.random()
        if kind < 0.25 and depth_left > 0:
            return b"(%s)" % any_formula(draw, depth_left - 1)
        return b"N" if kind < 0.45 else b"%d" % draw.choice((0, 1, 2, 7, 10, 50, 100, 999, 1001, 5000, 1000000))
    parts = [atom()]
    for _ in range(draw.choice((0, 0, 1, 1, 2, 4))):
        parts += [bytes([draw.choice(b"+-*/")]), atom()]
    return b"".join(parts)


def spoiled(draw, formula):
    """With one sign put in, taken away or in the place of another; some signs are of no formula."""
    at, sign = draw.randint(0, len(formula)), bytes([draw.choice(SIGNS + b"n .\t\"x\x00\x7f\x80\xff")])
    return draw.choice((formula[:at] + sign + formula[at:], formula[:at] + sign + formula[at + 1:],
                        formula[:at] + formula[at + 1:]))


def for_limit(draw, at):
    """A formula that gives a number of the range of a limit."""
    number = draw.choice(FIELDS[at][2])
    return draw.choice((b"%d" % number, b"0-%d" % -number if number < 0 else b"(%d)" % number,
                        b"N-N+%d" % number if number > 0 else b"N-%d-N" % -number, b"(0+%d)*1/1" % number
                        if number > 0 else b"(0-1)*%d" % -number))


def any_line(draw):
    """A good line of either kind with formulas for limits, one or two of which may be anything."""
    line = draw.choice((LINE, LINE_C, SHORTEST, LONGEST, RATE_LINE, SHORTEST_RATE, LONGEST_RATE))
    places = limits_of(line.split(b","))
    for at in places:
        line = with_field(at, for_limit(draw, at), line)
    for at in draw.sample(places, draw.choice((0, 1, 1, 1, 2))):
        formula = any_formula(draw)
        deep = draw.randint(1, 12)
        formula = draw.choice((formula, spoiled(draw, formula), spoiled(draw, for_limit(draw, at)), b"",
                               padded(formula, draw.randint(60, 68)), b"(" * deep + formula + b")" * deep,
                               b"-%d" % draw.choice((0, 1, 4999, 5000, 5001, 1000000, 1000001))))
        line = with_field(at, formula.replace(b",", b"x"), line)
    return line


class Formulas(Explained):
    """The library and what is said of a line beside the rules above."""

    PARTS = (*Explained.PARTS, "formulas.c")
    ANSWER = "(used = 0, gridprofile_evaluate_line(classes, sizeof classes, line, length, out, sizeof out, &used))"
    EXPLAIN = "explain_formulas(stdout, answer, (struct part){line, length})"

    def agree(self, lines):
        """Library and rules give each line the same answer, and the same number for each formula; what is wrong is said
        of the field that the rules find. Answers and fields that were seen."""
        lines, seen = list(lines), set()
        for line, (number, said) in zip(lines, self.explained(lines)):
            wanted, plain, field = evaluated(line)
            self.assertEqual(number, wanted, line)
            if number == 0:
                self.assertEqual(said, [plain.decode().removesuffix("\n")], line)
            elif number == 1:
                self.assertEqual(said, [f"it has {len(line)} bytes; it must have at most 400"])
            elif field is None:
                told = [fault_said(one, bare(line)) for one in said]
                self.assertEqual(sorted(map(str, told)), sorted(map(str, faults(bare(line)))), (line, said))
            else:
                self.assertTrue(limit_said(said, number, field, line), (line, said))
            seen.add((number, line[:3], field))
        return seen

    def test_random_formulas(self):
        draw = random.Random(107)
        seen = self.agree(any_line(draw) for _ in range(20000))
        for tag, places in ((b"GP1", (7, 9, 11, 13)), (b"GP2", (7, 9, 11, 13, 15))):
            self.assertLessEqual({(number, tag, field) for number in (5, 11, 12) for field in places}, seen)
            self.assertIn((0, tag, None), seen)

    def test_short_limits(self):
        """Every limit of up to three signs that stand in formulas, and of one byte of any value."""
        limits = [bytes(signs) for count in range(4) for signs in itertools.product(b"019N()+-*/", repeat=count)]
        seen = self.agree(with_field(8, field) for field in limits)
        self.assertEqual({number for number, _, _ in seen}, {0, 5, 11, 12})
        for line, at in ((LINE, 6), (RATE_LINE, 14)):
            self.agree(with_field(at, bytes([byte]), line) for byte in range(256) if byte not in b"\n,")

    def test_bounds(self):
        """Numbers, steps, lengths and depths on both sides of each bound, in each limit."""
        formulas = [*(b"%d" % number for at in GOOD for number in
                      (FIELDS[at][2][0] - 1, FIELDS[at][2][0], FIELDS[at][2][-1], FIELDS[at][2][-1] + 1)),
                    *(b"%d/1000" % number for number in (999999, 1000000, 1000001)),
                    *(b"(1000000*2000%+d)/1000000" % more for more in (-1, 1)), b"1000000*2000/1000000",
                    *(b"((0-1000000)*2000%+d)/1000000" % more for more in (-1, 1)), b"(0-1000000)*2000/1000000",
                    *(b"(" * deep + b"1200" + b")" * deep for deep in range(12)),
                    *(padded(b"1200", length) for length in range(58, 70, 2)),
                    *(padded(b"12-11", length) for length in range(57, 69, 2)),
                    *(form % number for form in (b"-%d", b"0-%d", b"-0%d", b"+%d", b"(-%d)", b"--%d", b"1*-%d")
                      for number in (0, 1, 5000, 5001, 1000000, 1000001)),
                    *(b"N%c%d" % (sign, number) for sign in b"+-*/" for number in (0, 1, 230, 231)),
                    *(b"(0-%d)/%d" % pair for pair in itertools.product((7, 8, 9), (1, 2, 3, 10))),
                    *(b"7/(0-%d)" % number for number in (0, 1, 2, 8)), b"100-7/2*2", b"2+3*4", b"10-4-3", b"100/10/5"]
        seen = self.agree(with_field(at, formula, RATE_LINE) for at in GOOD for formula in formulas)
        self.assertLessEqual({(number, b"GP2", at + 1) for number in (5, 11, 12) for at in GOOD}, seen)

    def test_pairs_of_faults(self):
        """In each two limits of a line, in either order."""
        kinds = {0: None, 11: b"2N", 12: b"N/(N-N)", 5: b"N*99"}
        for line in (LINE, RATE_LINE):
            lines = []
            for one, other in itertools.permutations(limits_of(line.split(b",")), 2):
                for first, second in itertools.product(kinds.values(), repeat=2):
                    changed = with_field(one, first or GOOD[one], with_field(other, second or GOOD[other], line))
                    lines += [changed, with_field(13, b"19", changed)]
            self.agree(lines)

    def test_other_faults(self):
        """One byte changed anywhere in a line of formulas; and lengths around the greatest."""
        odd = [bytes([byte]) for byte in b"\0\t\r +-.,;\"()N09aG\x7f\x80\xff"]
        for line in (FORMULAS, example("xa.sheet").splitlines(True)[2]):
            for_each = [*(line[:at] + byte + line[at + more:] for at in range(len(line) - 1) for byte in odd
                          for more in (0, 1)), *(line[:at] + line[at + 1:] for at in range(len(line) - 1))]
            self.agree(for_each)
        self.agree(with_field(6, b"1" * count, line) for line in (LINE, RATE_LINE) for count in range(330, 352))

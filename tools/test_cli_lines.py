"""What the command-line program says of lines that are refused: beside rules written here from docs/FORMATS.md, on
thousands of lines that are wrong in one way or in several; and what `preview` says of the lines that it skips."""

import base64
import contextlib
import itertools
import os
import random
import re
import subprocess
from unittest import mock

from cli_case import (BAD_LINE, LEAST_LINE, LINE, LINE_60, LINE_77, LINE_C, LONGEST, LONGEST_RATE, MOST_LINE, PREVIEW,
                      RATE_LINE, RIVALS, SHORTEST, SHORTEST_RATE, Case, Explained, line_of, listing_of, rows_of)

# Lines that fill a store: of as many countries and classes, and of both hertz of half as many.
SIXTEEN = b"".join(line_of("X" + country, letter) for country in "ABCD" for letter in "ABCD")
BOTH_HERTZ = b"".join(line_of(*triple) for triple in itertools.product(("XA", "XB"), "ABCD", (50, 60)))
MOST = 65536

WHOLE = rb"0|[1-9][0-9]*"
DELAY = WHOLE, range(20, 60001)
SHARE = "thousandths of nominal"
# Name, form and span of each field, and what it must be in words.
FIELDS = [
    ("tag", rb"GP1|GP2", None, "GP1 or GP2"),
    ("country", rb"[A-Z][A-Z]", None, "two letters A to Z"),
    ("class", rb"[ABCD]", None, "A (100 to 139 V), B (140 to 259), C (260 to 519) or D (520 to 1000)"),  # see `under`
    ("serial", WHOLE, range(1, 4294967296), "1 to 4294967295"),
    ("nominal volts", WHOLE, range(100, 1001), "100 to 1000"),
    ("hertz", rb"50|60", None, "50 or 60"),
    ("over-voltage", WHOLE, range(1001, 1501), "1001 to 1500 " + SHARE),
    ("over-voltage delay", *DELAY, "20 to 60000 ms"),
    ("under-voltage", WHOLE, range(1, 1000), "1 to 999 " + SHARE),
    ("under-voltage delay", *DELAY, "20 to 60000 ms"),
    ("over-frequency", WHOLE, range(1, 5001), "1 to 5000 mHz above nominal"),
    ("over-frequency delay", *DELAY, "20 to 60000 ms"),
    ("under-frequency", rb"-[1-9][0-9]*", range(-5000, 0), "-5000 to -1 mHz"),
    ("under-frequency delay", *DELAY, "20 to 60000 ms"),
    ("rate of change", WHOLE, range(100, 10001), "100 to 10000 mHz per second"),
    ("rate of change delay", *DELAY, "20 to 60000 ms"),
]
# How many fields a tag asks for.
NUMBERS = {b"GP1": 14, b"GP2": 16}
VOLTS_OF = {b"A": range(100, 140), b"B": range(140, 260), b"C": range(260, 520), b"D": range(520, 1001)}


@contextlib.contextmanager
def under(volts_of):
    """What these rules are under another class table, for so long."""
    names = [f"{letter.decode()} ({volts[0]} to {volts[-1]}" for letter, volts in volts_of.items()]
    *first, last = [names[0] + " V)", *(name + ")" for name in names[1:])]
    must = f"{', '.join(first)} or {last}" if first else last
    if len(names) > 8:
        must = "one of " + " and ".join(b", ".join(volts_of).decode().rsplit(", ", 1))
    field = "class", b"[" + b"".join(volts_of) + b"]", None, must
    before = FIELDS[2]
    with mock.patch.dict(VOLTS_OF, volts_of, clear=True):
        FIELDS[2] = field
        try:
            yield
        finally:
            FIELDS[2] = before


def class_of(volts):
    """The class of a field of volts that keeps its rule; None in a gap."""
    return next((letter for letter, span in VOLTS_OF.items() if int(volts) in span), None)


def fits(at, field):
    """Whether a field keeps its rule, without a look at the others."""
    _, form, span, _ = FIELDS[at]
    return bool(re.fullmatch(form, field)) and (span is None or len(field) <= 10 and int(field) in span)


def first_broken(fields):
    """The first field that breaks a rule, from 1; one that is missing breaks it too; None where none does."""
    for at in range(NUMBERS.get(fields[0], 16)):
        if at >= len(fields) or not fits(at, fields[at]):
            return at + 1
        if at == 2 and len(fields) > 4 and fits(4, fields[4]) and class_of(fields[4]) not in (fields[2], None):
            return at + 1
        if at == 4 and class_of(fields[4]) is None:
            return at + 1
    return None


def answer(line):
    """0, 1 or 5."""
    if not LEAST_LINE <= len(line) <= MOST_LINE:
        return 1
    fields = line[:-1].split(b",")
    right = line[-1:] == b"\n" and len(fields) == NUMBERS.get(fields[0]) and first_broken(fields) is None
    return 0 if right else 5


def body(line):
    """The text of the first line, without what may stand around it."""
    return line.split(b"\n")[0].removesuffix(b"\r").removeprefix(b"\xef\xbb\xbf")


def wrong_number(fields, endless):
    """The number of fields where it is wrong, and None where it is right or not known."""
    wanted = [NUMBERS[fields[0]]] if fields[0] in NUMBERS else [14, 16]
    return None if len(fields) in wanted or endless and len(fields) < wanted[-1] else len(fields)


def faults(line):
    """What is to be said of a refused line: of what stands around its text, of the first field that breaks a rule, and
    of the number of fields. Of a line that is too long and has no end, only what is seen of it is known. Of what is not
    meant as a line hardly anything is said."""
    first, feed, rest = line.partition(b"\n")
    if first[:2] in (b"\xff\xfe", b"\xfe\xff"):
        return {"utf-16"}
    if body(line) and not body(line).startswith((b"GP1", b"GP2")) and len(re.findall(rb"[,;\t]", body(line))) < 10:
        return {("no line", RIVALS.get(len(line)))} | ({"mark"} if first.startswith(b"\xef\xbb\xbf") else set())
    endless = not feed and len(line) > MOST_LINE
    fields = body(line).split(b",")
    broken = first_broken(fields)
    found = {
        "mark": first.startswith(b"\xef\xbb\xbf"),
        "empty": not body(line),
        "field": body(line) and broken,
        "count": body(line) and wrong_number(fields, endless),
        "endless": endless,
        "return": not feed and not endless and first.endswith(b"\r"),
        "no feed": line and not feed and not endless and not first.endswith(b"\r"),
        "windows": feed and first.endswith(b"\r"),
        "more": bool(rest),
    }
    return {(name, value) if name in ("field", "count") else name for name, value in found.items() if value}


NO_LINE = "field 1, tag, is not GP1 or GP2; this does not look like a profile line"
QUOTED = r'"((?:[ !#-\[\]-~]|\\x[0-9A-F]{2})*)"(\.\.\.)?'
SAID = [
    ("utf-16", r"a byte order mark of UTF-16 stands in front; .+"),
    ("no line", rf"{NO_LINE}(?:, but has the size of (.+))?"),
    ("mark", r"a byte order mark \(EF BB BF\) stands in front; .+"),
    ("empty", r"the line is empty"),
    ("endless", r"no line feed stands in its first 84 bytes"),
    ("return", r"the line ends in CR \(0D\); .+"),
    ("no feed", r"the line feed at the end is missing"),
    ("windows", r"the line ends in CR LF, as Windows writes it; .+"),
    ("more", r"bytes stand after the line feed; .+"),
]


def unquoted(text):
    return re.sub(rb"\\x(..)", lambda found: bytes.fromhex(found.group(1).decode()), text.encode())


def class_said(said, line):
    """What is said of a class that does not fit its volts, each of which is good."""
    fields = body(line).split(b",")
    found = re.fullmatch(r'"([A-Z])", but (\d+) volts are of class ([A-Z])', said)
    return (found and found[1].encode() == fields[2] and found[2].encode() == fields[4]
            and found[3].encode() == class_of(fields[4]) and fits(2, fields[2]))


def field_said(said, line):
    """The field that is named, where all that is said of it is so."""
    number, name, rest = re.fullmatch(r"field (1?\d), ([a-z -]+), is (.+)", said).groups()
    fields, at = body(line).split(b","), int(number) - 1
    if name != FIELDS[at][0]:
        return None
    if at == 2 and " volts are of class " in rest:
        return at + 1 if class_said(rest, line) else None
    if at == 4 and ", in a gap of the class table" in rest:
        right = rest == f'"{fields[4].decode()}", in a gap of the class table; it must be in {FIELDS[2][3]}'
        return at + 1 if right and fits(4, fields[4]) else None
    what, must = rest.rsplit("; it must be ", 1)
    quote = re.match(QUOTED, what)
    if quote is None:
        right = what == ("missing" if at >= len(fields) else "empty") and not b"".join(fields[at:at + 1])
    else:
        shown = unquoted(quote[1])
        right = len(quote[1]) <= 24 and (fields[at].startswith(shown) if quote[2] else fields[at] == shown)
        right = right and re.fullmatch(r"|, [\w -]+", what[quote.end():], re.I)
    return at + 1 if right and must == FIELDS[at][3] else None


def count_said(said, line):
    """The number of fields that is said, where all that is said of it is so."""
    fields, endless = body(line).split(b","), b"\n" not in line and len(line) > MOST_LINE
    wanted, others = NUMBERS.get(fields[0]), [number for number in NUMBERS.values() if number != NUMBERS.get(fields[0])]
    must = f"{wanted} under {fields[0].decode()}" if wanted else "14 under GP1 or 16 under GP2"
    why = ", parted by commas" if len(fields) < (wanted or 16) else ", and no comma within a number"
    if not endless and len(fields) in others and first_broken(fields) in (15, None):
        why = ": a rate point needs GP2" if wanted == 14 else \
            ": rate of change and its delay are missing, or the tag must be GP1"
    plural, more = "" if len(fields) == 1 else "s", " or more" if endless else ""
    right = said == f"the line has {len(fields)} field{plural}{more}; it must have {must}{why}"
    return len(fields) if right else None


def fault_said(said, line):
    for name, form in SAID:
        found = re.fullmatch(form, said)
        if found:
            return (name, found[1]) if name == "no line" else name
    if said.startswith("the line has "):
        return "count", count_said(said, line)
    return "field", field_said(said, line)


ODD = [bytes([byte]) for byte in b"\0\t\n\r +-.,;'\"_019aGZ\x7f\x80\xef\xff"]


def changed(line):
    """One byte put in the place of each, put before each, and taken away; and the line cut short at each place."""
    for at in range(len(line) + 1):
        for byte in ODD:
            yield line[:at] + byte + line[at + 1:]
            yield line[:at] + byte + line[at:]
        yield line[:at] + line[at + 1:]
        yield line[:at]


def with_field(at, field, line=LINE):
    fields = line[:-1].split(b",")
    return b",".join([*fields[:at], field, *fields[at + 1:]]) + b"\n"


def good_lines(shortest, longest):
    """One of every length: fields of the longest line in the shortest one, and a serial that fills the rest."""
    yield shortest
    for length in range(len(shortest) + 1, len(longest) + 1):
        line = with_field(2, b"D", with_field(4, b"1000", shortest))
        for at, field in enumerate(longest[:-1].split(b",")):
            longer = with_field(at, field, line)
            line = longer if at > 5 and len(longer) <= length else line
        yield with_field(3, b"4294967295"[:1 + length - len(line)], line)


def bounds():
    """Each number on both sides of its bounds, and in forms that it may not have."""
    for at, line in [*((at, LINE) for at in range(14)), *((at, RATE_LINE) for at in range(16))]:
        span = FIELDS[at][2]
        ends = [] if span is None else [span[0] - 1, span[0], span[-1], span[-1] + 1]
        for number in [*ends, 0, 49, 50, 51, 59, 60, 61, 2 ** 32, 2 ** 64, 2 ** 64 + 100, 10 ** 19]:
            for form in (b"%d", b"-%d", b"+%d", b"0%d", b"-0%d", b"%d ", b"%d.0", b"%d,000", b"%dx"):
                yield with_field(at, form % number, line)
        for field in (b"", b"-", b"+", b"--1", b"9" * 20, b"0" * 30, b"1" * 60):
            yield with_field(at, field, line)


def classes():
    for letter in b"@ABCDEabcd":
        for volts in (99, 100, 139, 140, 259, 260, 519, 520, 1000, 1001):
            yield with_field(4, b"%d" % volts, with_field(2, bytes([letter])))


def numbers_of_fields():
    """Every number of fields to 20 under each tag, and under what is none; with all of them good, and with one that is
    not; also where the line is too long and has no end."""
    for line in (SHORTEST_RATE, RATE_LINE, LONGEST_RATE):
        fields = [*line[:-1].split(b","), *[b"20"] * 4]
        for tag in (b"GP1", b"GP2", b"GP0", b"GP3", b"GP", b"GP12", b"GP22", b"gp1", b"gp2", b"gP2", b"P2", b"2", b"",
                    b" GP2", b"GP2 ", b"GP\x12", b"GP\xb2"):
            for count in range(1, 21):
                for end in (b"\n", b"", b"\r\n", b"0\n", b"0" * 84):
                    yield b",".join([tag, *fields[1:count]]) + end
                yield b",".join([tag, *fields[1:3], b"0", *fields[4:max(count, 4)]]) + b"\n"


def wholes():
    """What is wrong with a line as a whole; every length to 90, and some far past it."""
    for line in (LINE, RATE_LINE, SHORTEST, LONGEST, LINE_77, LONGEST_RATE, BAD_LINE, b"\n", b""):
        text = line[:-1]
        for front in (b"", b"\xef\xbb\xbf", b"\xff\xfe", b"\xfe\xff", b"\n", b" ", b"\xef\xbb"):
            for end in (b"", b"\n", b"\r\n", b"\r", b"\n\n", b"\r\n\r\n", b"\n\0", b" \n", b",\n", b"\n" + line):
                yield front + text + end
        for code in ("utf-16-le", "utf-16-be", "utf-16"):
            yield text.decode().encode(code)
        yield from (line.replace(b",", other) for other in (b";", b"\t", b", ", b",,", b""))
    for length in [*range(91), 1000, MOST - 1, MOST]:
        for filler in (b"x", b",", b"1", b"\0", b"\xff", LINE, LINE[:-1], RATE_LINE[:-1], b"GP1,", b"GP2,", b"\r",
                       b"\n"):
            yield (filler * (length // len(filler) + 1))[:length]


def chance(draw, count):
    """Lines with some changes at random, and random bytes."""
    alphabet = [bytes([byte]) for byte in range(256)]
    for _ in range(count):
        line = draw.choice((LINE, LINE_C, SHORTEST, LONGEST, RATE_LINE, SHORTEST_RATE, LONGEST_RATE))
        for _ in range(draw.randint(1, 3)):
            at = draw.randint(0, len(line))
            byte = draw.choice(draw.choice((ODD, alphabet)))
            line = line[:at] + draw.choice((byte, b"", b"\r\n")) + line[at + draw.randint(0, 1):]
        yield line
        yield draw.randbytes(draw.randint(0, 90))
        yield bytes(draw.choice(b"GP12,XAB0123456789-\n") for _ in range(draw.randint(40, 86)))


class Explain(Explained):
    def agree(self, lines):
        """Library and rules give each line the same number, and what the rules find is said, all of it and nothing
        else; what they found in any line."""
        lines, found = list(lines), set()
        for line, (number, said) in zip(lines, self.explained(lines)):
            self.assertEqual(number, answer(line), line)
            expected = set() if number == 0 else faults(line)
            self.assertEqual(bool(expected), number != 0, line)
            told = [fault_said(one, line) for one in said]
            self.assertEqual(sorted(map(str, told)), sorted(map(str, expected)), (line, said))
            found |= expected
        return found

    def test_lines_with_one_change(self):
        lines = LINE, SHORTEST, LONGEST, RATE_LINE, SHORTEST_RATE, LONGEST_RATE
        found = self.agree(one for line in lines for one in changed(line))
        self.assertLessEqual({("field", at) for at in range(1, 17)}, found)
        self.assertLessEqual({("count", count) for count in (13, 15, 17)} | {"empty", "more", "no feed", "windows"},
                             found)

    def test_lengths(self):
        """Good lines of every length that their kind may have, and lines of other lengths."""
        for least, most, lengths in ((SHORTEST, LONGEST, range(42, 73)), (SHORTEST_RATE, LONGEST_RATE, range(49, 85))):
            lines = list(good_lines(least, most))
            self.assertEqual([len(line) for line in lines], list(lengths))
            self.assertEqual(self.agree(lines), set())
            self.agree(with_field(3, b"1" * count, line) for line in (least, most) for count in range(50))

    def test_every_byte_in_every_field(self):
        for line, count in ((LINE, 14), (RATE_LINE, 16)):
            starts = [found.start() for found in re.finditer(rb"(?<=,)|\A", line)]
            self.assertEqual(len(starts), count)
            places = [*starts, 2, len(line) - 1]
            self.agree(line[:at] + bytes([byte]) + line[at + 1:] for at in places for byte in range(256))

    def test_bounds_and_classes(self):
        found = self.agree([*bounds(), *classes()])
        self.assertEqual({("field", at) for at in range(1, 17)} | {("count", 15), ("count", 17)}, found)

    def test_numbers_of_fields(self):
        found = self.agree(numbers_of_fields())
        self.assertLessEqual({("count", count) for count in range(1, 21)}, found)
        self.assertLessEqual({("field", at) for at in range(1, 17)}, found)

    def test_whole_lines(self):
        found = self.agree(wholes())
        self.assertLessEqual({name for name, _ in SAID} - {"no line"}, found)
        self.assertLessEqual({("no line", rival) for rival in [None, *RIVALS.values()]}, found)
        self.assertLessEqual({("count", count) for count in (1, 13, 15, 27, MOST + 1)}, found)

    def test_random_lines(self):
        self.agree(chance(random.Random(20), 1500))

    def test_nothing_is_shown_of_a_seed(self):
        """Given for a line by mistake, as bytes or in letters, with or without a line feed."""
        seeds = [random.Random(22).randbytes(length) for length in (16, 24, 32, 48, 64)]
        texts = [text for seed in seeds for text in (seed, seed.hex().encode(), base64.b64encode(seed))]
        given = [text + end for text in [*texts, b"x" + b",;\t" * 3] for end in (b"", b"\n")]
        for text, (_, said) in zip(given, self.explained(given)):
            rival = f", but has the size of {RIVALS[len(text)]}" if len(text) in RIVALS else ""
            self.assertEqual(said, [NO_LINE + rival])

    def test_words(self):
        """What people really meet, word for word."""
        delay, nominal, tag = "it must be 20 to 60000 ms", "it must be 100 to 1000", "it must be GP1 or GP2"
        for line, *said in (
                (with_field(5, b"55"), 'field 6, hertz, is "55"; it must be 50 or 60'),
                (with_field(0, b"GP3"), f'field 1, tag, is "GP3"; {tag}'),
                (with_field(0, b"GP0", RATE_LINE), f'field 1, tag, is "GP0"; {tag}'),
                (with_field(0, b"gp1"), f'field 1, tag, is "gp1", in lower case; {tag}'),
                (with_field(0, b"gp2", RATE_LINE), f'field 1, tag, is "gp2", in lower case; {tag}'),
                (with_field(1, b"xa"), 'field 2, country, is "xa", in lower case; it must be two letters A to Z'),
                (with_field(1, b"XAB"), 'field 2, country, is "XAB"; it must be two letters A to Z'),
                (with_field(2, b"C"), 'field 3, class, is "C", but 230 volts are of class B'),
                (with_field(2, b"b"), f'field 3, class, is "b", in lower case; it must be {FIELDS[2][3]}'),
                (b" " + LINE, f'field 1, tag, is " GP1", with a space or a tab; {tag}'),
                (LINE[:-1] + b"\t\n",
                 f'field 14, under-frequency delay, is "100\\x09", with a space or a tab; {delay}'),
                (with_field(4, b" 230"), f'field 5, nominal volts, is " 230", with a space or a tab; {nominal}'),
                (with_field(3, b"0"), 'field 4, serial, is "0"; it must be 1 to 4294967295'),
                (with_field(12, b"-"),
                 'field 13, under-frequency, is "-", not digits alone; it must be -5000 to -1 mHz'),
                (with_field(4, b"0230"), f'field 5, nominal volts, is "0230", with a leading zero; {nominal}'),
                (with_field(4, b"+230"), f'field 5, nominal volts, is "+230", with a plus; {nominal}'),
                (with_field(4, b"-230"), f'field 5, nominal volts, is "-230", with a minus; {nominal}'),
                (with_field(4, b"230V"), f'field 5, nominal volts, is "230V", not digits alone; {nominal}'),
                (with_field(4, b'"230"'), f'field 5, nominal volts, is "\\x22230\\x22", with a quote; {nominal}'),
                (with_field(4, b"230.0"),
                 f'field 5, nominal volts, is "230.0", with a decimal point or a thousands mark; {nominal}'),
                (with_field(9, b"1'500"),
                 f'field 10, under-voltage delay, is "1\'500", with a decimal point or a thousands mark; {delay}'),
                (with_field(9, b"1,500"), f'field 10, under-voltage delay, is "1"; {delay}',
                 "the line has 15 fields; it must have 14 under GP1, and no comma within a number"),
                (with_field(7, b""), f"field 8, over-voltage delay, is empty; {delay}"),
                (with_field(13, b"60001"), f'field 14, under-frequency delay, is "60001"; {delay}'),
                (with_field(12, b"2500"),
                 'field 13, under-frequency, is "2500", without a minus; it must be -5000 to -1 mHz'),
                (with_field(12, "\u22122500".encode()),  # the minus of a text, as in FORMATS
                 'field 13, under-frequency, is "\\xE2\\x88\\x922500", with bytes that are not plain ASCII; '
                 "it must be -5000 to -1 mHz"),
                (with_field(3, b"1" * 30), f'field 4, serial, is "{"1" * 24}"...; it must be 1 to 4294967295'),
                (with_field(3, b"\x1b[2J"),  # clears a terminal that gets it as it is
                 'field 4, serial, is "\\x1B[2J", not digits alone; it must be 1 to 4294967295'),
                (LINE[:-5] + b"\n", f"field 14, under-frequency delay, is missing; {delay}",
                 "the line has 13 fields; it must have 14 under GP1, parted by commas"),
                (LINE.replace(b",", b";"), f'field 1, tag, is "GP1;XA;B;12;230;50;1150;"...; {tag}',
                 "the line has 1 field; it must have 14 under GP1 or 16 under GP2, parted by commas"),
                (LINE[:-1], "the line feed at the end is missing"),
                (LINE[:-1] + b"\r\n", "the line ends in CR LF, as Windows writes it; it must end in LF alone"),
                (LINE[:-1] + b"\r", "the line ends in CR (0D); it must end in LF (0A)"),
                (LINE + b"\n", "bytes stand after the line feed; there must be one line and nothing else"),
                (LINE + LINE_C, "bytes stand after the line feed; there must be one line and nothing else"),
                (b"\xef\xbb\xbf" + LINE, "a byte order mark (EF BB BF) stands in front; save the file without it"),
                (b"\xff\xfe" + LINE.decode().encode("utf-16-le"),
                 "a byte order mark of UTF-16 stands in front; save the file as plain ASCII"),
                (b"", "the line is empty"),
                (b"GP;" + b",;\t" * 3 + b"\n", f'field 1, tag, is "GP;"; {tag}',
                 "the line has 4 fields; it must have 14 under GP1 or 16 under GP2, parted by commas"),
                # as much as is read of a file that is too long: what comes after it is not known
                (b"GP1,XA," + b"x" * 78, f'field 3, class, is "{"x" * 24}"...; it must be {FIELDS[2][3]}',
                 "no line feed stands in its first 84 bytes"),
                ((LINE[:-1] + b"," * 99)[:85], "the line has 44 fields or more; it must have 14 under GP1, and no comma"
                 " within a number", "no line feed stands in its first 84 bytes")):
            self.assertEqual(self.explained([line])[0][1], said)

    def test_words_on_a_rate_point(self):
        """Its two fields, and how many fields each kind of line has."""
        delay, rate = "it must be 20 to 60000 ms", "it must be 100 to 10000 mHz per second"
        for line, *said in (
                (with_field(0, b"GP2"), f"field 15, rate of change, is missing; {rate}",
                 "the line has 14 fields; it must have 16 under GP2: rate of change and its delay are missing, or the "
                 "tag must be GP1"),
                (with_field(0, b"GP1", RATE_LINE),
                 "the line has 16 fields; it must have 14 under GP1: a rate point needs GP2"),
                (RATE_LINE[:-5] + b"\n", f"field 16, rate of change delay, is missing; {delay}",
                 "the line has 15 fields; it must have 16 under GP2, parted by commas"),
                (RATE_LINE[:-1] + b",1\n",
                 "the line has 17 fields; it must have 16 under GP2, and no comma within a number"),
                (with_field(14, b"99", RATE_LINE), f'field 15, rate of change, is "99"; {rate}'),
                (with_field(14, b"10001", RATE_LINE), f'field 15, rate of change, is "10001"; {rate}'),
                (with_field(14, b"-200", RATE_LINE), f'field 15, rate of change, is "-200", with a minus; {rate}'),
                (with_field(14, b"+200", RATE_LINE), f'field 15, rate of change, is "+200", with a plus; {rate}'),
                (with_field(14, b"0200", RATE_LINE),
                 f'field 15, rate of change, is "0200", with a leading zero; {rate}'),
                (with_field(14, b"2.0", RATE_LINE),
                 f'field 15, rate of change, is "2.0", with a decimal point or a thousands mark; {rate}'),
                (with_field(14, b"", RATE_LINE), f"field 15, rate of change, is empty; {rate}"),
                (with_field(15, b"19", RATE_LINE), f'field 16, rate of change delay, is "19"; {delay}'),
                (with_field(15, b"60001", RATE_LINE), f'field 16, rate of change delay, is "60001"; {delay}'),
                (with_field(15, b"0500", RATE_LINE),
                 f'field 16, rate of change delay, is "0500", with a leading zero; {delay}'),
                (with_field(15, b"", RATE_LINE), f"field 16, rate of change delay, is empty; {delay}"),
                # two marks of thousands make as many fields as a rate point
                (with_field(7, b"1,100", with_field(9, b"1,500")), f'field 8, over-voltage delay, is "1"; {delay}',
                 "the line has 16 fields; it must have 14 under GP1, and no comma within a number")):
            self.assertEqual(self.explained([line])[0][1], said)


def follow(text):
    """What the preview stores and what it skips: for each country, class and hertz the serial and the line that it came
    from; the number of lines; for each that is skipped its number and why."""
    lines = text.split(b"\n")
    unfinished = lines.pop()
    rows, skipped = {}, []
    for number, line in enumerate([line + b"\n" for line in lines], 1):
        why = answer(line)
        if line == b"\n":
            why = "empty"
        elif why == 0:
            _, country, letter, serial, _, hertz = line.decode().split(",")[:6]
            triple = country, letter, int(hertz)
            older = rows.get(triple)
            if older and int(serial) <= older[0]:
                why = (int(serial), *older, *triple)
            elif not older and len(rows) == 16:
                why = 8
            else:
                rows[triple] = int(serial), number
        if why != 0:
            skipped.append((number, why))
    if unfinished:
        skipped.append((len(lines) + 1, "unfinished"))
    return rows, len(lines) + bool(unfinished), skipped


def reason(why, line):
    """The first line of the words for it; for a rule that a line breaks, how they begin."""
    words = {"empty": "  it is empty\n", "unfinished": "  it is unfinished: the line feed at the end is missing\n",
             1: f"  it has {len(line)} bytes with its line feed; it must have 42 to 84\n", 5: "  ",
             8: "  16 other triples of country, class and hertz are stored already\n"}
    if why in words:
        return words[why]
    return ("  its serial, {}, is not greater than {}, which line {} has for the same country, class and hertz, {}, {} "
            "and {}\n".format(*why))


class Skipped(Case):
    def said(self, text):
        """What is said of the lines; listing, count and first reason are those of the rules above."""
        rows, count, skipped = follow(text)
        self.put("lines", text)
        ran = self.run_in("preview", "lines")
        said = ran.stderr.decode()
        self.assertEqual(ran.returncode, 0, said)
        if os.path.exists(PREVIEW):
            proved = subprocess.run([PREVIEW], input=text, stdout=subprocess.PIPE, check=True).stdout
            self.assertEqual(ran.stdout, proved)
        serials = {triple: serial for triple, (serial, _) in rows.items()}
        self.assertEqual(ran.stdout, listing_of(rows_of(serials)))
        if not skipped:
            self.assertEqual(said, "")
            return said
        number, why = skipped[0]
        head = f"gridprofile preview: {len(skipped)} of {count} lines skipped; the first is line {number}:\n"
        self.assertTrue(said.startswith(head + reason(why, (text.split(b"\n")[number - 1] + b"\n"))), said)
        return said[len(head):]

    def test_silence(self):
        for text in (b"", LINE, LINE + LINE_C, LINE + RATE_LINE, LINE_77, LONGEST_RATE,
                     b"".join(line_of(serial=serial) for serial in range(1, 1000)),
                     SIXTEEN + line_of(serial=13), SIXTEEN + RATE_LINE, LINE + LINE_60, LINE_60 + LINE,
                     BOTH_HERTZ + line_of(serial=13) + line_of(hertz=60, serial=13)):
            self.assertEqual(self.said(text), "")
            self.done("preview", stdin=text)

    def test_rule_broken(self):
        hertz = '  field 6, hertz, is "55"; it must be 50 or 60\n'
        self.assertEqual(self.said(LINE + BAD_LINE + LINE_C), hertz)
        self.assertEqual(self.said(BAD_LINE + b"\n" + LINE + b"x"), hertz)
        windows = "  the line ends in CR LF, as Windows writes it; it must end in LF alone\n"
        self.assertEqual(self.said((LINE + LINE_C).replace(b"\n", b"\r\n")), windows)
        mark = "  a byte order mark (EF BB BF) stands in front; save the file without it\n"
        self.assertEqual(self.said(b"\xef\xbb\xbf" + LINE + LINE_C), mark)

    def test_length(self):
        other = f"  {NO_LINE}\n"
        for line, cause in ((b"COUNTRY,CLASS,HERTZ,SERIAL\n", other), (b"x" * 100 + b"\n", other),
                            (b"GP1,XA,X\n", '  field 3, class, is "X"; it must be A (100 to 139 V), '),
                            (b"\xff\xfeG\0P\0001\0\n", "  a byte order mark of UTF-16 stands in front; ")):
            self.assertIn(cause, self.said(LINE + line + LINE_C))

    def test_empty_line(self):
        self.assertEqual(self.said(LINE + b"\n" + LINE_C), "  it is empty\n")
        self.said(b"\n" * MOST)

    def test_unfinished_line(self):
        for text in (LINE[:-1], LINE + LINE_C[:-1], LINE + b"x", b"x" * MOST):
            self.assertEqual(self.said(text), "  it is unfinished: the line feed at the end is missing\n")

    def test_older_serial(self):
        last = "which line 3 has for the same country, class and hertz, XA, B and 50\n"
        for serial in (1, 12, 13):
            said = self.said(line_of(serial=12) + LINE_C + line_of(serial=13) + line_of(serial=serial))
            self.assertEqual(said, f"  its serial, {serial}, is not greater than 13, {last}")
        most = 4294967295
        said = self.said(line_of(serial=most) + line_of(serial=most))
        self.assertIn(f"  its serial, {most}, is not greater than {most}, which line 1 has ", said)

    def test_serials_of_the_other_hertz_do_not_count(self):
        for hertz, other in ((50, 60), (60, 50)):
            text = line_of(hertz=hertz, serial=12) + line_of(hertz=other, serial=1)
            self.assertEqual(self.said(text + line_of(hertz=other, serial=2)), "")
            last = f"which line 2 has for the same country, class and hertz, XA, B and {other}\n"
            said = self.said(text + line_of(hertz=other, serial=1))
            self.assertEqual(said, f"  its serial, 1, is not greater than 1, {last}")

    def test_seventeenth_triple(self):
        """Also where it is the other hertz of a country and class that is stored."""
        full = "  16 other triples of country, class and hertz are stored already\n"
        for text in (line_of("XE"), line_of("XE") + BAD_LINE, line_of(serial=13) + line_of("YA")):
            for sixteen in (SIXTEEN, BOTH_HERTZ):
                self.assertEqual(self.said(sixteen + text), full)
        self.assertEqual(self.said(SIXTEEN + line_of(hertz=60, serial=99)), full)

    def test_random_lines(self):
        draw, reasons = random.Random(21), set()
        others = [b"\n", BAD_LINE, LINE[1:], b"x\n", LINE[:-1] + b"\r\n", line_of(rate=99), b"GP2" + LINE[3:]]
        for _ in range(150):
            triples, lines = draw.choice((1, 2, 17, 40, 100)), []
            for _ in range(draw.choice((3, 20, 60))):
                triple = draw.randrange(triples)
                country = "ZXA"[triple // 8 % 3] + chr(90 - triple // 8)
                good = line_of(country, "ABCD"[triple // 2 % 4], (50, 60)[triple % 2],
                               draw.randint(len(lines) + 1, 70), draw.choice((None, 100, 10000)))
                lines.append(good if draw.random() < 0.97 else draw.choice(others))
            text = b"".join(lines)[:-draw.choice((1, 1000)) if draw.random() < 0.2 else None]
            self.said(text)
            reasons |= {why if isinstance(why, (int, str)) else 7 for _, why in follow(text)[2][:1]}
        self.assertEqual(reasons, {1, 5, 7, 8, "empty", "unfinished"})

    def test_too_long(self):
        words = b"gridprofile preview: the input has more than 65536 bytes; nothing was read from it\n"
        for text in (LINE * 1171, b"\n" * (MOST + 1)):
            ran = self.run_in("preview", stdin=text)
            self.assertEqual((ran.returncode, ran.stdout, ran.stderr), (0, b"too long\n", words))

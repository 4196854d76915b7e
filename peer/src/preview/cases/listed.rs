//! Inputs and their listings, written by hand.

/// A usual line.
pub const USUAL: &str = "GP1,XA,B,12,230,50,1150,100,800,1500,1500,100,-2500,100\n";

/// The worked example. Its lines come in descending order.
pub const EXAMPLE: &str = "\
GP1,XB,B,9,230,60,1150,100,800,1500,1500,100,-2500,100
GP1,XA,C,5,400,50,1100,200,850,1500,1500,100,-2500,100
GP1,XA,B,1,230,60,1150,100,800,1500,1500,100,-2500,100
GP1,XA,B,12,230,50,1150,100,800,1500,1500,100,-2500,100
";

pub const EXAMPLE_LISTED: &str = "\
COUNTRY,CLASS,HERTZ,SERIAL
XA,B,50,12
XA,B,60,1
XA,C,50,5
XB,B,60,9
";

/// The same with the worked `GP2` line after it.
const EXAMPLE_WITH_RATE: &str = "\
GP1,XB,B,9,230,60,1150,100,800,1500,1500,100,-2500,100
GP1,XA,C,5,400,50,1100,200,850,1500,1500,100,-2500,100
GP1,XA,B,1,230,60,1150,100,800,1500,1500,100,-2500,100
GP1,XA,B,12,230,50,1150,100,800,1500,1500,100,-2500,100
GP2,XA,B,13,230,50,1150,100,800,1500,1500,100,-2500,100,2000,500
";

const EXAMPLE_WITH_RATE_LISTED: &str = "\
COUNTRY,CLASS,HERTZ,SERIAL
XA,B,50,13
XA,B,60,1
XA,C,50,5
XB,B,60,9
";

/// Lines of both kinds: a rate point comes with a greater serial, and goes with one. The others are refused: for their
/// rate, and twice for fields that belong to the other tag.
pub const BOTH_KINDS: &str = "\
GP1,XA,B,12,230,50,1150,100,800,1500,1500,100,-2500,100
GP2,XA,B,13,230,50,1150,100,800,1500,1500,100,-2500,100,2000,500
GP2,XA,B,14,230,50,1150,100,800,1500,1500,100,-2500,100,99,500
GP1,XA,B,15,230,50,1150,100,800,1500,1500,100,-2500,100,2000,500
GP2,XA,B,16,230,50,1150,100,800,1500,1500,100,-2500,100
GP2,XA,C,5,400,50,1100,200,850,1500,1500,100,-2500,100,2000,500
GP1,XA,C,6,400,50,1100,200,850,1500,1500,100,-2500,100
";

const BOTH_KINDS_LISTED: &str = "\
COUNTRY,CLASS,HERTZ,SERIAL
XA,B,50,13
XA,C,50,6
";

/// Both hertz of one country and class: each has a row, and its own serials decide, so that 1 at 60 hertz is taken
/// after 13 at 50. Of each hertz one line comes too late.
pub const BOTH_HERTZ: &str = "\
GP1,XA,B,12,230,50,1150,100,800,1500,1500,100,-2500,100
GP1,XA,C,5,400,50,1100,200,850,1500,1500,100,-2500,100
GP2,XA,B,13,230,50,1150,100,800,1500,1500,100,-2500,100,2000,500
GP1,XA,B,1,230,60,1150,100,800,1500,1500,100,-2500,100
GP1,XA,B,12,230,50,1150,100,800,1500,1500,100,-2500,100
GP2,XA,B,2,230,60,1150,100,800,1500,1500,100,-2500,100,2000,500
GP1,XA,B,1,230,60,1150,100,800,1500,1500,100,-2500,100
";

const BOTH_HERTZ_LISTED: &str = "\
COUNTRY,CLASS,HERTZ,SERIAL
XA,B,50,13
XA,B,60,2
XA,C,50,5
";

/// Lines that go on alike after these fields: country, class, serial, volts, hertz.
macro_rules! lines {
    ($($fields:literal)+) => {
        concat!($("GP1,", $fields, ",1150,100,800,1500,1500,100,-2500,100\n"),+)
    };
}

/// The greatest triple first, and the least last.
const DESCENDING: &str = lines!(
    "XB,C,1,400,60"
    "XB,C,2,400,50"
    "XB,B,3,230,60"
    "XB,B,4,230,50"
    "XA,C,5,400,60"
    "XA,C,6,400,50"
    "XA,B,7,230,60"
    "XA,B,8,230,50"
);

const DESCENDING_LISTED: &str = "\
COUNTRY,CLASS,HERTZ,SERIAL
XA,B,50,8
XA,B,60,7
XA,C,50,6
XA,C,60,5
XB,B,50,4
XB,B,60,3
XB,C,50,2
XB,C,60,1
";

/// Two classes of one country at both hertz, and a lower class of a greater country.
pub const TWO_CLASSES: &str = lines!(
    "XA,C,2,400,60"
    "XA,B,5,230,50"
    "XB,A,1,120,50"
    "XA,B,4,230,60"
    "XA,C,3,400,50"
);

const TWO_CLASSES_LISTED: &str = "\
COUNTRY,CLASS,HERTZ,SERIAL
XA,B,50,5
XA,B,60,4
XA,C,50,3
XA,C,60,2
XB,A,50,1
";

/// The second letter decides where the first is the same, and not against it.
const LETTERS: &str = lines!(
    "BA,B,1,230,50"
    "AC,B,1,230,50"
    "CA,B,1,230,50"
    "AB,B,1,230,50"
);

const LETTERS_LISTED: &str = "\
COUNTRY,CLASS,HERTZ,SERIAL
AB,B,50,1
AC,B,50,1
BA,B,50,1
CA,B,50,1
";

/// The greater country has the lower class.
const CLASS_AGAINST_COUNTRY: &str = lines!(
    "XB,A,1,120,50"
    "XA,C,1,400,50"
);

const CLASS_AGAINST_COUNTRY_LISTED: &str = "\
COUNTRY,CLASS,HERTZ,SERIAL
XA,C,50,1
XB,A,50,1
";

/// The higher hertz have the lower serial, and as text the greater one.
const HERTZ_AGAINST_SERIAL: &str = lines!(
    "XA,B,9,230,60"
    "XA,B,10,230,50"
);

const HERTZ_AGAINST_SERIAL_LISTED: &str = "\
COUNTRY,CLASS,HERTZ,SERIAL
XA,B,50,10
XA,B,60,9
";

/// The higher hertz have the greater serial, and as text the lower one.
const HERTZ_AGAINST_TEXT: &str = lines!(
    "XA,B,9,230,50"
    "XA,B,10,230,60"
);

const HERTZ_AGAINST_TEXT_LISTED: &str = "\
COUNTRY,CLASS,HERTZ,SERIAL
XA,B,50,9
XA,B,60,10
";

/// The last line replaces the first in its slot: neither the slots nor the lines that count are in order.
const REPLACED: &str = lines!(
    "XB,B,2,230,50"
    "XA,B,1,230,50"
    "XC,B,3,230,50"
    "XB,B,9,230,50"
);

const REPLACED_LISTED: &str = "\
COUNTRY,CLASS,HERTZ,SERIAL
XA,B,50,1
XB,B,50,9
XC,B,50,3
";

/// As many as are stored, the greatest triple first.
pub const SIXTEEN: &str = lines!(
    "ZZ,D,3,690,60"
    "ZA,C,4294967295,400,60"
    "XB,A,21,120,50"
    "XA,B,1,230,60"
    "XA,B,12,230,50"
    "NM,D,8,690,50"
    "MN,A,100,120,60"
    "MM,B,9,230,50"
    "BA,D,2,690,60"
    "BA,C,15,400,60"
    "BA,C,14,400,50"
    "BA,A,40,120,50"
    "AZ,B,7,230,60"
    "AB,D,5,690,50"
    "AB,A,10,120,60"
    "AB,A,11,120,50"
);

pub const SIXTEEN_LISTED: &str = "\
COUNTRY,CLASS,HERTZ,SERIAL
AB,A,50,11
AB,A,60,10
AB,D,50,5
AZ,B,60,7
BA,A,50,40
BA,C,50,14
BA,C,60,15
BA,D,60,2
MM,B,50,9
MN,A,60,100
NM,D,50,8
XA,B,50,12
XA,B,60,1
XB,A,50,21
ZA,C,60,4294967295
ZZ,D,60,3
";

/// After the 16: the least triple, for which there is no room; one newer serial and one older.
pub const AFTER_SIXTEEN: &str = lines!(
    "AA,A,1,120,50"
    "XA,B,13,230,50"
    "BA,C,13,400,50"
);

/// Names, inputs and listings.
pub const LISTED: [(&str, &str, &str); 12] = [
    ("the example", EXAMPLE, EXAMPLE_LISTED),
    ("the example with a rate point", EXAMPLE_WITH_RATE, EXAMPLE_WITH_RATE_LISTED),
    ("both kinds", BOTH_KINDS, BOTH_KINDS_LISTED),
    ("both hertz", BOTH_HERTZ, BOTH_HERTZ_LISTED),
    ("lines in descending order", DESCENDING, DESCENDING_LISTED),
    ("two classes at both hertz", TWO_CLASSES, TWO_CLASSES_LISTED),
    ("both letters of the country", LETTERS, LETTERS_LISTED),
    ("class against country", CLASS_AGAINST_COUNTRY, CLASS_AGAINST_COUNTRY_LISTED),
    ("hertz against serial", HERTZ_AGAINST_SERIAL, HERTZ_AGAINST_SERIAL_LISTED),
    ("hertz against the serial's text", HERTZ_AGAINST_TEXT, HERTZ_AGAINST_TEXT_LISTED),
    ("a profile replaced in its slot", REPLACED, REPLACED_LISTED),
    ("16 profiles in descending order", SIXTEEN, SIXTEEN_LISTED),
];

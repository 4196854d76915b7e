//! The entries on lines, each called in both programs under the image of a table.

use peer::evaluate::evaluate_line;
use peer::harness::{Lent, Tally};
use peer::line::{IMAGE, LONGEST};
use peer::preview::{preview, LISTING};
use peer::{archive, entries};

/// Table, input, lent bytes, and the length before.
type Call = fn(&[u8], &[u8], &mut [u8], usize) -> (u8, usize);

/// An entry in both programs, and the bytes that it is lent.
#[derive(Clone, Copy)]
pub struct Entry {
    name: &'static str,
    proved: Call,
    plain: Call,
    pub room: usize,
}

pub const READ: Entry = Entry {
    name: "read_line",
    proved: |table, line, image, length| (archive::read_line(table, line, image), length),
    plain: |table, line, image, length| (entries::read_line(table, line, image), length),
    room: IMAGE,
};

pub const WRITE: Entry =
    Entry { name: "write_line", proved: archive::write_line, plain: entries::write_line, room: LONGEST };

pub const EVALUATE: Entry =
    Entry { name: "evaluate_line", proved: archive::evaluate_line, plain: evaluate_line, room: LONGEST };

pub const PREVIEW: Entry = Entry { name: "preview", proved: archive::preview, plain: preview, room: LISTING };

/// The comparison of one of them.
pub struct Under {
    entry: Entry,
    tally: Tally,
}

impl Entry {
    pub fn under(self, what: &str) -> Under {
        Under { entry: self, tally: Tally::new(format!("{}, {what}", self.name)) }
    }

    /// What the proved program writes.
    pub fn written(self, table: &[u8], input: &[u8]) -> Vec<u8> {
        let mut out = vec![0; self.room];
        let (answer, length) = (self.proved)(table, input, &mut out, self.room);
        assert_eq!(answer, 0, "{} of {}", self.name, input.escape_ascii());
        out.truncate(length);
        out
    }
}

/// The bytes of a table up to the last that is not 0, and how many there are.
fn shown(table: &[u8]) -> String {
    let end = table.iter().rposition(|&byte| byte != 0).map_or(0, |last| last + 1);
    let digits: String = table[..end].iter().map(|byte| format!("{byte:02x}")).collect();
    format!("a table of {} bytes that begins with \"{digits}\"", table.len())
}

impl Under {
    pub fn inputs(&self) -> usize {
        self.tally.inputs()
    }

    /// Compares one call into `room` bytes. Table and input stay as they were.
    pub fn compare(&mut self, table: &[u8], input: &[u8], room: usize) -> u8 {
        let Under { entry, tally } = self;
        let (seed, old) = (tally.inputs(), tally.inputs().wrapping_mul(0x9E37_79B9));
        let shown = || format!("\"{}\" into {room} bytes under {}", input.escape_ascii(), shown(table));
        let lent = [table, input].map(|bytes| Lent::holding(bytes, seed));
        let [own_table, own_input] = lent.each_ref().map(Lent::content);
        let proved = |out: &mut [u8]| (entry.proved)(own_table, own_input, out, old);
        let answer = tally.both(room, proved, |out| (entry.plain)(table, input, out, old), shown);
        assert!(lent[0].content() == table && lent[1].content() == input, "what was lent, {}", shown());
        answer
    }

    /// The same into the bytes that the entry wants.
    pub fn agree(&mut self, table: &[u8], input: &[u8]) -> u8 {
        self.compare(table, input, self.entry.room)
    }

    /// Compares, and demands one answer of both.
    pub fn demand(&mut self, table: &[u8], input: &[u8], wanted: u8) {
        let answer = self.agree(table, input);
        assert_eq!(answer, wanted, "{} of {} under {}", self.entry.name, input.escape_ascii(), shown(table));
    }

    pub fn finish(self, least: usize, reached: &[u8]) {
        self.tally.finish(least, reached);
    }
}

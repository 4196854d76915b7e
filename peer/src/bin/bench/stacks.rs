//! The bytes of stack that each entry uses, as `c/stack.c` measures them.

use std::process::Command;

/// Entries and their bytes; none where no program was named.
#[derive(Default)]
pub struct Stacks(Vec<(String, usize)>);

impl Stacks {
    /// What the program prints: a line for each entry, its name and the bytes.
    pub fn measured(program: &str) -> Stacks {
        let run = Command::new(program).output().unwrap_or_else(|error| panic!("{program}: {error}"));
        assert!(run.status.success(), "{program}: {}", run.status);
        let text = String::from_utf8(run.stdout).expect("names and numbers");
        let pair = |line: &str| {
            let (name, bytes) = line.split_once(' ').expect("a name and a number");
            (name.to_string(), bytes.parse().expect("a number of bytes"))
        };
        Stacks(text.lines().map(pair).collect())
    }

    pub fn of(&self, entry: &str) -> Option<usize> {
        self.0.iter().find(|(name, _)| name == entry).map(|(_, bytes)| *bytes)
    }

    /// A line for entries that have no row.
    pub fn print(&self, entries: &[String]) {
        let shown = |entry: &String| self.of(entry).map(|bytes| format!("{entry} {bytes}"));
        let known: Vec<String> = entries.iter().filter_map(shown).collect();
        if !known.is_empty() {
            println!("\nstack of entries without a row: {}", known.join(", "));
        }
    }
}

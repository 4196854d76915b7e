//! The table: a row for each job, ratios first.

/// Seconds for one call of each program, and what else is known of a job.
#[derive(Default)]
pub struct Row {
    pub name: String,
    pub library: f64,
    pub plain: f64,
    pub openssl: Option<f64>,
    /// Seconds for the library's SHAKE of all strings that the job hashes.
    pub hashing: Option<f64>,
    /// Bytes.
    pub stack: Option<usize>,
}

/// A cell: what is known, or a dash.
fn cell<T>(known: Option<T>, show: impl Fn(T) -> String) -> String {
    known.map_or("-".to_string(), show)
}

pub fn microseconds(seconds: f64) -> String {
    format!("{:.3} us", seconds * 1e6)
}

const HEADS: [&str; 8] = ["to plain", "to OpenSSL", "job", "library", "plain", "OpenSSL", "SHAKE", "stack"];

fn line(cells: [String; 8]) -> String {
    let [a, b, c, d, e, f, g, h] = cells;
    format!("{a:>8}  {b:>10}  {c:33} {d:>13} {e:>13} {f:>13} {g:>6} {h:>8}")
}

pub fn print_heads() {
    println!(
        "The library's time for one call over the plain program's and OpenSSL's, the least of many in turns; what"
    );
    println!("part of it SHAKE takes; bytes of stack.\n");
    println!("{}", line(HEADS.map(str::to_string)));
}

pub fn print(row: &Row) {
    let ratio = |other: f64| format!("{:.2}", row.library / other);
    println!(
        "{}",
        line([
            ratio(row.plain),
            cell(row.openssl, ratio),
            row.name.clone(),
            microseconds(row.library),
            microseconds(row.plain),
            cell(row.openssl, microseconds),
            cell(row.hashing, |seconds| format!("{:.0} %", 100.0 * seconds / row.library)),
            cell(row.stack, |bytes| bytes.to_string()),
        ])
    );
}

//! Runs every job over its inputs, on all cores, and prints the table.

use crate::lent::Fence;
use crate::turn::Turn;
use crate::world::{worlds, Worlds};
use peer::refusal::ANSWERS;
use peer::rng::Rng;
use std::ops::Range;
use std::panic::{catch_unwind, AssertUnwindSafe};
use std::process::exit;
use std::thread;
use std::time::Instant;

/// An entry: makes one input from its turn, compares, and gives the answer of both programs.
pub struct Job {
    pub name: String,
    /// The place of its category among all, the first where none decides.
    pub category: usize,
    pub inputs: usize,
    pub answers: &'static [u8],
    pub one: fn(&mut Turn) -> u8,
}

/// Inputs by answer.
type Tally = [usize; ANSWERS];

/// So many inputs reach every answer of an entry, however they are drawn.
const ENOUGH: usize = 5_000;

pub struct Run {
    pub seed: u64,
    /// How many times the inputs of the long run.
    pub scale: f64,
    pub fence: Fence,
    /// The one entry to run, or nothing.
    pub only: String,
    /// The one input to run.
    pub at: Option<usize>,
}

/// What the answers mean, in a word.
const MEANINGS: [&str; ANSWERS] = [
    "0 done",
    "1 size",
    "2 short",
    "3 field",
    "4 differs",
    "5 line",
    "6 other",
    "7 serial",
    "8 full",
    "9 none",
    "10 device",
    "11 limit",
    "12 step",
    "13 table",
    "14 in use",
];

fn line(name: &str, inputs: &str, cells: [String; ANSWERS], seconds: &str) -> String {
    let cells = cells.map(|cell| format!("{cell:>9}")).join(" ");
    format!("{name:33} {inputs:>8} {cells} {seconds:>8}")
}

impl Run {
    /// Runs the jobs and prints the table.
    pub fn all(&self, jobs: &[Job]) {
        let cores = thread::available_parallelism().map_or(1, usize::from);
        let threads = if self.fence == Fence::Heap { 1 } else { cores };
        let chosen = |job: &&Job| self.only.is_empty() || self.only == job.name;
        assert!(jobs.iter().any(|job| chosen(&job)), "ONLY={} is no entry", self.only);
        println!("soak: SEED={}, {threads} at a time\n", self.seed);
        println!("{}", line("entry", "inputs", MEANINGS.map(str::to_string), "seconds"));
        let (worlds, start, mut all) = (worlds(self.seed), Instant::now(), 0);
        for job in jobs.iter().filter(chosen) {
            all += self.row(job, &worlds, threads);
        }
        println!("\nsoak: {all} inputs agree, {:.0} seconds", start.elapsed().as_secs_f64());
    }

    /// Runs a job, prints its row, and gives the number of its inputs.
    fn row(&self, job: &Job, worlds: &Worlds, threads: usize) -> usize {
        let start = Instant::now();
        let tally = self.tally(job, worlds, threads);
        let cells = tally.map(|times| if times == 0 { ".".to_string() } else { times.to_string() });
        let (inputs, seconds) = (tally.iter().sum(), start.elapsed().as_secs_f64());
        println!("{}", line(&job.name, &format!("{inputs}"), cells, &format!("{seconds:.1}")));
        self.judge(job, &tally, inputs);
        inputs
    }

    /// The numbers of a job's inputs.
    fn range(&self, job: &Job) -> Range<usize> {
        let all = 0..((job.inputs as f64 * self.scale) as usize).max(1);
        self.at.map_or(all, |at| at..at + 1)
    }

    fn tally(&self, job: &Job, worlds: &Worlds, threads: usize) -> Tally {
        let range = self.range(job);
        let part = |thread: usize| {
            let mut tally = Tally::default();
            for at in range.clone().skip(thread).step_by(threads) {
                tally[usize::from(self.one(job, worlds, at))] += 1;
            }
            tally
        };
        let parts: Vec<Tally> = thread::scope(|scope| {
            let running: Vec<_> = (0..threads).map(|at| scope.spawn(move || part(at))).collect();
            running.into_iter().map(|thread| thread.join().expect("it ends the program itself")).collect()
        });
        std::array::from_fn(|answer| parts.iter().map(|part| part[answer]).sum())
    }

    /// One input. Where the programs differ it says how to repeat it, and ends everything.
    fn one(&self, job: &Job, worlds: &Worlds, at: usize) -> u8 {
        let entry = job.name.bytes().fold(self.seed, |hash, byte| Rng::new(hash ^ u64::from(byte)).word());
        let rng = Rng::new(Rng::new(entry ^ at as u64).word());
        let mut turn = Turn::new(rng, worlds, job.category, self.fence);
        catch_unwind(AssertUnwindSafe(|| (job.one)(&mut turn))).unwrap_or_else(|_| {
            println!("soak: FAILED {}; repeat it by SEED={} ONLY={} AT={at}", job.name, self.seed, job.name);
            exit(1)
        })
    }

    /// An answer that an entry never gives, or, after many inputs, one that never came, is a fault of
    /// the library or of these inputs.
    fn judge(&self, job: &Job, tally: &Tally, inputs: usize) {
        for (answer, &times) in tally.iter().enumerate() {
            let known = job.answers.contains(&(answer as u8));
            if (times > 0 && !known) || (times == 0 && known && inputs >= ENOUGH) {
                println!("soak: FAILED {}: answer {answer} came {times} times", job.name);
                exit(1);
            }
        }
    }
}

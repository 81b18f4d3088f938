//! What was compared, and what differed.
use std::collections::BTreeMap;
use std::fmt::Debug;
use std::time::{Duration, Instant};

/// How often a kind that takes its time tells how far it is.
const TELL: Duration = Duration::from_secs(5);

/// The count of one kind of comparison.
pub struct Tally {
    name: &'static str,
    /// how many steps are wanted
    count: u64,
    /// steps or searches, each with several comparisons
    pub steps: u64,
    compared: u64,
    pub differences: u64,
    pub results: BTreeMap<u8, u64>,
    told: Instant,
    /// the length of the shortest input at which the two differed
    shortest: Option<usize>,
}

impl Tally {
    pub fn new(name: &'static str, count: u64) -> Tally {
        Tally {
            name,
            count,
            steps: 0,
            compared: 0,
            differences: 0,
            results: BTreeMap::new(),
            told: Instant::now(),
            shortest: None,
        }
    }

    /// Whether there are steps to do.
    pub fn more(&self) -> bool {
        self.steps < self.count
    }

    /// One comparison; the input is told where the two differ and none as short has differed before.
    pub fn hold<T: PartialEq + Debug>(&mut self, rust: T, ours: T, input: impl Fn() -> String) {
        self.compared += 1;
        if rust != ours {
            self.differences += 1;
            let line = format!("{}: Rust {rust:?}, ours {ours:?}", input());
            if self.shortest.map_or(true, |length| line.len() < length) {
                println!("differs at {line}");
                self.shortest = Some(line.len());
            }
        }
    }

    /// One step more; every few seconds, how far it is, on standard error.
    pub fn step(&mut self) {
        self.steps += 1;
        if self.steps % 64 == 0 && self.told.elapsed() >= TELL {
            self.told = Instant::now();
            let Tally {
                name,
                steps,
                count,
                differences,
                ..
            } = self;
            eprintln!("{name}: {steps} of {count}, {differences} differences");
        }
    }

    /// The counts, on standard output.
    pub fn tell(&self) {
        println!(
            "{}: {} steps, {} compared, {} differences",
            self.name, self.steps, self.compared, self.differences
        );
        if !self.results.is_empty() {
            println!("results: {:?}", self.results);
        }
    }
}

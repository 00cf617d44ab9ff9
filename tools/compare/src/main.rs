//! Runs the library and the original Rust on the same inputs and compares what they answer, or
//! measures both (`compare bench`). A new area is a module and an entry in `AREAS`.

mod bench;
mod bits;
mod by_text;
mod escape;
mod header;
mod ours;
mod questions;
mod random;
mod reading;
mod sets;
mod sizes;
mod tally;
mod writing;

use random::Random;
use std::process::ExitCode;
use tally::{Area, Tally};

const AREAS: &[Area] = &[
    escape::AREA,
    header::AREA,
    bits::AREA,
    sizes::AREA,
    writing::AREA,
    reading::AREA,
    sets::AREA,
    questions::AREA,
];

fn main() -> ExitCode {
    let arguments: Vec<String> = std::env::args().skip(1).collect();
    if arguments == ["bench"] {
        bench::run();
        return ExitCode::SUCCESS;
    }
    let numbers: Result<Vec<u64>, _> = arguments.iter().map(|a| a.parse()).collect();
    match numbers.as_deref() {
        Ok(&[count, seed]) => compare(count, seed),
        _ => {
            eprintln!("usage: compare COUNT SEED | compare bench");
            ExitCode::from(2)
        }
    }
}

/// The areas share the `count` random inputs by their weights.
fn compare(count: u64, seed: u64) -> ExitCode {
    let weights: u64 = AREAS.iter().map(|area| area.weight).sum();
    let share = |weight: u64| (u128::from(count) * u128::from(weight) / u128::from(weights)) as u64;
    let (mut cases, mut differences, mut weight) = (0, 0, 0);
    let mut good = true;
    for area in AREAS {
        let from = share(weight);
        weight += area.weight;
        let tally = area.run(seed, share(weight) - from);
        tally.print(area);
        good &= tally.is_good();
        cases += tally.cases;
        differences += tally.differences;
    }
    println!("{cases} compared, {differences} differ");
    ExitCode::from(u8::from(!good))
}

impl Area {
    fn run(&self, seed: u64, count: u64) -> Tally {
        let mut tally = Tally::new(self);
        (self.exhaustive)(&mut tally);
        let mut random = Random::new(seed, self.name);
        for _ in 0..count {
            (self.random)(&mut random, &mut tally);
        }
        tally
    }
}

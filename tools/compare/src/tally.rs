//! What an area is, and the count of its cases and differences.

use crate::by_text::{Text, Texts};
use crate::random::Random;
use std::fmt::{self, Debug};

pub struct Area {
    pub name: &'static str,
    /// Its part of the random inputs, beside the weights of the others.
    pub weight: u64,
    /// What its cases are to reach, each at least once.
    pub reach: &'static [&'static str],
    /// The original's error texts, each of which they are to meet as well.
    pub texts: &'static [&'static [Text]],
    pub exhaustive: fn(&mut Tally),
    /// Makes a random input and compares on it.
    pub random: fn(&mut Random, &mut Tally),
}

#[derive(Default)]
pub struct Tally {
    pub cases: u64,
    pub differences: u64,
    /// How often each of the area's `reach` was reached.
    reached: Vec<u64>,
    pub texts: Texts,
    /// The size of the smallest input with a difference, and what to print of it.
    smallest: Option<(usize, String)>,
}

impl Tally {
    pub fn new(area: &Area) -> Self {
        Tally {
            reached: vec![0; area.reach.len()],
            texts: Texts::new(area.texts),
            ..Tally::default()
        }
    }

    pub fn reached(&mut self, place_in_reach: usize) {
        self.reached[place_in_reach] += 1;
    }

    /// Counts a case. `input` describes an input of `size` bytes where the answers differ.
    pub fn compare<A: PartialEq + Debug>(
        &mut self,
        ours: &A,
        original: &A,
        size: usize,
        input: impl FnOnce() -> String,
    ) {
        self.cases += 1;
        if ours == original {
            return;
        }
        self.differences += 1;
        if self.smallest.as_ref().is_none_or(|&(s, _)| size < s) {
            let input = input();
            let report = format!("  {input}\n    ours: {ours:?}\n    Rust: {original:?}");
            self.smallest = Some((size, report));
        }
    }

    /// Whether nothing differs, all was reached and every text met.
    pub fn is_good(&self) -> bool {
        self.differences == 0 && !self.reached.contains(&0) && self.texts.all_met()
    }

    pub fn print(&self, area: &Area) {
        println!(
            "{:<10} {:>9} cases {:>9} differ",
            area.name, self.cases, self.differences
        );
        let reached: Vec<String> = area
            .reach
            .iter()
            .zip(&self.reached)
            .map(|(what, times)| format!("{what}: {times}"))
            .collect();
        for line in reached.chunks(8) {
            println!("  {}", line.join(", "));
        }
        for (what, _) in area
            .reach
            .iter()
            .zip(&self.reached)
            .filter(|&(_, &n)| n == 0)
        {
            println!("  NEVER REACHED: {what}");
        }
        self.texts.print();
        if let Some((_, report)) = &self.smallest {
            println!("{report}");
        }
    }
}

/// Bytes that are printed in hexadecimal.
#[derive(PartialEq)]
pub struct Hex<'a>(pub &'a [u8]);

impl Debug for Hex<'_> {
    fn fmt(&self, f: &mut fmt::Formatter<'_>) -> fmt::Result {
        let bytes: Vec<String> = self.0.iter().map(|byte| format!("{byte:02X}")).collect();
        write!(f, "[{}]", bytes.join(" "))
    }
}

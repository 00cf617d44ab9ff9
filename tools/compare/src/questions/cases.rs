//! The records to be asked about.

use super::change::{change, move_about};
use super::{compare, known, layouts};
use crate::ours::PpsRead;
use crate::random::Random;
use crate::reading::{Lengths, Lent, SMALLEST, unit};
use crate::sets::Set;
use crate::sets::cases::{every_field, every_length, record, right};
use crate::sets::known::every_pair;
use crate::sets::laid::most_slices;
use crate::tally::Tally;
use original::h266::pps::parse_pps;

pub fn random(random: &mut Random, tally: &mut Tally) {
    let mut set = match random.one_in(4) {
        true => read(random),
        false => right(random),
    };
    if random.one_in(3) {
        move_about(random, &mut set);
    }
    for _ in 0..random.pick(&[0, 0, 0, 1, 1, 1, 2, 3]) {
        change(random, &mut set);
    }
    compare(&set, tally);
}

/// What our reading leaves in the tables.
fn read(random: &mut Random) -> Set {
    let nal = unit(random, 0);
    let mut lent = Lent::new(&Lengths::least(&nal));
    let PpsRead { pps, triples, .. } = lent.parse_pps(&nal);
    Set { pps, triples, lent }
}

/// Beside the cases below, a fixed number of records as in `random`, so that all is reached.
pub fn exhaustive(tally: &mut Tally) {
    let seeded = &mut Random::new(1, "questions");
    for _ in 0..20_000 {
        random(seeded, tally);
    }
    known::all(tally);
    every_pair(|set| compare(set, tally));
    layouts::all(tally);
    let mut records = vec![
        parse_pps(&SMALLEST).expect("the smallest set"),
        most_slices(),
    ];
    records.extend((0..20).map(|_| record(seeded)));
    for record in &records {
        every_field(&Set::least(record), &mut |set| compare(set, tally));
        every_length(record, |set| compare(set, tally));
    }
}

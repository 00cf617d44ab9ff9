//! Small sets with the number that each is to give, and pairs of their changes.

mod changes;

use super::cases::ample;
use super::compare;
use super::record::Set;
use crate::reading::{Form, SMALLEST};
use crate::tally::Tally;
use changes::{Change, PARTITIONED, UNPARTITIONED, partitioned};
use original::h266::pps::{VvcPps, parse_pps};

fn smallest() -> VvcPps {
    parse_pps(&SMALLEST).expect("the smallest set")
}

/// Compares each with the original, and our number with the one that is known.
pub fn all(tally: &mut Tally) {
    known(&smallest(), UNPARTITIONED, tally);
    known(&partitioned(), PARTITIONED, tally);
}

fn known(record: &VvcPps, changes: &[(u8, Change)], tally: &mut Tally) {
    for (i, &(number, change)) in changes.iter().enumerate() {
        let mut set = Set::least(record);
        change(&mut set);
        compare(&set, ample, tally);
        let mut out = [0; 100];
        let count = set
            .lent
            .write_pps(&set.pps, &set.triples, Form::Nal, &mut out);
        tally.compare(&count.refused, &number, 0, || {
            format!("number of change {i} to a known set")
        });
    }
}

/// Both sets with any two of the changes: of two tests that refuse, the first gives the number.
pub fn every_pair(mut compare: impl FnMut(&Set)) {
    let changes = [UNPARTITIONED, PARTITIONED].concat();
    for record in [smallest(), partitioned()] {
        for (i, (_, first)) in changes.iter().enumerate() {
            for (_, second) in &changes[i + 1..] {
                let mut set = Set::least(&record);
                first(&mut set);
                second(&mut set);
                compare(&set);
            }
        }
    }
}

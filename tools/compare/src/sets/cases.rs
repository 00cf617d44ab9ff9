//! The sets to be written, and the room for them.

use super::change::change;
use super::record::Set;
use super::{compare, fields, known};
use crate::ours::RectSlice;
use crate::random::Random;
use crate::reading::{LEAST, Lengths, SMALLEST, unit};
use crate::tally::Tally;
use original::h266::pps::{VvcPps, parse_pps};

pub fn random(random: &mut Random, tally: &mut Tally) {
    let mut set = right(random);
    for _ in 0..random.pick(&[0, 1, 1, 1, 1, 2, 3, 12]) {
        change(random, &mut set);
    }
    compare(&set, |len| rooms(random, len), tally);
}

pub fn record(random: &mut Random) -> VvcPps {
    parse_pps(&unit(random, 0)).expect("a unit within all limits")
}

/// A set within all limits, now and then with a table too short.
pub fn right(random: &mut Random) -> Set {
    let record = record(random);
    let first_bit = random.below(2) * random.below(40);
    let mut lengths = Lengths::random(random, &[]);
    lengths.work += match record.pps_extension_data.len() {
        0 => 0,
        bits => (first_bit + bits).div_ceil(8),
    };
    Set::new(&record, &lengths, first_bit)
}

/// The exact length, less and more.
fn rooms(random: &mut Random, len: usize) -> [usize; 3] {
    let less = random.below(len + 1);
    let less = random.pick(&[0, less, len.saturating_sub(1), len.saturating_sub(1)]);
    [len, less, len + random.below(40)]
}

/// Beside the cases below, a fixed number of sets as in `random`, so that all is reached.
pub fn exhaustive(tally: &mut Tally) {
    let seeded = &mut Random::new(1, "sets");
    for _ in 0..20_000 {
        random(seeded, tally);
    }
    known::all(tally);
    known::every_pair(|set| compare(set, ample, tally));
    let smallest = parse_pps(&SMALLEST).expect("the smallest set");
    let mut records = vec![smallest.clone()];
    records.extend((0..40).map(|_| record(seeded)));
    for record in &records {
        every_field(&Set::least(record), &mut |set| compare(set, ample, tally));
        every_room(&Set::least(record), tally);
    }
    for record in &records {
        every_length(record, |set| compare(set, ample, tally));
    }
    extension_bits(&smallest, tally);
}

pub fn ample(len: usize) -> [usize; 1] {
    [len + 100]
}

/// Each field with each of the values that the tests tell apart, on their sides.
pub fn every_field(set: &Set, compare: &mut impl FnMut(&Set)) {
    let numbers = [
        0, 1, 2, 5, 6, 7, 14, 15, 16, 29, 30, 31, 256, 989, 990, 991, 998, 999, 1000, 1001,
    ];
    let numbers = || numbers.into_iter().chain([1 << 31, u32::MAX - 1, u32::MAX]);
    let signed = || [i32::MIN, i32::MIN + 1, -13, -12, 0, 12, 13, i32::MAX].into_iter();
    let bytes = || [0, 1, 2, 3, 15, 16, 63, 64, 128, 255].into_iter();
    with_each(set, |set| fields::bytes(&mut set.pps), bytes, compare);
    with_each(set, |set| fields::numbers(&mut set.pps), numbers, compare);
    with_each(set, |set| fields::signed(&mut set.pps), signed, compare);
    with_each(set, triples, signed, compare);
    with_each(set, entry_numbers, numbers, compare);
    with_each(set, deltas, signed, compare);
}

fn triples(set: &mut Set) -> Vec<&mut i32> {
    fields::offsets(&mut set.triples)
}

/// Of the first entries in use.
fn few_entries(set: &mut Set) -> &mut [RectSlice] {
    let used = (set.pps.partition.num_rect_slices as usize).min(3);
    let lent = set.lent.entries.lent();
    let count = used.min(lent.len());
    &mut lent[..count]
}

fn entry_numbers(set: &mut Set) -> Vec<&mut u32> {
    fields::entry_numbers(few_entries(set))
}

fn deltas(set: &mut Set) -> Vec<&mut i32> {
    fields::deltas(few_entries(set))
}

fn with_each<T: Copy, V: Iterator<Item = T>>(
    set: &Set,
    fields: impl for<'a> Fn(&'a mut Set) -> Vec<&'a mut T>,
    values: impl Fn() -> V,
    compare: &mut impl FnMut(&Set),
) {
    let mut set = set.clone();
    for i in 0..fields(&mut set).len() {
        let before = *fields(&mut set)[i];
        for value in values() {
            *fields(&mut set)[i] = value;
            compare(&set);
        }
        *fields(&mut set)[i] = before;
    }
}

fn every_room(set: &Set, tally: &mut Tally) {
    compare(set, |len| 0..=len.min(300) + 2, tally);
}

/// Each table from nothing to more than is asked for.
pub fn every_length(record: &VvcPps, mut compare: impl FnMut(&Set)) {
    for i in 0..LEAST.len() {
        for len in [0, 1, LEAST[i] / 2, LEAST[i] - 1, LEAST[i] + 1, 5000] {
            let mut lengths = Lengths::least(&[]);
            lengths.work = record.pps_extension_data.len().div_ceil(8);
            lengths.tables[i] = len;
            compare(&Set::new(record, &lengths, 0));
        }
    }
}

/// At every place of a byte, in bytes that hold them just so or not at all; zeros, which are
/// escaped; and more than a unit that is read may have.
fn extension_bits(smallest: &VvcPps, tally: &mut Tally) {
    let extended = |bits: usize, last: u8| VvcPps {
        pps_extension_flag: 1,
        pps_extension_data: [&vec![0; bits][..], &[last]].concat(),
        ..smallest.clone()
    };
    for bits in 0..40 {
        for first_bit in 0..9 {
            for last in [0, 1] {
                for work in 0..8 {
                    let mut lengths = Lengths::least(&[]);
                    lengths.work = work;
                    let set = Set::new(&extended(bits, last), &lengths, first_bit);
                    compare(&set, |len| [len, len + 3], tally);
                }
            }
        }
    }
    for bits in [1000, 8 * 20_000, 8 * 43_690, 8 * 65_535, 8 * 100_000] {
        let set = Set::least(&extended(bits, 1));
        compare(&set, |len| [len - 1, len, len + 1], tally);
    }
}

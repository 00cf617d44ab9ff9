//! The units to be read, and what is lent for them.

use super::damage::{damaged, noise};
use super::known::{self, SMALLEST};
use super::lent::{LEAST, Lengths};
use super::second::LONGEST;
use super::units::{HEADER, nal, unit};
use super::{compare, compare_lent, compare_to};
use crate::random::Random;
use crate::tally::Tally;
use original::h266::pps::{VvcPps, parse_pps, write_pps, write_pps_nal};

pub fn random(random: &mut Random, tally: &mut Tally) {
    let rarity = random.pick(&[0, 0, 0, 12, 40, 150, 600]);
    let mut nal = unit(random, rarity);
    if rarity == 0 {
        let record = parse_pps(&nal).expect("a unit within all limits");
        nal = write_pps_nal(&record).expect("a record that was read");
    }
    compare_lent(&nal, Lengths::random(random, &nal), tally);
    for _ in 0..2 {
        let nal = damaged(random, &nal);
        compare_lent(&nal, Lengths::random(random, &nal), tally);
    }
    if random.one_in(4) {
        let nal = noise(random);
        compare_lent(&nal, Lengths::random(random, &nal), tally);
    }
}

/// Beside the cases below, a fixed number of units as in `random`, so that all is reached.
pub fn exhaustive(tally: &mut Tally) {
    let seeded = &mut Random::new(1, "units");
    for _ in 0..20_000 {
        random(seeded, tally);
    }
    known::all(tally);
    headers(tally);
    cut_and_flipped(seeded, tally);
    lengths(seeded, tally);
    first_tests(tally);
    long_units(seeded, tally);
    zeros(tally);
}

/// Every header, with the smallest set behind it and alone; every string of up to 1 byte.
fn headers(tally: &mut Tally) {
    compare(&[], tally);
    for first in 0..=255 {
        compare(&[first], tally);
        for second in 0..=255 {
            compare(&[&[first, second], &SMALLEST[2..]].concat(), tally);
            if first < 2 {
                compare(&[first, second], tally);
            }
        }
    }
}

/// Valid units cut off at every length, with every bit turned, and with a byte behind.
fn cut_and_flipped(random: &mut Random, tally: &mut Tally) {
    let mut units = vec![SMALLEST.to_vec()];
    units.extend((0..200).map(|_| unit(random, 0)));
    for nal in units.iter().filter(|nal| nal.len() < 400) {
        for len in 0..nal.len() {
            compare(&nal[..len], tally);
        }
        for bit in 0..nal.len() * 8 {
            let mut nal = nal.clone();
            nal[bit / 8] ^= 1 << (bit % 8);
            compare(&nal, tally);
        }
        for byte in [0, 1, 3, 0x80, 0xFF] {
            compare(&[&nal[..], &[byte]].concat(), tally);
        }
    }
}

/// Each table and the work buffer, from nothing to more than is asked for.
fn lengths(random: &mut Random, tally: &mut Tally) {
    let mut units = vec![SMALLEST.to_vec(), SMALLEST[..6].to_vec()];
    units.extend((0..20).map(|_| unit(random, 0)));
    for nal in &units {
        let least = Lengths::least(nal);
        for work in 0..least.work.min(300) + 4 {
            compare_lent(nal, Lengths { work, ..least }, tally);
        }
        for i in 0..LEAST.len() {
            for len in [0, 1, LEAST[i] / 2, LEAST[i] - 1, LEAST[i] + 1, 5000] {
                let mut tables = LEAST;
                tables[i] = len;
                compare_lent(nal, Lengths { tables, ..least }, tally);
            }
        }
    }
}

/// The tests before the first field, in every combination.
fn first_tests(tally: &mut Tally) {
    for len in [0, 1, 2, LONGEST - 1, LONGEST, LONGEST + 1, LONGEST + 2] {
        for second in [0x81, 0x79] {
            let mut nal = [&[0, second], &SMALLEST[2..]].concat();
            nal.resize(len, 0x55);
            let least = Lengths::least(&nal);
            for work in [0, least.work.saturating_sub(1), least.work, least.work + 1] {
                for ids in [999, 1000] {
                    let mut tables = LEAST;
                    tables[0] = ids;
                    compare_lent(&nal, Lengths { work, tables }, tally);
                }
            }
        }
    }
}

/// Around the longest, filled with what no field takes, with extension bits and with escapes.
fn long_units(random: &mut Random, tally: &mut Tally) {
    for len in LONGEST - 2..LONGEST + 3 {
        for fill in [0x00, 0x03, 0x80, 0xFF] {
            let mut nal = SMALLEST.to_vec();
            nal.resize(len, fill);
            compare(&nal, tally);
        }
        // The extension flag is set; dense bits cost the original little.
        let mut nal = [&SMALLEST[..6], &[0x18]].concat();
        nal.extend((nal.len()..len).map(|_| random.byte() | 0x11));
        compare(&nal, tally);
        let mut nal = SMALLEST.to_vec();
        nal.extend([0, 0, 3].iter().cycle().take(len - nal.len()));
        compare(&nal, tally);
    }
}

/// Zeros: extension bits, the record being what the original wrote, since it takes minutes to read
/// them; and nothing but zeros.
fn zeros(tally: &mut Tally) {
    let smallest = parse_pps(&SMALLEST).expect("the smallest set");
    for bits in [1, 7, 8, 64, 1000, 8 * 20_000, 8 * 43_000, 8 * 60_000] {
        let mut extension = vec![0; bits];
        extension.push(1);
        let record = VvcPps {
            pps_extension_flag: 1,
            pps_extension_data: extension,
            ..smallest.clone()
        };
        let nal = write_pps_nal(&record).expect("a right record");
        let rbsp = write_pps(&record).expect("a right record");
        // Without escapes: what is written of it may be too long to be read.
        for nal in [nal, [&HEADER[..], &rbsp].concat()] {
            compare_to(|| Ok(record.clone()), &nal, Lengths::least(&nal), tally);
        }
    }
    for len in (0..100).chain([LONGEST - 2]) {
        compare(&[&HEADER[..], &vec![0; len]].concat(), tally);
        compare(&nal(&vec![0; len * 2 / 3]), tally);
    }
}

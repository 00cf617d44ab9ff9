//! Reading a picture parameter set: the record, every lent table over its whole length, the work
//! buffer and the refusals. What was accepted is written and read again.

mod cases;
mod damage;
pub mod expected;
mod known;
mod lent;
mod put;
mod reach;
mod round;
pub mod second;
mod slices;
mod tiles;
mod units;

use crate::by_text::{ANYWHERE, READ, READ_OR_WRITTEN, said};
use crate::ours::{Pps, PpsRead, QpOffsets};
use crate::tally::{Area, Hex, Tally};
use original::BitstreamError;
use original::h266::pps::{VvcPps, parse_pps};
use second::Second;

pub use known::SMALLEST;
pub use lent::{Form, LEAST, Lengths, Lent, Runs};
pub use units::unit;

pub const AREA: Area = Area {
    name: "reading",
    weight: 10,
    reach: &reach::REACH,
    texts: &[ANYWHERE, READ_OR_WRITTEN, READ],
    exhaustive: cases::exhaustive,
    random: cases::random,
};

/// A split count up to which the original is asked: it reads all the heights before it refuses.
const LONGEST_SPLIT: u32 = 1 << 16;

/// The answer, its number again, its extension bits, and what the bytes and tables lent hold
/// afterwards.
#[derive(Debug, PartialEq)]
struct Answer<'a> {
    /// Expected is here the number by the original's text, in `read` that of the second reading.
    by_text: u8,
    read: PpsRead,
    extension: Runs<'a, u8>,
    nal_kept: bool,
    lent: Lent,
}

/// With the least that must be lent.
fn compare(nal: &[u8], tally: &mut Tally) {
    compare_lent(nal, Lengths::least(nal), tally);
}

fn compare_lent(nal: &[u8], lengths: Lengths, tally: &mut Tally) {
    compare_to(|| parse_pps(nal), nal, lengths, tally);
}

/// Compares with what the original says, which is asked for where it has an answer in good time.
fn compare_to(
    original: impl FnOnce() -> Result<VvcPps, BitstreamError>,
    nal: &[u8],
    lengths: Lengths,
    tally: &mut Tally,
) {
    let second = second::read(nal, lengths.work, lengths.tables_long());
    let asked = !matches!(second.refused, 3..=5) && second.seen.early_17 <= LONGEST_SPLIT;
    let original = asked.then(original);
    let by_text = original
        .as_ref()
        .map(|answer| number(answer, &second, tally));

    let mut lent = Lent::new(&lengths);
    let mut expected = Answer {
        by_text: by_text.unwrap_or(second.refused),
        read: PpsRead {
            refused: second.refused,
            ..PpsRead::default()
        },
        extension: Runs(&[]),
        nal_kept: true,
        lent: lent.clone(),
    };
    if !(1..=5).contains(&second.refused) {
        expected.lent.work.put(second.rbsp.iter().copied());
        expected.lent.clear_tables();
    }
    if let Some(Ok(pps)) = &original {
        expected.read.bytes_taken = second.bytes_taken;
        expected.read.pps = expected::record(pps, second.extension_first_bit);
        expected.read.triples = expected::triples(pps, QpOffsets::default());
        expected.extension = Runs(&pps.pps_extension_data);
        expected::fill(pps, &mut expected.lent);
        reach::accepted(nal, pps, &second, tally);
    }
    reach::number(&second, tally);

    let given = nal.to_vec();
    let read = lent.parse_pps(&given);
    let extension = extension(&read.pps, lent.work.held());
    let ours = Answer {
        by_text: read.refused,
        read,
        extension: Runs(&extension),
        nal_kept: given == nal,
        lent,
    };
    tally.compare(&ours, &expected, nal.len(), || {
        let (nal, original) = (Hex(nal), said(original.as_ref()));
        format!("read {nal:?} with {lengths:?}; the Rust: {original}")
    });
    if ours.read.refused == 0 {
        round::compare(nal, &lengths, &ours.read, &ours.lent, tally);
    }
}

/// By the original's text. It takes a split count that is 17 at once, being below the height of the
/// row, and goes on: it refuses one of the heights, or the slices that they make.
fn number(original: &Result<VvcPps, BitstreamError>, second: &Second, tally: &mut Tally) -> u8 {
    let count_refused = || said(Some(original)).contains("pps_num_exp_slices_in_tile");
    match tally.texts.number(original) {
        6 | 16 | 17 if second.seen.early_17 > 0 && !count_refused() => 17,
        number => number,
    }
}

/// The extension bits that the record names, as far as they lie in the work buffer.
pub fn extension(pps: &Pps, work: &[u8]) -> Vec<u8> {
    let first = pps.pps_extension_data_first_bit;
    (0..pps.pps_extension_data_bits)
        .map_while(|i| {
            let at = first.checked_add(i)?;
            Some(work.get(at / 8)? >> (7 - at % 8) & 1)
        })
        .collect()
}

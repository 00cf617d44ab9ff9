//! Writing a picture parameter set: records, right and wrong, as an RBSP and as a NAL unit, into
//! outputs from empty to ample.

pub mod cases;
pub mod change;
mod fields;
pub mod known;
pub mod laid;
mod reach;
mod record;
pub mod second;

use crate::by_text::{ANYWHERE, READ_OR_WRITTEN, WRITTEN, WRITTEN_OR_ASKED, said};
use crate::escape::{GUARD, pattern};
use crate::ours::ByteCount;
use crate::reading::{Form, Lent};
use crate::tally::{Area, Hex, Tally};
use original::BitstreamError;
use original::h266::pps::{write_pps, write_pps_nal};

pub use record::Set;

pub const AREA: Area = Area {
    name: "sets",
    weight: 8,
    reach: &reach::REACH,
    texts: &[ANYWHERE, READ_OR_WRITTEN, WRITTEN_OR_ASKED, WRITTEN],
    exhaustive: cases::exhaustive,
    random: cases::random,
};

/// The answer, its number again, whether the tables and the extension bytes are as before, and the
/// output with the bytes behind it.
#[derive(Debug, PartialEq)]
struct Answer<'a> {
    /// Expected is here the number by the original's text, in `count` that of the second reading.
    by_text: u8,
    count: ByteCount,
    lent_kept: bool,
    out: Hex<'a>,
}

/// A set to be written in one form, and what is known of it.
struct Case<'a> {
    set: &'a Set,
    /// What was lent, as it is to stay.
    before: &'a Lent,
    form: Form,
    /// The number before the output is looked at, by the second reading.
    refused: u8,
    /// The same number by the original's text, or where it has no such record the one above.
    by_text: u8,
    /// Nothing, where the original has no such record.
    original: Option<Result<Vec<u8>, BitstreamError>>,
}

/// Compares both forms, with the rooms that `rooms` gives for a number of bytes.
fn compare<R: IntoIterator<Item = usize>>(
    set: &Set,
    mut rooms: impl FnMut(usize) -> R,
    tally: &mut Tally,
) {
    let refused = second::refusal(set);
    let record = (refused != 5).then(|| set.original());
    let before = set.lent.clone();
    for form in [Form::Rbsp, Form::Nal] {
        let original = record.as_ref().map(|record| match form {
            Form::Rbsp => write_pps(record),
            Form::Nal => write_pps_nal(record),
        });
        let by_text = original.as_ref().map(|answer| tally.texts.number(answer));
        let case = Case {
            set,
            before: &before,
            form,
            refused,
            by_text: by_text.unwrap_or(refused),
            original,
        };
        for room in rooms(case.put().len()) {
            case.compare_in(room, tally);
        }
        if let (Form::Nal, Some(record), Some(Ok(nal))) = (form, &record, &case.original) {
            reach::accepted(set, record, nal, tally);
        }
    }
    reach::refused(set, refused, tally);
}

impl Case<'_> {
    /// The bytes to be put, none where the set is refused.
    fn put(&self) -> &[u8] {
        match &self.original {
            Some(Ok(put)) => put,
            _ => &[],
        }
    }

    fn compare_in(&self, room: usize, tally: &mut Tally) {
        let put = self.put();
        let in_room = |number| match number {
            0 if room < put.len() => 29,
            number => number,
        };
        let refused = in_room(self.refused);
        let bytes = if refused == 0 { put.len() } else { 0 };
        let mut out = pattern(room + GUARD);
        let mut expected = out.clone();
        expected[..bytes].copy_from_slice(&put[..bytes]);
        let expected = Answer {
            by_text: in_room(self.by_text),
            count: ByteCount { refused, bytes },
            lent_kept: true,
            out: Hex(&expected),
        };
        reach::number(refused, tally);

        let Set { pps, triples, lent } = self.set;
        let count = lent.write_pps(pps, triples, self.form, &mut out[..room]);
        let ours = Answer {
            by_text: count.refused,
            count,
            lent_kept: lent == self.before,
            out: Hex(&out),
        };
        // The smallest output is the one to look at.
        tally.compare(&ours, &expected, put.len() + room, || {
            let (form, set, original) = (self.form, self.set, said(self.original.as_ref()));
            format!("write {form:?} with room {room}: {set:?}; the Rust: {original}")
        });
    }
}

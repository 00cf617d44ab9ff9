//! Sets that were read, written and read again.

use super::lent::{Form, Lengths, Lent};
use super::second::LONGEST;
use super::{reach, units};
use crate::escape::{GUARD, pattern};
use crate::ours::{ByteCount, PpsRead};
use crate::tally::{Hex, Tally};

/// What writing answers, with the output and the bytes behind it, and what reading the unit answers.
#[derive(Debug, PartialEq)]
struct Round {
    rbsp: (ByteCount, Vec<u8>),
    unit: (ByteCount, Vec<u8>),
    again: PpsRead,
    same_tables: bool,
}

/// The RBSP written is what the set took of the work buffer, the unit its escaped form, and reading
/// that gives the same record in the same tables.
pub fn compare(nal: &[u8], lengths: &Lengths, read: &PpsRead, lent: &Lent, tally: &mut Tally) {
    let work = lent.work.held();
    let rbsp = &work[..read.bytes_taken.min(work.len())];
    let unit = units::nal(rbsp);
    let is_read = unit.len() <= LONGEST;
    if !is_read {
        reach::too_long(tally);
    }

    let written = write(Form::Rbsp, rbsp.len(), read, lent);
    let written_unit = write(Form::Nal, unit.len(), read, lent);
    let work = Lengths::least(&unit).work;
    let mut again = Lent::new(&Lengths { work, ..*lengths });
    let ours = Round {
        again: again.parse_pps(&written_unit.1[..unit.len()]),
        rbsp: written,
        unit: written_unit,
        same_tables: {
            again.work = lent.work.clone();
            again == *lent || !is_read
        },
    };
    let expected = Round {
        rbsp: accepted(rbsp),
        unit: accepted(&unit),
        again: match is_read {
            true => read.clone(),
            false => PpsRead {
                refused: 3,
                ..PpsRead::default()
            },
        },
        same_tables: true,
    };
    tally.compare(&ours, &expected, nal.len(), || {
        format!(
            "read, written and read again {:?} with {lengths:?}",
            Hex(nal)
        )
    });
}

fn write(form: Form, room: usize, read: &PpsRead, lent: &Lent) -> (ByteCount, Vec<u8>) {
    let mut out = pattern(room + GUARD);
    let count = lent.write_pps(&read.pps, &read.triples, form, &mut out[..room]);
    (count, out)
}

fn accepted(bytes: &[u8]) -> (ByteCount, Vec<u8>) {
    let mut out = pattern(bytes.len() + GUARD);
    out[..bytes.len()].copy_from_slice(bytes);
    let count = ByteCount {
        refused: 0,
        bytes: bytes.len(),
    };
    (count, out)
}

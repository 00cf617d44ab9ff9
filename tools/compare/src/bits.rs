//! Reading bits: sequences of reads from a start place.

mod cases;

use crate::ours::{self, Cursor};
use crate::tally::{Area, Hex, Tally};
use original::{BitstreamError, bit_reader::BitReader};

pub const AREA: Area = Area {
    name: "bits",
    weight: 4,
    reach: &[],
    texts: &[],
    exhaustive: cases::exhaustive,
    random: cases::random,
};

#[derive(Clone, Copy, Debug)]
enum Read {
    U(u32),
    Ue,
    Se,
    TrailingBits,
    MoreData,
    ExtensionBits,
}

/// A read's value and the cursor after it.
#[derive(Debug, PartialEq)]
struct Step {
    value: i64,
    next: Cursor,
}

fn ours(s: &[u8], c: Cursor, read: Read) -> Step {
    let (value, next) = match read {
        Read::U(n) => {
            let r = ours::read_u(s, c, n);
            (i64::from(r.value), r.next)
        }
        Read::Ue => {
            let r = ours::read_ue(s, c);
            (i64::from(r.value), r.next)
        }
        Read::Se => {
            let r = ours::read_se(s, c);
            (i64::from(r.value), r.next)
        }
        Read::TrailingBits => (0, ours::read_rbsp_trailing_bits(s, c)),
        Read::MoreData => (i64::from(ours::more_rbsp_data(s, c.at)), c),
        Read::ExtensionBits => {
            let bits = ours::extension_bits(s, c.at);
            let at = c.at + bits;
            (bits as i64, Cursor { at, ..c })
        }
    };
    Step { value, next }
}

/// The original's reader goes on past the end of the bytes, where ours stops.
fn original(reader: &mut BitReader<'_>, before: usize, read: Read) -> Result<Step, BitstreamError> {
    let value = match (read, value(reader, read)) {
        (_, Ok(value)) => value,
        (Read::Ue | Read::Se, Err(BitstreamError::InvalidData(_))) => {
            return Ok(standstill(before, 6));
        }
        (Read::TrailingBits, Err(BitstreamError::UnexpectedEnd(_))) => {
            return Ok(standstill(before, 22));
        }
        (Read::TrailingBits, Err(BitstreamError::InvalidData(_))) => {
            return Ok(standstill(before, 23));
        }
        (_, Err(other)) => return Err(other),
    };
    let at = reader.bit_pos().min(reader.total_bits()).max(before);
    Ok(Step {
        value,
        next: Cursor { at, refused: 0 },
    })
}

fn value(reader: &mut BitReader<'_>, read: Read) -> Result<i64, BitstreamError> {
    Ok(match read {
        // Above 32 the original has no answer; ours reads 32 bits.
        Read::U(n) => i64::from(reader.u(n.min(32))),
        Read::Ue => i64::from(reader.ue()?),
        Read::Se => i64::from(reader.se()?),
        Read::TrailingBits => {
            reader.read_rbsp_trailing_bits()?;
            0
        }
        Read::MoreData => i64::from(reader.more_rbsp_data()),
        Read::ExtensionBits => {
            let mut bits = 0;
            while reader.more_rbsp_data() {
                reader.u(1);
                bits += 1;
            }
            bits
        }
    })
}

/// A step that gives nothing and stays where it is.
fn standstill(at: usize, refused: u8) -> Step {
    Step {
        value: 0,
        next: Cursor { at, refused },
    }
}

/// Makes the reads on both sides, up to the first difference. The original keeps no refusal: after
/// one, which `start` may hold, reads that take a cursor must stand still, and the others are left
/// out.
fn compare(bytes: &[u8], start: Cursor, reads: &[Read], tally: &mut Tally) {
    let mut reader = BitReader::new(bytes);
    reader.skip(start.at);
    let mut before = start;
    let mut made = 0;
    let mut ours_last = Ok(standstill(start.at, start.refused));
    let mut original_last = Ok(standstill(start.at, start.refused));
    for &read in reads {
        made += 1;
        if before.refused != 0 && matches!(read, Read::MoreData | Read::ExtensionBits) {
            continue;
        }
        original_last = match before.refused {
            0 => original(&mut reader, before.at, read),
            refused => Ok(standstill(before.at, refused)),
        };
        let step = ours(bytes, before, read);
        before = step.next;
        ours_last = Ok(step);
        if ours_last != original_last {
            break;
        }
    }
    tally.compare(&ours_last, &original_last, bytes.len() + made, || {
        let reads = &reads[..made];
        format!("{:?}, the last of {reads:?} from {start:?}", Hex(bytes))
    });
}

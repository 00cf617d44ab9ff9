//! Writing bits: sequences of writes, then the trailing bits, into outputs from empty to ample.

mod cases;

use crate::escape::{GUARD, pattern};
use crate::ours::{self, ByteCount, Sink};
use crate::tally::{Area, Hex, Tally};
use original::{BitstreamError, bit_writer::BitWriter, nal};

pub const AREA: Area = Area {
    name: "writing",
    weight: 6,
    reach: &[],
    texts: &[],
    exhaustive: cases::exhaustive,
    random: cases::random,
};

#[derive(Clone, Copy, Debug)]
enum Write {
    Bit(u32),
    /// A value and its number of bits.
    Bits(u32, u32),
    Ue(u32),
    Se(i32),
    /// Bits of the source: the place of the first, and how many.
    Copy(usize, usize),
}

struct Sequence {
    writes: Vec<Write>,
    source: Vec<u8>,
}

/// How a sequence ends.
#[derive(Clone, Debug, PartialEq)]
struct Run {
    /// The writes before the first refused one.
    accepted: usize,
    /// The sink, or a refusal, beside which nobody looks at the sink.
    end: Result<Sink, u8>,
    answer: ByteCount,
}

/// The runs over an empty output and over the one lent, and what the bytes lent hold afterwards,
/// with those behind the output.
#[derive(Debug, PartialEq)]
struct Answer<'a> {
    counting: Run,
    counting_stores: bool,
    writing: Run,
    source_kept: bool,
    out: Hex<'a>,
}

fn ours(sequence: &Sequence, escape: bool, out: &mut [u8], room: usize) -> Run {
    let mut sink = ours::sink(escape);
    let mut accepted = 0;
    for &write in &sequence.writes {
        sink = match write {
            Write::Bit(bit) => ours::put_bit(sink, out, bit),
            Write::Bits(value, n) => ours::put_bits(sink, out, value, n),
            Write::Ue(v) => ours::put_ue(sink, out, v),
            Write::Se(v) => ours::put_se(sink, out, v),
            Write::Copy(from, count) => ours::put_copy(sink, out, &sequence.source, from, count),
        };
        accepted += usize::from(sink.refused == 0);
    }
    sink = ours::close(sink, out);
    Run {
        accepted,
        end: match sink.refused {
            0 => Ok(sink),
            refused => Err(refused),
        },
        answer: ours::sink_answer(sink, room),
    }
}

/// What the original puts, or our number for its refusal.
struct Original {
    escape: bool,
    accepted: usize,
    put: Result<Vec<u8>, u8>,
}

fn original(sequence: &Sequence) -> Original {
    let mut writer = BitWriter::new();
    for (accepted, &next) in sequence.writes.iter().enumerate() {
        let number = match write(&mut writer, &sequence.source, next) {
            Ok(()) => continue,
            Err(BitstreamError::InvalidData(_)) => 25,
            // Never one of ours, so that another class is a difference.
            Err(_) => 0,
        };
        return Original {
            escape: false,
            accepted,
            put: Err(number),
        };
    }
    writer.write_rbsp_trailing_bits();
    Original {
        escape: false,
        accepted: sequence.writes.len(),
        put: Ok(writer.finish()),
    }
}

fn write(writer: &mut BitWriter, source: &[u8], write: Write) -> Result<(), BitstreamError> {
    match write {
        Write::Bit(bit) => writer.write_bit(bit),
        // Above 32 the original has no answer; ours writes 32 bits.
        Write::Bits(value, n) => writer.write_bits(value, n.min(32)),
        Write::Ue(v) => writer.write_ue(v)?,
        Write::Se(v) => writer.write_se(v)?,
        Write::Copy(from, count) => {
            for i in 0..count {
                let at = from.saturating_add(i);
                let byte = source.get(at / 8).copied().unwrap_or(0);
                writer.write_bit(u32::from(byte >> (7 - at % 8)));
            }
        }
    }
    Ok(())
}

impl Original {
    /// The run that ours has to make.
    fn run(&self, room: usize) -> Run {
        let (end, refused, bytes) = match &self.put {
            Ok(put) => {
                // The last byte has the stop bit, so that there are no zeros behind.
                let sink = Sink {
                    escape: self.escape,
                    zeros: 0,
                    put: put.len(),
                    cur: 0,
                    have: 0,
                    refused: 0,
                };
                let short = room < put.len();
                let (refused, bytes) = if short { (29, 0) } else { (0, put.len()) };
                (Ok(sink), refused, bytes)
            }
            &Err(refused) => (Err(refused), refused, 0),
        };
        Run {
            accepted: self.accepted,
            end,
            answer: ByteCount { refused, bytes },
        }
    }
}

/// Compares plain and escaped, with the rooms that `rooms` gives for a number of bytes.
fn compare<R: IntoIterator<Item = usize>>(
    sequence: &Sequence,
    mut rooms: impl FnMut(usize) -> R,
    tally: &mut Tally,
) {
    let plain = original(sequence);
    let escaped = Original {
        escape: true,
        put: plain.put.clone().map(|rbsp| nal::rbsp_to_ebsp(&rbsp)),
        ..plain
    };
    for original in [plain, escaped] {
        for room in rooms(original.put.as_ref().map_or(0, Vec::len)) {
            compare_in(room, sequence, &original, tally);
        }
    }
}

fn compare_in(room: usize, sequence: &Sequence, original: &Original, tally: &mut Tally) {
    let Sequence { writes, source } = sequence;
    let escape = original.escape;
    let (source_before, mut out) = (source.clone(), pattern(room + GUARD));
    let mut expected = out.clone();
    let counting = ours(sequence, escape, &mut out[..0], room);
    let counting_stores = out != expected;
    let writing = ours(sequence, escape, &mut out[..room], room);
    // After a refusal nobody looks at the output, only at what is behind it.
    let mut from = room;
    if let Ok(put) = &original.put {
        let stored = put.len().min(room);
        expected[..stored].copy_from_slice(&put[..stored]);
        from = 0;
    }
    let ours = Answer {
        counting,
        counting_stores,
        writing,
        source_kept: *source == source_before,
        out: Hex(&out[from..]),
    };
    let run = original.run(room);
    let original = Answer {
        counting: run.clone(),
        counting_stores: false,
        writing: run,
        source_kept: true,
        out: Hex(&expected[from..]),
    };
    tally.compare(&ours, &original, writes.len() + source.len(), || {
        let kind = if escape { "escaped" } else { "plain" };
        let source = Hex(source);
        format!("{kind} {writes:?} with source {source:?} and room {room}")
    });
}

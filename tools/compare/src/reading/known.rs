//! Small units, and the number that each is to give.

use super::units::nal;
use super::{Lengths, Lent, compare};
use crate::tally::Tally;
use original::bit_writer::BitWriter;

use Field::{Se, U1, Ue};

#[derive(Clone, Copy)]
enum Field {
    U1(u32),
    Ue(u32),
    Se(i32),
}

/// The smallest set: a picture of 1 × 1 samples.
pub const SMALLEST: [u8; 7] = [0x00, 0x81, 0x00, 0x09, 0x09, 0x84, 0x08];

/// Compares each with the original, and our number with the one that is known.
pub fn all(tally: &mut Tally) {
    let with_last = |byte| [&SMALLEST[..6], &[byte]].concat();
    let mut known = vec![
        (SMALLEST.to_vec(), 0),
        ([&SMALLEST[..], &[0xFF]].concat(), 0),
        (with_last(0x18), 0),
        (with_last(0x16), 0),
        (with_last(0x14), 23),
        (SMALLEST[..6].to_vec(), 22),
        (vec![0x00, 0x81], 7),
        (vec![0x00, 0x79], 2),
        (vec![0x00], 1),
    ];
    known.extend(partitions());
    for (nal, number) in known {
        compare(&nal, tally);
        let refused = Lent::new(&Lengths::least(&nal)).parse_pps(&nal).refused;
        tally.compare(&refused, &number, nal.len(), || {
            format!("number of {nal:02X?}")
        });
    }
}

fn partitions() -> Vec<(Vec<u8>, u8)> {
    let tallest = (1 << 27) - 1;
    let split_into = |count| {
        partitioned(
            [1, tallest],
            [&[1], &[tallest]],
            &[Ue(999), U1(0), Ue(count)],
        )
    };
    let no_slices = &[Ue(0)][..];
    vec![
        // 10 CTBs: a coded 3 gives 3, 3, 3, 1; 5 and 6 pass the picture.
        (partitioned([10, 1], [&[3], &[1]], no_slices), 0),
        (partitioned([10, 1], [&[5, 6], &[1]], no_slices), 12),
        (partitioned([31, 1], [&[1], &[1]], no_slices), 13),
        // A row of 7 CTBs, N 2: heights 3 and 2 give three slices; 4 and 4 pass the row.
        (
            partitioned([1, 7], [&[1], &[7]], &[Ue(2), U1(0), Ue(2), Ue(2), Ue(1)]),
            0,
        ),
        (
            partitioned([1, 7], [&[1], &[7]], &[Ue(2), U1(0), Ue(2), Ue(3), Ue(3)]),
            16,
        ),
        // 2 × 2 tiles, N 1, the first slice one tile; N 2, tile 0, tiles 1 and 3, and all.
        (partitioned([2, 2], [&[1], &[1]], &[Ue(1), Ue(0), Ue(0)]), 0),
        (
            partitioned(
                [2, 2],
                [&[1], &[1]],
                &[Ue(2), U1(1), Ue(0), Ue(0), Se(1), Ue(1), Se(-1)],
            ),
            0,
        ),
        // More split slices than are left, up to the height of the row.
        (split_into(1001), 17),
        (split_into(65_536), 17),
        (split_into(tallest - 1), 17),
        (split_into(tallest), 16),
        (split_into(u32::MAX - 1), 16),
    ]
}

/// A picture of so many CTBs of 32 samples, coded tile sizes, N with what follows it, and zeros for
/// all else.
fn partitioned(ctbs: [u32; 2], coded: [&[u32]; 2], slices: &[Field]) -> Vec<u8> {
    let mut fields = vec![U1(0); 6 + 4 + 1];
    fields.extend(ctbs.map(|n| Ue(n * 32)));
    fields.extend([U1(0); 5]);
    fields.extend([U1(0); 2]);
    fields.extend(coded.map(|sizes| Ue(sizes.len() as u32 - 1)));
    fields.extend(coded.concat().iter().map(|size| Ue(size - 1)));
    if ctbs != coded.map(|sizes| sizes[0]) {
        fields.extend([U1(0), U1(1)]);
    }
    fields.push(U1(0));
    fields.extend(slices);
    if !matches!(slices[0], Ue(0)) {
        fields.push(U1(0));
    }
    // The references, no blocks, the flags up to the extension flag.
    fields.extend([
        U1(0),
        Ue(0),
        Ue(0),
        U1(0),
        U1(0),
        U1(0),
        U1(0),
        Se(0),
        U1(0),
    ]);
    fields.extend([U1(0); 2 + 4 + 3]);
    let mut writer = BitWriter::new();
    for field in fields {
        match field {
            U1(bit) => writer.write_bit(bit),
            Ue(value) => writer.write_ue(value).expect("a code"),
            Se(value) => writer.write_se(value).expect("a code"),
        }
    }
    writer.write_rbsp_trailing_bits();
    nal(&writer.finish())
}

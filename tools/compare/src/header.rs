//! The NAL unit header.

use crate::ours::{self, NalHeader, NalHeaderRead};
use crate::random::Random;
use crate::tally::{Area, Hex, Tally};
use original::{BitstreamError, h266};

pub const AREA: Area = Area {
    name: "header",
    weight: 1,
    reach: &[],
    texts: &[],
    exhaustive,
    random,
};

fn original(nal: &[u8]) -> Result<NalHeaderRead, BitstreamError> {
    match h266::parse_nal_header(nal) {
        Ok(h) => Ok(NalHeaderRead {
            refused: 0,
            header: NalHeader {
                forbidden_zero_bit: h.forbidden_zero_bit,
                nuh_reserved_zero_bit: h.nuh_reserved_zero_bit,
                nuh_layer_id: h.nuh_layer_id,
                nal_unit_type: h.nal_unit_type,
                nuh_temporal_id_plus1: h.nuh_temporal_id_plus1,
            },
        }),
        Err(BitstreamError::UnexpectedEnd(_)) => Ok(NalHeaderRead {
            refused: 1,
            header: NalHeader::default(),
        }),
        Err(other) => Err(other),
    }
}

fn compare(nal: &[u8], tally: &mut Tally) {
    let ours = Ok(ours::parse_nal_header(nal));
    tally.compare(&ours, &original(nal), nal.len(), || {
        format!("header of {:?}", Hex(nal))
    });
}

/// Every string of up to 2 bytes, and each of 2 with a third.
fn exhaustive(tally: &mut Tally) {
    compare(&[], tally);
    for first in 0..=255 {
        compare(&[first], tally);
        for second in 0..=255 {
            compare(&[first, second], tally);
            compare(&[first, second, first ^ second], tally);
        }
    }
}

fn random(random: &mut Random, tally: &mut Tally) {
    let nal: Vec<u8> = (0..random.below(64)).map(|_| random.byte()).collect();
    compare(&nal, tally);
}

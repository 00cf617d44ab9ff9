//! Writing whole sets. Ours goes over a set once, into a short buffer of its own, and copies; only
//! where that is too short it goes over the set again, into the output.

use super::reading::records;
use super::{LONGEST, row, time};
use crate::reading::Form;
use crate::sets::Set;
use original::BitstreamError;
use original::h266::pps::{VvcPps, write_pps, write_pps_nal};
use std::hint::black_box;

type Original = fn(&VvcPps) -> Result<Vec<u8>, BitstreamError>;

pub fn run() {
    let forms: [(&str, Form, Original); 2] = [
        ("RBSP", Form::Rbsp, write_pps),
        ("NAL unit", Form::Nal, write_pps_nal),
    ];
    let mut out = vec![0; LONGEST * 2];
    for (name, record) in records() {
        let set = Set::least(&record);
        for (kind, form, original) in forms {
            row(
                &format!("write a set, {kind}, {name}"),
                time(|| {
                    set.lent
                        .write_pps(black_box(&set.pps), &set.triples, form, &mut out)
                }),
                Some(time(|| original(black_box(&record)))),
            );
        }
    }
}

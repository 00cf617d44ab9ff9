//! Writing a set, as in include/vvc_pps.h.

use super::given::{call, over_tables};
use super::{ByteCount, Given, Pps, QpOffsets, RectSlice};

#[repr(C)]
struct QpOffsetList {
    triples: [QpOffsets; 6],
}

over_tables! {
    fn vvc_write_pps(
        triples: QpOffsetList;
        extension: *const u8,
        extension_len: usize,
        out: *mut u8,
        out_len: usize
    ) -> ByteCount;
    fn vvc_write_pps_nal(
        triples: QpOffsetList;
        extension: *const u8,
        extension_len: usize,
        out: *mut u8,
        out_len: usize
    ) -> ByteCount;
}

macro_rules! write_with {
    ($function:ident, $pps:ident, $triples:ident, $given:ident, $out:ident) => {
        call!(
            $function,
            $pps,
            $given,
            [QpOffsetList { triples: *$triples }],
            [
                $given.extension.as_ptr(),
                $given.extension.len(),
                $out.as_mut_ptr(),
                $out.len()
            ]
        )
    };
}

pub fn write_pps(
    pps: &Pps,
    triples: &[QpOffsets; 6],
    given: &Given<'_>,
    out: &mut [u8],
) -> ByteCount {
    write_with!(vvc_write_pps, pps, triples, given, out)
}

pub fn write_pps_nal(
    pps: &Pps,
    triples: &[QpOffsets; 6],
    given: &Given<'_>,
    out: &mut [u8],
) -> ByteCount {
    write_with!(vvc_write_pps_nal, pps, triples, given, out)
}

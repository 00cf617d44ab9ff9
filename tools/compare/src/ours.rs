//! The library's C interface (include/vvc_pps.h), with safe functions over it.

mod asked;
mod given;
mod pps;
mod written;

pub use asked::{CoverAnswer, GridAnswer, PlanAnswer, cover, slice_plan, tile_grid};
pub use given::Given;
pub use pps::{
    ChromaToolOffsets, ConfWinOffsets, Deblocking, Partition, Pps, PpsRead, QpOffsets, RectSlice,
    ScalingWinOffsets, SubpicIdMapping, Tables, parse_pps,
};
pub use written::{write_pps, write_pps_nal};

#[repr(C)]
#[derive(Clone, Debug, PartialEq)]
pub struct ByteCount {
    pub refused: u8,
    pub bytes: usize,
}

#[repr(C)]
#[derive(Debug, Default, PartialEq)]
pub struct NalHeader {
    pub forbidden_zero_bit: u8,
    pub nuh_reserved_zero_bit: u8,
    pub nuh_layer_id: u8,
    pub nal_unit_type: u8,
    pub nuh_temporal_id_plus1: u8,
}

#[repr(C)]
#[derive(Debug, PartialEq)]
pub struct NalHeaderRead {
    pub refused: u8,
    pub header: NalHeader,
}

#[repr(C)]
#[derive(Debug, PartialEq)]
pub struct UeSize {
    pub refused: u8,
    pub bits: u32,
}

#[repr(C)]
#[derive(Clone, Copy, Debug, PartialEq)]
pub struct Cursor {
    pub at: usize,
    pub refused: u8,
}

#[repr(C)]
pub struct BitsRead {
    pub value: u32,
    pub next: Cursor,
}

#[repr(C)]
pub struct SignedRead {
    pub value: i32,
    pub next: Cursor,
}

#[repr(C)]
#[derive(Clone, Copy, Debug, PartialEq)]
pub struct Sink {
    pub escape: bool,
    pub zeros: u8,
    pub put: usize,
    pub cur: u8,
    pub have: u8,
    pub refused: u8,
}

#[link(name = "vvc_pps", kind = "static")]
unsafe extern "C" {
    fn vvc_ebsp_to_rbsp(
        ebsp: *const u8,
        ebsp_len: usize,
        out: *mut u8,
        out_len: usize,
    ) -> ByteCount;
    fn vvc_rbsp_to_ebsp(
        rbsp: *const u8,
        rbsp_len: usize,
        out: *mut u8,
        out_len: usize,
    ) -> ByteCount;
    fn vvc_parse_nal_header(nal: *const u8, nal_len: usize) -> NalHeaderRead;
    safe fn vvc_ue_size(v: u32) -> UeSize;
    fn vvc_read_u(s: *const u8, s_len: usize, c: Cursor, n: u32) -> BitsRead;
    fn vvc_read_ue(s: *const u8, s_len: usize, c: Cursor) -> BitsRead;
    fn vvc_read_se(s: *const u8, s_len: usize, c: Cursor) -> SignedRead;
    fn vvc_read_rbsp_trailing_bits(s: *const u8, s_len: usize, c: Cursor) -> Cursor;
    fn vvc_more_rbsp_data(s: *const u8, s_len: usize, at: usize) -> bool;
    fn vvc_extension_bits(s: *const u8, s_len: usize, at: usize) -> usize;
    safe fn vvc_sink(escape: bool) -> Sink;
    fn vvc_put_bit(w: Sink, out: *mut u8, out_len: usize, bit: u32) -> Sink;
    fn vvc_put_bits(w: Sink, out: *mut u8, out_len: usize, value: u32, n: u32) -> Sink;
    fn vvc_put_ue(w: Sink, out: *mut u8, out_len: usize, v: u32) -> Sink;
    fn vvc_put_se(w: Sink, out: *mut u8, out_len: usize, v: i32) -> Sink;
    fn vvc_put_copy(
        w: Sink,
        out: *mut u8,
        out_len: usize,
        bytes: *const u8,
        bytes_len: usize,
        from: usize,
        count: usize,
    ) -> Sink;
    fn vvc_close(w: Sink, out: *mut u8, out_len: usize) -> Sink;
    safe fn vvc_sink_answer(w: Sink, room: usize) -> ByteCount;
}

// The calls are safe: a slice is valid for its length, and what is lent by `&mut` overlaps nothing.

pub fn ebsp_to_rbsp(ebsp: &[u8], out: &mut [u8]) -> ByteCount {
    unsafe { vvc_ebsp_to_rbsp(ebsp.as_ptr(), ebsp.len(), out.as_mut_ptr(), out.len()) }
}

pub fn rbsp_to_ebsp(rbsp: &[u8], out: &mut [u8]) -> ByteCount {
    unsafe { vvc_rbsp_to_ebsp(rbsp.as_ptr(), rbsp.len(), out.as_mut_ptr(), out.len()) }
}

pub fn parse_nal_header(nal: &[u8]) -> NalHeaderRead {
    unsafe { vvc_parse_nal_header(nal.as_ptr(), nal.len()) }
}

pub fn ue_size(v: u32) -> UeSize {
    vvc_ue_size(v)
}

pub fn read_u(s: &[u8], c: Cursor, n: u32) -> BitsRead {
    unsafe { vvc_read_u(s.as_ptr(), s.len(), c, n) }
}

pub fn read_ue(s: &[u8], c: Cursor) -> BitsRead {
    unsafe { vvc_read_ue(s.as_ptr(), s.len(), c) }
}

pub fn read_se(s: &[u8], c: Cursor) -> SignedRead {
    unsafe { vvc_read_se(s.as_ptr(), s.len(), c) }
}

pub fn read_rbsp_trailing_bits(s: &[u8], c: Cursor) -> Cursor {
    unsafe { vvc_read_rbsp_trailing_bits(s.as_ptr(), s.len(), c) }
}

pub fn more_rbsp_data(s: &[u8], at: usize) -> bool {
    unsafe { vvc_more_rbsp_data(s.as_ptr(), s.len(), at) }
}

pub fn extension_bits(s: &[u8], at: usize) -> usize {
    unsafe { vvc_extension_bits(s.as_ptr(), s.len(), at) }
}

pub fn sink(escape: bool) -> Sink {
    vvc_sink(escape)
}

pub fn put_bit(w: Sink, out: &mut [u8], bit: u32) -> Sink {
    unsafe { vvc_put_bit(w, out.as_mut_ptr(), out.len(), bit) }
}

pub fn put_bits(w: Sink, out: &mut [u8], value: u32, n: u32) -> Sink {
    unsafe { vvc_put_bits(w, out.as_mut_ptr(), out.len(), value, n) }
}

pub fn put_ue(w: Sink, out: &mut [u8], v: u32) -> Sink {
    unsafe { vvc_put_ue(w, out.as_mut_ptr(), out.len(), v) }
}

pub fn put_se(w: Sink, out: &mut [u8], v: i32) -> Sink {
    unsafe { vvc_put_se(w, out.as_mut_ptr(), out.len(), v) }
}

pub fn put_copy(w: Sink, out: &mut [u8], bytes: &[u8], from: usize, count: usize) -> Sink {
    let (to, room) = (out.as_mut_ptr(), out.len());
    unsafe { vvc_put_copy(w, to, room, bytes.as_ptr(), bytes.len(), from, count) }
}

pub fn close(w: Sink, out: &mut [u8]) -> Sink {
    unsafe { vvc_close(w, out.as_mut_ptr(), out.len()) }
}

pub fn sink_answer(w: Sink, room: usize) -> ByteCount {
    vvc_sink_answer(w, room)
}

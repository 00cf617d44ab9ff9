//! The questions on a record, as in include/vvc_pps.h.

use super::given::{call, over_tables};
use super::{Given, Pps, RectSlice};

#[repr(C)]
#[derive(Clone, PartialEq)]
pub struct GridAnswer {
    pub refused: u8,
    pub num_tile_columns: u32,
    pub num_tile_rows: u32,
    pub column_widths: [u32; 30],
    pub row_heights: [u32; 990],
}

#[repr(C)]
#[derive(Clone, PartialEq)]
pub struct PlanAnswer {
    pub refused: u8,
    pub num_slices: u32,
    pub left: [u32; 1000],
    pub top: [u32; 1000],
    pub width: [u32; 1000],
    pub height: [u32; 1000],
}

#[repr(C)]
#[derive(Clone, Copy, Debug, PartialEq)]
pub struct CoverAnswer {
    pub kind: u8,
    pub refused: u8,
    pub tile: u32,
}

over_tables! {
    fn vvc_tile_grid(;) -> GridAnswer;
    fn vvc_slice_plan(;) -> PlanAnswer;
    fn vvc_cover(;) -> CoverAnswer;
}

pub fn tile_grid(pps: &Pps, given: &Given<'_>) -> GridAnswer {
    call!(vvc_tile_grid, pps, given, [], [])
}

pub fn slice_plan(pps: &Pps, given: &Given<'_>) -> PlanAnswer {
    call!(vvc_slice_plan, pps, given, [], [])
}

pub fn cover(pps: &Pps, given: &Given<'_>) -> CoverAnswer {
    call!(vvc_cover, pps, given, [], [])
}

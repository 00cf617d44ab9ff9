//! What writing and the questions are lent beside the record, and calls with it.

use super::RectSlice;

pub struct Given<'a> {
    pub subpic_ids: &'a [u32],
    pub tile_column_widths: &'a [u32],
    pub tile_row_heights: &'a [u32],
    pub entries: &'a [RectSlice],
    pub split_heights: &'a [u32],
    /// The bytes of the extension bits, for writing alone.
    pub extension: &'a [u8],
}

/// Declares functions of the library that take a record, what stands beside it by value, the tables,
/// then what is named behind the semicolon.
macro_rules! over_tables {
    ($(fn $name:ident(
        $($beside:ident: $beside_type:ty),*; $($more:ident: $type:ty),*
    ) -> $answer:ty;)*) => {
        unsafe extern "C" {
            $(fn $name(
                pps: Pps,
                $($beside: $beside_type,)*
                subpic_ids: *const u32,
                subpic_ids_len: usize,
                tile_column_widths: *const u32,
                tile_column_widths_len: usize,
                tile_row_heights: *const u32,
                tile_row_heights_len: usize,
                entries: *const RectSlice,
                entries_len: usize,
                split_heights: *const u32,
                split_heights_len: usize,
                $($more: $type),*
            ) -> $answer;)*
        }
    };
}

/// Calls such a function.
macro_rules! call {
    ($function:ident, $pps:ident, $given:ident, [$($beside:expr),*], [$($more:expr),*]) => {
        unsafe {
            $function(
                $pps.clone(),
                $($beside,)*
                $given.subpic_ids.as_ptr(),
                $given.subpic_ids.len(),
                $given.tile_column_widths.as_ptr(),
                $given.tile_column_widths.len(),
                $given.tile_row_heights.as_ptr(),
                $given.tile_row_heights.len(),
                $given.entries.as_ptr(),
                $given.entries.len(),
                $given.split_heights.as_ptr(),
                $given.split_heights.len(),
                $($more),*
            )
        }
    };
}

pub(super) use {call, over_tables};

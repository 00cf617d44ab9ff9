//! The answers, as they are compared and printed.

use super::counted::{Counted, Place};
use super::picture::Picture;
use crate::ours::{CoverAnswer, GridAnswer, PlanAnswer};
use crate::reading::Runs;
use std::fmt::{self, Debug};

/// A table of which equal neighbours are printed once.
#[derive(PartialEq)]
struct Table(Vec<u32>);

impl Table {
    /// Values, then zeros.
    fn padded(values: impl Iterator<Item = u64>, len: usize) -> Self {
        let mut table: Vec<u32> = values.map(|value| value as u32).collect();
        table.resize(len, 0);
        Table(table)
    }
}

impl Debug for Table {
    fn fmt(&self, f: &mut fmt::Formatter<'_>) -> fmt::Result {
        Runs(&self.0).fmt(f)
    }
}

#[derive(Debug, PartialEq)]
pub struct Grid {
    refused: u8,
    columns: u32,
    rows: u32,
    column_widths: Table,
    row_heights: Table,
}

impl Grid {
    pub fn new(a: &GridAnswer) -> Self {
        Grid {
            refused: a.refused,
            columns: a.num_tile_columns,
            rows: a.num_tile_rows,
            column_widths: Table(a.column_widths.to_vec()),
            row_heights: Table(a.row_heights.to_vec()),
        }
    }

    /// Without a picture there are no columns and no rows.
    pub fn expected(refused: u8, picture: Option<&Picture>) -> Self {
        let sizes = |bounds: Option<&Vec<u64>>| -> Vec<u64> {
            let bounds = bounds.map_or(&[][..], |bounds| bounds);
            bounds.windows(2).map(|ends| ends[1] - ends[0]).collect()
        };
        let widths = sizes(picture.map(|p| &p.column_bounds));
        let heights = sizes(picture.map(|p| &p.row_bounds));
        Grid {
            refused,
            columns: widths.len() as u32,
            rows: heights.len() as u32,
            column_widths: Table::padded(widths.into_iter(), 30),
            row_heights: Table::padded(heights.into_iter(), 990),
        }
    }

    pub fn column_widths_in_use(&self) -> &[u32] {
        &self.column_widths.0[..self.columns.min(30) as usize]
    }

    pub fn row_heights_in_use(&self) -> &[u32] {
        &self.row_heights.0[..self.rows.min(990) as usize]
    }
}

#[derive(Debug, PartialEq)]
pub struct Plan {
    refused: u8,
    slices: u32,
    left: Table,
    top: Table,
    width: Table,
    height: Table,
}

impl Plan {
    pub fn new(a: &PlanAnswer) -> Self {
        Plan {
            refused: a.refused,
            slices: a.num_slices,
            left: Table(a.left.to_vec()),
            top: Table(a.top.to_vec()),
            width: Table(a.width.to_vec()),
            height: Table(a.height.to_vec()),
        }
    }

    pub fn expected(refused: u8, counted: Option<&Counted>) -> Self {
        let places = counted.map_or(&[][..], |counted| &counted.places);
        let all = |of: fn(&Place) -> u64| Table::padded(places.iter().map(of), 1000);
        Plan {
            refused,
            slices: places.len() as u32,
            left: all(|place| place.left),
            top: all(|place| place.top),
            width: all(|place| place.width),
            height: all(|place| place.height),
        }
    }
}

/// The tile of a gap or a double is free: it is told whether it is as it must be.
#[derive(Debug, PartialEq)]
pub enum Cover {
    Refused(u8),
    NoPlan,
    Whole,
    Gap { of_a_tile_in_no_slice: bool },
    Double { of_a_tile_in_several: bool },
    Unknown(CoverAnswer),
}

impl Cover {
    pub fn expected(refused: u8, counted: Option<&Counted>) -> Self {
        match counted {
            _ if refused != 0 => Cover::Refused(refused),
            None => Cover::NoPlan,
            Some(counted) if counted.gap() => Cover::Gap {
                of_a_tile_in_no_slice: true,
            },
            Some(counted) if counted.double() => Cover::Double {
                of_a_tile_in_several: true,
            },
            Some(_) => Cover::Whole,
        }
    }

    pub fn judged(a: CoverAnswer, counted: Option<&Counted>) -> Self {
        match (a.kind, a.refused, a.tile) {
            (0, 0, 0) => Cover::NoPlan,
            (1, 0, 0) => Cover::Whole,
            (2, 0, tile) => Cover::Gap {
                of_a_tile_in_no_slice: counted.is_some_and(|c| c.in_no_slice(tile)),
            },
            (3, 0, tile) => Cover::Double {
                of_a_tile_in_several: counted.is_some_and(|c| c.in_several(tile)),
            },
            (4, refused, 0) => Cover::Refused(refused),
            _ => Cover::Unknown(a),
        }
    }
}

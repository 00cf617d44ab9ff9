//! The partition block: tiles, then the rectangular slices (H.266 6.5.1, 7.4.3.5).

use super::bits::Bits;
use super::{Seen, must};

pub struct Grid {
    pub columns: u64,
    pub row_heights: Vec<u64>,
}

pub fn read(b: &mut Bits<'_>, width: u32, height: u32, seen: &mut Seen) -> Result<(), u8> {
    let log2_minus5 = b.u(2);
    must(log2_minus5 <= 2, 9)?;
    let in_ctbs = |samples: u32| u64::from(samples).div_ceil(32 << log2_minus5);
    let (width, height) = (in_ctbs(width), in_ctbs(height));
    let (columns_minus1, rows_minus1) = (b.ue()?, b.ue()?);
    must(columns_minus1 < 30 && rows_minus1 < 990, 10)?;
    let widths = sizes(b, columns_minus1, width)?;
    let heights = sizes(b, rows_minus1, height)?;
    let columns = filled(&widths, width, 30)?.len() as u64;
    let row_heights = filled(&heights, height, 990 / columns)?;
    let grid = Grid {
        columns,
        row_heights,
    };
    seen.columns = grid.columns as usize;
    seen.rows = grid.row_heights.len();
    let rectangular = if grid.tiles() > 1 {
        b.flag();
        b.flag()
    } else {
        true
    };
    let single = rectangular && b.flag();
    let coded = rectangular && !single;
    let mut last_slice = 0;
    if coded {
        last_slice = u64::from(b.ue()?);
        must(last_slice <= 999, 14)?;
        let deltas = last_slice > 1 && b.flag();
        slices(b, &grid, last_slice, deltas, seen)?;
    }
    if !coded || last_slice > 0 {
        b.flag();
    }
    Ok(())
}

/// Explicit tile sizes.
fn sizes(b: &mut Bits<'_>, count_minus1: u32, ctbs: u64) -> Result<Vec<u64>, u8> {
    let mut sizes = vec![];
    for _ in 0..=count_minus1 {
        let size_minus1 = u64::from(b.ue()?);
        must(size_minus1 < ctbs, 11)?;
        sizes.push(size_minus1 + 1);
    }
    Ok(sizes)
}

/// All sizes: the explicit ones, the last of them repeated, and a tail.
pub fn filled(explicit: &[u64], ctbs: u64, most: u64) -> Result<Vec<u64>, u8> {
    let sum: u64 = explicit.iter().sum();
    must(sum <= ctbs, 12)?;
    let mut sizes = explicit.to_vec();
    let mut left = ctbs - sum;
    while left > 0 && sizes.len() as u64 <= most {
        let next = left.min(explicit[explicit.len() - 1]);
        sizes.push(next);
        left -= next;
    }
    must(sizes.len() as u64 <= most, 13)?;
    Ok(sizes)
}

impl Grid {
    pub fn rows(&self) -> u64 {
        self.row_heights.len() as u64
    }

    pub fn tiles(&self) -> u64 {
        self.columns * self.rows()
    }

    /// The tile of the next slice without deltas, for a slice of so many tiles minus 1.
    pub fn next(&self, tile: u64, width: u64, height: u64) -> Result<u64, u8> {
        let next = tile + width + 1;
        let at_row_end = next.is_multiple_of(self.columns);
        let to = next + if at_row_end { height * self.columns } else { 0 };
        must(to < self.tiles(), 19)?;
        Ok(to)
    }
}

fn slices(
    b: &mut Bits<'_>,
    grid: &Grid,
    last: u64,
    deltas: bool,
    seen: &mut Seen,
) -> Result<(), u8> {
    // By slice index, in tiles minus 1; the slices of a split keep 0.
    let mut heights = vec![0; last as usize + 1];
    let (mut slice, mut tile) = (0, 0);
    while slice < last {
        let (column, row) = (tile % grid.columns, tile / grid.columns);
        let width = match column + 1 < grid.columns {
            true => u64::from(b.ue()?),
            false => 0,
        };
        must(column + width < grid.columns, 15)?;
        let height = if row + 1 == grid.rows() {
            0
        } else if deltas || column == 0 {
            u64::from(b.ue()?)
        } else {
            heights[slice as usize - 1]
        };
        must(row + height < grid.rows(), 15)?;
        heights[slice as usize] = height;
        let row_height = grid.row_heights[row as usize];
        if width == 0 && height == 0 && row_height > 1 {
            slice += split(b, row_height, last - slice + 1, seen)? - 1;
        }
        if slice < last {
            tile = if deltas {
                moved(tile, b.se()?, grid.tiles())?
            } else {
                grid.next(tile, width, height)?
            };
        }
        slice += 1;
    }
    Ok(())
}

/// How many slices a tile is split into, where so many slices are left.
fn split(b: &mut Bits<'_>, row_height: u64, left: u64, seen: &mut Seen) -> Result<u64, u8> {
    let count = b.ue()?;
    must(u64::from(count) < row_height, 16)?;
    if u64::from(count) > left {
        seen.early_17 = count;
        return Err(17);
    }
    let mut heights = vec![];
    for _ in 0..count {
        let height_minus1 = u64::from(b.ue()?);
        must(height_minus1 < row_height, 16)?;
        heights.push(height_minus1 + 1);
    }
    slices_of_tile(&heights, row_height, left)
}

/// The explicit heights, the last of them repeated, and a tail; one slice without any.
pub fn slices_of_tile(heights: &[u64], row_height: u64, left: u64) -> Result<u64, u8> {
    let Some(&last) = heights.last() else {
        return Ok(1);
    };
    let sum: u64 = heights.iter().sum();
    must(sum <= row_height, 16)?;
    let slices = heights.len() as u64 + (row_height - sum).div_ceil(last);
    must(slices <= left, 17)?;
    Ok(slices)
}

pub fn moved(tile: u64, delta: i64, tiles: u64) -> Result<u64, u8> {
    must(delta != 0 && delta.unsigned_abs() < tiles, 18)?;
    let to = tile as i64 + delta;
    must((0..tiles as i64).contains(&to), 18)?;
    Ok(to as u64)
}

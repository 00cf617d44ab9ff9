//! Rectangular slices: a walk that stays in the grid, and the fields that code it.

use super::put::{Broken, Put, past};
use super::tiles::Axis;
use crate::random::Random;

const LAST_SLICE: u64 = 999;

enum Field {
    /// A value, and those that pass its limits.
    Ue(u64, [u64; 3]),
    /// The number of split heights, the height of the row and the slice index.
    SplitCount(u64, u64, u64),
    Delta(i64, [i64; 4]),
}

struct Walk {
    fields: Vec<Field>,
    last_slice: u64,
    deltas: bool,
}

/// The flags behind the tiles, and the slices.
pub fn put(p: &mut Put<'_>, columns: &Axis, rows: &Axis) -> Result<(), Broken> {
    let tiles = columns.sizes.len() * rows.sizes.len();
    let mut rectangular = true;
    if tiles > 1 {
        p.flag();
        rectangular = !p.random.one_in(8);
        p.bits(rectangular.into(), 1);
    }
    let single = rectangular && p.rare_flag(8);
    let mut last_slice = 0;
    if rectangular && !single {
        let walk = Walk::random(p.random, columns.sizes.len() as u64, &rows.sizes);
        last_slice = walk.put(p)?;
    }
    if !rectangular || single || last_slice > 0 {
        p.flag();
    }
    Ok(())
}

impl Walk {
    fn random(random: &mut Random, columns: u64, row_heights: &[u64]) -> Self {
        let tiles = columns as usize * row_heights.len();
        if tiles > 1 && random.one_in(3) {
            let walk = Walk::walked(random, columns, row_heights, true);
            if walk.last_slice > 1 {
                return walk;
            }
        }
        Walk::walked(random, columns, row_heights, false)
    }

    fn walked(random: &mut Random, columns: u64, row_heights: &[u64], deltas: bool) -> Self {
        let rows = row_heights.len() as u64;
        let tiles = columns * rows;
        let stop = random.pick(&[0, 1, 2, 3, 5, 12, 40, LAST_SLICE]);
        let (most_wide, most_high) = random.pick(&[(0, 0), (0, 1), (1, 0), (2, 2), (29, 989)]);
        let mut fields = vec![];
        let (mut slice, mut tile, mut height) = (0, 0, 0);
        while slice < stop {
            let before = fields.len();
            let (column, row) = (tile % columns, tile / columns);
            let mut width = 0;
            if column + 1 < columns {
                let most = columns - column - 1;
                width = up_to(random, most_wide.min(most));
                fields.push(Field::Ue(width, past(most)));
            }
            if row + 1 == rows {
                height = 0;
            } else if deltas || column == 0 {
                let most = rows - row - 1;
                height = up_to(random, most_high.min(most));
                fields.push(Field::Ue(height, past(most)));
            }
            let row_height = row_heights[row as usize];
            let mut slices = 1;
            if width == 0 && height == 0 && row_height > 1 {
                slices = split(random, row_height, slice, &mut fields);
            }
            let next = match deltas {
                true => (tile + 1 + random.below(tiles as usize - 1) as u64) % tiles,
                false if (tile + width + 1) % columns == 0 => tile + width + 1 + height * columns,
                false => tile + width + 1,
            };
            slice += slices - 1;
            let full = slice == LAST_SLICE;
            let ends = next >= tiles;
            if full || ends && slices > 1 {
                // The last slice is one of the split.
                break;
            }
            if ends {
                fields.truncate(before);
                break;
            }
            if deltas {
                let (tile, tiles) = (tile as i64, tiles as i64);
                let past = [0, tiles, -tile - 1, tiles - tile];
                fields.push(Field::Delta(next as i64 - tile, past));
            }
            tile = next;
            slice += 1;
        }
        Walk {
            fields,
            last_slice: slice,
            deltas,
        }
    }

    /// Gives the last slice index.
    fn put(&self, p: &mut Put<'_>) -> Result<u64, Broken> {
        // A number that does not fit the walk passes what its splits leave, or lets it leave the
        // grid.
        let misfit = p.passes();
        let last_slice = match misfit {
            true => self
                .last_slice
                .saturating_add_signed(p.random.pick(&[-1, 1, 2])),
            false => self.last_slice,
        };
        p.ue_or(last_slice, past(LAST_SLICE))?;
        if last_slice > 1 {
            p.bits(self.deltas.into(), 1);
        }
        for field in &self.fields {
            match *field {
                Field::Ue(value, past) => p.ue_or(value, past)?,
                Field::SplitCount(count, row_height, slice) => {
                    let one_more = (last_slice + 2).saturating_sub(slice);
                    p.ue_or(count, [one_more, row_height, row_height + 1])?;
                }
                Field::Delta(delta, past) => p.se_or(delta, past)?,
            }
        }
        if misfit {
            return Err(Broken);
        }
        Ok(last_slice)
    }
}

fn up_to(random: &mut Random, most: u64) -> u64 {
    match random.below(3) {
        0 => most,
        _ => random.below(most as usize + 1) as u64,
    }
}

/// A tile's split, which leaves the slices up to the last index at most; how many slices it makes.
fn split(random: &mut Random, row_height: u64, slice: u64, fields: &mut Vec<Field>) -> u64 {
    let left = LAST_SLICE - slice + 1;
    let most = left.min(row_height - 1);
    let count = match random.below(16) {
        0..9 => 0,
        9 => most,
        10 => 1 + random.below(most as usize) as u64,
        _ => 1 + random.below(most.min(6) as usize) as u64,
    };
    fields.push(Field::SplitCount(count, row_height, slice));
    if count == 0 {
        return 1;
    }
    let largest = random
        .pick(&[1, 2, row_height / count])
        .min(row_height / count);
    let mut heights: Vec<u64> = (0..count)
        .map(|_| 1 + random.below(largest as usize) as u64)
        .collect();
    let last = heights.len() - 1;
    let rest = row_height - heights.iter().sum::<u64>();
    let mut slices = count + rest.div_ceil(heights[last]);
    if slices > left || random.one_in(3) {
        // The last height takes the rest of the row.
        heights[last] += rest;
        slices = count;
    }
    let mut rest = row_height;
    for height in heights {
        fields.push(Field::Ue(height - 1, [rest, row_height, row_height + 1]));
        rest -= height;
    }
    slices
}

//! Tiles and slices as H.266 6.5.1 derives them, from a record that is right.

use crate::reading::Lent;
use crate::sets::Set;

/// The blocks of a tile, or some of its rows, from `left` and `top` on to the block before `right` and
/// `bottom`.
#[derive(Clone, Copy, Debug)]
pub struct Part {
    pub tile: usize,
    pub left: u64,
    pub right: u64,
    pub top: u64,
    pub bottom: u64,
}

#[derive(Debug)]
pub struct Picture {
    /// TileColBdVal and TileRowBdVal, with the picture's end; nothing but 0 where it is unpartitioned.
    pub column_bounds: Vec<u64>,
    pub row_bounds: Vec<u64>,
    /// What AddCtbsToSlice is called with, by slice index; nothing where no slices are coded.
    pub slices: Option<Vec<Vec<Part>>>,
}

impl Picture {
    pub fn of(set: &Set) -> Self {
        let Set { pps, lent, .. } = set;
        let p = &pps.partition;
        let bounds = |samples: u32, sizes_minus1: &[u32]| {
            let ctb_size = 1 << (p.pps_log2_ctu_size_minus5 + 5);
            bounds(&repeated(
                sizes_minus1,
                u64::from(samples).div_ceil(ctb_size),
            ))
        };
        if p.present == 0 {
            return Picture {
                column_bounds: vec![0],
                row_bounds: vec![0],
                slices: None,
            };
        }
        let mut picture = Picture {
            column_bounds: bounds(
                pps.pps_pic_width_in_luma_samples,
                &lent.tile_column_widths.held()[..p.num_tile_column_widths as usize],
            ),
            row_bounds: bounds(
                pps.pps_pic_height_in_luma_samples,
                &lent.tile_row_heights.held()[..p.num_tile_row_heights as usize],
            ),
            slices: None,
        };
        if p.pps_rect_slice_flag != 0 && p.pps_single_slice_per_subpic_flag == 0 {
            let last = p.pps_num_slices_in_pic_minus1 as usize;
            let deltas = p.pps_tile_idx_delta_present_flag != 0;
            picture.slices = Some(picture.slices(last, deltas, lent));
        }
        picture
    }

    pub fn columns(&self) -> usize {
        self.column_bounds.len() - 1
    }

    pub fn rows(&self) -> usize {
        self.row_bounds.len() - 1
    }

    pub fn tiles(&self) -> usize {
        self.columns() * self.rows()
    }

    pub fn width(&self) -> u64 {
        self.column_bounds[self.columns()]
    }

    pub fn height(&self) -> u64 {
        self.row_bounds[self.rows()]
    }

    pub fn blocks(&self) -> u64 {
        self.width() * self.height()
    }

    /// All of a tile.
    pub fn tile(&self, tile: usize) -> Part {
        let (x, y) = (tile % self.columns(), tile / self.columns());
        Part {
            tile,
            left: self.column_bounds[x],
            right: self.column_bounds[x + 1],
            top: self.row_bounds[y],
            bottom: self.row_bounds[y + 1],
        }
    }

    /// Equation 21, an entry being what the loop takes from the tables.
    fn slices(&self, last: usize, deltas: bool, lent: &Lent) -> Vec<Vec<Part>> {
        let mut slices = vec![];
        let mut split_heights = lent.split_heights.held();
        let (mut tile, mut entries) = (0, lent.entries.held().iter());
        while slices.len() < last {
            let entry = entries.next().expect("an entry for each turn");
            let width = entry.pps_slice_width_in_tiles_minus1 as usize + 1;
            let height = entry.pps_slice_height_in_tiles_minus1 as usize + 1;
            let mut heights: &[u32] = &[];
            if entry.split_present != 0 {
                let count = entry.pps_num_exp_slices_in_tile as usize;
                (heights, split_heights) = split_heights.split_at(count);
            }
            if heights.is_empty() {
                slices.push(self.group(tile, width, height));
            } else {
                slices.extend(self.split(tile, heights).map(|part| vec![part]));
            }
            if deltas {
                tile = tile.wrapping_add_signed(entry.pps_tile_idx_delta_val as isize);
            } else {
                tile += width;
                if tile.is_multiple_of(self.columns()) {
                    tile += (height - 1) * self.columns();
                }
            }
        }
        if slices.len() == last {
            let (x, y) = (tile % self.columns(), tile / self.columns());
            slices.push(self.group(tile, self.columns() - x, self.rows() - y));
        }
        slices
    }

    fn group(&self, tile: usize, width: usize, height: usize) -> Vec<Part> {
        let row = |y| (0..width).map(move |x| tile + y * self.columns() + x);
        (0..height)
            .flat_map(row)
            .map(|tile| self.tile(tile))
            .collect()
    }

    /// The slices of one tile, from its top.
    fn split(&self, tile: usize, heights_minus1: &[u32]) -> impl Iterator<Item = Part> {
        let whole = self.tile(tile);
        let heights = repeated(heights_minus1, whole.bottom - whole.top);
        let bounds = bounds(&heights);
        (0..heights.len()).map(move |i| Part {
            top: whole.top + bounds[i],
            bottom: whole.top + bounds[i + 1],
            ..whole
        })
    }
}

/// Explicit sizes, the last of them as often as it fits, and the remainder.
fn repeated(sizes_minus1: &[u32], all: u64) -> Vec<u64> {
    let mut sizes: Vec<u64> = sizes_minus1.iter().map(|&s| u64::from(s) + 1).collect();
    let mut remaining = all - sizes.iter().sum::<u64>();
    let uniform = sizes[sizes.len() - 1];
    while remaining >= uniform {
        sizes.push(uniform);
        remaining -= uniform;
    }
    if remaining > 0 {
        sizes.push(remaining);
    }
    sizes
}

fn bounds(sizes: &[u64]) -> Vec<u64> {
    let mut bounds = vec![0];
    for size in sizes {
        bounds.push(bounds[bounds.len() - 1] + size);
    }
    bounds
}

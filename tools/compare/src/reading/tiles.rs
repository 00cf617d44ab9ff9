//! Tile columns and rows.

use super::put::{Broken, Put, past};
use crate::random::Random;

/// The columns or the rows, in CTBs.
pub struct Axis {
    /// How many of the sizes are coded.
    explicit: usize,
    pub sizes: Vec<u64>,
    ctbs: u64,
    /// There are more than may be.
    over: bool,
}

impl Axis {
    /// Up to `most` sizes, or one more where the limit is to be passed, and up to `longest` CTBs.
    pub fn random(p: &mut Put<'_>, most: usize, longest: u64) -> Self {
        let over = p.passes();
        let random = &mut *p.random;
        let most_here = if over { most + 1 } else { most };
        let count = match random.below(16) {
            _ if over => most_here,
            0 => most,
            1 => 1 + random.below(most),
            2..5 => 1,
            _ => 1 + random.below(most.min(5)),
        };
        let largest = longest / count as u64;
        if !over && random.one_in(16) {
            return Axis::uniform(largest + 1, longest);
        }
        let explicit = match random.below(4) {
            0 => count,
            1 => 1,
            _ => 1 + random.below(count),
        };
        let largest = random.pick(&[1, 2, 3, 8, 40, 1500, largest]).min(largest);
        let mut sizes: Vec<u64> = (0..explicit)
            .map(|_| 1 + random.below(largest as usize) as u64)
            .collect();
        let last = sizes[explicit - 1];
        sizes.resize(count, last);
        if explicit < count && random.one_in(2) {
            sizes[count - 1] = 1 + random.below(last as usize) as u64;
        }
        Axis {
            explicit,
            ctbs: sizes.iter().sum(),
            sizes,
            over,
        }
    }

    /// One coded size for all.
    fn uniform(size: u64, ctbs: u64) -> Self {
        let mut sizes = vec![size; (ctbs / size) as usize];
        if !ctbs.is_multiple_of(size) {
            sizes.push(ctbs % size);
        }
        Axis {
            explicit: 1,
            sizes,
            ctbs,
            over: false,
        }
    }

    /// A number of luma samples that takes so many CTBs.
    pub fn samples(&self, random: &mut Random, log2_ctu_size: u32) -> u64 {
        let most = u64::from(u32::MAX) - 1;
        let in_last = match random.below(4) {
            0 => 1,
            1 => 1 << log2_ctu_size,
            _ => 1 + random.below(1 << log2_ctu_size) as u64,
        };
        if self.ctbs << log2_ctu_size > most && random.one_in(2) {
            return most;
        }
        (((self.ctbs - 1) << log2_ctu_size) + in_last).min(most)
    }
}

/// The numbers of coded sizes, then the sizes.
pub fn put(p: &mut Put<'_>, columns: &Axis, rows: &Axis) -> Result<(), Broken> {
    p.ue_or(columns.explicit as u64 - 1, past(29))?;
    p.ue_or(rows.explicit as u64 - 1, past(989))?;
    let mut over = columns.over || rows.over;
    for axis in [columns, rows] {
        let mut left = axis.ctbs;
        for &size in &axis.sizes[..axis.explicit] {
            // One more than is left passes the picture with the sum alone, unless it is the first.
            let passes = p.passes();
            p.ue(if passes { left } else { size - 1 })?;
            over |= passes;
            left -= size;
        }
    }
    if over { Err(Broken) } else { Ok(()) }
}

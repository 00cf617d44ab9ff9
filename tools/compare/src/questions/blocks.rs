//! A count over all blocks of a small picture.

use super::counted::{Counted, Extent};
use super::picture::{Part, Picture};

pub fn count(picture: &Picture, slices: &[Vec<Part>]) -> Counted {
    // The slices that each block lies in.
    let width = picture.width();
    let mut lies_in = vec![vec![]; picture.blocks() as usize];
    for (slice, parts) in slices.iter().enumerate() {
        for &part in parts {
            for (x, y) in blocks(part) {
                lies_in[(y * width + x) as usize].push(slice);
            }
        }
    }
    let mut extents: Vec<Extent> = slices.iter().map(|_| Extent::new()).collect();
    for (block, held_by) in (0..).zip(&lies_in) {
        let (x, y) = (block % width, block / width);
        for &slice in held_by {
            extents[slice].add(x, x + 1, y, y + 1);
        }
    }
    let of_tile = |tile| {
        let slices_of = |(x, y): (u64, u64)| lies_in[(y * width + x) as usize].len() as u64;
        let counts: Vec<u64> = blocks(picture.tile(tile)).map(slices_of).collect();
        (
            counts.iter().copied().min().unwrap_or(0),
            counts.iter().copied().max().unwrap_or(0),
        )
    };
    let (least, most) = (0..picture.tiles()).map(of_tile).unzip();
    Counted {
        places: extents.iter().map(Extent::place).collect(),
        least,
        most,
    }
}

fn blocks(part: Part) -> impl Iterator<Item = (u64, u64)> {
    let (left, right) = (part.left, part.right);
    (part.top..part.bottom).flat_map(move |y| (left..right).map(move |x| (x, y)))
}

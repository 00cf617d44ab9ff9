//! A count over the tiles of a picture. A part of a slice has all columns of its tile, so the blocks of
//! a row of a tile lie in the same slices.

use super::counted::{Counted, Extent};
use super::picture::{Part, Picture};

pub fn count(picture: &Picture, slices: &[Vec<Part>]) -> Counted {
    let mut parts_of = vec![vec![]; picture.tiles()];
    let mut places = vec![];
    for parts in slices {
        let mut extent = Extent::new();
        for part in parts {
            parts_of[part.tile].push((part.top, part.bottom));
            extent.add(part.left, part.right, part.top, part.bottom);
        }
        places.push(extent.place());
    }
    let of_tile = |tile: usize| {
        let (whole, parts) = (picture.tile(tile), &parts_of[tile]);
        // The number changes only at the top of the tile and of a part, and behind a part.
        let mut changes = vec![whole.top];
        changes.extend(parts.iter().flat_map(|&(top, bottom)| [top, bottom]));
        changes.retain(|y| (whole.top..whole.bottom).contains(y));
        changes.sort_unstable();
        changes.dedup();
        let slices_at = |&y: &u64| parts.iter().filter(|&&(a, b)| a <= y && y < b).count();
        let counts: Vec<usize> = changes.iter().map(slices_at).collect();
        let ends = (counts.iter().min(), counts.iter().max());
        let (Some(&least), Some(&most)) = ends else {
            unreachable!("a tile has a top")
        };
        (least as u64, most as u64)
    };
    let (least, most) = (0..picture.tiles()).map(of_tile).unzip();
    Counted {
        places,
        least,
        most,
    }
}

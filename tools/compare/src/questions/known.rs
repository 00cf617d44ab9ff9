//! Small records, and the answers that they are to give.

use super::compare;
use super::shown::Grid;
use crate::ours::{CoverAnswer, Pps};
use crate::reading::SMALLEST;
use crate::sets::Set;
use crate::sets::laid::{partitioned, slice, split, then};
use crate::tally::Tally;
use original::h266::pps::{VvcPps, parse_pps};

/// The tile sizes, each slice's left, top, width and height, and what they cover, with the tiles that may
/// be named.
struct Known {
    columns: &'static [u32],
    rows: &'static [u32],
    slices: &'static [[u32; 4]],
    cover: (u8, &'static [u32]),
}

/// Compares each with the counts, and our answers with those that are known.
pub fn all(tally: &mut Tally) {
    for (record, number) in refused() {
        let Set { pps, lent, .. } = checked(&record, tally);
        let ours = (
            lent.tile_grid(&pps).refused,
            lent.slice_plan(&pps).refused,
            lent.cover(&pps),
        );
        let cover = CoverAnswer {
            kind: 4,
            refused: number,
            tile: 0,
        };
        tally.compare(&ours, &(number, number, cover), 0, || {
            format!("the number of {pps:?}")
        });
    }
    for (record, known) in accepted() {
        let Set { pps, lent, .. } = checked(&record, tally);
        let grid = Grid::new(&lent.tile_grid(&pps));
        let sizes = (grid.column_widths_in_use(), grid.row_heights_in_use());
        tally.compare(&sizes, &(known.columns, known.rows), 0, || of(&pps));
        let plan = lent.slice_plan(&pps);
        let place = |i| [plan.left[i], plan.top[i], plan.width[i], plan.height[i]];
        let slices: Vec<[u32; 4]> = (0..plan.num_slices as usize).map(place).collect();
        tally.compare(&&slices[..], &known.slices, 0, || of(&pps));
        let cover = lent.cover(&pps);
        let named = known.cover.1.is_empty() || known.cover.1.contains(&cover.tile);
        tally.compare(&(cover.kind, named), &(known.cover.0, true), 0, || of(&pps));
    }
}

fn of(pps: &Pps) -> String {
    format!("the answers of {pps:?}")
}

fn checked(record: &VvcPps, tally: &mut Tally) -> Set {
    let set = Set::least(record);
    compare(&set, tally);
    set
}

/// A row or a column of so many CTBs, with explicit tile sizes.
fn row(ctbs: u32, sizes: &[u32]) -> VvcPps {
    let minus1: Vec<u32> = sizes.iter().map(|size| size - 1).collect();
    VvcPps {
        pps_pic_width_in_luma_samples: ctbs * 128,
        ..partitioned(&minus1, &[0], 0, 0, vec![])
    }
}

fn refused() -> Vec<(VvcPps, u8)> {
    let moved = |delta| partitioned(&[0, 0], &[0, 0], 0, 2, vec![then(delta, slice(0, 0)); 2]);
    vec![
        (row(10, &[5, 6]), 12),
        (row(31, &[1]), 13),
        // A row of 7 CTBs: heights 4 and 4 pass it.
        (partitioned(&[0], &[6], 0, 2, vec![split(&[3, 3])]), 16),
        (moved(i32::MIN), 25),
        (moved(0), 18),
        // A delta flag with N 1, where it isn't coded.
        (
            partitioned(&[0, 0], &[0, 0], 0, 1, vec![then(1, slice(0, 0))]),
            26,
        ),
        // The second slice is as high as the first: 2 rows.
        (
            partitioned(&[0, 0, 0], &[0, 0], 0, 2, vec![slice(0, 1), slice(0, 0)]),
            26,
        ),
    ]
}

fn accepted() -> Vec<(VvcPps, Known)> {
    let smallest = parse_pps(&SMALLEST).expect("the smallest set");
    vec![
        (
            smallest,
            Known {
                columns: &[],
                rows: &[],
                slices: &[],
                cover: (0, &[0]),
            },
        ),
        (
            row(10, &[3]),
            Known {
                columns: &[3, 3, 3, 1],
                rows: &[1],
                slices: &[[0, 0, 10, 1]],
                cover: (1, &[0]),
            },
        ),
        (
            partitioned(&[0], &[6], 0, 2, vec![split(&[2, 1])]),
            Known {
                columns: &[1],
                rows: &[7],
                slices: &[[0, 0, 1, 3], [0, 3, 1, 2], [0, 5, 1, 2]],
                cover: (1, &[0]),
            },
        ),
        (
            partitioned(&[0, 0], &[0, 0], 0, 1, vec![slice(0, 0)]),
            Known {
                columns: &[1, 1],
                rows: &[1, 1],
                slices: &[[0, 0, 1, 1], [1, 0, 1, 2]],
                cover: (2, &[2]),
            },
        ),
        (
            partitioned(
                &[0, 0],
                &[0, 0],
                0,
                2,
                vec![then(1, slice(0, 0)), then(-1, slice(0, 1))],
            ),
            Known {
                columns: &[1, 1],
                rows: &[1, 1],
                slices: &[[0, 0, 1, 1], [1, 0, 1, 2], [0, 0, 2, 2]],
                cover: (3, &[0, 1, 3]),
            },
        ),
    ]
}

//! The questions on a record: the tile grid, the slice plan and what the slices cover, of records
//! that are right, changed or damaged, beside a count over blocks or tiles.

mod blocks;
mod cases;
mod change;
mod counted;
mod known;
mod layouts;
mod original;
mod picture;
mod reach;
mod second;
mod shown;
mod tiles;

use crate::by_text::{ANYWHERE, WRITTEN_OR_ASKED, said};
use crate::sets::Set;
use crate::tally::{Area, Tally};
use counted::Counted;
use picture::Picture;
use shown::{Cover, Grid, Plan};

pub const AREA: Area = Area {
    name: "questions",
    weight: 8,
    reach: &reach::REACH,
    texts: &[ANYWHERE, WRITTEN_OR_ASKED],
    exhaustive: cases::exhaustive,
    random: cases::random,
};

/// Pictures of so many blocks are counted block by block, larger ones tile by tile.
const SMALL: u64 = 2000;

/// The number, the three answers, and whether what was lent is as before.
#[derive(Debug, PartialEq)]
struct Answer {
    /// Expected is here the number by the original's text, in the answers that of the second
    /// reading.
    by_text: u8,
    grid: Grid,
    plan: Plan,
    cover: Cover,
    lent_kept: bool,
}

fn compare(set: &Set, tally: &mut Tally) {
    let Set { pps, lent, .. } = set;
    let before = lent.clone();
    let refused = second::refusal(set);
    let written = original::written(set, refused);
    let shared = written.as_ref().map(|answer| tally.texts.number(answer));
    let picture = (refused == 0).then(|| Picture::of(set));
    let counted = picture.as_ref().and_then(count);
    let expected = Answer {
        by_text: shared.unwrap_or(refused),
        grid: Grid::expected(refused, picture.as_ref()),
        plan: Plan::expected(refused, counted.as_ref()),
        cover: Cover::expected(refused, counted.as_ref()),
        lent_kept: true,
    };
    reach::refused(set, refused, shared, tally);
    if let Some(picture) = &picture {
        reach::accepted(set, picture, counted.as_ref(), shared, tally);
    }
    let grid = lent.tile_grid(pps);
    let ours = Answer {
        by_text: grid.refused,
        grid: Grid::new(&grid),
        plan: Plan::new(&lent.slice_plan(pps)),
        cover: Cover::judged(lent.cover(pps), counted.as_ref()),
        lent_kept: *lent == before,
    };
    if refused == 0 {
        original::same_sizes(set, &ours.grid, tally);
    }
    let size = pps.partition.num_rect_slices.min(1000) as usize;
    tally.compare(&ours, &expected, size, || {
        let written = said(written.as_ref());
        format!("ask {set:?}; the Rust: {written}")
    });
}

/// Which blocks lie in which slices, where slices are coded.
fn count(picture: &Picture) -> Option<Counted> {
    let slices = picture.slices.as_ref()?;
    let by_tiles = tiles::count(picture, slices);
    if picture.blocks() > SMALL {
        return Some(by_tiles);
    }
    let by_blocks = blocks::count(picture, slices);
    assert_eq!(by_blocks, by_tiles, "the two counts of {picture:?}");
    Some(by_blocks)
}

//! All choices of slices in small grids, right and wrong.

use super::compare;
use crate::sets::Set;
use crate::sets::laid::{partitioned, slice, split, then};
use crate::tally::Tally;
use original::h266::pps::VvcPpsRectSlice;

/// How many choices are gone through for a grid and a number of slices.
const MOST: usize = 6000;

pub fn all(tally: &mut Tally) {
    for columns in 1..=3 {
        for rows in 1..=3 {
            for row_minus1 in 0..=1 {
                let entries = entries(columns, rows, row_minus1);
                let grid = [vec![1; columns as usize], vec![row_minus1; rows as usize]];
                every_choice(&grid, &entries, tally);
                every_choice(&grid, &moved(&entries, (columns * rows) as i32), tally);
            }
        }
    }
    for row_minus1 in 0..5 {
        let entries: Vec<VvcPpsRectSlice> = every_split().iter().map(|s| split(s)).collect();
        every_choice(&[vec![0], vec![row_minus1]], &entries, tally);
        every_choice(&[vec![0, 2], vec![row_minus1]], &entries, tally);
    }
}

/// Every width and height within the grid.
fn entries(columns: u32, rows: u32, row_minus1: u32) -> Vec<VvcPpsRectSlice> {
    let of_width = |width| {
        (0..rows).map(move |height| match (width, height) {
            (0, 0) if row_minus1 > 0 => split(&[]),
            _ => slice(width, height),
        })
    };
    (0..columns).flat_map(of_width).collect()
}

/// Each entry with every delta within the grid, and 0.
fn moved(entries: &[VvcPpsRectSlice], tiles: i32) -> Vec<VvcPpsRectSlice> {
    let of_entry = |entry: &VvcPpsRectSlice| {
        let entry = entry.clone();
        (1 - tiles..tiles).map(move |delta| then(delta, entry.clone()))
    };
    entries.iter().flat_map(of_entry).collect()
}

/// Up to three heights of up to four CTBs.
fn every_split() -> Vec<Vec<u32>> {
    let mut splits = vec![vec![]];
    for longer in 0..3 {
        let with_one_more = |split: &Vec<u32>| {
            let split = split.clone();
            (0..4).map(move |height| [&split[..], &[height]].concat())
        };
        let last = splits.iter().filter(|split| split.len() == longer);
        let next: Vec<Vec<u32>> = last.flat_map(with_one_more).collect();
        splits.extend(next);
    }
    splits
}

/// Every choice of so many of the entries, for each number of slices up to one more.
fn every_choice(grid: &[Vec<u32>; 2], entries: &[VvcPpsRectSlice], tally: &mut Tally) {
    let (mut count, mut choices) = (0, 1);
    while choices <= MOST && count < 5 {
        for choice in 0..choices {
            let chosen: Vec<VvcPpsRectSlice> = (0..count)
                .scan(choice, |left, _| {
                    let entry = entries[*left % entries.len()].clone();
                    *left /= entries.len();
                    Some(entry)
                })
                .collect();
            for last in slices_with(&chosen) {
                let record = partitioned(&grid[0], &grid[1], 0, last, chosen.clone());
                compare(&Set::least(&record), tally);
            }
        }
        count += 1;
        choices *= entries.len();
    }
}

/// The last slice index: as many as there are entries, or up to the most that their splits make.
fn slices_with(entries: &[VvcPpsRectSlice]) -> std::ops::RangeInclusive<u32> {
    let splits = entries
        .iter()
        .filter_map(|e| e.exp_slice_heights_in_ctus_minus1.as_ref());
    let more = splits.map(|s| s.len() as u32).sum::<u32>();
    let count = entries.len() as u32;
    count.saturating_sub(u32::from(more > 0))..=count + more
}

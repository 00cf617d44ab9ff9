//! Changes to a record and to its tables: past a limit, against the syntax, or of no consequence.

use super::fields;
use super::record::Set;
use super::second::partition;
use crate::ours::Pps;
use crate::random::Random;

/// Changes one field, or one entry of a table.
pub fn change(random: &mut Random, set: &mut Set) {
    let limits = limits(set);
    let Set { pps, triples, lent } = set;
    let any = random.next() as usize;
    let entries = pps.partition.num_rect_slices;
    match random.below(40) {
        0..9 => byte(random, one_of(any, fields::bytes(pps))),
        9..18 => number(random, one_of(any, fields::numbers(pps)), &limits),
        18..22 => signed(random, one_of(any, fields::signed(pps)), &limits),
        22 => signed(random, one_of(any, fields::offsets(triples)), &limits),
        23..26 => extension(random, pps, lent.work.lent()),
        26..29 => {
            let entry = entry(any, lent.entries.lent(), entries);
            let flag = entry.map(|e| one_of(any, vec![&mut e.split_present, &mut e.delta_present]));
            presence(random, flag);
        }
        29..31 => {
            let entry = entry(any, lent.entries.lent(), entries);
            let delta = entry.map(|e| &mut e.pps_tile_idx_delta_val);
            signed(random, delta, &limits);
        }
        31..35 => {
            let place = random.next() as usize;
            let entry = entry(place, lent.entries.lent(), entries);
            let size = entry.map(|e| {
                let sizes = vec![
                    &mut e.pps_slice_width_in_tiles_minus1,
                    &mut e.pps_slice_height_in_tiles_minus1,
                    &mut e.pps_num_exp_slices_in_tile,
                ];
                one_of(any, sizes)
            });
            number(random, size, &limits);
        }
        _ => {
            let part = &pps.partition;
            let tables = vec![
                (&mut lent.subpic_ids, pps.subpic_id_mapping.num_subpic_ids),
                (&mut lent.tile_column_widths, part.num_tile_column_widths),
                (&mut lent.tile_row_heights, part.num_tile_row_heights),
                (&mut lent.split_heights, entries),
            ];
            let (table, used) = one_of(any, tables);
            let place = random.next() as usize;
            number(random, entry(place, table.lent(), used), &limits);
        }
    }
}

fn one_of<T>(any: usize, mut choices: Vec<T>) -> T {
    choices.swap_remove(any % choices.len())
}

/// One of the entries in use, most often of the first few; nothing in an empty table.
fn entry<T>(any: usize, table: &mut [T], used: u32) -> Option<&mut T> {
    let most = if any & 1 << 40 == 0 { 4 } else { usize::MAX };
    let used = (used as usize).clamp(1, most);
    let len = table.len();
    table.get_mut((any >> 8) % used.min(len.max(1)))
}

/// The limits of the fields, and those that follow from the record.
fn limits(set: &Set) -> Vec<u32> {
    let Set { pps, lent, .. } = set;
    let id_len_minus1 = pps.subpic_id_mapping.pps_subpic_id_len_minus1;
    let mut limits = vec![1, 6, 14, 15, 30, 990, 999, 1000, 2 << id_len_minus1.min(15)];
    limits.push(pps.partition.pps_num_slices_in_pic_minus1.into());
    limits.extend(partition::ctbs(pps).into_iter().flatten());
    if let Ok(grid) = partition::grid(pps, lent) {
        limits.extend([grid.columns, grid.rows(), grid.tiles()]);
        limits.extend(grid.row_heights.iter().take(3));
    }
    limits.into_iter().map(|limit| limit as u32).collect()
}

fn byte<'a>(random: &mut Random, place: impl Into<Option<&'a mut u8>>) {
    let Some(value) = place.into() else { return };
    *value = match random.below(4) {
        0 => random.pick(&[0, 1, 2, 3, 15, 16, 63, 64, 128, 255]),
        1 => random.byte(),
        _ => u8::from(*value == 0),
    };
}

/// All but 0 is present, the bits above the lowest byte too.
fn presence<'a>(random: &mut Random, place: impl Into<Option<&'a mut u32>>) {
    let Some(value) = place.into() else { return };
    *value = match random.below(4) {
        0 => random.pick(&[0, 1, 2, 255, 256, 1 << 16, 1 << 31, u32::MAX]),
        1 => random.next() as u32,
        _ => u32::from(*value == 0),
    };
}

fn number<'a>(random: &mut Random, place: impl Into<Option<&'a mut u32>>, limits: &[u32]) {
    let Some(value) = place.into() else { return };
    *value = match random.below(8) {
        0 => value.wrapping_add(1),
        1 => value.wrapping_sub(1),
        2 => u32::MAX - random.below(2) as u32,
        3 => random.value(),
        4 => random.below(3) as u32,
        _ => near(random, limits),
    };
}

fn signed<'a>(random: &mut Random, place: impl Into<Option<&'a mut i32>>, limits: &[u32]) {
    let Some(value) = place.into() else { return };
    *value = match random.below(8) {
        0 => value.wrapping_add(1),
        1 => value.wrapping_neg(),
        2 => i32::MIN + random.below(2) as i32,
        3 => random.value() as i32,
        4 => random.pick(&[-13, -12, 12, 13]),
        5 => 0,
        6 => near(random, limits) as i32,
        _ => (near(random, limits) as i32).wrapping_neg(),
    };
}

/// One of the limits, or its neighbour.
fn near(random: &mut Random, limits: &[u32]) -> u32 {
    let limit = random.pick(limits);
    limit.wrapping_add(random.below(3) as u32).wrapping_sub(1)
}

/// Where the extension bits lie, how many there are, or the last of them.
fn extension(random: &mut Random, pps: &mut Pps, bytes: &mut [u8]) {
    let first = &mut pps.pps_extension_data_first_bit;
    let bits = &mut pps.pps_extension_data_bits;
    let end = bytes.len() * 8;
    match random.below(10) {
        0 => *first = first.wrapping_add(1),
        1 => *first = first.wrapping_sub(1),
        2 => *first = random.place(end),
        3 => *first = usize::MAX - random.below(20),
        4 => *bits = bits.wrapping_add(1),
        5 => *bits = bits.wrapping_sub(1),
        6 => *bits = usize::MAX - random.below(20),
        7 => {
            *bits = (end.wrapping_sub(*first))
                .wrapping_add(random.below(3))
                .wrapping_sub(1)
        }
        8 => *bits = random.place(end),
        _ => {
            let last = first.wrapping_add(*bits).wrapping_sub(1);
            if let Some(byte) = bytes.get_mut(last / 8) {
                *byte ^= 0x80 >> (last % 8);
            }
        }
    }
}

//! Units that follow the syntax (H.266 7.3.2.5), with every part in and out.

use super::put::{Broken, Put, past};
use super::slices;
use super::tiles::{self, Axis};
use crate::random::Random;
use original::nal::rbsp_to_ebsp;

/// The header of a picture parameter set.
pub const HEADER: [u8; 2] = [0x00, 0x81];

pub fn nal(rbsp: &[u8]) -> Vec<u8> {
    [&HEADER[..], &rbsp_to_ebsp(rbsp)].concat()
}

/// One field in `rarity` passes a limit, and noise follows it; with 0 the unit is valid. Now and
/// then the noise starts with zeros, which are no code: they tell whether the limit is tested
/// before the next code is read.
pub fn unit(random: &mut Random, rarity: usize) -> Vec<u8> {
    let mut p = Put::new(random, rarity);
    if set(&mut p).is_err() {
        if p.random.one_in(3) {
            p.bits(0, 32);
            p.bits(0, 32);
        }
        for _ in 0..p.random.below(12) {
            p.any(32);
        }
    }
    nal(&p.finish())
}

fn set(p: &mut Put<'_>) -> Result<(), Broken> {
    p.any(6 + 4 + 1);
    let partitioned = !p.random.one_in(3);
    let log2_ctu_size = 5 + p.random.below(3) as u32;
    let longest = u64::from(u32::MAX - 1).div_ceil(1 << log2_ctu_size);
    let columns = Axis::random(p, 30, longest);
    let rows = Axis::random(p, 990 / columns.sizes.len().min(30), longest);
    for axis in [&columns, &rows] {
        let samples = match partitioned {
            true => axis.samples(p.random, log2_ctu_size),
            false => u64::from(p.random.value().clamp(1, u32::MAX - 1)),
        };
        p.ue_or(samples, [0; 3])?;
    }
    if p.rare_flag(3) {
        (0..4).try_for_each(|_| p.any_ue())?;
    }
    if p.rare_flag(3) {
        (0..4).try_for_each(|_| p.any_se())?;
    }
    p.flag();
    p.bits((!partitioned).into(), 1);
    if p.rare_flag(4) {
        subpic_ids(p, partitioned)?;
    }
    if partitioned {
        partition(p, log2_ctu_size, &columns, &rows)?;
    }
    let weighted = references(p)?;
    let chroma = p.flag();
    if chroma {
        chroma_tool_offsets(p)?;
    }
    if p.flag() {
        deblocking(p, partitioned, chroma)?;
    }
    if partitioned {
        let rpl_info = p.flag();
        p.any(2);
        if weighted && rpl_info {
            p.flag();
        }
        p.flag();
    }
    p.any(2);
    if p.rare_flag(3) {
        extension_bits(p);
    }
    if p.passes() {
        return Err(Broken);
    }
    p.trailing_bits();
    Ok(())
}

fn subpic_ids(p: &mut Put<'_>, partitioned: bool) -> Result<(), Broken> {
    let mut count_minus1 = 0;
    if partitioned {
        let most = p.random.pick(&[0, 9, 9, 998, 999]);
        let any = p.random.below(most + 1);
        count_minus1 = p.random.pick(&[most, any]) as u64;
        p.ue_or(count_minus1, past(999))?;
    }
    let len_minus1 = p.limited(15)?;
    for _ in 0..=count_minus1 {
        p.any(len_minus1 as u32 + 1);
    }
    Ok(())
}

fn partition(
    p: &mut Put<'_>,
    log2_ctu_size: u32,
    columns: &Axis,
    rows: &Axis,
) -> Result<(), Broken> {
    if p.passes() {
        p.bits(3, 2);
        return Err(Broken);
    }
    p.bits(log2_ctu_size - 5, 2);
    tiles::put(p, columns, rows)?;
    slices::put(p, columns, rows)
}

/// The flag of weighted prediction in one of the directions.
fn references(p: &mut Put<'_>) -> Result<bool, Broken> {
    p.flag();
    p.limited(14)?;
    p.limited(14)?;
    p.flag();
    let weighted = p.any(2) != 0;
    if p.flag() {
        p.any_ue()?;
    }
    p.any_se()?;
    p.flag();
    Ok(weighted)
}

fn chroma_tool_offsets(p: &mut Put<'_>) -> Result<(), Broken> {
    p.offset()?;
    p.offset()?;
    let joint = p.flag();
    if joint {
        p.offset()?;
    }
    p.flag();
    if p.flag() {
        let len_minus1 = p.limited(5)?;
        for _ in 0..(len_minus1 + 1) * (2 + u64::from(joint)) {
            p.offset()?;
        }
    }
    Ok(())
}

fn deblocking(p: &mut Put<'_>, partitioned: bool, chroma: bool) -> Result<(), Broken> {
    let override_enabled = p.flag();
    let disabled = p.rare_flag(3);
    if partitioned && override_enabled {
        p.flag();
    }
    if !disabled {
        (0..if chroma { 6 } else { 2 }).try_for_each(|_| p.offset())?;
    }
    Ok(())
}

/// They end in 1. Zeros before it are few, since the original's time grows with their square.
fn extension_bits(p: &mut Put<'_>) {
    let words = match p.random.below(64) {
        0 => p.random.below(500),
        1..24 => p.random.below(6),
        24..32 => return,
        _ => 0,
    };
    for _ in 0..words {
        p.any(32);
    }
    if p.random.one_in(8) {
        for _ in 0..p.random.below(12) {
            p.bits(0, 32);
        }
    }
    let n = p.random.below(33) as u32;
    if n > 0 {
        p.any(n);
    }
    p.bits(1, 1);
}

//! A second reading of the table of refusals (docs/BEHAVIOUR.md): which number a unit gets, how
//! many bytes its set takes and where the extension bits lie. It is neither the library nor the
//! original, and speaks alone of 3 to 5, of 17 for a split count, of the bytes and of the place; of
//! every other number the original's text has to say the same (`by_text`).

mod bits;
pub mod partition;

use bits::Bits;
use original::nal::ebsp_to_rbsp;

/// The longest NAL unit.
pub const LONGEST: usize = 65_535;

pub struct Second {
    pub refused: u8,
    pub rbsp: Vec<u8>,
    pub bytes_taken: usize,
    pub extension_first_bit: usize,
    pub extension_bits: usize,
    pub seen: Seen,
}

/// What else was met on the way.
#[derive(Default)]
pub struct Seen {
    pub columns: usize,
    pub rows: usize,
    /// A split count that is refused with 17 at once.
    pub early_17: u32,
}

/// Reads a unit for which a work buffer of so many bytes is lent, and tables that are long enough
/// or not.
pub fn read(nal: &[u8], work_len: usize, tables_long: bool) -> Second {
    let mut second = Second {
        refused: before_fields(nal, work_len, tables_long),
        rbsp: vec![],
        bytes_taken: 0,
        extension_first_bit: 0,
        extension_bits: 0,
        seen: Seen::default(),
    };
    if second.refused != 0 {
        return second;
    }
    second.rbsp = ebsp_to_rbsp(&nal[2..]);
    let rbsp = second.rbsp.clone();
    let mut bits = Bits::new(&rbsp);
    match set(&mut bits, &mut second) {
        Ok(()) => second.bytes_taken = bits.at() / 8,
        Err(number) => {
            second.refused = number;
            second.extension_first_bit = 0;
            second.extension_bits = 0;
        }
    }
    second
}

fn before_fields(nal: &[u8], work_len: usize, tables_long: bool) -> u8 {
    match nal {
        [] | [_] => 1,
        [_, second, ..] if second >> 3 != 16 => 2,
        _ if nal.len() > LONGEST => 3,
        _ if work_len < nal.len() - 2 => 4,
        _ if !tables_long => 5,
        _ => 0,
    }
}

/// The number, where what must hold does not.
pub fn must(holds: bool, number: u8) -> Result<(), u8> {
    if holds { Ok(()) } else { Err(number) }
}

/// pic_parameter_set_rbsp() (H.266 7.3.2.5).
fn set(b: &mut Bits<'_>, second: &mut Second) -> Result<(), u8> {
    b.u(6 + 4 + 1);
    let (width, height) = (b.ue()?, b.ue()?);
    must(width > 0 && height > 0, 7)?;
    for _window in 0..2 {
        if b.flag() {
            b.codes(4)?;
        }
    }
    b.flag();
    let partitioned = !b.flag();
    if b.flag() {
        let subpics_minus1 = if partitioned { b.ue()? } else { 0 };
        must(subpics_minus1 <= 999, 8)?;
        let len_minus1 = b.ue()?;
        must(len_minus1 <= 15, 8)?;
        for _ in 0..=subpics_minus1 {
            b.u(len_minus1 + 1);
        }
    }
    if partitioned {
        partition::read(b, width, height, &mut second.seen)?;
    }
    rest(b, partitioned)?;
    if b.flag() {
        let (from, ones) = (b.at(), b.ones_left());
        let mut before_last = ones.saturating_sub(1);
        while before_last > 0 {
            before_last -= usize::from(b.flag());
        }
        second.extension_bits = b.at() - from;
        if second.extension_bits > 0 {
            second.extension_first_bit = from;
        }
    }
    must(b.left() > 0, 22)?;
    must(b.flag(), 23)?;
    while !b.at().is_multiple_of(8) {
        must(!b.flag(), 23)?;
    }
    Ok(())
}

/// From pps_cabac_init_present_flag up to the extension flag.
fn rest(b: &mut Bits<'_>, partitioned: bool) -> Result<(), u8> {
    b.flag();
    for _list in 0..2 {
        must(b.ue()? <= 14, 20)?;
    }
    b.flag();
    let weighted = b.u(2) != 0;
    if b.flag() {
        b.ue()?;
    }
    b.ue()?;
    b.flag();
    let chroma = b.flag();
    if chroma {
        chroma_tool_offsets(b)?;
    }
    if b.flag() {
        let (override_enabled, disabled) = (b.flag(), b.flag());
        if partitioned && override_enabled {
            b.flag();
        }
        if !disabled {
            b.offsets(if chroma { 6 } else { 2 })?;
        }
    }
    if partitioned {
        let rpl_info = b.flag();
        b.u(2);
        if weighted && rpl_info {
            b.flag();
        }
        b.flag();
    }
    b.u(2);
    Ok(())
}

fn chroma_tool_offsets(b: &mut Bits<'_>) -> Result<(), u8> {
    b.offsets(2)?;
    let joint = b.flag();
    b.offsets(u32::from(joint))?;
    b.flag();
    if b.flag() {
        let len_minus1 = b.ue()?;
        must(len_minus1 <= 5, 21)?;
        b.offsets((len_minus1 + 1) * (2 + u32::from(joint)))?;
    }
    Ok(())
}

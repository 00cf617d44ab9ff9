//! What reading and writing are lent: the work buffer and the tables, of any lengths, filled before
//! the call, and a few places behind each that nobody may touch.

use crate::escape::GUARD;
use crate::ours::{
    self, ByteCount, CoverAnswer, Given, GridAnswer, PlanAnswer, Pps, PpsRead, QpOffsets,
    RectSlice, Tables,
};
use crate::random::Random;
use std::fmt::{self, Debug};

/// The least lengths of the tables, in the order in which they are lent.
pub const LEAST: [usize; 5] = [1000, 30, 990, 999, 1000];

#[derive(Clone, Copy, Debug, PartialEq)]
pub struct Lengths {
    pub work: usize,
    pub tables: [usize; 5],
}

impl Lengths {
    /// Just long enough for a unit.
    pub fn least(nal: &[u8]) -> Self {
        Lengths {
            work: nal.len().saturating_sub(2),
            tables: LEAST,
        }
    }

    /// Mostly long enough; else short in one place or in many.
    pub fn random(random: &mut Random, nal: &[u8]) -> Self {
        let mut lengths = Lengths::least(nal);
        match random.below(32) {
            0 => lengths.work = random.below(lengths.work + 1),
            1 => {
                let table = random.below(LEAST.len());
                lengths.tables[table] = random.below(LEAST[table]);
            }
            2 => {
                let table = random.below(LEAST.len());
                lengths.tables[table] = LEAST[table] - 1;
            }
            3 => {
                lengths.work = random.below(lengths.work + 2);
                lengths.tables = LEAST.map(|least| random.below(2 * least));
            }
            4..8 => {
                lengths.work += random.below(100);
                lengths.tables = LEAST.map(|least| least + random.below(40));
            }
            _ => {}
        }
        lengths
    }

    pub fn tables_long(&self) -> bool {
        self.tables
            .iter()
            .zip(LEAST)
            .all(|(&len, least)| len >= least)
    }
}

/// A lent slice with the places behind it.
#[derive(Clone, PartialEq)]
pub struct Table<T> {
    places: Vec<T>,
    len: usize,
}

impl<T: Copy> Table<T> {
    fn new(len: usize, filled_with: T) -> Self {
        Table {
            places: vec![filled_with; len + GUARD],
            len,
        }
    }

    pub fn lent(&mut self) -> &mut [T] {
        &mut self.places[..self.len]
    }

    pub fn held(&self) -> &[T] {
        &self.places[..self.len]
    }
}

impl<T: Copy + Default> Table<T> {
    pub fn clear(&mut self) {
        self.lent().fill(T::default());
    }

    /// Puts values at the front. There are at most as many as the least length.
    pub fn put(&mut self, values: impl IntoIterator<Item = T>) {
        let places = self.places[..self.len].iter_mut();
        for (place, value) in places.zip(values) {
            *place = value;
        }
    }
}

impl<T: PartialEq + Debug> Debug for Table<T> {
    fn fmt(&self, f: &mut fmt::Formatter<'_>) -> fmt::Result {
        Runs(&self.places).fmt(f)
    }
}

/// Values of which equal neighbours are printed once, with how many there are.
#[derive(PartialEq)]
pub struct Runs<'a, T>(pub &'a [T]);

impl<T: PartialEq + Debug> Debug for Runs<'_, T> {
    fn fmt(&self, f: &mut fmt::Formatter<'_>) -> fmt::Result {
        let run = |run: &[T]| match run.len() {
            1 => format!("{:?}", run[0]),
            n => format!("{n} × {:?}", run[0]),
        };
        let runs: Vec<String> = self.0.chunk_by(|a, b| a == b).map(run).collect();
        write!(f, "[{}]", runs.join(", "))
    }
}

/// What is written: the RBSP, or the NAL unit.
#[derive(Clone, Copy, Debug)]
pub enum Form {
    Rbsp,
    Nal,
}

/// What the places of the slice entries hold before the call.
const ENTRY: RectSlice = RectSlice {
    pps_slice_width_in_tiles_minus1: 0xA3A3_A3A3,
    pps_slice_height_in_tiles_minus1: 0xA4A4_A4A4,
    split_present: 0xA5A5_A5A5,
    pps_num_exp_slices_in_tile: 0xA6A6_A6A6,
    delta_present: 0xA7A7_A7A7,
    pps_tile_idx_delta_val: -0x1234_5678,
};

#[derive(Clone, Debug, PartialEq)]
pub struct Lent {
    pub work: Table<u8>,
    pub subpic_ids: Table<u32>,
    pub tile_column_widths: Table<u32>,
    pub tile_row_heights: Table<u32>,
    pub entries: Table<RectSlice>,
    pub split_heights: Table<u32>,
}

impl Lent {
    pub fn new(lengths: &Lengths) -> Self {
        let t = &lengths.tables;
        Lent {
            work: Table::new(lengths.work, 0xA5),
            subpic_ids: Table::new(t[0], 0xA0A0_A0A0),
            tile_column_widths: Table::new(t[1], 0xA1A1_A1A1),
            tile_row_heights: Table::new(t[2], 0xA2A2_A2A2),
            entries: Table::new(t[3], ENTRY),
            split_heights: Table::new(t[4], 0xA9A9_A9A9),
        }
    }

    pub fn lengths(&self) -> Lengths {
        Lengths {
            work: self.work.len,
            tables: [
                self.subpic_ids.len,
                self.tile_column_widths.len,
                self.tile_row_heights.len,
                self.entries.len,
                self.split_heights.len,
            ],
        }
    }

    pub fn parse_pps(&mut self, nal: &[u8]) -> PpsRead {
        let tables = Tables {
            subpic_ids: self.subpic_ids.lent(),
            tile_column_widths: self.tile_column_widths.lent(),
            tile_row_heights: self.tile_row_heights.lent(),
            entries: self.entries.lent(),
            split_heights: self.split_heights.lent(),
        };
        ours::parse_pps(nal, self.work.lent(), tables)
    }

    fn given(&self) -> Given<'_> {
        Given {
            subpic_ids: self.subpic_ids.held(),
            tile_column_widths: self.tile_column_widths.held(),
            tile_row_heights: self.tile_row_heights.held(),
            entries: self.entries.held(),
            split_heights: self.split_heights.held(),
            extension: self.work.held(),
        }
    }

    /// Writes a record with these tables, its extension bits out of the work buffer.
    pub fn write_pps(
        &self,
        pps: &Pps,
        triples: &[QpOffsets; 6],
        form: Form,
        out: &mut [u8],
    ) -> ByteCount {
        let given = self.given();
        match form {
            Form::Rbsp => ours::write_pps(pps, triples, &given, out),
            Form::Nal => ours::write_pps_nal(pps, triples, &given, out),
        }
    }

    pub fn tile_grid(&self, pps: &Pps) -> GridAnswer {
        ours::tile_grid(pps, &self.given())
    }

    pub fn slice_plan(&self, pps: &Pps) -> PlanAnswer {
        ours::slice_plan(pps, &self.given())
    }

    pub fn cover(&self, pps: &Pps) -> CoverAnswer {
        ours::cover(pps, &self.given())
    }

    pub fn clear_tables(&mut self) {
        self.subpic_ids.clear();
        self.tile_column_widths.clear();
        self.tile_row_heights.clear();
        self.entries.clear();
        self.split_heights.clear();
    }
}

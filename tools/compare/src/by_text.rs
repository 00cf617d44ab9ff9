//! The number of a refusal by the text of the original's error. So our numbers, and with them the
//! order of the tests, are compared with the source itself, wherever it has an answer: a second
//! reading of docs/BEHAVIOUR.md may be wrong where the library is.

mod tables;

use original::BitstreamError;
pub use tables::{ANYWHERE, READ, READ_OR_WRITTEN, WRITTEN, WRITTEN_OR_ASKED};

/// The words with which one text of the original starts and no other, and its number.
pub type Text = (&'static str, u8);

/// The texts of an area, and how often each was met.
#[derive(Default)]
pub struct Texts {
    rows: Vec<Text>,
    met: Vec<u64>,
}

impl Texts {
    pub fn new(tables: &[&[Text]]) -> Self {
        let rows = tables.concat();
        Texts {
            met: vec![0; rows.len()],
            rows,
        }
    }

    /// 0 where the original accepts.
    pub fn number<T>(&mut self, answer: &Result<T, BitstreamError>) -> u8 {
        answer.as_ref().err().map_or(0, |error| self.refusal(error))
    }

    /// An error that isn't exactly one row's is a fault of the tables, and ends the run.
    fn refusal(&mut self, error: &BitstreamError) -> u8 {
        let is_of = |&i: &usize| is_row(error, self.rows[i]);
        let found: Vec<usize> = (0..self.rows.len()).filter(is_of).collect();
        let [row] = found[..] else {
            let rows: Vec<Text> = found.iter().map(|&i| self.rows[i]).collect();
            panic!("{error:?} has to be in one row of by_text, and is in {rows:?}");
        };
        self.met[row] += 1;
        self.rows[row].1
    }

    pub fn all_met(&self) -> bool {
        !self.met.contains(&0)
    }

    pub fn print(&self) {
        let Some(rarest) = self.met.iter().min() else {
            return;
        };
        let texts = self.rows.len();
        println!("  {texts} error texts of the Rust, each met at least {rarest} times");
        for ((words, number), _) in self.rows.iter().zip(&self.met).filter(|&(_, &n)| n == 0) {
            println!("  NEVER MET: {number} for {words:?}");
        }
    }
}

/// What the original says, to be printed with a difference.
pub fn said<T>(answer: Option<&Result<T, BitstreamError>>) -> String {
    match answer {
        Some(Ok(_)) => "accepted".to_string(),
        Some(Err(error)) => error.to_string(),
        None => "not asked".to_string(),
    }
}

fn is_row(error: &BitstreamError, (words, number): Text) -> bool {
    // The numbers of each class, as the table of refusals says.
    let (text, in_class) = match error {
        BitstreamError::UnexpectedEnd(text) => (text, matches!(number, 1 | 22)),
        BitstreamError::InvalidData(text) => (text, matches!(number, 2 | 6..=21 | 23..=28)),
        BitstreamError::Unsupported(text) => (text, false),
    };
    in_class && text.starts_with(words)
}

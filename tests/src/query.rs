//! The four queries, asked of the library and of the model.
use crate::refusal::{Answer, Refusal};
use crate::{image, layout, model, record};
use Query::*;
use Refusal::*;

/// A query with its argument.
#[derive(Clone, Copy, Debug)]
pub enum Query {
    /// how many counters a capacity needs
    CountersNeeded(u64),
    /// how many bytes the record of a row of this length has
    RecordSize(u64),
    /// the length of this label's row
    RowLength(u64),
    /// the label of this row, counted from 0 in chain order
    RowLabel(u64),
}

/// All queries, of 0, each at its index.
pub const QUERIES: [Query; 4] = [CountersNeeded(0), RecordSize(0), RowLength(0), RowLabel(0)];

impl Query {
    pub fn index(self) -> usize {
        match self {
            CountersNeeded(_) => 0,
            RecordSize(_) => 1,
            RowLength(_) => 2,
            RowLabel(_) => 3,
        }
    }

    pub fn name(self) -> &'static str {
        ["counters needed", "record size", "row length", "row label"][self.index()]
    }

    /// The refusals that it can meet, in the order of their numbers, which is that in which they are judged.
    pub fn refusals(self) -> &'static [Refusal] {
        match self {
            CountersNeeded(_) => &[BadHandle],
            RecordSize(_) => &[Position],
            RowLength(_) => &[Unsound, BadLabel, LabelAbsent],
            RowLabel(_) => &[Unsound, LabelAbsent],
        }
    }

    /// What the library answers, lent this image where it takes one.
    pub fn told(self, image: &[u8]) -> Answer {
        match self {
            CountersNeeded(capacity) => record::counters_needed(capacity),
            RecordSize(length) => image::record_size(length),
            RowLength(label) => image::row_length(image, label),
            RowLabel(k) => image::row_label(image, k),
        }
    }

    /// What it owes.
    pub fn owed(self, image: &[u8]) -> Answer {
        match self {
            CountersNeeded(capacity) => model::counters_needed(capacity),
            RecordSize(length) => layout::record_size(length),
            RowLength(label) => layout::row_length(image, label),
            RowLabel(k) => layout::row_label(image, k),
        }
    }

    /// Asks the library, and asserts that it answers what it owes.
    pub fn compare(self, image: &[u8]) -> Answer {
        let told = self.told(image);
        assert_eq!(told, self.owed(image), "{self:?}, {} bytes", image.len());
        told
    }
}

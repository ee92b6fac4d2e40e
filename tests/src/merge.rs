//! The merge of two images by the documents' definition, over lists of rows.
use crate::layout::{self, Row};
use crate::paper::Frozen;
use crate::refusal::{Answer, Refusal};
use Refusal::{Conflict, NoRoom, Unsound, WrongRow};

/// The refusals that a merge can meet, in the order of their numbers.
pub const REFUSALS: [Refusal; 4] = [Unsound, NoRoom, WrongRow, Conflict];

/// The rows of an image that passes inspection, in chain order: 10, 15.
fn rows(image: &[u8]) -> Result<Vec<Frozen>, Refusal> {
    let places = layout::chain(image).ok_or(Unsound)?;
    let mut list = Vec::new();
    for at in places {
        let row = Row::new(layout::part(image, at));
        WrongRow.when(!row.right)?;
        list.push((layout::number(image, at + 4), row.bits));
    }
    Ok(list)
}

/// The first's rows in their order, then those of the second whose label the first lacks, in theirs: 18.
fn joined(first: Vec<Frozen>, second: Vec<Frozen>) -> Result<Vec<Frozen>, Refusal> {
    let mut list = first.clone();
    for (label, bits) in second {
        match first.iter().find(|row| row.0 == label) {
            Some(row) => Conflict.when(row.1 != bits)?,
            None => list.push((label, bits)),
        }
    }
    Ok(list)
}

/// What a merge owes: 10 and 15 of the first image, 10 and 15 of the second, 18, 13, or the number of rows. Leaves the third
/// buffer as it is to be.
pub fn owed(first: &[u8], second: &[u8], third: &mut [u8]) -> Answer {
    let list = joined(rows(first)?, rows(second)?)?;
    let number = list.len() as u64;
    let without_gaps: Vec<_> = list.into_iter().map(|(label, bits)| (0, label, bits)).collect();
    let result = layout::image(&without_gaps, 0);
    layout::check_size(third.len())?;
    NoRoom.when(result.len() > third.len())?;
    third[..result.len()].copy_from_slice(&result);
    Ok(number)
}

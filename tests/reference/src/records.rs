//! The row finder for callers with no table: edges as records of four unbounded numbers.

use crate::loops::lowest_on_loop;
use crate::refusal::Refusal;
use crate::rows::find_rows;
use crate::table::{Edge, LIMITS};

pub type Record = [usize; 4];

pub fn rows_of_records(steps: usize, records: &[Record]) -> Result<Vec<usize>, Refusal> {
    if steps > LIMITS.steps as usize {
        return Err(Refusal::TooManySteps);
    }
    if records.len() > LIMITS.edges as usize {
        return Err(Refusal::TooManyEdges);
    }
    let mut edges = Vec::new();
    for record in records {
        edges.push(judge_record(steps, record)?);
    }
    rows_of_edges(steps, &edges)
}

/// Ends come before the range of gap and weight.
fn judge_record(steps: usize, &[from, to, gap, weight]: &Record) -> Result<Edge, Refusal> {
    if from >= steps || to >= steps || from == to {
        return Err(Refusal::BadEnd);
    }
    let in_range = |value: usize, range: &std::ops::RangeInclusive<u32>| {
        u32::try_from(value).ok().filter(|value| range.contains(value)).ok_or(Refusal::OutOfRange)
    };
    let gap = in_range(gap, &LIMITS.gap)?;
    let weight = in_range(weight, &LIMITS.weight)?;
    Ok(Edge { from, to, gap, weight })
}

/// Judges loops, then finds the rows.
pub fn rows_of_edges(steps: usize, edges: &[Edge]) -> Result<Vec<usize>, Refusal> {
    match lowest_on_loop(steps, edges) {
        Some(step) => Err(Refusal::Loop(step)),
        None => Ok(find_rows(steps, edges)),
    }
}

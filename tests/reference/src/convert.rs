//! What the program `convert` hands out.

use crate::program::judged_bytes;
use crate::refusal::Refusal;
use crate::shortest::{said, shortest};
use crate::table::read_stored;

/// The shortest form of a stored table, or the line of the reader's refusal.
pub fn convert_table(input: &[u8]) -> Vec<u8> {
    let bytes = judged_bytes(input);
    read_stored(bytes).map_or_else(Refusal::line, |table| shortest(&said(bytes, &table)))
}

//! What the program `records` reads and prints: words of 8 bytes, low byte first; the step count, how many entries of a
//! buffer to lend, then four words a record.

use crate::calls::hand_out_rows;
use crate::records::{rows_of_records, Record};
use crate::refusal::Refusal;
use crate::table::LIMITS;

const WORD: usize = 8;
const FIELDS: usize = 4;
/// Words before the records.
const HEAD: usize = 2;
/// Records beyond these are not read: the list is refused anyway.
pub const MAX_RECORDS: usize = LIMITS.edges as usize + 8;
pub const MAX_ENTRIES: usize = 255;

pub fn write_words(steps: usize, entries: usize, records: &[Record]) -> Vec<u8> {
    let words = [steps, entries].into_iter().chain(records.iter().flatten().copied());
    words.flat_map(|word| (word as u64).to_le_bytes()).collect()
}

/// The step count, the entries asked for and the whole records; a word that is not there is 0.
pub fn read_words(input: &[u8]) -> (usize, usize, Vec<Record>) {
    let words: Vec<usize> =
        input.chunks_exact(WORD).map(|word| u64::from_le_bytes(word.try_into().unwrap()) as usize).collect();
    let head = |at: usize| words.get(at).copied().unwrap_or(0);
    let numbers = words.get(HEAD..).unwrap_or(&[]);
    let records = numbers.chunks_exact(FIELDS).take(MAX_RECORDS).map(|record| record.try_into().unwrap());
    (head(0), head(1), records.collect())
}

pub fn print_words(input: &[u8]) -> Vec<u8> {
    let (steps, entries, records) = read_words(input);
    print_rows(&rows_of_records(steps, &records), entries)
}

/// The line for rows handed out in a buffer of so many entries.
pub fn print_rows(rows: &Result<Vec<usize>, Refusal>, entries: usize) -> Vec<u8> {
    let mut buffer = vec![0; entries.min(MAX_ENTRIES)];
    match hand_out_rows(rows, &mut buffer) {
        Err(refusal) => refusal.line(),
        Ok(_) => {
            let used = rows.as_ref().map_or(0, Vec::len);
            let fields: String = buffer[..used].iter().map(|row| format!(" {row}")).collect();
            format!("rows{fields}\n").into_bytes()
        }
    }
}

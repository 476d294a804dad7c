//! The program `records` of the stand-in, with its wrong variants.

use host::fault::on;
use reference::program::run;
use reference::records::{rows_of_records, Record};
use reference::table::{LIMITS, OLD_LIMITS};
use reference::words::{print_rows, read_words, MAX_ENTRIES, MAX_RECORDS};

/// Bytes of a word, and of the two words before the records.
const WORD: usize = 8;
const HEAD: usize = 16;

fn main() {
    run(spoil);
}

fn spoil(mut input: Vec<u8>) -> Vec<u8> {
    if on("lent-head-wanted") && input.len() < HEAD {
        return Vec::new();
    }
    if on("lent-part-taken") {
        let part = (input.len().max(HEAD) - HEAD) % (4 * WORD);
        input.resize(input.len() + if part > 0 { 4 * WORD - part } else { 0 }, 0);
    }
    for word in input.chunks_exact_mut(WORD) {
        if on("lent-32-bits") {
            word[4..].fill(0);
        }
        if on("lent-high-byte-first") {
            word.reverse();
        }
    }
    let (steps, entries, records) = read_words(&input);
    spoil_line(steps, entries, records)
}

fn spoil_line(steps: usize, mut entries: usize, mut records: Vec<Record>) -> Vec<u8> {
    if on("lent-entries-unread") {
        entries = MAX_ENTRIES;
    }
    if on("lent-last-dropped") {
        records.pop();
    }
    if on("lent-limit-read") {
        records.truncate(LIMITS.edges as usize);
    }
    if on("lent-old-records") {
        records.truncate(MAX_RECORDS - LIMITS.edges as usize + OLD_LIMITS.edges as usize);
    }
    let mut rows = rows_of_records(steps, &records);
    if on("lent-row-byte") {
        rows = rows.map(|rows| rows.iter().map(|row| row & 0xff).collect());
    }
    let line = print_rows(&rows, entries);
    if on("lent-no-loop-step") && line.starts_with(b"refused 11") {
        return b"refused 11\n".to_vec();
    }
    if on("lent-all-entries") && line.starts_with(b"rows") {
        let rest = " 0".repeat(entries.min(MAX_ENTRIES) - steps);
        return [&line[..line.len() - 1], rest.as_bytes(), b"\n"].concat();
    }
    line
}

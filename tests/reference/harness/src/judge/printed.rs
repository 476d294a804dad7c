//! Puts an input to the programs and compares what they hand out.

use reference::convert::convert_table;
use reference::listing::print_chart;
use reference::program::refusal_of;
use reference::records::Record;
use reference::refusal::Refusal;
use reference::words::{print_rows, print_words, write_words, MAX_ENTRIES};

use super::{hex, Judge};
use crate::host::{CHART, CONVERT, RECORDS};
use crate::program::Program;
use crate::watch;

/// Bytes that make no record, at most.
const PART: usize = 32;

impl Judge {
    /// One table in so many goes to the program `chart` too.
    pub(super) fn sample_listing(&mut self, bytes: &[u8]) {
        self.tables += 1;
        if samples(&self.programs.chart, self.tables) {
            self.compare_listing(bytes);
        }
    }

    /// Puts a table to the program `chart`, if there is one.
    pub fn compare_listing(&mut self, bytes: &[u8]) {
        if self.programs.chart.is_some() {
            self.compare_output(CHART, bytes, &print_chart(bytes));
        }
    }

    /// One table in so many goes to the program `convert` too.
    pub(super) fn sample_conversion(&mut self, bytes: &[u8]) {
        self.stored += 1;
        if samples(&self.programs.convert, self.stored) {
            self.compare_conversion(bytes);
        }
    }

    /// Puts a table to the program `convert`, if there is one.
    pub fn compare_conversion(&mut self, bytes: &[u8]) {
        self.compare_output(CONVERT, bytes, &convert_table(bytes));
    }

    /// Whether the record list at hand goes to the program `records` too: one in so many does.
    pub(super) fn samples_list(&mut self) -> bool {
        self.lists += 1;
        samples(&self.programs.records, self.lists)
    }

    /// Puts a record list to the program `records`, with part of a record behind it. Buffers are exact, one short (for no
    /// step the largest number), one longer, and longer than can be lent.
    pub(super) fn compare_lists(&mut self, steps: usize, records: &[Record], rows: &Result<Vec<usize>, Refusal>) {
        let needed = rows.as_ref().map_or(0, Vec::len);
        for entries in [needed, needed.wrapping_sub(1), needed + 1, MAX_ENTRIES + 1] {
            let mut input = write_words(steps, entries, records);
            input.resize(input.len() + self.lists as usize % PART, 0xff);
            self.compare_output(RECORDS, &input, &print_rows(rows, entries));
        }
    }

    /// Puts an input that ends anywhere to the program `records`, if there is one.
    pub fn compare_cut_words(&mut self, input: &[u8]) {
        self.compare_output(RECORDS, input, &print_words(input));
    }

    /// Puts an input to the program of a call, if there is one.
    fn compare_output(&mut self, call: usize, input: &[u8], expected: &[u8]) {
        let program = match call {
            CHART => &self.programs.chart,
            RECORDS => &self.programs.records,
            _ => &self.programs.convert,
        };
        let Some(program) = program else { return };
        let (fault, _) = watch::timed(call, || program.compare(input, expected));
        self.tally.note_output(call, refusal_of(expected));
        self.settle(call, fault, || format!("the program, input {}", hex(input)));
    }
}

/// Whether the input of this number is put to the program.
fn samples(program: &Option<Program>, number: u64) -> bool {
    program.as_ref().is_some_and(|program| number % program.every == 0)
}

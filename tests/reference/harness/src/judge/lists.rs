//! Puts a list of records to the record form.

use reference::calls::{hand_out_rows, pack};
use reference::records::{rows_of_records, Record};
use reference::refusal::Refusal;

use super::{answer_fault, buffer_fault, entries_fault, Judge};
use crate::host::{self, RECORDS};
use crate::watch;

impl Judge {
    /// With buffers exact and one other choice.
    pub fn judge_records(&mut self, steps: usize, records: &[Record]) {
        let printed = self.samples_list();
        if !self.wanted[RECORDS] && !printed {
            return;
        }
        let rows = rows_of_records(steps, records);
        if self.wanted[RECORDS] {
            let needed = rows.as_ref().map_or(0, Vec::len);
            for len in [needed, self.other_len(needed, rows.is_err())] {
                self.compare_records(steps, records, &rows, len);
            }
        }
        if printed {
            self.compare_lists(steps, records, &rows);
        }
    }

    fn compare_records(&mut self, steps: usize, records: &[Record], rows: &Result<Vec<usize>, Refusal>, len: usize) {
        let filling = self.filled_entries(len);
        let mut due = filling.clone();
        let expected = pack(hand_out_rows(rows, &mut due));
        let numbers: Vec<u8> = records.iter().flatten().flat_map(|number| number.to_ne_bytes()).collect();
        let flush = self.random.one_in(2);
        let lent_numbers = (self.numbers.place(&numbers, flush, 8) as *const usize, records.len() * 4);
        let lent_rows = self.rows.place_entries(&filling, flush);
        let (answer, took) = watch::timed(RECORDS, || host::records(steps, lent_numbers, lent_rows));
        self.tally.note_call(RECORDS, expected, took, self.place);
        let fault = buffer_fault("records", &mut self.numbers, &numbers)
            .or_else(|| answer_fault(expected, answer))
            .or_else(|| entries_fault("rows", &mut self.rows, &due));
        self.settle(RECORDS, fault, || format!("steps {steps}, buffer {len}, records {records:?}"));
    }
}

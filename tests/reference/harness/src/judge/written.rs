//! Puts a table to the calls that write its shortest form, and reads again what was written.

use reference::bounds::LONGEST_STORED;
use reference::calls::{hand_out_bytes, pack};
use reference::points::MAX_POINTS;
use reference::refusal::Refusal;
use reference::shortest::{said, shortest, Said};
use reference::table::{read_stored, read_table, Table};

use super::{answer_fault, buffer_fault, hex, Judge};
use crate::host::{self, CALLS, CHART, CONVERT, COUNTS, NAME, RECORDS, ROWS, ROW_ORDER, STROKE_AT, WRITE, XS};
use crate::shapes::STEPS;
use crate::watch;

/// The longest buffer that is lent, longer than any table that is accepted by either rule.
const MOST: usize = LONGEST_STORED + 500;

type Read = fn(&[u8]) -> Result<Table, Refusal>;

/// The calls that write, each with the reader of its rule.
const WRITERS: [(usize, Read); 2] = [(WRITE, read_table), (CONVERT, read_stored)];

/// What is due: what the table says, and its shortest form.
type Due = Result<(Said, Vec<u8>), Refusal>;

impl Judge {
    /// The calls that write, with buffers exact and one other choice.
    pub fn judge_written(&mut self, bytes: &[u8]) {
        for (call, read) in self.wanted_writers() {
            let due = due_of(bytes, read);
            let needed = needed_by(&due);
            if due.is_ok() {
                self.tally.note_written(call, bytes.len(), needed);
            }
            for len in [needed, self.other_room(needed, bytes.len())] {
                self.compare_written(call, bytes, &due, len);
            }
        }
        self.sample_conversion(bytes);
    }

    /// With every one of these buffer lengths, as differences from what is needed; and one as long as the table.
    pub fn judge_written_buffers(&mut self, bytes: &[u8], offsets: &[isize]) {
        for (call, read) in self.wanted_writers() {
            let due = due_of(bytes, read);
            let needed = needed_by(&due);
            for len in offsets.iter().map(|&more| needed.saturating_add_signed(more)).chain([bytes.len()]) {
                self.compare_written(call, bytes, &due, len.min(MOST));
            }
        }
    }

    fn wanted_writers(&self) -> Vec<(usize, Read)> {
        WRITERS.into_iter().filter(|&(call, _)| self.wanted[call]).collect()
    }

    /// Some other length, for the most part one that is just too short or just long enough.
    fn other_room(&mut self, needed: usize, table_len: usize) -> usize {
        let any = self.random.below(300);
        let one_short = needed.saturating_sub(1);
        let near = [one_short, one_short, one_short, needed + 1, needed + 1];
        let others = [table_len, table_len, 0, 1, any, needed + 1000];
        self.random.pick(&[&near[..], &others].concat()).min(MOST)
    }

    fn compare_written(&mut self, call: usize, bytes: &[u8], due: &Due, len: usize) {
        let filling = self.filling(len);
        let mut content = filling.clone();
        let due_bytes = due.as_ref().map(|(_, written)| written).map_err(|&refusal| refusal);
        let expected = pack(due_bytes.and_then(|written| hand_out_bytes(written, &mut content)));
        let flush = self.random.one_in(2);
        let table = (self.table.place(bytes, flush, 1) as *const u8, bytes.len());
        let out = (self.written.place(&filling, flush, 1), len);
        let (answer, took) = watch::timed(call, || write_by(call, table, out));
        self.tally.note_call(call, expected, took, self.place);
        let fault = self
            .input_fault(bytes)
            .or_else(|| said_fault(bytes, due, answer, self.written.content()))
            .or_else(|| answer_fault(expected, answer))
            .or_else(|| buffer_fault("written", &mut self.written, &content))
            .or_else(|| self.again_fault(call, bytes, answer));
        self.settle(call, fault, || format!("buffer {len}, table {}", hex(bytes)));
    }

    /// Whatever the reference would say: what was converted, if it was another table before, is taken by every call and
    /// written as it is. Asked once for each table, where the buffer is exact.
    fn again_fault(&mut self, call: usize, bytes: &[u8], answer: u64) -> Option<String> {
        let converted = self.written.content().to_vec();
        let exact = answer == (converted.len() as u64) << 8;
        if call != CONVERT || !exact || converted == bytes {
            return None;
        }
        let calls = (0..CALLS.len()).filter(|&call| self.wanted[call] && call != RECORDS);
        calls.map(|call| (call, call_again(call, &converted))).find_map(|(call, (refusal, written))| {
            let (call, other) = (CALLS[call], written != converted);
            match refusal {
                1..=10 | 15 => Some(format!("what was converted is refused by {refusal} in {call}")),
                _ => other.then(|| format!("what was converted is written otherwise by {call}")),
            }
        })
    }
}

/// A call on a table with buffers that are long enough: its refusal, and what it wrote. Of a call that gives no table, the
/// table stands for that.
fn call_again(call: usize, bytes: &[u8]) -> (u64, Vec<u8>) {
    let table = (bytes.as_ptr(), bytes.len());
    let (mut rows, mut order) = ([0; STEPS], [0; MAX_POINTS]);
    let (rows, order) = ((rows.as_mut_ptr(), STEPS), (order.as_mut_ptr(), MAX_POINTS));
    let writes = call == WRITE || call == CONVERT;
    let mut written = if writes { vec![0; bytes.len()] } else { bytes.to_vec() };
    let out = (written.as_mut_ptr(), written.len());
    let (answer, _) = watch::timed(call, || match call {
        COUNTS => host::counts(table),
        NAME => host::name(table, 0),
        ROWS => host::rows(table, rows),
        CHART => host::chart(table, rows, order),
        XS => host::xs(table, order),
        STROKE_AT => host::stroke_at(table, 0).answer,
        ROW_ORDER => host::row_order(table, 1, 1, order),
        _ => write_by(call, table, out),
    });
    (answer & 0xff, written)
}

fn write_by(call: usize, table: host::Bytes, out: host::BytesMut) -> u64 {
    if call == WRITE {
        host::write(table, out)
    } else {
        host::convert(table, out)
    }
}

fn due_of(bytes: &[u8], read: Read) -> Due {
    let said = said(bytes, &read(bytes)?);
    let written = shortest(&said);
    Ok((said, written))
}

fn needed_by(due: &Due) -> usize {
    due.as_ref().map_or(0, |(_, written)| written.len())
}

/// Whatever the reference would write: what was written reads as the same steps and edges, and is no longer than the table.
fn said_fault(bytes: &[u8], due: &Due, answer: u64, out: &[u8]) -> Option<String> {
    let count = (answer >> 8) as usize;
    let (Ok((due, _)), 0) = (due, answer & 0xff) else { return None };
    let Some(written) = out.get(..count) else { return Some(format!("{count} bytes told of {}", out.len())) };
    match read_table(written) {
        Err(refusal) => Some(format!("what was written is refused by {}", refusal.number())),
        Ok(table) if said(written, &table) != *due => Some("what was written says something else".into()),
        Ok(_) => (count > bytes.len()).then(|| format!("{count} bytes for a table of {}", bytes.len())),
    }
}

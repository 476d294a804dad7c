//! Rows that a host kept as bytes, of tables within the limits up to version 1.3.

use reference::bounds::highest_row;
use reference::points::MAX_POINTS;
use reference::records::Record;
use reference::rows::find_rows;
use reference::soft::settle;
use reference::table::{read_within, OLD_LIMITS};

use super::{hex, Judge};
use crate::drafts::records_of;
use crate::host::{self, CHART, RECORDS, ROWS};
use crate::watch;

const HIGHEST: usize = highest_row(&OLD_LIMITS);

impl Judge {
    /// Each call that hands out rows hands out the bytes that were kept, and none above the highest row there was. The
    /// edges as kept or turned are the records.
    pub fn judge_kept(&mut self, bytes: &[u8]) {
        let table = read_within(bytes, &OLD_LIMITS).expect("a table within the old limits");
        let Ok(settled) = settle(table.steps.len(), &table.edges) else { return };
        let rows = find_rows(table.steps.len(), &settled.edges);
        let kept: Vec<u8> = rows.iter().map(|&row| row as u8).collect();
        let records = records_of(&settled.edges);
        let wanted = self.wanted;
        for call in [ROWS, RECORDS, CHART].into_iter().filter(|&call| wanted[call]) {
            let handed_out = hand_out(call, bytes, &records, kept.len());
            let fault = handed_out.and_then(|rows| kept_fault(&rows, &kept));
            self.settle(call, fault, || format!("table {}", hex(bytes)));
        }
    }
}

/// The rows that a call hands out, unless it refuses, with buffers that are long enough.
fn hand_out(call: usize, bytes: &[u8], records: &[Record], steps: usize) -> Option<Vec<u16>> {
    let (mut rows, mut order) = (vec![u16::MAX; steps], [0; MAX_POINTS]);
    let table = (bytes.as_ptr(), bytes.len());
    let numbers = (records.as_ptr() as *const usize, records.as_flattened().len());
    let (lent, order) = ((rows.as_mut_ptr(), steps), (order.as_mut_ptr(), MAX_POINTS));
    let (answer, _) = watch::timed(call, || match call {
        ROWS => host::rows(table, lent),
        RECORDS => host::records(steps, numbers, lent),
        _ => host::chart(table, lent, order),
    });
    (answer & 0xff == 0).then_some(rows)
}

fn kept_fault(rows: &[u16], kept: &[u8]) -> Option<String> {
    let right = |(&row, &byte): (&u16, &u8)| row == u16::from(byte) && usize::from(row) <= HIGHEST;
    let step = rows.iter().zip(kept).position(|pair| !right(pair))?;
    Some(format!("row {} of step {step} was kept as byte {}", rows[step], kept[step]))
}

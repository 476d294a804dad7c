//! Puts a table to the call for x.

use reference::calls::{hand_out_xs, pack};
use reference::chart::Chart;
use reference::refusal::Refusal;
use reference::xs::find_xs;

use super::{answer_fault, entries_fault, hex, Judge};
use crate::host::{self, XS};
use crate::watch;

pub(super) type Xs = Result<Vec<usize>, Refusal>;

impl Judge {
    /// With buffers exact and one other choice.
    pub(super) fn judge_xs(&mut self, bytes: &[u8], chart: &Result<Chart, Refusal>, xs: &Xs) {
        if let Ok(chart) = chart {
            self.tally.note_xs(chart, xs);
        }
        let needed = xs.as_ref().map_or(0, Vec::len);
        for len in [needed, self.other_len(needed, xs.is_err())] {
            self.compare_xs(bytes, xs, len);
        }
    }

    /// With every one of these buffer lengths, as differences from what is needed. Of a chart that is too large, from what would
    /// be needed if it were not: a buffer is looked at last.
    pub(super) fn judge_xs_buffers(&mut self, bytes: &[u8], chart: &Result<Chart, Refusal>, offsets: &[isize]) {
        let xs = xs_of(chart);
        let needed = chart.as_ref().map_or(0, Chart::point_count);
        for &more in offsets {
            self.compare_xs(bytes, &xs, needed.saturating_add_signed(more));
        }
    }

    fn compare_xs(&mut self, bytes: &[u8], xs: &Xs, len: usize) {
        let filling = self.filled_entries(len);
        let mut due = filling.clone();
        let expected = pack(hand_out_xs(xs, &mut due));
        let flush = self.random.one_in(2);
        let table = (self.table.place(bytes, flush, 1) as *const u8, bytes.len());
        let lent = self.order.place_entries(&filling, flush);
        let (answer, took) = watch::timed(XS, || host::xs(table, lent));
        self.tally.note_call(XS, expected, took, self.place);
        let fault = self
            .input_fault(bytes)
            .or_else(|| answer_fault(expected, answer))
            .or_else(|| entries_fault("x", &mut self.order, &due));
        self.settle(XS, fault, || format!("buffer {len}, table {}", hex(bytes)));
    }
}

pub(super) fn xs_of(chart: &Result<Chart, Refusal>) -> Xs {
    chart.as_ref().map_err(|&refusal| refusal).and_then(find_xs)
}

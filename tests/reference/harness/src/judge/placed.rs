//! Puts a table to the calls for rows and for the whole chart, and the chart to those that have more to say of it.

use reference::calls::{hand_out_chart, hand_out_rows, pack};
use reference::chart::{draw_chart, draw_placed, Chart};
use reference::refusal::Refusal;
use reference::soft::{place_table, Placed};
use reference::table::read_table;

use super::xs::xs_of;
use super::Judge;
use crate::host::{CHART, ROWS, ROW_ORDER, STROKE_AT, XS};

impl Judge {
    /// The calls on a whole chart and the program alone, for tables that are new in the order of their points only.
    pub fn judge_order(&mut self, bytes: &[u8]) {
        if self.wants_chart() {
            self.judge_drawn(bytes, &read_table(bytes).and_then(|table| draw_chart(&table)));
        }
        self.sample_listing(bytes);
    }

    pub(super) fn wants_chart(&self) -> bool {
        self.wanted[CHART] || self.wanted[ROW_ORDER] || self.wants_xs()
    }

    fn wants_xs(&self) -> bool {
        self.wanted[XS] || self.wanted[STROKE_AT]
    }

    /// Rows, chart, x, strokes and orders of a row, whose rows are worked out once.
    pub(super) fn judge_placed(&mut self, bytes: &[u8], placed: Result<Placed, Refusal>) {
        if self.wanted[ROWS] {
            let rows = rows_of(&placed);
            self.tally.note_rows(rows.as_deref().unwrap_or_default());
            let needed = rows.as_ref().map_or(0, Vec::len);
            for len in [needed, self.other_len(needed, rows.is_err())] {
                self.compare_rows(bytes, &rows, len);
            }
        }
        if self.wants_chart() {
            self.judge_drawn(bytes, &placed.and_then(draw_placed));
        }
    }

    fn judge_drawn(&mut self, bytes: &[u8], chart: &Result<Chart, Refusal>) {
        if self.wanted[CHART] {
            self.judge_chart(bytes, chart);
        }
        if self.wants_xs() {
            let xs = xs_of(chart);
            if self.wanted[XS] {
                self.judge_xs(bytes, chart, &xs);
            }
            if self.wanted[STROKE_AT] {
                self.judge_strokes(bytes, chart, &xs);
            }
        }
        if self.wanted[ROW_ORDER] {
            self.judge_row_orders(bytes, chart);
        }
    }

    fn judge_chart(&mut self, bytes: &[u8], chart: &Result<Chart, Refusal>) {
        if let Ok(chart) = chart {
            self.tally.note_chart(chart);
        }
        let (steps, points) = chart.as_ref().map_or((0, 0), |chart| (chart.rows.len(), chart.point_count()));
        let other_rows = self.other_len(steps, chart.is_err());
        let other_order = self.other_len(points, chart.is_err());
        let choice = self.random.pick(&[(steps, other_order), (other_rows, points), (other_rows, other_order)]);
        for (rows_len, order_len) in [(steps, points), choice] {
            self.compare_chart(bytes, chart, rows_len, order_len);
        }
    }

    /// Rows and chart with every pair of these buffer lengths, as differences from what is needed; x, orders of a
    /// row and writing with each.
    pub fn judge_buffers(&mut self, bytes: &[u8], offsets: &[isize]) {
        self.judge_written_buffers(bytes, offsets);
        let placed = read_table(bytes).and_then(|table| place_table(&table));
        let rows = rows_of(&placed);
        let chart = placed.and_then(draw_placed);
        let points = chart.as_ref().map_or(0, Chart::point_count);
        let needed = rows.as_ref().map_or(0, Vec::len);
        if self.wanted[XS] {
            self.judge_xs_buffers(bytes, &chart, offsets);
        }
        if self.wanted[ROW_ORDER] {
            self.judge_row_buffers(bytes, &chart, offsets);
        }
        for &more_rows in offsets {
            let rows_len = needed.saturating_add_signed(more_rows);
            if self.wanted[ROWS] {
                self.compare_rows(bytes, &rows, rows_len);
            }
            if !self.wanted[CHART] {
                continue;
            }
            for &more_order in offsets {
                self.compare_chart(bytes, &chart, rows_len, points.saturating_add_signed(more_order));
            }
        }
    }

    fn compare_rows(&mut self, bytes: &[u8], rows: &Result<Vec<usize>, Refusal>, len: usize) {
        let filling = self.filled_entries(len);
        let mut due = filling.clone();
        let expected = pack(hand_out_rows(rows, &mut due));
        self.run_on_table(ROWS, bytes, expected, Some((filling, due)), None);
    }

    fn compare_chart(&mut self, bytes: &[u8], chart: &Result<Chart, Refusal>, rows_len: usize, order_len: usize) {
        let (rows, order) = (self.filled_entries(rows_len), self.filled_entries(order_len));
        let (mut due_rows, mut due_order) = (rows.clone(), order.clone());
        let expected = pack(hand_out_chart(chart, &mut due_rows, &mut due_order));
        self.run_on_table(CHART, bytes, expected, Some((rows, due_rows)), Some((order, due_order)));
    }
}

fn rows_of(placed: &Result<Placed, Refusal>) -> Result<Vec<usize>, Refusal> {
    placed.as_ref().map(|placed| placed.rows.clone()).map_err(|&refusal| refusal)
}

//! Puts a table to the call for the best order of one row.

use reference::calls::{hand_out_row_order, pack};
use reference::chart::{draw_chart, Chart};
use reference::points::MAX_POINTS;
use reference::recount::{check, check_more};
use reference::refusal::Refusal;
use reference::row_order::{find_numbered, RowOrder, MOST_TRIES};
use reference::strokes::lines_of;
use reference::table::read_table;

use super::{answer_fault, entries_fault, hex, Judge};
use crate::host::{self, CHART, ROW_ORDER};
use crate::shapes::STEPS;
use crate::watch;

type Drawn = Result<Chart, Refusal>;

/// What a call is asked for, and how many entries it is lent.
#[derive(Clone, Copy, Debug)]
pub struct Ask {
    pub row: usize,
    pub tries: usize,
    pub entries: usize,
}

/// An answer and what the buffer holds then.
type Given = (u64, Vec<u16>);

/// A chart of so many rows or fewer is asked for all of them, whatever family it is of.
const FEW: usize = 3;
/// Of a row of so many points or fewer all orders may be tried, whatever family it is of.
const SHORT: usize = 6;

impl Judge {
    /// All rows and the first that is none where there are few, else one of them; and one choice that is for the most part
    /// refused.
    pub(super) fn judge_row_orders(&mut self, bytes: &[u8], chart: &Drawn) {
        if let Ok(chart) = chart {
            let count = chart.order.len();
            let any = self.random.between(1, count.max(2) - 1);
            for row in if count <= FEW { 0..count + 1 } else { any..any + 1 } {
                let entries = points_of(chart, row);
                let tries = self.any_tries(entries);
                self.compare_row_order(bytes, Ok(chart), Ask { row, tries, entries });
            }
        }
        let odd = self.odd_ask(chart.as_ref().ok());
        self.compare_row_order(bytes, chart.as_ref().map_err(|&refusal| refusal), odd);
    }

    /// Many tries only where there are few orders, or now and then.
    fn any_tries(&mut self, points: usize) -> usize {
        let few = self.random.below(200);
        if points > SHORT && !self.random.one_in(50) {
            return self.random.pick(&[0, 1, 2, 5, 23, 24, 119, few, few]);
        }
        let many = self.random.below(MOST_TRIES + 1);
        self.random.pick(&[0, 1, 5, 22, 23, 24, 118, 119, 120, few, few, many, 5039, MOST_TRIES])
    }

    /// Row, tries and buffer each as it may be or not; and what good ones would be if more bits of a number were looked at.
    fn odd_ask(&mut self, chart: Option<&Chart>) -> Ask {
        let count = chart.map_or(0, |chart| chart.order.len());
        let inside = self.random.below(count.max(1));
        let far = 1 << self.random.pick(&[8, 9, 15, 16, 31, 32, 48, 63]);
        let row = self.random.pick(&[inside, inside, inside, 0, count, count + 1, inside + far, usize::MAX]);
        let few = self.random.below(120);
        let beyond = MOST_TRIES + 1;
        let tries =
            self.random.pick(&[few, few, few, few, beyond, beyond + few, few + (1 << 16), few + far, usize::MAX]);
        let needed = chart.map_or(0, |chart| points_of(chart, row));
        let entries = if self.random.one_in(3) { needed } else { self.other_len(needed, chart.is_none()) };
        Ask { row, tries, entries }
    }

    /// One row with every one of these buffer lengths, as differences from what is needed; and each with a choice that may be
    /// refused for something else, since a buffer is looked at last.
    pub(super) fn judge_row_buffers(&mut self, bytes: &[u8], chart: &Drawn, offsets: &[isize]) {
        let drawn = chart.as_ref().map_err(|&refusal| refusal);
        let row = drawn.map_or(1, |chart| self.random.between(1, chart.order.len().max(2) - 1));
        let tries = self.random.below(30);
        let needed = drawn.map_or(0, |chart| points_of(chart, row));
        for &more in offsets {
            let entries = needed.saturating_add_signed(more);
            self.compare_row_order(bytes, drawn, Ask { row, tries, entries });
            let odd = Ask { entries, ..self.odd_ask(drawn.ok()) };
            self.compare_row_order(bytes, drawn, odd);
        }
    }

    /// These, whatever becomes of the table.
    pub fn judge_asks(&mut self, bytes: &[u8], asks: impl IntoIterator<Item = Ask>) {
        if self.wanted[ROW_ORDER] {
            let chart = read_table(bytes).and_then(|table| draw_chart(&table));
            for ask in asks {
                self.compare_row_order(bytes, chart.as_ref().map_err(|&refusal| refusal), ask);
            }
        }
    }

    /// A row of a chart with 0 tries and then with these, from the fewest on. The answers are held to the chart that the
    /// library hands out, and each to that with fewer tries.
    pub fn judge_tries(&mut self, bytes: &[u8], chart: &Chart, row: usize, tries: impl IntoIterator<Item = usize>) {
        if !self.wanted[ROW_ORDER] {
            return;
        }
        let entries = points_of(chart, row);
        let mut told = Vec::new();
        for tries in [0].into_iter().chain(tries) {
            told.push(self.compare_row_order(bytes, Ok(chart), Ask { row, tries, entries }));
        }
        if self.wanted[CHART] && told.iter().all(|(answer, _)| answer & 0xff == 0) {
            self.tally.note_held_row();
            let told: Vec<RowOrder> = told.iter().map(read_order).collect();
            let fault = row_fault(bytes, chart, row, &told);
            self.settle(ROW_ORDER, fault, || format!("row {row} with more and more tries, table {}", hex(bytes)));
        }
    }

    fn compare_row_order(&mut self, bytes: &[u8], chart: Result<&Chart, Refusal>, ask: Ask) -> Given {
        let Ask { row, tries, entries } = ask;
        let order = chart.and_then(|chart| find_numbered(chart, row, tries));
        let filling = self.filled_entries(entries);
        let mut due = filling.clone();
        let told = order.as_ref().map(|(order, _)| order).map_err(|&refusal| refusal);
        let expected = pack(hand_out_row_order(told, &mut due));
        let flush = self.random.one_in(2);
        let table = (self.table.place(bytes, flush, 1) as *const u8, bytes.len());
        let mut lent = self.order.place_entries(&filling, flush);
        // Where there is no entry the pointer may be any, as a C program has it.
        if entries == 0 && flush {
            lent.0 = std::ptr::null_mut();
        }
        let (answer, took) = watch::timed(ROW_ORDER, || host::row_order(table, row, tries, lent));
        self.tally.note_call(ROW_ORDER, expected, took, self.place);
        if let (Ok(chart), Ok(order)) = (chart, &order) {
            self.tally.note_row_order(&chart.order[row], order, tries);
        }
        let fault = self
            .input_fault(bytes)
            .or_else(|| answer_fault(expected, answer))
            .or_else(|| entries_fault("order", &mut self.order, &due));
        self.settle(ROW_ORDER, fault, || format!("{ask:?}, table {}", hex(bytes)));
        (answer, self.order.entries())
    }
}

/// Points of a row; none of one that is not there.
pub fn points_of(chart: &Chart, row: usize) -> usize {
    chart.order.get(row).map_or(0, Vec::len)
}

/// By the bits of the answer; a count that no buffer has leaves no points.
fn read_order((answer, entries): &Given) -> RowOrder {
    let count = (answer >> 8 & 0x7ff) as usize;
    let points = entries.get(..count).unwrap_or(&[]).iter().map(|&point| usize::from(point)).collect();
    RowOrder { points, floor: (answer >> 19 & 0x1ff_ffff) as usize, crossings: (answer >> 44) as usize }
}

/// Whatever the reference would find: each order is one of the row that the library's chart has, with the crossings and the
/// floor that are told; the first, with 0 tries, is the row as it is; and none is worse than the one before it.
fn row_fault(bytes: &[u8], chart: &Chart, row: usize, told: &[RowOrder]) -> Option<String> {
    let table = (bytes.as_ptr(), bytes.len());
    let (mut rows, mut order) = ([0; STEPS], [0; MAX_POINTS]);
    let (charted, _) =
        watch::timed(CHART, || host::chart(table, (rows.as_mut_ptr(), STEPS), (order.as_mut_ptr(), MAX_POINTS)));
    let points = (charted >> 8 & 0x7ff) as usize;
    if charted & 0xff != 0 || points != chart.point_count() {
        return Some(format!("an order of a row beside the answer {charted:#x} of chart"));
    }
    let wide = |entries: &[u16]| entries.iter().map(|&entry| usize::from(entry)).collect::<Vec<_>>();
    let (rows, listed) = (wide(&rows[..chart.rows.len()]), wide(&order[..points]));
    let before: usize = chart.order[..row].iter().map(Vec::len).sum();
    if !listed[before..].starts_with(&told[0].points) {
        return Some("the order with 0 tries is not that of the chart".into());
    }
    let lines = lines_of(chart);
    let recounted = told.iter().map(|each| check(&lines, &rows, &listed, row, each));
    let compared = told.windows(2).map(|pair| check_more(&pair[0], &pair[1]));
    recounted.chain(compared).find_map(Result::err).map(String::from)
}

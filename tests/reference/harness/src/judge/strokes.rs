//! Puts a table to the call for strokes.

use reference::calls::{hand_out_stroke, StrokeAnswer, LINE, MOVE};
use reference::chart::{draw_chart, Chart};
use reference::drawing::check;
use reference::points::MAX_POINTS;
use reference::refusal::Refusal;
use reference::strokes::{lines_of, list_strokes, Stroke};
use reference::table::read_table;
use reference::xs::MOST_POINTS;

use super::xs::{xs_of, Xs};
use super::{answer_fault, hex, Judge};
use crate::host::{self, CHART, STROKE_AT, XS};
use crate::shapes::STEPS;
use crate::watch;

type Strokes = Result<Vec<Stroke>, Refusal>;

/// A chart of so many strokes or fewer is asked for all of them, whatever family it is of.
const FEW: usize = 5;

impl Judge {
    /// All indices up to the first past the end where there are few strokes, else one of them; and one that is for the most part
    /// past the end.
    pub(super) fn judge_strokes(&mut self, bytes: &[u8], chart: &Result<Chart, Refusal>, xs: &Xs) {
        let strokes = strokes_of(chart, xs);
        let count = strokes.as_ref().map_or(0, Vec::len);
        let any = self.random.below(count.max(1));
        let asked = if count <= FEW { 0..count + 1 } else { any..any + 1 };
        for index in asked.chain([self.odd_index(count)]) {
            self.compare_stroke(bytes, &strokes, index);
        }
    }

    /// The end, the last strokes, and what these would be if fewer bits of an index were looked at.
    fn odd_index(&mut self, count: usize) -> usize {
        let inside = self.random.below(count.max(1));
        let far = inside + (1 << self.random.pick(&[8, 9, 10, 15, 16, 31, 32, 48, 63]));
        let last = count.saturating_sub(1);
        self.random.pick(&[count, count, count + 1, last, far, far, usize::MAX, usize::MAX - inside])
    }

    /// These indices, whatever becomes of the table.
    pub fn judge_indices(&mut self, bytes: &[u8], indices: impl IntoIterator<Item = usize>) {
        if self.wanted[STROKE_AT] {
            let (_, strokes) = draw_strokes(bytes);
            for index in indices {
                self.compare_stroke(bytes, &strokes, index);
            }
        }
    }

    /// Every stroke of a table, the first index past them and another one; and what the strokes draw.
    pub fn judge_drawing(&mut self, bytes: &[u8]) {
        if !self.wanted[STROKE_AT] {
            return;
        }
        let (chart, strokes) = draw_strokes(bytes);
        let count = strokes.as_ref().map_or(0, Vec::len);
        let answers: Vec<StrokeAnswer> = (0..=count).map(|index| self.compare_stroke(bytes, &strokes, index)).collect();
        let odd = self.odd_index(count);
        self.compare_stroke(bytes, &strokes, odd);
        let Ok(chart) = chart else { return };
        if strokes.is_ok() && self.wanted[CHART] && self.wanted[XS] {
            self.tally.note_drawing();
            let fault = drawing_fault(bytes, &chart, &answers);
            self.settle(STROKE_AT, fault, || format!("all strokes, table {}", hex(bytes)));
        }
    }

    fn compare_stroke(&mut self, bytes: &[u8], strokes: &Strokes, index: usize) -> StrokeAnswer {
        let due = hand_out_stroke(strokes, index);
        let flush = self.random.one_in(2);
        let table = (self.table.place(bytes, flush, 1) as *const u8, bytes.len());
        let (given, took) = watch::timed(STROKE_AT, || host::stroke_at(table, index));
        self.tally.note_call(STROKE_AT, due.answer, took, self.place);
        self.tally.note_stroke(&due, index);
        let fault = self
            .input_fault(bytes)
            .or_else(|| answer_fault(due.answer, given.answer))
            .or_else(|| float_fault("x", due.corner.x, given.corner.x))
            .or_else(|| float_fault("y", due.corner.y, given.corner.y));
        self.settle(STROKE_AT, fault, || format!("index {index}, table {}", hex(bytes)));
        given
    }
}

fn strokes_of(chart: &Result<Chart, Refusal>, xs: &Xs) -> Strokes {
    let chart = chart.as_ref().map_err(|&refusal| refusal)?;
    let xs = xs.as_ref().map_err(|&refusal| refusal)?;
    Ok(list_strokes(chart, xs))
}

fn draw_strokes(bytes: &[u8]) -> (Result<Chart, Refusal>, Strokes) {
    let chart = read_table(bytes).and_then(|table| draw_chart(&table));
    let strokes = strokes_of(&chart, &xs_of(&chart));
    (chart, strokes)
}

/// By their bits: 0 is not -0, and nothing is nearly right.
fn float_fault(what: &str, due: u32, given: u32) -> Option<String> {
    let value = f32::from_bits;
    (given != due).then(|| format!("{what} is {:?} ({given:#x}) for {:?} ({due:#x})", value(given), value(due)))
}

/// Whatever the reference would list: the strokes draw the chart that the library hands out, by its rows and its x, and the
/// index behind them has none.
fn drawing_fault(bytes: &[u8], chart: &Chart, answers: &[StrokeAnswer]) -> Option<String> {
    let table = (bytes.as_ptr(), bytes.len());
    let (mut rows, mut xs, mut order) = ([0; STEPS], [0; MOST_POINTS], [0; MAX_POINTS]);
    let (charted, _) =
        watch::timed(CHART, || host::chart(table, (rows.as_mut_ptr(), STEPS), (order.as_mut_ptr(), MAX_POINTS)));
    let (placed, _) = watch::timed(XS, || host::xs(table, (xs.as_mut_ptr(), MOST_POINTS)));
    let points = (placed >> 8) as usize;
    if charted & 0xff != 0 || placed & 0xff != 0 || points > MOST_POINTS || charted >> 8 & 0x7ff != points as u64 {
        return Some(format!("strokes beside the answers {charted:#x} of chart and {placed:#x} of xs"));
    }
    let wide = |entries: &[u16]| entries.iter().map(|&entry| usize::from(entry)).collect::<Vec<_>>();
    let strokes: Vec<Stroke> = answers.iter().map_while(stroke_of).collect();
    if strokes.len() + 1 != answers.len() {
        return Some(format!("{} strokes and then none", strokes.len()));
    }
    check(&lines_of(chart), &wide(&rows[..chart.rows.len()]), &wide(&xs[..points]), &strokes).err().map(String::from)
}

fn stroke_of(&StrokeAnswer { answer, corner }: &StrokeAnswer) -> Option<Stroke> {
    match answer >> 8 {
        MOVE => Some(Stroke::Move(corner)),
        LINE => Some(Stroke::Line(corner)),
        _ => None,
    }
}

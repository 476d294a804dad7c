//! What was compared, and what came of it.

use std::time::Duration;

use reference::calls::StrokeAnswer;
use reference::chart::Chart;
use reference::forces::Piece;
use reference::order::{positions, PASSES};
use reference::points::MAX_POINTS;
use reference::refusal::Refusal;
use reference::row_order::{orders_of, Numbered};
use reference::strokes::Corner;
use reference::xs::pieces_of;

use crate::host::{CALLS, CHART, CONVERT, RECORDS, WRITE};

const REFUSALS: usize = 18;
/// The refusals that the program `chart` gives, and those of the program `convert`.
const LISTED: [usize; 13] = [1, 2, 3, 4, 5, 6, 7, 8, 9, 10, 11, 12, 15];
const CONVERTED: [usize; 11] = [1, 2, 3, 4, 5, 6, 7, 8, 9, 10, 15];

pub struct Tally {
    pub cases: u64,
    pub differences: u64,
    /// Outputs of the program of a call, by the number of the refusal that is due; charts and the like at 0.
    by_output: [[u64; REFUSALS + 1]; CALLS.len()],
    by_call: [u64; CALLS.len()],
    /// Answers due, by the refusal's number; accepted ones at 0.
    by_refusal: [u64; REFUSALS + 1],
    /// Charts by the pass whose result is theirs; the start at 0.
    by_pass: [u64; PASSES + 1],
    /// Charts with turned edges, and how many these are.
    turned: (u64, usize),
    /// Charts with merged edges that stand for several, and how many edges these are; and charts with more points than there
    /// may be, if each edge were drawn by itself.
    merged: (u64, usize, u64),
    /// Tables with rows that no byte holds, and the highest row of all.
    tall: (u64, usize),
    x: XTally,
    strokes: StrokeTally,
    row_orders: RowTally,
    /// By the call, tables written, and those of them that came in more bytes.
    written: [(u64, u64); CALLS.len()],
    /// Time spent in each call.
    spent: [Duration; CALLS.len()],
    /// For each call the longest time, with family and group.
    slowest: [(Duration, &'static str, usize); CALLS.len()],
}

/// What became of charts in the call for x.
#[derive(Clone, Copy, Default)]
struct XTally {
    /// Charts that got x, and those that have too many points for it.
    charts: u64,
    refused: u64,
    /// Charts with a piece that is not straight, and with a point that is not as far left as its row allows.
    leaning: u64,
    moved: u64,
    largest: usize,
}

/// What was asked for in the call for strokes.
#[derive(Clone, Copy, Default)]
struct StrokeTally {
    /// Answers of accepted tables, by the number of the case: none, moves and lines.
    by_case: [u64; 3],
    /// The largest index that has a stroke, and the largest floats, each by its bits.
    largest: usize,
    farthest: Corner,
    /// Charts of which all strokes were held against rows and x.
    drawings: u64,
}

/// What was found in the call for the order of a row.
#[derive(Clone, Copy, Default)]
struct RowTally {
    /// Orders told; those that are not the row as it is, and those found among all that there are; of all orders and of these,
    /// those that do not meet their floor.
    orders: u64,
    moved: u64,
    of_all: u64,
    above_floor: [u64; 2],
    /// Those that are the last of all there are.
    last: u64,
    /// The most crossings told, and how many orders at most come before one.
    crossings: usize,
    latest: usize,
    /// Rows whose orders with more and more tries were held to the chart and to each other.
    held: u64,
}

impl Tally {
    pub fn new() -> Tally {
        Tally {
            cases: 0,
            differences: 0,
            by_output: [[0; REFUSALS + 1]; CALLS.len()],
            by_call: [0; CALLS.len()],
            by_refusal: [0; REFUSALS + 1],
            by_pass: [0; PASSES + 1],
            turned: (0, 0),
            merged: (0, 0, 0),
            tall: (0, 0),
            x: XTally::default(),
            strokes: StrokeTally::default(),
            row_orders: RowTally::default(),
            written: [(0, 0); CALLS.len()],
            spent: [Duration::ZERO; CALLS.len()],
            slowest: [(Duration::ZERO, "", 0); CALLS.len()],
        }
    }

    pub fn note_call(&mut self, call: usize, expected: u64, took: Duration, place: (&'static str, usize)) {
        self.by_call[call] += 1;
        self.spent[call] += took;
        self.by_refusal[(expected & 0xff) as usize] += 1;
        if took > self.slowest[call].0 {
            self.slowest[call] = (took, place.0, place.1);
        }
    }

    pub fn note_chart(&mut self, chart: &Chart) {
        self.by_pass[chart.best_pass] += 1;
        let turned = chart.turned.iter().filter(|&&turned| turned).count();
        self.turned.0 += u64::from(turned > 0);
        self.turned.1 += turned;
        let several: usize = chart.merged.iter().map(|each| each.count).filter(|&count| count > 1).sum();
        self.merged.0 += u64::from(several > 0);
        self.merged.1 += several;
        self.merged.2 += u64::from(chart.points_by_edge() > MAX_POINTS);
    }

    pub fn note_rows(&mut self, rows: &[usize]) {
        let highest = rows.iter().copied().max().unwrap_or(0);
        self.tall = (self.tall.0 + u64::from(highest > u8::MAX as usize), self.tall.1.max(highest));
    }

    pub fn note_xs(&mut self, chart: &Chart, xs: &Result<Vec<usize>, Refusal>) {
        let Ok(xs) = xs else { return self.x.refused += 1 };
        let leans = |piece: &Piece| xs[piece.ends.0] != xs[piece.ends.1];
        self.x.charts += 1;
        self.x.leaning += u64::from(pieces_of(chart).iter().any(leans));
        self.x.moved += u64::from(*xs != positions(&chart.order));
        self.x.largest = self.x.largest.max(xs.iter().copied().max().unwrap_or(0));
    }

    pub fn note_stroke(&mut self, StrokeAnswer { answer, corner }: &StrokeAnswer, index: usize) {
        let case = (answer >> 8) as usize;
        if answer & 0xff > 0 {
            return;
        }
        let noted = &mut self.strokes;
        noted.by_case[case] += 1;
        noted.largest = noted.largest.max(if case > 0 { index } else { 0 });
        // Floats from 0 up are in the order of their bits.
        noted.farthest = Corner { x: noted.farthest.x.max(corner.x), y: noted.farthest.y.max(corner.y) };
    }

    pub fn note_drawing(&mut self) {
        self.strokes.drawings += 1;
    }

    pub fn note_row_order(&mut self, present: &[usize], (order, number): &Numbered, tries: usize) {
        let noted = &mut self.row_orders;
        noted.orders += 1;
        noted.moved += u64::from(order.points != present);
        let [of_all, above] = [orders_of(present.len()) <= tries + 1, order.crossings > order.floor];
        noted.of_all += u64::from(of_all);
        noted.above_floor[0] += u64::from(above);
        noted.above_floor[1] += u64::from(above && of_all);
        noted.last += u64::from(*number > 0 && number + 1 == orders_of(present.len()));
        noted.crossings = noted.crossings.max(order.crossings);
        noted.latest = noted.latest.max(*number);
    }

    pub fn note_held_row(&mut self) {
        self.row_orders.held += 1;
    }

    pub fn note_written(&mut self, call: usize, table_len: usize, shortest: usize) {
        self.written[call].0 += 1;
        self.written[call].1 += u64::from(shortest < table_len);
    }

    pub fn note_output(&mut self, call: usize, refusal: u8) {
        self.by_output[call][refusal as usize] += 1;
    }

    /// Outputs of the program of a call.
    pub fn outputs(&self, call: usize) -> u64 {
        self.by_output[call].iter().sum()
    }

    pub fn report(&self, took: Duration) {
        for (call, name) in CALLS.iter().enumerate().filter(|&(call, _)| self.by_call[call] > 0) {
            let (time, family, group) = self.slowest[call];
            let (calls, longest) = (self.by_call[call], time.as_secs_f64() * 1e6);
            let mean = self.spent[call].as_secs_f64() * 1e6 / calls as f64;
            println!("{name:9} {calls:9} calls, mean {mean:.1} us, slowest {longest:.1} us ({family}, group {group})");
        }
        let refused = list_counts(&self.by_refusal, 1..=REFUSALS);
        println!("calls:    accepted {}; refusals {refused}", self.by_refusal[0]);
        self.report_program(CHART, "listings", "charts", &LISTED);
        self.report_program(CONVERT, "outputs", "tables", &CONVERTED);
        if self.outputs(RECORDS) > 0 {
            println!("records:  {} inputs of the program", self.outputs(RECORDS));
        }
        println!("charts by the pass that gives the order, from the start on: {:?}", self.by_pass);
        println!("charts with turned edges: {}, turned edges in them: {}", self.turned.0, self.turned.1);
        let (charts, several, beyond) = self.merged;
        println!("charts with repeated edges: {charts}, repeated edges in them: {several}");
        println!("charts of more than {MAX_POINTS} points if each edge were drawn by itself: {beyond}");
        println!("tables with rows above {}: {}, highest row {}", u8::MAX, self.tall.0, self.tall.1);
        let XTally { charts, refused, leaning, moved, largest } = self.x;
        println!("charts with x: {charts}, largest x {largest}; charts of too many points for x: {refused}");
        println!("charts with pieces that are not straight: {leaning}, with points past their positions: {moved}");
        let StrokeTally { by_case: [none, moves, lines], largest, farthest, drawings } = self.strokes;
        let [x, y] = [farthest.x, farthest.y].map(f32::from_bits);
        println!("strokes: {moves} moves, {lines} lines, {none} times none; largest index of one {largest}");
        println!("charts drawn whole: {drawings}; largest x of a corner {x} mm, largest y {y} mm");
        self.report_row_orders();
        for (call, what) in [(WRITE, "written"), (CONVERT, "converted")] {
            let (tables, shorter) = self.written[call];
            println!("tables {what}: {tables}, of them shorter than they came: {shorter}");
        }
        let rate = self.cases as f64 / took.as_secs_f64();
        println!("{:.1} s, {rate:.0} cases a second", took.as_secs_f64());
        println!("{} cases, {} differences", self.cases, self.differences);
    }

    fn report_row_orders(&self) {
        let RowTally { orders, moved, of_all, above_floor: [above, unmet], last, .. } = self.row_orders;
        let RowTally { crossings, latest, held, .. } = self.row_orders;
        println!("orders of a row: {orders}, not the row as it is: {moved}, above their floor: {above}");
        println!("orders that are the best of all: {of_all}, of them above their floor: {unmet}, the last one: {last}");
        println!("most crossings of a row: {crossings}, most orders before one that is told: {latest}");
        println!("rows held to the chart with more and more tries: {held}");
    }

    fn report_program(&self, call: usize, outputs: &str, accepted: &str, refusals: &[usize]) {
        let (name, all, by_refusal) = (CALLS[call], self.outputs(call), &self.by_output[call]);
        if all > 0 {
            let refused = list_counts(by_refusal, refusals.iter().copied());
            println!("program {name}: {all} {outputs}, {} of them {accepted}; refusals {refused}", by_refusal[0]);
        }
    }
}

/// The counts at these numbers.
fn list_counts(counts: &[u64], numbers: impl IntoIterator<Item = usize>) -> String {
    let met = numbers.into_iter().map(|number| format!("{number}: {}", counts[number]));
    met.collect::<Vec<_>>().join(", ")
}

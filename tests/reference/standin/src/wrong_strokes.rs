//! The strokes of a chart, with a switch at each place where a plausible mistake can be made.

use reference::calls::{LINE, MOVE};
use reference::chart::Chart;
use reference::merged::MergedEdge;
use reference::order::positions;
use reference::table::{Table, TableEdge};

use crate::fault::on;

/// A stroke as it is handed out: the number of its case, and its corner.
#[derive(Clone, Copy, PartialEq)]
pub struct Drawn {
    pub case: u64,
    pub x: f32,
    pub y: f32,
}

pub fn list(table: &Table, chart: &Chart, xs: &[usize]) -> Vec<Drawn> {
    let mut strokes: Vec<Drawn> = Vec::new();
    for each in lines_of(table, chart) {
        let path = path_of(table, chart, xs, each);
        let place = |&point: &usize| corner(place_of(chart, xs, &path, point), chart.layout.row_count);
        let corners: Vec<(f32, f32)> = path.iter().map(place).collect();
        let goes_on = strokes.last().is_some_and(|last| corners.first() == Some(&(last.x, last.y)));
        let skipped = goes_on && on("stroke-start-left-out") || !strokes.is_empty() && on("stroke-index-short");
        for (at, &(x, y)) in corners.iter().enumerate().skip(usize::from(skipped)) {
            strokes.push(Drawn { case: case_of(at, corners.len() - 1, goes_on), x, y });
        }
    }
    strokes.extend(loose_steps(chart, xs));
    strokes
}

/// The lines, in an order.
fn lines_of<'a>(table: &Table, chart: &'a Chart) -> Vec<&'a MergedEdge> {
    let key = |edge: &TableEdge| (edge.edge.from, edge.edge.to, edge.soft);
    let first = |each: &MergedEdge| &table.edges[each.number];
    let drawn_as = |edge: &TableEdge| chart.merged.iter().find(|each| key(first(each)) == key(edge));
    if on("stroke-each-edge") {
        return table.edges.iter().filter_map(drawn_as).collect();
    }
    let mut lines: Vec<&MergedEdge> = chart.merged.iter().collect();
    let last = |each: &MergedEdge| table.edges.iter().rposition(|edge| key(edge) == key(first(each)));
    let row = |step: usize| chart.layout.row_of[step];
    match () {
        _ if on("stroke-lines-backward") => lines.reverse(),
        _ if on("stroke-lines-by-last") => lines.sort_by_key(|each| last(each)),
        _ if on("stroke-lines-by-ends") => lines.sort_by_key(|each| (first(each).edge.from, first(each).edge.to)),
        _ if on("stroke-lines-by-row") => lines.sort_by_key(|each| row(each.edge.from)),
        _ if on("stroke-lines-by-length") => lines.sort_by_key(|each| row(each.edge.to) - row(each.edge.from)),
        _ if on("stroke-must-first") => lines.sort_by_key(|each| first(each).soft),
        _ if on("stroke-turned-last") => lines.sort_by_key(|each| chart.turned[each.number]),
        _ if on("stroke-turned-left-out") => lines.retain(|each| !chart.turned[each.number]),
        _ if on("stroke-weight-0-left-out") => lines.retain(|each| each.edge.weight > 0),
        _ => {}
    }
    lines
}

/// The points that a line leads past.
fn path_of(table: &Table, chart: &Chart, xs: &[usize], each: &MergedEdge) -> Vec<usize> {
    let TableEdge { edge, soft } = table.edges[each.number];
    let turned = chart.turned[each.number];
    let exchanged = on("stroke-turned-down") && turned
        || on("stroke-all-up") && !turned
        || on("stroke-soft-up") && soft && !turned
        || on("stroke-ends-exchanged");
    let (from, to) = if exchanged { (edge.to, edge.from) } else { (edge.from, edge.to) };
    let own = |&point: &usize| chart.layout.edge_of[point] == Some(each.number);
    let mut dummies: Vec<usize> = (0..chart.layout.edge_of.len()).filter(own).collect();
    let falls = match () {
        _ if on("stroke-turned-rising") => false,
        _ if on("stroke-kept-falling") => true,
        _ => chart.layout.row_of[from] > chart.layout.row_of[to],
    };
    if falls {
        dummies.reverse();
    }
    leave_out(&mut dummies, turned);
    let mut path = [vec![from], dummies, vec![to]].concat();
    if on("stroke-straight-left-out") {
        path = without_straight(xs, &path);
    }
    match () {
        _ if on("stroke-to-left-out") => path.truncate(path.len() - 1),
        _ if on("stroke-move-left-out") => path = path[1..].to_vec(),
        _ if on("stroke-from-twice") => path.insert(0, from),
        _ if on("stroke-to-twice") => path.push(to),
        _ => {}
    }
    path
}

fn leave_out(dummies: &mut Vec<usize>, turned: bool) {
    let (first, last) = (dummies.first().copied(), dummies.last().copied());
    match () {
        _ if on("stroke-dummies-left-out") => dummies.clear(),
        _ if on("stroke-turned-dummies-left-out") && turned => dummies.clear(),
        _ if on("stroke-first-dummy-left-out") => dummies.retain(|&point| Some(point) != first),
        _ if on("stroke-last-dummy-left-out") => dummies.retain(|&point| Some(point) != last),
        _ if on("stroke-between-left-out") => dummies.retain(|&point| Some(point) == first || Some(point) == last),
        _ => {}
    }
}

/// Without the points at which the line is not bent.
fn without_straight(xs: &[usize], path: &[usize]) -> Vec<usize> {
    let bent = |at: usize| xs[path[at - 1]] + xs[path[at + 1]] != 2 * xs[path[at]];
    let last = path.len() - 1;
    (0..path.len()).filter(|&at| at == 0 || at == last || bent(at)).map(|at| path[at]).collect()
}

fn case_of(at: usize, last: usize, goes_on: bool) -> u64 {
    match () {
        _ if on("stroke-cases-exchanged") => [LINE, MOVE][at.min(1)],
        _ if on("stroke-cases-from-0") => [0, 1][at.min(1)],
        _ if on("stroke-all-moves") => MOVE,
        _ if on("stroke-all-lines") => LINE,
        _ if on("stroke-start-drawn") && goes_on => LINE,
        _ if on("stroke-last-moves") && at == last => MOVE,
        _ if on("stroke-dummies-move") && at < last => MOVE,
        _ if at == 0 => MOVE,
        _ => LINE,
    }
}

/// An x and a row, which some variants take for something else.
fn place_of(chart: &Chart, xs: &[usize], path: &[usize], point: usize) -> (f32, usize) {
    let row = chart.layout.row_of[point];
    let [from, to] = [path[0], path[path.len() - 1]];
    let dummy = chart.layout.edge_of[point].is_some();
    let x = match () {
        _ if on("stroke-positions") => positions(&chart.order)[point],
        _ if on("stroke-dummies-upright") && dummy => xs[from],
        _ if on("stroke-dummies-by-row") && dummy => {
            chart.order.concat().iter().map(|&other| xs[other]).nth(point).unwrap_or(0)
        }
        _ if on("stroke-dummies-straight") && dummy => {
            let [start, end] = [from, to].map(|step| chart.layout.row_of[step].abs_diff(row) as f32);
            return ((xs[from] as f32 * end + xs[to] as f32 * start) / (start + end), row);
        }
        _ => xs[point],
    };
    (x as f32, row)
}

const X: f32 = 12.5;
const ROW: f32 = 7.25;

/// Millimetres of an x and a row, of so many rows.
fn corner((x, row): (f32, usize), rows: usize) -> (f32, f32) {
    let y = row as f32;
    match () {
        _ if on("stroke-x-row-exchanged") => (X * y, ROW * x),
        _ if on("stroke-mm-exchanged") => (ROW * x, X * y),
        _ if on("stroke-floats-exchanged") => (ROW * y, X * x),
        _ if on("stroke-y-up") => (X * x, ROW * (rows - 1 - row) as f32),
        _ if on("stroke-y-below-0") => (X * x, -ROW * y),
        _ if on("stroke-row-from-1") => (X * x, ROW * (y + 1.0)),
        _ if on("stroke-x-from-1") => (X * (x + 1.0), ROW * y),
        _ if on("stroke-x-middle") => (X * (x + 0.5), ROW * y),
        _ if on("stroke-columns") => (x, y),
        _ if on("stroke-x-12") => (12.0 * x, ROW * y),
        _ if on("stroke-y-7") => (X * x, 7.0 * y),
        _ if on("stroke-rounded") => ((X * x).round(), (ROW * y).round()),
        _ if on("stroke-cut") => ((X * x).trunc(), (ROW * y).trunc()),
        _ if on("stroke-y-tenths") => (X * x, (10.0 * ROW * y).round() / 10.0),
        _ if on("stroke-y-by-0-725") => (X * x, y * 0.725 * 10.0),
        _ if on("stroke-x-metres") => (x * 0.0125 * 1000.0, ROW * y),
        _ if on("stroke-inches") => (X / 25.4 * x * 25.4, ROW / 25.4 * y * 25.4),
        _ if on("stroke-half-floats") => (eleven_bits(X * x), eleven_bits(ROW * y)),
        _ if on("stroke-whole-numbers") => (f32::from_bits((X * x) as u32), f32::from_bits((ROW * y) as u32)),
        _ if on("stroke-minus-0") => (minus_0(X * x), minus_0(ROW * y)),
        _ => (X * x, ROW * y),
    }
}

fn minus_0(value: f32) -> f32 {
    if value == 0.0 {
        -0.0
    } else {
        value
    }
}

/// As precise as a float of 16 bits.
fn eleven_bits(value: f32) -> f32 {
    f32::from_bits((value.to_bits() + 0x1000) & !0x1fff)
}

/// Moves to the steps that no line leads to or from.
fn loose_steps(chart: &Chart, xs: &[usize]) -> Vec<Drawn> {
    let joined = |step: usize| chart.merged.iter().any(|each| [each.edge.from, each.edge.to].contains(&step));
    let wanted = on("stroke-loose-steps") || on("stroke-no-edges-steps") && chart.merged.is_empty();
    let steps = (0..chart.rows.len()).filter(|&step| wanted && !joined(step));
    steps.map(|step| Drawn { case: MOVE, x: X * xs[step] as f32, y: ROW * chart.layout.row_of[step] as f32 }).collect()
}

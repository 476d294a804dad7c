//! Charts that have much to do with the best order of a row: rows of any width, tries about those that decide, points without
//! pieces, pieces side by side, large charts, and whatever is refused.

use reference::bounds::MAX_ROW;
use reference::chart::{draw_chart, Chart};
use reference::points::MAX_POINTS;
use reference::random::Random;
use reference::row_order::{find_numbered, orders_of, MOST_ROW_POINTS, MOST_TRIES};
use reference::table::{read_table, TableEdge};
use reference::writer::write_table;
use reference::xs::MOST_POINTS;

use crate::drafts::draft_of;
use crate::families::points::{along_chain, Size};
use crate::families::soft::any_draft;
use crate::families::strokes::{beside, edge, refused_tables, soft, GAP};
use crate::judge::{points_of, Ask, Judge};
use crate::shapes::{EDGES, STEPS};

/// A table and its chart.
struct Drawn {
    bytes: Vec<u8>,
    chart: Chart,
}

fn draw(bytes: Vec<u8>) -> Option<Drawn> {
    let chart = read_table(&bytes).and_then(|table| draw_chart(&table)).ok()?;
    Some(Drawn { bytes, chart })
}

fn draw_edges(random: &mut Random, steps: usize, mut edges: Vec<TableEdge>) -> Drawn {
    random.shuffle(&mut edges);
    draw(write_table(&draft_of(random, steps, &edges))).expect("a chart")
}

/// Numbers of tries at the limits, and those that fewer bits would take for 0 or for others.
const TRIES: [usize; 8] = [0, 1, MOST_TRIES - 1, MOST_TRIES, MOST_TRIES + 1, 1 << 16, 1 << 32, usize::MAX];

/// Every refusal that the call has, whatever the row, the tries and the buffer.
pub fn refused(judge: &mut Judge, random: &mut Random, _: usize) {
    let mut tables = refused_tables(random);
    tables.extend([0, 1, 3].map(|steps| write_table(&draft_of(random, steps, &[]))));
    tables.extend([31, 32, 33].map(|width| fan(random, width).bytes));
    for bytes in tables {
        let chart = read_table(&bytes).and_then(|table| draw_chart(&table)).ok();
        let count = chart.as_ref().map_or(0, |chart| chart.order.len());
        let rows = [0, 1, 2, count.saturating_sub(1), count, count + 1, usize::MAX];
        for (row, tries) in rows.into_iter().flat_map(|row| TRIES.map(|tries| (row, tries))) {
            let needed = chart.as_ref().map_or(1, |chart| points_of(chart, row));
            let entries = [0, needed.saturating_sub(1), needed, MOST_ROW_POINTS];
            judge.judge_asks(&bytes, entries.map(|entries| Ask { row, tries, entries }));
        }
    }
}

/// Two rows: a step above so many others and a second step above some of these.
fn fan(random: &mut Random, width: usize) -> Drawn {
    let mut edges: Vec<TableEdge> = (0..width).map(|step| edge(0, 2 + step, 1)).collect();
    edges.extend((0..width).filter(|_| random.one_in(3)).map(|step| edge(1, 2 + step, 1)));
    draw_edges(random, 2 + width, edges)
}

/// The last rows of charts, about those at which 7 and 8 bits are not enough, and the highest that there is.
const LAST: [usize; 9] = [1, 2, 3, 127, 128, 129, 255, 256, MAX_ROW];
pub const TALL: usize = LAST.len();

/// Every row of a chain down to such a row, with a line beside it; and rows that fewer bits would take for these.
pub fn numbers(judge: &mut Judge, random: &mut Random, group: usize) {
    let last = LAST[group];
    let links = last.div_ceil(GAP);
    let mut edges: Vec<TableEdge> = (0..links).map(|link| edge(link, link + 1, GAP.min(last - GAP * link))).collect();
    edges.push(soft(edge(links, 0, 1)));
    let Drawn { bytes, chart } = draw_edges(random, STEPS, edges);
    let count = chart.order.len();
    let far = [8, 9, 16, 31, 32, 63].into_iter().flat_map(|bits| [1 << bits, (1 << bits) + 1, (1 << bits) + count - 1]);
    let rows = (0..count + 2).chain(far).chain([usize::MAX - count, usize::MAX]);
    let asks = rows.map(|row| Ask { row, tries: random.below(3), entries: points_of(&chart, row) });
    judge.judge_asks(&bytes, asks.collect::<Vec<_>>());
}

/// Points of the row of which all orders are tried, or as many as there may be.
const SIZES: [usize; 9] = [1, 2, 3, 4, 5, 6, 7, 8, 9];
pub const TRIED: usize = SIZES.len() * 24;

/// Each number of tries up to all orders and one more, of rows that have few; of longer ones those about all, and the most.
pub fn all_tries(judge: &mut Judge, random: &mut Random, group: usize) {
    let size = SIZES[group % SIZES.len()];
    let Drawn { bytes, chart } = three_rows(random, [random.clone().between(2, 6), size, 5], 0);
    let all = orders_of(size);
    let tries: Vec<usize> = match size {
        0..=5 => (1..=all + 1).chain([MOST_TRIES]).collect(),
        6 => (1..all).step_by(11).chain(all - 2..=all + 1).collect(),
        _ => [1, 23, 24, 119, 120, 719, 720].into_iter().chain(about(all - 1)).chain([MOST_TRIES]).collect(),
    };
    judge.judge_tries(&bytes, &chart, 1, tries);
    judge.judge_tries(&bytes, &chart, 2, [1, 119, 120]);
}

/// One fewer, so many and one more, as far as there may be so many.
fn about(tries: usize) -> impl Iterator<Item = usize> {
    (tries.saturating_sub(1)..=tries.saturating_add(1)).filter(|&tries| tries < MOST_TRIES)
}

/// Steps in three rows, with a piece from above at least for each, and so many more that stand side by side with others. By
/// turns there are far more pieces below the middle row than above it, so that its order in the chart is seldom its best.
fn three_rows(random: &mut Random, widths: [usize; 3], more: usize) -> Drawn {
    let edges = three_row_edges(random, widths, more);
    draw_edges(random, widths.iter().sum(), edges)
}

fn three_row_edges(random: &mut Random, widths: [usize; 3], more: usize) -> Vec<TableEdge> {
    let starts = [0, widths[0], widths[0] + widths[1]];
    let mut lines = Vec::new();
    for row in 1..3 {
        let count = widths[row] + random.between(widths[row] / 2, 2 * widths[row]);
        for at in 0..count {
            let from = starts[row - 1] + random.below(widths[row - 1]);
            let to = if at < widths[row] { at } else { random.below(widths[row]) };
            lines.push(edge(from, starts[row] + to, 1));
        }
    }
    let heavy = random.one_in(2);
    let mut repeated: Vec<TableEdge> = (0..more).map(|_| random.pick(&beside(random.clone().pick(&lines)))).collect();
    repeated.extend(lines.iter().filter(|line| heavy && line.edge.to >= starts[2]).flat_map(|&line| beside(line)));
    lines.extend(repeated);
    lines.truncate(EDGES);
    lines
}

/// Points of the row, about the most for which there is an order.
const WIDE: [usize; 7] = [9, 24, 30, 31, 32, 33, 34];
pub const WIDTHS: usize = WIDE.len() * 12;

/// Rows of steps or of pass points, the one above them narrow or wide: 17 and 13 as they are due, and the most tries.
pub fn widths(judge: &mut Judge, random: &mut Random, group: usize) {
    let width = WIDE[group % WIDE.len()];
    let Drawn { bytes, chart } = match group / WIDE.len() % 3 {
        0 => three_rows(random, [random.clone().between(3, 20), width, 20], width),
        1 => pass_row(random, width),
        _ => three_rows(random, [width, 12, width], 40),
    };
    for row in 1..chart.order.len() {
        let points = points_of(&chart, row);
        let ask = |tries: usize, entries: usize| Ask { row, tries, entries };
        let entries = [0, 1, points - 1, points, points + 1, MOST_ROW_POINTS, MOST_ROW_POINTS + 1];
        judge.judge_asks(&bytes, entries.map(|entries| ask(3, entries)));
        judge.judge_asks(&bytes, [0, points - 1, points].map(|entries| ask(MOST_TRIES + 1, entries)));
        if points <= MOST_ROW_POINTS {
            judge.judge_tries(&bytes, &chart, row, [1, 2, 23, 24, 119, 120, 719, 5039, MOST_TRIES - 1, MOST_TRIES]);
        }
    }
}

/// So many lines of length 2 between few steps above and few below, so that the row between has a pass point for each.
fn pass_row(random: &mut Random, width: usize) -> Drawn {
    let side = (1..).find(|side| 3 * side * side >= width).expect("a square as large") + random.below(3);
    let mut pairs: Vec<(usize, usize)> = (0..side * side).map(|at| (at / side, side + at % side)).collect();
    random.shuffle(&mut pairs);
    let must = pairs.iter().map(|&(from, to)| edge(from, to, 2));
    // Taken last, so that each has its must line, and those against it are turned.
    let others = must.clone().flat_map(|must| beside(must).into_iter().skip(1));
    let edges = must.clone().chain(others).take(width).collect();
    draw_edges(random, 2 * side, edges)
}

/// Rows of up to 12 points, with tries about the number of the best order among many or few, so that one order more or fewer
/// shows.
pub fn deciding(judge: &mut Judge, random: &mut Random, group: usize) {
    let widths = [0; 3].map(|_| random.between(2, 12));
    let more = random.below(20);
    let drawn = match group % 4 {
        0 => pass_row(random, widths[1]),
        _ => three_rows(random, widths, more),
    };
    let most = if random.one_in(16) { MOST_TRIES } else { 1000 };
    for row in 1..drawn.chart.order.len() {
        judge_deciding(judge, &drawn, row, most);
    }
}

/// From the most tries down: each better order is found by so many tries, and not by one fewer.
fn judge_deciding(judge: &mut Judge, Drawn { bytes, chart }: &Drawn, row: usize, most: usize) {
    let mut tries = vec![most];
    while let Ok((_, number @ 1..)) = find_numbered(chart, row, tries[tries.len() - 1]) {
        tries.extend(about(number).collect::<Vec<_>>().into_iter().rev());
    }
    tries.sort();
    judge.judge_tries(bytes, chart, row, tries);
}

/// Steps that nothing leads to, pulled down to the middle row by what they lead to: points without pieces from above.
pub fn loose(judge: &mut Judge, random: &mut Random, _: usize) {
    let widths = [random.between(1, 4), random.between(1, 5), random.between(1, 4)];
    let [steps, free] = [widths.iter().sum(), random.between(1, 5)];
    let mut edges = three_row_edges(random, widths, 0);
    edges.extend((steps..steps + free).map(|step| edge(step, steps - 1 - random.below(widths[2]), 1)));
    let drawn = draw_edges(random, steps + free, edges);
    judge_rows(judge, random, &drawn);
}

/// Every row, with few tries, with all orders of short rows and about the number that decides.
fn judge_rows(judge: &mut Judge, random: &mut Random, drawn: &Drawn) {
    for row in 1..drawn.chart.order.len() {
        match points_of(&drawn.chart, row) {
            points @ 0..=5 => judge.judge_tries(&drawn.bytes, &drawn.chart, row, about(orders_of(points) - 1)),
            ..=MOST_ROW_POINTS if random.one_in(2) => judge_deciding(judge, drawn, row, 300),
            points => {
                let tries = random.pick(&[0, 1, 2, 23, 24, 119]);
                judge.judge_asks(&drawn.bytes, [Ask { row, tries, entries: points }]);
            }
        }
    }
}

/// Of steps above, which each of three below leads to: each two of these are better in another order than the third allows.
const ROUND: [[usize; 3]; 3] = [[1, 3, 8], [0, 5, 7], [2, 4, 6]];

/// A row held in its order by a zigzag of lines from the row above it, three side by side each; and below it a row with any
/// ends there, by turns one of which no order meets the floor, and one that is best turned about.
pub fn held(judge: &mut Judge, random: &mut Random, group: usize) {
    let width = random.between(ROUND.len() * 3, 16);
    let any = |random: &mut Random, most: usize| (0..random.between(1, most)).map(|_| random.below(width)).collect();
    let ends: Vec<Vec<usize>> = match group % 3 {
        0 => ROUND.map(Vec::from).into_iter().chain((0..random.below(4)).map(|_| any(random, 1))).collect(),
        1 => turned_about(random, width),
        _ => (0..random.between(2, 8)).map(|_| any(random, 6)).collect(),
    };
    let upper = |at: usize| width + 1 + at;
    let zigzag = (0..width).flat_map(|at| [edge(at, upper(at), 1), edge(at + 1, upper(at), 1)].map(beside).concat());
    let lower = 2 * width + 1;
    let below =
        ends.iter().enumerate().flat_map(|(at, ends)| ends.iter().map(move |&end| edge(upper(end), lower + at, 1)));
    let edges = zigzag.chain(below).collect();
    let drawn = draw_edges(random, lower + ends.len(), edges);
    judge_rows(judge, random, &drawn);
}

/// Of up to five points the ends in a row, each further right in the mean than those before it by one or two ends far from the
/// others, without which it would be further left.
fn turned_about(random: &mut Random, width: usize) -> Vec<Vec<usize>> {
    let points = random.between(2, 5);
    let ends = |at: usize| {
        let near = points - 1 - at;
        let far = (0..at).map(|back| width - 1 - back % 3);
        [near, near + 1].into_iter().chain(far).collect()
    };
    let mut all: Vec<Vec<usize>> = (0..points).map(ends).collect();
    if random.one_in(2) {
        let at = random.below(points);
        all[at].push(random.below(width));
    }
    all
}

/// Few steps with many lines between the same two, of must edges, of soft ones and of turned ones, many of them of several
/// edges.
pub fn parallel(judge: &mut Judge, random: &mut Random, _: usize) {
    let widths = [random.between(2, 4), random.between(2, 5), random.between(1, 4)];
    let more = random.between(4, 60);
    let drawn = three_rows(random, widths, more);
    judge_rows(judge, random, &drawn);
}

/// Steps and pass points in one row: a chain with lines along it and against it.
pub fn dummies(judge: &mut Judge, random: &mut Random, group: usize) {
    let size: Size = |random| {
        let links = random.between(3, 8);
        (links + random.between(1, 3), links)
    };
    let points = random.between(16, random.clone().pick(&[30, 60, 100]));
    let (steps, edges) = along_chain(random, points, group % 2, size);
    let drawn = draw(write_table(&draft_of(random, steps, &edges))).expect("a chart");
    judge_rows(judge, random, &drawn);
}

/// More points than a chart with x may have, up to the most there may be: some rows, among them the first and the last.
pub fn large(judge: &mut Judge, random: &mut Random, group: usize) {
    let size: Size = |random| {
        let links = random.between(12, 60);
        (random.between(links + 1, STEPS), links)
    };
    let points = match group % 4 {
        0 => MAX_POINTS - group / 4 % 2,
        1 => MOST_POINTS + 1 + group / 4,
        _ => random.between(MOST_POINTS + 1, MAX_POINTS),
    };
    let (steps, edges) = along_chain(random, points, group % 3, size);
    let Drawn { bytes, chart } = draw(write_table(&draft_of(random, steps, &edges))).expect("a chart");
    let last = chart.order.len() - 1;
    let rows = [1, last, random.between(1, last), random.between(1, last)];
    for row in rows.into_iter().filter(|&row| points_of(&chart, row) <= MOST_ROW_POINTS) {
        judge.judge_tries(&bytes, &chart, row, [1, 23, 120]);
    }
    let ends = [0, last + 1, random.between(1, last)];
    judge.judge_asks(&bytes, ends.map(|row| Ask { row, tries: 24, entries: points_of(&chart, row) }));
}

/// Charts of any shape, and of each every row.
pub fn every_row(judge: &mut Judge, random: &mut Random, _: usize) {
    let drafted = any_draft(random);
    if let Some(drawn) = draw(write_table(&drafted)) {
        judge_rows(judge, random, &drawn);
    }
}

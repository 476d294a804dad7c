//! The pieces of a row and how often they cross, with a switch at each place where a plausible mistake can be made.

use reference::chart::Chart;
use reference::order::{count_crossings, run_pass, start_order, Order, PASSES};
use reference::table::Table;

use crate::fault::on;
use crate::wrong_row_orders::{following, Places};

/// Crossings of each two points, by their places, where the first is further left.
pub type Pairs = Vec<Vec<usize>>;

pub struct Row {
    /// From left to right, and the row above in the same way.
    pub points: Vec<usize>,
    pub above: Vec<usize>,
    pub pairs: Pairs,
    /// Of the points, those without pieces; and of each the places above added, and how many there are.
    pub loose: Vec<bool>,
    pub sums: Vec<usize>,
    pub counts: Vec<usize>,
    pub floor: usize,
    /// Crossings that are told with those of any order.
    pub besides: usize,
}

/// A piece by the place of its end in the other row, the place of its end in the row, and how often it counts.
type Piece = (usize, usize, usize);

pub fn row_of(table: &Table, chart: &Chart, row: usize) -> Row {
    let order = order_of(chart);
    let points = order[row].clone();
    let none = Vec::new();
    let above = if on("row-above-by-number") { sorted(&order[row - 1]) } else { order[row - 1].clone() };
    let below = order.get(row + 1).unwrap_or(&none);
    let pieces = pieces_between(table, chart, &points, &above, true);
    let lower = pieces_between(table, chart, &points, below, false);
    let (upper_pairs, lower_pairs) = (pairs_of(&pieces, points.len()), pairs_of(&lower, points.len()));
    let pairs = match () {
        _ if on("row-with-below") => lower_pairs.clone(),
        _ if on("row-with-both") || on("row-whole-chart") => added(&upper_pairs, &lower_pairs),
        _ => upper_pairs.clone(),
    };
    let besides = match () {
        _ if on("row-shared-lower") => same_end(&pieces),
        _ if on("row-whole-chart") => {
            let present: Places = (0..points.len()).collect();
            count_crossings(&chart.layout, &chart.order) - crossings_of(&pairs, &present)
        }
        _ => 0,
    };
    let own = |place: usize| pieces.iter().filter(move |piece| piece.1 == place);
    let each = || 0..points.len();
    Row {
        loose: each().map(|place| own(place).next().is_none()).collect(),
        sums: each().map(|place| own(place).map(|piece| piece.0).sum()).collect(),
        counts: each().map(|place| own(place).count()).collect(),
        floor: floor_of(if on("row-floor-with-below") { &lower_pairs } else { &pairs }),
        besides,
        above,
        pairs,
        points,
    }
}

fn sorted(points: &[usize]) -> Vec<usize> {
    let mut sorted = points.to_vec();
    sorted.sort();
    sorted
}

fn order_of(chart: &Chart) -> Order {
    let start = start_order(&chart.layout);
    match () {
        _ if on("row-of-start") => start,
        _ if on("row-of-last-pass") => {
            (0..PASSES).fold(start, |order, pass| run_pass(&chart.layout, order, pass % 2 == 0))
        }
        _ => chart.order.clone(),
    }
}

/// Between a row and the one above it or below it.
fn pieces_between(table: &Table, chart: &Chart, points: &[usize], others: &[usize], above: bool) -> Vec<Piece> {
    let (mut pieces, mut at) = (Vec::new(), 0);
    let place = |points: &[usize], point: usize| points.iter().position(|&other| other == point);
    for each in &chart.merged {
        let length = chart.layout.row_of[each.edge.to] - chart.layout.row_of[each.edge.from];
        let own = &chart.layout.pieces[at..at + length];
        at += length;
        let left_out = on("row-turned-left-out") && chart.turned[each.number]
            || on("row-must-only") && table.edges[each.number].soft
            || on("row-long-left-out") && length > 1;
        let times = match () {
            _ if left_out => 0,
            _ if on("row-each-edge") => each.count,
            _ if on("row-weighted") => each.edge.weight as usize,
            _ => 1,
        };
        for &(upper, lower) in own.iter().filter(|_| times > 0) {
            let (end, point) = if above { (upper, lower) } else { (lower, upper) };
            pieces.extend(place(others, end).zip(place(points, point)).map(|(end, place)| (end, place, times)));
        }
    }
    if on("row-parallel-once") {
        pieces.sort();
        pieces.dedup();
    }
    pieces
}

fn pairs_of(pieces: &[Piece], points: usize) -> Pairs {
    let mut pairs = vec![vec![0; points]; points];
    for &(end, left, times) in pieces {
        for &(other, right, others) in pieces.iter().filter(|piece| piece.1 != left) {
            let crosses = match () {
                _ if on("row-pairs-exchanged") => end < other,
                _ if on("row-shared-upper") => end >= other,
                _ => end > other,
            };
            pairs[left][right] += if crosses { times * others } else { 0 };
        }
    }
    let kept = match () {
        _ if on("row-pairs-8-bits") => 0xff,
        _ if on("row-pairs-12-bits") => 0xfff,
        _ => usize::MAX,
    };
    pairs.iter().map(|row| row.iter().map(|count| count & kept).collect()).collect()
}

/// Pairs of pieces that end at one point of the row and apart in the other.
fn same_end(pieces: &[Piece]) -> usize {
    pieces.iter().map(|one| pieces.iter().filter(|other| one.1 == other.1 && one.0 < other.0).count()).sum()
}

fn added(one: &Pairs, other: &Pairs) -> Pairs {
    one.iter().zip(other).map(|(one, other)| one.iter().zip(other).map(|(a, b)| a + b).collect()).collect()
}

pub fn crossings_of(pairs: &Pairs, order: &[usize]) -> usize {
    order.iter().enumerate().map(|(at, &right)| order[..at].iter().map(|&left| pairs[left][right]).sum::<usize>()).sum()
}

fn floor_of(pairs: &Pairs) -> usize {
    let points = pairs.len();
    let both = (0..points).flat_map(|right| (0..right).map(move |left| (left, right)));
    let term = |(left, right): (usize, usize)| {
        let (stands, turned) = (pairs[left][right], pairs[right][left]);
        match () {
            _ if on("row-floor-as-it-is") => stands,
            _ if on("row-floor-turned") => turned,
            _ if on("row-floor-larger") => stands.max(turned),
            _ if on("row-floor-both") => stands + turned,
            _ if on("row-floor-apart") => stands.abs_diff(turned),
            _ if on("row-floor-neighbours") && left + 1 < right => 0,
            _ if on("row-floor-first-point") && left > 0 => 0,
            _ => stands.min(turned),
        }
    };
    let floor: usize = both.map(term).sum();
    match () {
        _ if on("row-floor-0") => 0,
        _ if on("row-floor-twice") => 2 * floor,
        _ if on("row-floor-of-best") && points <= 7 => fewest(pairs),
        _ => floor,
    }
}

/// Of all orders.
fn fewest(pairs: &Pairs) -> usize {
    let orders = following((0..pairs.len()).collect(), usize::MAX);
    orders.iter().map(|order| crossings_of(pairs, order)).min().unwrap_or(0)
}

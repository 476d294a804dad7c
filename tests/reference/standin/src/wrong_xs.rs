//! The x of points, with a switch at each place where a plausible mistake can be made.

use std::collections::BTreeSet;

use reference::chart::Chart;
use reference::cut::{Network, UNLIMITED};
use reference::forces::{neighbours, sum, Piece};
use reference::merged::MergedEdge;
use reference::order::{positions, run_pass, start_order, Order, PASSES};
use reference::table::Table;
use reference::xs::FACTORS;

use crate::fault::on;

pub fn find(table: &Table, chart: &Chart) -> Vec<usize> {
    let order = order_of(chart);
    let pieces = pieces_of(table, chart);
    let mut xs = match () {
        _ if on("xs-positions") => positions(&order),
        _ if on("xs-medians") => medians(&order, &pieces),
        _ if on("xs-highest") => from_right(&order, &pieces),
        _ => descend(&order, &pieces),
    };
    if on("xs-rows-at-0") {
        for row in &order {
            let first = xs[row[0]];
            row.iter().for_each(|&point| xs[point] -= first);
        }
    }
    if on("xs-from-1") {
        xs.iter_mut().for_each(|x| *x += 1);
    }
    xs
}

fn order_of(chart: &Chart) -> Order {
    let start = start_order(&chart.layout);
    match () {
        _ if on("xs-order-by-number") => start,
        _ if on("xs-order-of-last-pass") => {
            (0..PASSES).fold(start, |order, pass| run_pass(&chart.layout, order, pass % 2 == 0))
        }
        _ => chart.order.clone(),
    }
}

fn pieces_of(table: &Table, chart: &Chart) -> Vec<Piece> {
    let (mut pieces, mut at, mut met) = (Vec::new(), 0, BTreeSet::new());
    for each in &chart.merged {
        let own = &chart.layout.pieces[at..at + length_of(chart, each)];
        at += own.len();
        let left_out = on("xs-turned-left-out") && chart.turned[each.number]
            || on("xs-parallel-once") && !met.insert((each.edge.from, each.edge.to));
        if !left_out {
            let weight = weight_of(table, each);
            pieces.extend(own.iter().map(|&ends| piece_of(chart, each, weight, ends)));
        }
    }
    pieces
}

fn length_of(chart: &Chart, each: &MergedEdge) -> usize {
    let rows = &chart.layout.row_of;
    rows[each.edge.to] - rows[each.edge.from]
}

fn weight_of(table: &Table, each: &MergedEdge) -> u64 {
    let added = u64::from(each.edge.weight);
    match () {
        _ if on("xs-weight-left-out") => 1,
        _ if on("xs-weight-first") => u64::from(table.edges[each.number].edge.weight),
        _ if on("xs-weight-0-as-1") => added.max(1),
        _ if on("xs-weight-at-most-255") => added.min(255),
        _ if on("xs-weight-8-bits") => added & 0xff,
        _ if on("xs-weight-16-bits") => added & 0xffff,
        _ if on("xs-weight-times-count") => added * each.count as u64,
        _ => added,
    }
}

fn piece_of(chart: &Chart, each: &MergedEdge, weight: u64, ends: (usize, usize)) -> Piece {
    let dummies = [ends.0, ends.1].iter().filter(|&&point| chart.layout.edge_of[point].is_some()).count();
    let factor = match () {
        _ if on("xs-factors-1-2") => [2, 1, 8][dummies],
        _ if on("xs-factors-2-8") => [1, 8, 2][dummies],
        _ if on("xs-factors-1-8") => [8, 2, 1][dummies],
        _ if on("xs-factors-1-2-4") => [1, 2, 4][dummies],
        _ if on("xs-factors-left-out") => 1,
        _ if on("xs-factors-by-line") => FACTORS[(length_of(chart, each) - 1).min(2)],
        _ if on("xs-steps-alone-left-out") => [0, 2, 8][dummies],
        _ => FACTORS[dummies],
    };
    let other = |point: usize| match point {
        _ if !on("xs-turned-by-table") || !chart.turned[each.number] => point,
        _ if point == each.edge.from => each.edge.to,
        _ if point == each.edge.to => each.edge.from,
        _ => point,
    };
    let cost = weight * factor;
    Piece { ends: (other(ends.0), other(ends.1)), cost: if on("xs-costs-16-bits") { cost & 0xffff } else { cost } }
}

/// How far apart neighbours are kept.
fn apart() -> usize {
    match () {
        _ if on("xs-shared") => 0,
        _ if on("xs-apart-2") => 2,
        _ => 1,
    }
}

/// The most rounds of moves.
fn rounds() -> usize {
    match () {
        _ if on("xs-one-round") => 1,
        _ if on("xs-16-rounds") => 16,
        _ if on("xs-64-rounds") => 64,
        _ => usize::MAX,
    }
}

/// Moves to the right from the positions, as in the reference.
fn descend(order: &Order, pieces: &[Piece]) -> Vec<usize> {
    let mut xs: Vec<usize> = positions(order).iter().map(|position| position * apart()).collect();
    for _ in 0..rounds() {
        let moved = if on("xs-points-alone") { move_alone(order, pieces, &xs) } else { best_set(order, pieces, &xs) };
        let mut next = xs.clone();
        moved.iter().for_each(|&point| next[point] += 1);
        if cost_of(pieces, &next) >= cost_of(pieces, &xs) {
            break;
        }
        xs = next;
    }
    xs
}

fn cost_of(pieces: &[Piece], xs: &[usize]) -> u64 {
    let square = |piece: &Piece| piece.cost * (xs[piece.ends.0].abs_diff(xs[piece.ends.1]) as u64).pow(2);
    if on("xs-squares") {
        return pieces.iter().map(square).sum();
    }
    sum(pieces, xs)
}

/// The first point that lowers the sum without any other, if there is one.
fn move_alone(order: &Order, pieces: &[Piece], xs: &[usize]) -> Vec<usize> {
    let pairs = neighbours(order);
    let lowers = |&point: &usize| {
        let mut next = xs.to_vec();
        next[point] += 1;
        pairs.iter().all(|&(left, right)| next[left] < next[right]) && sum(pieces, &next) < sum(pieces, xs)
    };
    (0..xs.len()).find(lowers).into_iter().collect()
}

/// The set that lowers the sum most: the smallest one, or else the largest, which is what does not reach the sink.
fn best_set(order: &Order, pieces: &[Piece], xs: &[usize]) -> Vec<usize> {
    let largest = on("xs-largest-sets");
    let (source, sink) = if largest { (xs.len() + 1, xs.len()) } else { (xs.len(), xs.len() + 1) };
    let mut network = Network::new(xs.len() + 2);
    let mut join = |from, to, there, back| {
        let (there, back) = if largest { (back, there) } else { (there, back) };
        network.join(from, to, there, back);
    };
    let mut added = vec![0; xs.len()];
    for &Piece { ends: (first, second), cost } in pieces {
        let distance = xs[first] as i64 - xs[second] as i64;
        let lean = cost as i64 * if on("xs-squares") { 2 * distance } else { distance.signum() };
        added[first] += lean;
        added[second] -= lean;
        let both = if distance == 0 || on("xs-squares") { cost } else { 0 };
        join(first, second, both, both);
    }
    for (left, right) in neighbours(order).into_iter().filter(|&(left, right)| xs[left] + apart() == xs[right]) {
        join(left, right, UNLIMITED, 0);
    }
    for (point, &added) in added.iter().enumerate() {
        join(xs.len(), point, (-added).max(0) as u64, 0);
        join(point, xs.len() + 1, added.max(0) as u64, 0);
    }
    let reached = network.fill(source, sink);
    (0..xs.len()).filter(|&point| reached[point] != largest).collect()
}

/// The best x that are lowest counted from the right.
fn from_right(order: &Order, pieces: &[Piece]) -> Vec<usize> {
    let turned = order.iter().map(|row| row.iter().rev().copied().collect()).collect();
    let xs = descend(&turned, pieces);
    let largest = xs.iter().copied().max().unwrap_or(0);
    xs.iter().map(|x| largest - x).collect()
}

/// Row by row, each point at the median of what it has above, by cost, or as near to the right of it as there is room.
fn medians(order: &Order, pieces: &[Piece]) -> Vec<usize> {
    let mut xs = positions(order);
    for row in order.iter().skip(1) {
        let mut free = 0;
        for &point in row {
            let mut ends: Vec<(usize, u64)> = pieces
                .iter()
                .filter(|piece| piece.ends.1 == point)
                .map(|piece| (xs[piece.ends.0], piece.cost))
                .collect();
            ends.sort();
            let all: u64 = ends.iter().map(|end| end.1).sum();
            let mut met = 0;
            let median = ends.iter().find(|end| {
                met += end.1;
                2 * met >= all
            });
            xs[point] = median.map_or(free, |end| end.0).max(free);
            free = xs[point] + 1;
        }
    }
    xs
}

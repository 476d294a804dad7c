//! The orders of a row that are looked at and the choice among them, with a switch at each place where a plausible mistake can
//! be made.

use reference::row_order::orders_of;

use crate::fault::on;
use crate::wrong_row_pieces::{crossings_of, Pairs, Row};

/// Places from left to right, those that the points have at present.
pub type Places = Vec<usize>;

pub struct Found {
    pub places: Places,
    pub crossings: usize,
    /// Crossings of the last order looked at.
    pub last: usize,
}

pub fn search(row: &Row, tries: usize) -> Found {
    let orders = list(row, how_many(row.points.len(), tries));
    let crossings = count_each(&row.pairs, &orders);
    let first = usize::from(on("row-present-left-out") && orders.len() > 1);
    let (mut best, mut last) = (first, first);
    for at in first..orders.len() {
        last = at;
        let better = crossings[at] < crossings[best];
        let stop = on("row-first-better") && better || on("row-until-no-better") && at > 0 && !better;
        if better || on("row-last-best") && crossings[at] == crossings[best] {
            best = at;
        }
        if stop {
            break;
        }
    }
    Found { places: orders[best].clone(), crossings: crossings[best], last: crossings[last] }
}

/// The crossings of each order. Some variants count anew only a part of what changed since the order before.
fn count_each(pairs: &Pairs, orders: &[Places]) -> Vec<usize> {
    if !on("row-suffix-late") && !on("row-suffix-exchanged") {
        return orders.iter().map(|order| crossings_of(pairs, order)).collect();
    }
    let term = |order: &Places, at: usize| order[..at].iter().map(|&left| pairs[left][order[at]]).sum::<usize>();
    let mut terms: Vec<usize> = (0..orders[0].len()).map(|at| term(&orders[0], at)).collect();
    let mut counts = vec![terms.iter().sum()];
    for pair in orders.windows(2) {
        let changed: Vec<usize> = (0..terms.len()).filter(|&at| pair[0][at] != pair[1][at]).collect();
        let anew = if on("row-suffix-late") { &changed[1..] } else { &changed[..2] };
        anew.iter().for_each(|&at| terms[at] = term(&pair[1], at));
        counts.push(terms.iter().sum());
    }
    counts
}

/// How many orders a variant looks at.
fn how_many(points: usize, tries: usize) -> usize {
    // As many as fewer bits would hold.
    let wrapped = (1..=points).fold(1, usize::wrapping_mul) & 0xffff;
    match () {
        _ if on("row-tries-with-present") => tries.max(1),
        _ if on("row-one-more") => tries + 2,
        _ if on("row-tries-doubled") => 2 * tries + 1,
        _ if on("row-tries-8-bits") => (tries & 0xff) + 1,
        _ if on("row-tries-15-bits") => (tries & 0x7fff) + 1,
        _ if on("row-last-left-out") => (tries + 1).min(orders_of(points).saturating_sub(1).max(1)),
        _ if on("row-all-16-bits") => (tries + 1).min(wrapped.max(1)),
        _ if on("row-all-orders") && points <= 8 => orders_of(points),
        _ if on("row-5040-at-most") => (tries + 1).min(5040),
        _ => tries + 1,
    }
}

/// So many orders, or all there are, the present one first.
fn list(row: &Row, count: usize) -> Vec<Places> {
    let present: Places = (0..row.points.len()).collect();
    match () {
        _ if on("row-heap-orders") => heap(present, count),
        _ if on("row-by-exchanges") => exchanges(&present).into_iter().take(count).collect(),
        _ if on("row-by-means") => [present, by_means(row)].into_iter().take(count).collect(),
        _ if on("row-by-neighbours") => climb(row, present, count),
        _ if on("row-by-numbers") || on("row-numbers-on") => by_numbers(row, count),
        _ if on("row-loose-fixed") => around_loose(row, count),
        _ => following(present, count).into_iter().map(|order| other_way(&order)).collect(),
    }
}

/// From this order on, as in a dictionary.
pub fn following(start: Places, count: usize) -> Vec<Places> {
    let mut orders = vec![start];
    while orders.len() < count {
        let mut next = orders[orders.len() - 1].clone();
        let Some(at) = (1..next.len()).rev().find(|&at| next[at - 1] < next[at]) else { break };
        let larger = (at..next.len()).rev().find(|&other| next[other] > next[at - 1]).expect("one at least");
        next.swap(at - 1, larger);
        next[at..].reverse();
        orders.push(next);
    }
    orders
}

/// An order that a variant takes for this one; the present one stays.
fn other_way(order: &[usize]) -> Places {
    let last = order.len().saturating_sub(1);
    match () {
        _ if on("row-inverse-orders") => inverse(order),
        _ if on("row-left-first") => order.iter().rev().map(|&place| last - place).collect(),
        _ => order.to_vec(),
    }
}

pub fn inverse(order: &[usize]) -> Places {
    let mut inverse = vec![0; order.len()];
    for (at, &place) in order.iter().enumerate() {
        inverse[place] = at;
    }
    inverse
}

/// By point number, from the lowest; or from the row as it is on, and no further than to the end.
fn by_numbers(row: &Row, count: usize) -> Vec<Places> {
    let mut sorted: Places = (0..row.points.len()).collect();
    sorted.sort_by_key(|&place| row.points[place]);
    let start = if on("row-numbers-on") { inverse(&sorted) } else { (0..sorted.len()).collect() };
    following(start, count).iter().map(|order| order.iter().map(|&rank| sorted[rank]).collect()).collect()
}

/// Points without pieces stay where they are.
fn around_loose(row: &Row, count: usize) -> Vec<Places> {
    let held: Places = (0..row.points.len()).filter(|&place| !row.loose[place]).collect();
    let around = |order: Places| {
        let mut whole: Places = (0..row.points.len()).collect();
        for (at, &place) in held.iter().enumerate() {
            whole[place] = held[order[at]];
        }
        whole
    };
    following((0..held.len()).collect(), count).into_iter().map(around).collect()
}

/// By exchanges of two, as Heap's method makes them.
fn heap(present: Places, count: usize) -> Vec<Places> {
    let mut order = present.clone();
    let (mut orders, mut turns, mut at) = (vec![present], vec![0; order.len()], 1);
    while at < order.len() && orders.len() < count {
        if turns[at] < at {
            order.swap(if at % 2 == 0 { 0 } else { turns[at] }, at);
            orders.push(order.clone());
            turns[at] += 1;
            at = 1;
        } else {
            turns[at] = 0;
            at += 1;
        }
    }
    orders
}

/// The present order, and each with two points exchanged.
fn exchanges(present: &[usize]) -> Vec<Places> {
    let pairs = (0..present.len()).flat_map(|left| (left + 1..present.len()).map(move |right| (left, right)));
    let exchanged = pairs.map(|(left, right)| {
        let mut order = present.to_vec();
        order.swap(left, right);
        order
    });
    [present.to_vec()].into_iter().chain(exchanged).collect()
}

/// Sorted by the means of what is above, ties as they stand.
fn by_means(row: &Row) -> Places {
    let mut order: Places = (0..row.points.len()).collect();
    let (sums, counts) = (&row.sums, &row.counts);
    order.sort_by(|&a, &b| (sums[a] * counts[b].max(1)).cmp(&(sums[b] * counts[a].max(1))));
    order
}

/// Neighbours exchanged as long as one of these exchanges is for the better.
fn climb(row: &Row, present: Places, count: usize) -> Vec<Places> {
    let mut orders = vec![present];
    while orders.len() < count {
        let mut next = orders[orders.len() - 1].clone();
        let better = |at: &usize| row.pairs[next[*at]][next[*at - 1]] < row.pairs[next[*at - 1]][next[*at]];
        let Some(at) = (1..next.len()).find(better) else { break };
        next.swap(at - 1, at);
        orders.push(next);
    }
    orders
}

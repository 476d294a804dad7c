//! The x of each point, by moves to the right.
//!
//! Of any two choices of x, take the larger x at each point for one choice and the smaller for another: together these have no
//! larger sum. So where no point is past its lowest best x, none will be when the smallest set of points that lowers the sum
//! most by a move of 1 is moved; and while some point is short of it, there is such a set.

use crate::chart::Chart;
use crate::cut::{Network, UNLIMITED};
use crate::forces::{check, neighbours, Forces, Piece};
use crate::merged::MergedEdge;
use crate::order::{positions, Order};
use crate::points::Layout;
use crate::refusal::Refusal;

/// A chart of more points gets no x.
pub const MOST_POINTS: usize = 128;

/// By how many ends of a piece are pass points.
pub const FACTORS: [u64; 3] = [1, 2, 8];

/// One x a point.
pub fn find_xs(chart: &Chart) -> Result<Vec<usize>, Refusal> {
    if chart.point_count() > MOST_POINTS {
        return Err(Refusal::LargeChart);
    }
    Ok(lowest_xs(&chart.order, &pieces_of(chart)))
}

/// A line has a piece for each row that it leads down, and each has the line's weight.
pub fn pieces_of(Chart { merged, layout, rows, .. }: &Chart) -> Vec<Piece> {
    let length = |each: &MergedEdge| rows[each.edge.to] - rows[each.edge.from];
    let weights = merged.iter().flat_map(|each| vec![u64::from(each.edge.weight); length(each)]);
    let piece = |(&ends, weight)| Piece { ends, cost: weight * factor(layout, ends) };
    layout.pieces.iter().zip(weights).map(piece).collect()
}

pub fn factor(layout: &Layout, (upper, lower): (usize, usize)) -> u64 {
    FACTORS[[upper, lower].iter().filter(|&&point| layout.edge_of[point].is_some()).count()]
}

/// From the positions, below which no x keep neighbours apart. The forces are checked on every answer.
pub fn lowest_xs(order: &Order, pieces: &[Piece]) -> Vec<usize> {
    let mut xs = positions(order);
    loop {
        let (moved, forces) = best_move(order, pieces, &xs);
        if moved.is_empty() {
            if let Err(fault) = check(order, pieces, &forces, &xs) {
                panic!("the reference's own x fail: {fault}");
            }
            return xs;
        }
        for point in moved {
            xs[point] += 1;
        }
    }
}

/// Whether x are the answer, whoever found them: if they have the least sum, the forces are balanced.
pub fn judge_xs(order: &Order, pieces: &[Piece], xs: &[usize]) -> Result<(), &'static str> {
    check(order, pieces, &best_move(order, pieces, xs).1, xs)
}

/// The smallest set of points that lowers the sum most, as the smaller side of a least cut; and the forces that the flow stands
/// for, which are balanced if no set lowers the sum.
fn best_move(order: &Order, pieces: &[Piece], xs: &[usize]) -> (Vec<usize>, Forces) {
    let (source, sink) = (xs.len(), xs.len() + 1);
    let mut network = Network::new(xs.len() + 2);
    let leans: Vec<i64> = pieces.iter().map(|piece| lean(piece, xs)).collect();
    // What a point's leaning pieces add to the sum if it is moved. A straight one adds its cost if just one end is moved.
    let mut added = vec![0; xs.len()];
    let mut arcs = Vec::new();
    for (&Piece { ends: (first, second), cost }, lean) in pieces.iter().zip(&leans) {
        added[first] += lean;
        added[second] -= lean;
        let straight = if xs[first] == xs[second] { cost } else { 0 };
        arcs.push(network.join(first, second, straight, straight));
    }
    // A point is not moved without the neighbour that it would come too near to.
    let pairs = neighbours(order);
    let push = |&(left, right): &(usize, usize)| if xs[left] + 1 == xs[right] { UNLIMITED } else { 0 };
    let touching: Vec<usize> = pairs.iter().map(|pair| network.join(pair.0, pair.1, push(pair), 0)).collect();
    for (point, &added) in added.iter().enumerate() {
        network.join(source, point, (-added).max(0) as u64, 0);
        network.join(point, sink, added.max(0) as u64, 0);
    }
    let reached = network.fill(source, sink);
    let pulls = arcs.iter().zip(&leans).map(|(&arc, lean)| -lean - network.carried(arc)).collect();
    let pushes = touching.iter().map(|&arc| network.carried(arc)).collect();
    ((0..xs.len()).filter(|&point| reached[point]).collect(), Forces { pulls, pushes })
}

/// The cost of a piece, below 0 if its first end is to the left; 0 if it is straight.
fn lean(piece: &Piece, xs: &[usize]) -> i64 {
    (xs[piece.ends.0] as i64 - xs[piece.ends.1] as i64).signum() * piece.cost as i64
}

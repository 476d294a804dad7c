//! Why x are the answer, checked without trust in how they were found: each piece pulls its ends towards each other, neighbours
//! push each other apart, and every point stays where it is.

use crate::order::Order;

/// Two points, and what a unit of distance between their x costs.
#[derive(Clone, Copy, PartialEq, Eq, Debug)]
pub struct Piece {
    pub ends: (usize, usize),
    pub cost: u64,
}

#[derive(Clone, PartialEq, Eq, Debug)]
pub struct Forces {
    /// How each piece pulls its first end to the right; its second end it pulls to the left as much.
    pub pulls: Vec<i64>,
    /// How each two neighbours push each other apart.
    pub pushes: Vec<i64>,
}

/// Each point with the one to its right, row by row.
pub fn neighbours(order: &Order) -> Vec<(usize, usize)> {
    order.iter().flat_map(|row| row.windows(2).map(|pair| (pair[0], pair[1]))).collect()
}

pub fn sum(pieces: &[Piece], xs: &[usize]) -> u64 {
    pieces.iter().map(|piece| piece.cost * xs[piece.ends.0].abs_diff(xs[piece.ends.1]) as u64).sum()
}

/// Where the forces at each point add up to 0, pulls times distances are as much as pushes times distances. So, if no pull is
/// above the cost, no sum is below that of the pushes, and x have just that sum where they keep the bounds. Where each point is
/// held, by a chain of these bounds from x 0, no x that keep them are lower anywhere.
pub fn check(order: &Order, pieces: &[Piece], forces: &Forces, xs: &[usize]) -> Result<(), &'static str> {
    if pieces.iter().zip(&forces.pulls).any(|(piece, pull)| pull.unsigned_abs() > piece.cost) {
        return Err("a pull is too strong");
    }
    if forces.pushes.iter().any(|&push| push < 0) {
        return Err("neighbours pull each other");
    }
    if net_forces(order, pieces, forces, xs.len()).iter().any(|&force| force != 0) {
        return Err("the forces are not balanced");
    }
    let bounds = bounds(order, pieces, forces);
    if bounds.iter().any(|bound| bound.room(xs) < 0) {
        return Err("a bound is broken");
    }
    if held_points(&bounds, xs).contains(&false) {
        return Err("a point could be lower");
    }
    Ok(())
}

fn net_forces(order: &Order, pieces: &[Piece], forces: &Forces, points: usize) -> Vec<i64> {
    let mut net = vec![0; points];
    for (piece, pull) in pieces.iter().zip(&forces.pulls) {
        net[piece.ends.0] += pull;
        net[piece.ends.1] -= pull;
    }
    for ((left, right), push) in neighbours(order).into_iter().zip(&forces.pushes) {
        net[left] -= push;
        net[right] += push;
    }
    net
}

/// That one x is at least so much more than another.
struct Bound {
    low: usize,
    high: usize,
    more: i64,
}

impl Bound {
    fn room(&self, xs: &[usize]) -> i64 {
        xs[self.high] as i64 - xs[self.low] as i64 - self.more
    }
}

/// Neighbours keep apart, and those that push each other stand as near as may be. A piece leans to a side only where it pulls
/// its ends back by all of its cost.
fn bounds(order: &Order, pieces: &[Piece], forces: &Forces) -> Vec<Bound> {
    let mut bounds = Vec::new();
    for ((left, right), &push) in neighbours(order).into_iter().zip(&forces.pushes) {
        bounds.push(Bound { low: left, high: right, more: 1 });
        if push > 0 {
            bounds.push(Bound { low: right, high: left, more: -1 });
        }
    }
    for (&Piece { ends: (first, second), cost }, &pull) in pieces.iter().zip(&forces.pulls) {
        if pull > -(cost as i64) {
            bounds.push(Bound { low: first, high: second, more: 0 });
        }
        if pull < cost as i64 {
            bounds.push(Bound { low: second, high: first, more: 0 });
        }
    }
    bounds
}

/// Held: at x 0, or by a bound without room from a point that is held.
fn held_points(bounds: &[Bound], xs: &[usize]) -> Vec<bool> {
    let mut held: Vec<bool> = xs.iter().map(|&x| x == 0).collect();
    let mut changed = true;
    while changed {
        changed = false;
        for bound in bounds {
            if held[bound.low] && !held[bound.high] && bound.room(xs) == 0 {
                held[bound.high] = true;
                changed = true;
            }
        }
    }
    held
}

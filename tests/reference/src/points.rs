//! Points (steps, then pass points) and the pieces between neighbouring rows.

use crate::merged::MergedEdge;
use crate::rows::row_count;

pub const MAX_POINTS: usize = 1024;

pub struct Layout {
    pub row_count: usize,
    /// The row of each point.
    pub row_of: Vec<usize>,
    /// The number of each pass point's merged edge; none for a step.
    pub edge_of: Vec<Option<usize>>,
    /// Upper and lower point of each piece, the lower one row further down.
    pub pieces: Vec<(usize, usize)>,
    /// The ends of each point's pieces in the row above and in the row below, one for each piece.
    pub above: Vec<Vec<usize>>,
    pub below: Vec<Vec<usize>>,
}

pub fn count_points(merged: &[MergedEdge], rows: &[usize]) -> usize {
    let pass_points: usize = merged.iter().map(|each| rows[each.edge.to] - rows[each.edge.from] - 1).sum();
    rows.len() + pass_points
}

pub fn place_points(merged: &[MergedEdge], rows: &[usize]) -> Layout {
    let mut row_of = rows.to_vec();
    let mut edge_of = vec![None; rows.len()];
    let mut pieces = Vec::new();
    for &MergedEdge { edge, number, .. } in merged {
        let mut upper = edge.from;
        for row in rows[edge.from] + 1..rows[edge.to] {
            let point = row_of.len();
            row_of.push(row);
            edge_of.push(Some(number));
            pieces.push((upper, point));
            upper = point;
        }
        pieces.push((upper, edge.to));
    }
    let mut above = vec![Vec::new(); row_of.len()];
    let mut below = vec![Vec::new(); row_of.len()];
    for &(upper, lower) in &pieces {
        above[lower].push(upper);
        below[upper].push(lower);
    }
    Layout { row_count: row_count(rows), row_of, edge_of, pieces, above, below }
}

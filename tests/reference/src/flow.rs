//! The dual of the row problem: a flow that gives each step its weight in minus its weight out,
//! with the most gap carried, by successive shortest paths from all steps with supply at once.

use crate::table::Edge;

const FAR: i64 = i64::MAX / 2;

/// One flow an edge. The edges form no loop.
pub fn find_flow(steps: usize, edges: &[Edge]) -> Vec<i64> {
    let mut flow = vec![0; edges.len()];
    let mut missing = balance_due(steps, edges);
    while let Some(path) = shortest_path(edges, &flow, &missing) {
        let mut amount = missing[path.last].min(-missing[path.first]);
        for &(edge, forward) in &path.arcs {
            if !forward {
                amount = amount.min(flow[edge]);
            }
        }
        for &(edge, forward) in &path.arcs {
            flow[edge] += if forward { amount } else { -amount };
        }
        missing[path.first] += amount;
        missing[path.last] -= amount;
    }
    flow
}

/// For each step, weight in minus weight out: what flow in minus flow out has to be.
pub fn balance_due(steps: usize, edges: &[Edge]) -> Vec<i64> {
    let mut due = vec![0; steps];
    for edge in edges {
        due[edge.to] += i64::from(edge.weight);
        due[edge.from] -= i64::from(edge.weight);
    }
    due
}

struct Path {
    first: usize,
    last: usize,
    /// Edges passed, and whether in their own direction.
    arcs: Vec<(usize, bool)>,
}

/// From any step that still has to give to the nearest that still has to get.
/// An edge costs minus its gap; against its direction, where it has flow, plus its gap.
fn shortest_path(edges: &[Edge], flow: &[i64], missing: &[i64]) -> Option<Path> {
    let (distance, via) = distances(edges, flow, missing);
    let last = (0..missing.len()).filter(|&step| missing[step] > 0).min_by_key(|&step| distance[step])?;
    let mut arcs = Vec::new();
    let mut first = last;
    while let Some((edge, forward)) = via[first] {
        arcs.push((edge, forward));
        first = if forward { edges[edge].from } else { edges[edge].to };
    }
    Some(Path { first, last, arcs })
}

type Via = Vec<Option<(usize, bool)>>;

fn distances(edges: &[Edge], flow: &[i64], missing: &[i64]) -> (Vec<i64>, Via) {
    let mut distance: Vec<i64> = missing.iter().map(|&due| if due < 0 { 0 } else { FAR }).collect();
    let mut via = vec![None; missing.len()];
    let mut changed = true;
    while changed {
        changed = false;
        for (index, edge) in edges.iter().enumerate() {
            let gap = i64::from(edge.gap);
            if distance[edge.from] < FAR && distance[edge.from] - gap < distance[edge.to] {
                distance[edge.to] = distance[edge.from] - gap;
                via[edge.to] = Some((index, true));
                changed = true;
            }
            if flow[index] > 0 && distance[edge.to] < FAR && distance[edge.to] + gap < distance[edge.from] {
                distance[edge.from] = distance[edge.to] + gap;
                via[edge.from] = Some((index, false));
                changed = true;
            }
        }
    }
    (distance, via)
}

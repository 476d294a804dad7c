//! Rows of least total, each as low as such rows allow.

use crate::certificate;
use crate::flow::find_flow;
use crate::table::Edge;

/// The edges form no loop. The certificate is checked on every answer.
pub fn find_rows(steps: usize, edges: &[Edge]) -> Vec<usize> {
    let flow = find_flow(steps, edges);
    let rows = lowest_rows(steps, edges, &flow);
    if let Err(fault) = certificate::check(steps, edges, &flow, &rows) {
        panic!("the reference's own rows fail: {fault}");
    }
    rows
}

/// Rows are of least total where each edge keeps its gap and each edge with flow is tight.
/// From all rows 0, a row grows only where one of these two forces it.
pub fn lowest_rows(steps: usize, edges: &[Edge], flow: &[i64]) -> Vec<usize> {
    let mut rows = vec![0; steps];
    let mut changed = true;
    while changed {
        changed = false;
        for (edge, &carried) in edges.iter().zip(flow) {
            let gap = edge.gap as usize;
            if rows[edge.to] < rows[edge.from] + gap {
                rows[edge.to] = rows[edge.from] + gap;
                changed = true;
            }
            if carried > 0 && rows[edge.from] + gap < rows[edge.to] {
                rows[edge.from] = rows[edge.to] - gap;
                changed = true;
            }
        }
    }
    rows
}

pub fn total(edges: &[Edge], rows: &[usize]) -> u64 {
    edges.iter().map(|edge| u64::from(edge.weight) * (rows[edge.to] - rows[edge.from]) as u64).sum()
}

pub fn row_count(rows: &[usize]) -> usize {
    rows.iter().max().map_or(0, |highest| highest + 1)
}

//! Why rows are the answer, checked without trust in how they were found.

use crate::flow::balance_due;
use crate::table::Edge;

/// Feasible rows and a balanced flow on tight edges only have equal value, so the rows are of
/// least total. All rows of least total keep every edge with flow tight; so where each step is
/// held, by a chain of such bounds from row 0, none of them is lower anywhere.
pub fn check(steps: usize, edges: &[Edge], flow: &[i64], rows: &[usize]) -> Result<(), &'static str> {
    if !edges.iter().all(|edge| length(edge, rows) >= i64::from(edge.gap)) {
        return Err("a gap is broken");
    }
    if flow.iter().any(|&carried| carried < 0) {
        return Err("a flow is negative");
    }
    if balance_of(steps, edges, flow) != balance_due(steps, edges) {
        return Err("the flow is not balanced");
    }
    if edges.iter().zip(flow).any(|(edge, &carried)| carried > 0 && !is_tight(edge, rows)) {
        return Err("flow on a loose edge");
    }
    if held_steps(edges, flow, rows).contains(&false) {
        return Err("a step could be lower");
    }
    Ok(())
}

fn length(edge: &Edge, rows: &[usize]) -> i64 {
    rows[edge.to] as i64 - rows[edge.from] as i64
}

fn is_tight(edge: &Edge, rows: &[usize]) -> bool {
    length(edge, rows) == i64::from(edge.gap)
}

fn balance_of(steps: usize, edges: &[Edge], flow: &[i64]) -> Vec<i64> {
    let mut balance = vec![0; steps];
    for (edge, &carried) in edges.iter().zip(flow) {
        balance[edge.to] += carried;
        balance[edge.from] -= carried;
    }
    balance
}

/// Held: in row 0; at the head of a tight edge with a held tail; or at the tail of an edge with
/// flow and a held head.
fn held_steps(edges: &[Edge], flow: &[i64], rows: &[usize]) -> Vec<bool> {
    let mut held: Vec<bool> = rows.iter().map(|&row| row == 0).collect();
    let mut changed = true;
    while changed {
        changed = false;
        for (edge, &carried) in edges.iter().zip(flow) {
            if held[edge.from] && !held[edge.to] && is_tight(edge, rows) {
                held[edge.to] = true;
                changed = true;
            }
            if held[edge.to] && !held[edge.from] && carried > 0 {
                held[edge.from] = true;
                changed = true;
            }
        }
    }
    held
}

//! Soft edges kept or turned, by a search for each.

use crate::loops::lowest_on_loop;
use crate::merged::{edges_of, merge, MergedEdge};
use crate::refusal::Refusal;
use crate::rows::find_rows;
use crate::table::{Edge, Table, TableEdge};

/// The edges as kept or turned: one for each edge of the table, at its number.
#[derive(Clone, PartialEq, Eq, Debug)]
pub struct Settled {
    pub edges: Vec<Edge>,
    pub turned: Vec<bool>,
}

/// Loops of must edges are refused. All must edges stand from the start; soft ones come in table order, and only those
/// that are kept stand for the ones after them.
pub fn settle(steps: usize, edges: &[TableEdge]) -> Result<Settled, Refusal> {
    let mut standing = must_edges(edges);
    if let Some(step) = lowest_on_loop(steps, &standing) {
        return Err(Refusal::Loop(step));
    }
    let mut settled = Settled { edges: Vec::new(), turned: Vec::new() };
    for &TableEdge { edge, soft } in edges {
        let turned = soft && leads(&standing, edge.to, edge.from);
        if soft && !turned {
            standing.push(edge);
        }
        settled.edges.push(if turned { turn(edge) } else { edge });
        settled.turned.push(turned);
    }
    assert_eq!(lowest_on_loop(steps, &settled.edges), None, "the reference's own edges form a loop");
    Ok(settled)
}

/// A table's edges as kept or turned, the merged edges that are drawn for them, and the row of each step.
pub struct Placed {
    pub settled: Settled,
    pub merged: Vec<MergedEdge>,
    pub rows: Vec<usize>,
}

/// Rows are found for the merged edges. A library that finds them for the table's edges has to come to the same ones.
pub fn place_table(table: &Table) -> Result<Placed, Refusal> {
    let steps = table.steps.len();
    let settled = settle(steps, &table.edges)?;
    let merged = merge(&table.edges, &settled);
    let rows = find_rows(steps, &edges_of(&merged));
    Ok(Placed { settled, merged, rows })
}

pub fn rows_of_table(table: &Table) -> Result<Vec<usize>, Refusal> {
    place_table(table).map(|placed| placed.rows)
}

pub fn must_edges(edges: &[TableEdge]) -> Vec<Edge> {
    edges.iter().filter(|edge| !edge.soft).map(|edge| edge.edge).collect()
}

/// The ends exchanged and nothing else.
pub fn turn(edge: Edge) -> Edge {
    Edge { from: edge.to, to: edge.from, ..edge }
}

/// Whether edges lead from one step to another.
fn leads(edges: &[Edge], start: usize, goal: usize) -> bool {
    let mut met = vec![start];
    let mut next = 0;
    while let Some(&step) = met.get(next) {
        for edge in edges.iter().filter(|edge| edge.from == step) {
            if !met.contains(&edge.to) {
                met.push(edge.to);
            }
        }
        next += 1;
    }
    met.contains(&goal)
}

//! Soft edges kept or turned, with a switch at each place where a plausible mistake can be made.

use reference::loops::lowest_on_loop;
use reference::refusal::Refusal;
use reference::soft::{must_edges, turn, Settled};
use reference::table::{Edge, TableEdge, OLD_LIMITS};

use crate::fault::on;
use crate::wrong_rows;

/// The edges that are drawn, which the row finder then judges for loops; of must edges with a loop these alone.
pub fn settle(steps: usize, edges: &[TableEdge]) -> Settled {
    let unturned = |edges: Vec<Edge>| Settled { turned: vec![false; edges.len()], edges };
    let must = must_edges(edges);
    let must_loop = lowest_on_loop(steps, &must).is_some();
    if on("soft-loop-11") || on("soft-loop-step") && must_loop {
        return unturned(edges.iter().map(|edge| edge.edge).collect());
    }
    if must_loop {
        return unturned(must);
    }
    let turned = turned_edges(steps, edges);
    let lay = |(edge, &turned): (&TableEdge, &bool)| if turned { spoilt_turn(edge.edge) } else { edge.edge };
    let laid = edges.iter().zip(&turned).map(lay).collect();
    Settled { edges: laid, turned }
}

/// Which edges are turned. Edges that stand from the start stand twice once they are met, which does not matter.
fn turned_edges(steps: usize, edges: &[TableEdge]) -> Vec<bool> {
    let at_start = |edge: &&TableEdge| (!edge.soft || on("soft-later-too")) && !on("soft-must-in-turn");
    let mut standing: Vec<Edge> = edges.iter().filter(at_start).map(|edge| edge.edge).collect();
    let mut places: Vec<usize> = (0..edges.len()).collect();
    if on("soft-from-last") {
        places.reverse();
    }
    if on("soft-at-last") {
        places.sort_by_key(|&at| last_like(edges, at));
    }
    let mut turned = vec![false; edges.len()];
    for at in places {
        let TableEdge { edge, soft } = edges[at];
        turned[at] = soft && (leads(steps, &standing, edge.to, edge.from) || on("soft-all-turned"));
        let stands = !turned[at] || on("soft-turned-stands");
        if stands && !on("soft-against-must") {
            standing.push(edge);
        }
    }
    turned
}

/// The last edge with the same ends and firmness.
fn last_like(edges: &[TableEdge], at: usize) -> usize {
    let key = |at: usize| (edges[at].edge.from, edges[at].edge.to, edges[at].soft);
    (at..edges.len()).rev().find(|&other| key(other) == key(at)).unwrap_or(at)
}

/// Whether edges lead from one step to another: a set of steps that grows by an edge's length in each round.
fn leads(steps: usize, edges: &[Edge], start: usize, goal: usize) -> bool {
    let rounds = if on("soft-short-loops") {
        1
    } else if on("soft-long-loops") {
        9
    } else {
        steps
    };
    let seen = if on("soft-old-steps") { OLD_LIMITS.steps as usize } else { steps };
    let mut met = 1u128 << start;
    for _ in 0..rounds {
        let next = edges.iter().filter(|edge| edge.from.max(edge.to) < seen && met >> edge.from & 1 == 1);
        met = next.fold(met, |met, edge| met | 1 << edge.to);
    }
    met >> goal & 1 == 1
}

fn spoilt_turn(edge: Edge) -> Edge {
    let turned = turn(edge);
    if on("soft-gap-lost") {
        Edge { gap: 1, ..turned }
    } else if on("soft-weight-lost") {
        Edge { weight: 0, ..turned }
    } else {
        turned
    }
}

pub fn rows(steps: usize, settled: &Settled) -> Result<Vec<usize>, Refusal> {
    if on("soft-turned-loose") {
        let kept = settled.edges.iter().zip(&settled.turned).filter(|(_, &turned)| !turned);
        return wrong_rows::rows(steps, &kept.map(|(edge, _)| *edge).collect::<Vec<_>>());
    }
    wrong_rows::rows(steps, &settled.edges)
}

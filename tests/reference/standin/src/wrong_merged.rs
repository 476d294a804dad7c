//! Repeated edges joined, with a switch at each place where a plausible mistake can be made.

use std::collections::BTreeSet;

use reference::merged::MergedEdge;
use reference::points::Layout;
use reference::soft::Settled;
use reference::table::{Edge, Table, TableEdge, OLD_LIMITS};

use crate::fault::{any_on, on, on_with};

/// A merged edge, and the last edge that went to it.
struct Group {
    merged: MergedEdge,
    last: usize,
}

/// Each edge goes to the first before it that it is joined with, if there is one.
pub fn merge(edges: &[TableEdge], settled: &Settled) -> Vec<MergedEdge> {
    let mut groups: Vec<Group> = Vec::new();
    for (number, &edge) in settled.edges.iter().enumerate() {
        match groups.iter_mut().find(|group| joins(edges, settled, group, number)) {
            Some(Group { merged, last }) => {
                merged.edge.gap = merged.edge.gap.max(edge.gap);
                merged.edge.weight += edge.weight;
                merged.count += 1;
                *last = number;
            }
            None => groups.push(Group { merged: MergedEdge { edge, number, count: 1 }, last: number }),
        }
    }
    reorder(edges, &mut groups);
    groups.into_iter().map(|group| group.merged).collect()
}

fn joins(edges: &[TableEdge], settled: &Settled, group: &Group, number: usize) -> bool {
    let (known, edge) = (&edges[group.merged.number], &edges[number]);
    let (laid, other) = (&settled.edges[group.merged.number], &settled.edges[number]);
    let same_ends = (laid.from, laid.to) == (other.from, other.to);
    let equal = match () {
        _ if on("merged-never") => false,
        _ if on("merged-any-firmness") => ends(known) == ends(edge),
        _ if on("merged-as-turned") => same_ends && known.soft == edge.soft,
        _ if on("merged-as-drawn") => same_ends,
        _ if on("merged-ends-64") => key_64(known) == key_64(edge),
        _ => ends(known) == ends(edge) && known.soft == edge.soft,
    };
    let left_out = on("merged-neighbours") && group.last + 1 != number
        || on("merged-pairs") && group.merged.count == 2
        || on("merged-equal-gap") && known.edge.gap != edge.edge.gap
        || on("merged-equal-weight") && known.edge.weight != edge.edge.weight
        || on("merged-no-weight-0") && edge.edge.weight == 0
        || on("merged-must-only") && edge.soft
        || on("merged-soft-only") && !edge.soft
        || on("merged-turned-apart") && settled.turned[number]
        || on("merged-kept-apart") && edge.soft && !settled.turned[number]
        || on("merged-old-edges") && number >= OLD_LIMITS.edges as usize
        || on("merged-number-8-bits") && number > u8::MAX as usize;
    equal && !left_out
}

fn ends(edge: &TableEdge) -> (usize, usize) {
    (edge.edge.from, edge.edge.to)
}

/// How many merged edges a table has.
pub fn count_merged(table: &Table) -> usize {
    let keys: BTreeSet<_> = table.edges.iter().map(|edge| (ends(edge), edge.soft)).collect();
    keys.len()
}

/// Ends packed as if there were no more steps than there were once.
fn key_64(edge: &TableEdge) -> (usize, bool) {
    (edge.edge.from * OLD_LIMITS.steps as usize + edge.edge.to, edge.soft)
}

/// Merged edges in another order.
fn reorder(edges: &[TableEdge], groups: &mut [Group]) {
    let first = |group: &Group| &edges[group.merged.number];
    match () {
        _ if on("merged-place-last") => groups.sort_by_key(|group| group.last),
        _ if on("merged-by-ends") => groups.sort_by_key(|group| ends(first(group))),
        _ if on("merged-must-first") => groups.sort_by_key(|group| first(group).soft),
        _ if on("merged-several-first") => groups.sort_by_key(|group| group.merged.count == 1),
        _ => {}
    }
}

/// Each piece, or each end of one, as often as its merged edge has edges.
pub fn repeat_pieces(layout: &mut Layout, merged: &[MergedEdge], rows: &[usize]) {
    let lengths = merged.iter().flat_map(|each| vec![each.count; rows[each.edge.to] - rows[each.edge.from]]);
    let each: Vec<((usize, usize), usize)> = layout.pieces.iter().copied().zip(lengths).collect();
    if on("merged-crossings-each") {
        layout.pieces = each.iter().flat_map(|&(piece, count)| vec![piece; count]).collect();
    }
    if on("merged-means-each") {
        for &((upper, lower), count) in &each {
            layout.above[lower].extend(vec![upper; count - 1]);
            layout.below[upper].extend(vec![lower; count - 1]);
        }
    }
}

/// Points numbered as if each edge had its own: those of a merged edge are its first edge's.
pub fn number_by_edge(layout: &Layout, settled: &Settled, rows: &[usize]) -> Vec<usize> {
    let own = |edge: &Edge| rows[edge.to] - rows[edge.from] - 1;
    let before = |number: usize| rows.len() + settled.edges[..number].iter().map(own).sum::<usize>();
    let number = |point: usize| match layout.edge_of[point] {
        Some(edge) => before(edge) + layout.edge_of[..point].iter().filter(|&&other| other == Some(edge)).count(),
        None => point,
    };
    (0..layout.row_of.len()).map(number).collect()
}

/// Edges with the same ends as one, for rows or for the total, with another gap or another weight than it is to have.
pub fn one_of_parallel(start: &str, edges: &[Edge]) -> Option<Vec<Edge>> {
    if !any_on(start) {
        return None;
    }
    let mut groups: Vec<Vec<Edge>> = Vec::new();
    for edge in edges {
        match groups.iter_mut().find(|group| (group[0].from, group[0].to) == (edge.from, edge.to)) {
            Some(group) => group.push(*edge),
            None => groups.push(vec![*edge]),
        }
    }
    Some(groups.iter().map(|group| one_of(start, group)).collect())
}

fn one_of(start: &str, group: &[Edge]) -> Edge {
    let chosen = |rest| on_with(start, rest);
    let (first, last) = (group[0], group[group.len() - 1]);
    let gaps = || group.iter().map(|edge| edge.gap);
    let weights = || group.iter().map(|edge| edge.weight);
    let gap = match () {
        _ if chosen("gap-first") => first.gap,
        _ if chosen("gap-last") => last.gap,
        _ if chosen("gap-smallest") => gaps().min().unwrap_or(0),
        _ if chosen("gaps-added") => gaps().sum(),
        _ => gaps().max().unwrap_or(0),
    };
    let weight = match () {
        _ if chosen("weight-first") => first.weight,
        _ if chosen("weight-last") => last.weight,
        _ if chosen("weight-largest") => weights().max().unwrap_or(0),
        _ if chosen("weight-at-most-255") => weights().sum::<u32>().min(255),
        _ if chosen("weight-8-bits") => weights().sum::<u32>() & 0xff,
        _ if chosen("weight-16-bits") => weights().sum::<u32>() & 0xffff,
        _ => weights().sum(),
    };
    Edge { gap, weight, ..first }
}

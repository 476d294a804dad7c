//! Repeated edges joined: those with equal ends, as the table has them, and equal firmness are drawn as one line.

use std::collections::BTreeMap;

use crate::soft::Settled;
use crate::table::{Edge, TableEdge};

#[derive(Clone, Copy, PartialEq, Eq, Debug)]
pub struct MergedEdge {
    /// As it is laid, with the largest gap of its edges and their weights added.
    pub edge: Edge,
    /// The number of its first edge in the table.
    pub number: usize,
    /// How many edges it stands for.
    pub count: usize,
}

/// In the order of their first edges.
pub fn merge(edges: &[TableEdge], settled: &Settled) -> Vec<MergedEdge> {
    let mut groups: BTreeMap<_, Vec<usize>> = BTreeMap::new();
    for (number, &TableEdge { edge, soft }) in edges.iter().enumerate() {
        groups.entry((edge.from, edge.to, soft)).or_default().push(number);
    }
    let mut merged: Vec<MergedEdge> = groups.values().map(|numbers| merge_group(numbers, settled)).collect();
    merged.sort_by_key(|each| each.number);
    merged
}

/// The numbers rise, so the first is that of the first edge.
fn merge_group(numbers: &[usize], settled: &Settled) -> MergedEdge {
    let number = numbers[0];
    let turned = |&number: &usize| settled.turned[number];
    assert!(numbers.iter().map(turned).all(|each| each == settled.turned[number]), "equal edges turned and kept");
    let laid = || numbers.iter().map(|&number| settled.edges[number]);
    let gap = laid().map(|edge| edge.gap).max().expect("a group has an edge");
    let weight = laid().map(|edge| edge.weight).sum();
    MergedEdge { edge: Edge { gap, weight, ..settled.edges[number] }, number, count: numbers.len() }
}

pub fn edges_of(merged: &[MergedEdge]) -> Vec<Edge> {
    merged.iter().map(|each| each.edge).collect()
}

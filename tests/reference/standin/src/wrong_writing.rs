//! What the shortest form says, with a switch at each place where a plausible mistake can be made.

use reference::loops::lowest_on_loop;
use reference::points::{count_points, MAX_POINTS};
use reference::refusal::Refusal;
use reference::shortest::{draft_of, said, Said};
use reference::soft::{must_edges, place_table, settle, Placed};
use reference::table::{read_table, Kind, Table, TableEdge, LIMITS};

use crate::fault::on;
use crate::wrong_spelling::{in_edition_2, spell, widths};
use crate::wrong_table::read;

/// Of a table that is read by the old rule if it is a stored one.
pub fn shortest(call: &str, bytes: &[u8], stored: bool) -> Result<Vec<u8>, Refusal> {
    let table = read(call, bytes, stored)?;
    judge_too_much(&table)?;
    let mut said = said(bytes, &table);
    let has_soft = said.edges.iter().any(|edge| edge.soft);
    let as_it_came = on("write-copy")
        || on("convert-copy-soft") && has_soft
        || on("convert-copy-edition-1") && bytes[0] == 1
        || on("convert-copy-unless-long") && read_table(bytes).is_ok();
    if as_it_came {
        return Ok(bytes.to_vec());
    }
    for (_, spoil) in SPOILED.iter().filter(|(fault, _)| on(fault)) {
        spoil(&mut said);
    }
    let came_in_2 = in_edition_2(bytes);
    let edition_2 = said.edges.iter().any(|edge| edge.soft)
        || on("write-edition-2-always")
        || on("write-edition-2-kept") && came_in_2
        || on("write-edition-2-no-edge") && came_in_2 && said.edges.is_empty();
    let draft = draft_of(&said, edition_2);
    let came = widths(bytes, &draft_of(&said, came_in_2));
    Ok(spell(&draft, &came))
}

/// What other calls judge, and this one does not.
fn judge_too_much(table: &Table) -> Result<(), Refusal> {
    let steps = table.steps.len();
    if on("write-loop-11") {
        if let Some(step) = lowest_on_loop(steps, &must_edges(&table.edges)) {
            return Err(Refusal::Loop(step));
        }
    }
    if on("write-points-12") {
        if let Ok(Placed { merged, rows, .. }) = place_table(table) {
            if count_points(&merged, &rows) > MAX_POINTS {
                return Err(Refusal::TooManyPoints);
            }
        }
    }
    Ok(())
}

/// Changes to what is said.
const SPOILED: &[(&str, fn(&mut Said))] = &[
    ("write-name-cut", |said| said.steps.iter_mut().for_each(|(_, name)| name.truncate(name.len().max(2) - 1))),
    ("write-name-16-cut", |said| said.steps.iter_mut().for_each(|(_, name)| name.truncate(15))),
    ("write-name-longer", |said| said.steps.iter_mut().for_each(|(_, name)| lengthen(name))),
    ("write-name-of-first", |said| {
        let first = said.steps.first().map(|(_, name)| name.clone()).unwrap_or_default();
        said.steps.iter_mut().for_each(|(_, name)| name.clone_from(&first));
    }),
    ("write-tolerance-0", |said| said.steps.iter_mut().for_each(|(kind, _)| drop_zero(kind))),
    ("write-steps-swapped", |said| swap_last(&mut said.steps)),
    ("write-edges-swapped", |said| swap_last(&mut said.edges)),
    ("write-edges-sorted", |said| said.edges.sort_by_key(|edge| (edge.edge.from, edge.edge.to))),
    ("write-step-last", |said| repeat(&mut said.steps, LIMITS.steps as usize - 1)),
    ("write-edge-last", |said| repeat(&mut said.edges, LIMITS.edges as usize - 1)),
    ("write-edges-joined", |said| said.edges.dedup()),
    ("write-edges-merged", |said| said.edges = merged(&said.edges)),
    ("write-must-first", |said| said.edges.sort_by_key(|edge| edge.soft)),
    ("write-weight-0-lost", |said| said.edges.retain(|edge| edge.edge.weight > 0)),
    ("write-turned", |said| {
        let settled = settle(said.steps.len(), &said.edges).map_or_else(|_| Vec::new(), |settled| settled.edges);
        said.edges.iter_mut().zip(settled).for_each(|(edge, laid)| edge.edge = laid);
    }),
    ("write-edition-1-always", |said| look_at(said, |_| &[])),
    ("write-edition-by-first", |said| look_at(said, |edges| &edges[..edges.len().min(1)])),
    ("write-edition-by-last", |said| look_at(said, |edges| &edges[edges.len().saturating_sub(1)..])),
    ("write-edition-not-first", |said| look_at(said, |edges| &edges[edges.len().min(1)..])),
    ("write-edition-not-last", |said| look_at(said, |edges| &edges[..edges.len().saturating_sub(1)])),
    ("write-all-soft", |said| {
        let any = said.edges.iter().any(|edge| edge.soft);
        said.edges.iter_mut().for_each(|edge| edge.soft = any);
    }),
    ("write-edge-128-must", |said| said.edges.iter_mut().skip(128).for_each(|edge| edge.soft = false)),
];

/// Firmness is lost where these edges are all must.
fn look_at(said: &mut Said, some: fn(&[TableEdge]) -> &[TableEdge]) {
    let kept = some(&said.edges).iter().any(|edge| edge.soft);
    said.edges.iter_mut().for_each(|edge| edge.soft &= kept);
}

/// Repeated edges as one, with the largest gap and as much of their weights as an edge can have.
fn merged(edges: &[TableEdge]) -> Vec<TableEdge> {
    let mut merged: Vec<TableEdge> = Vec::new();
    let key = |edge: &TableEdge| (edge.edge.from, edge.edge.to, edge.soft);
    for edge in edges {
        match merged.iter_mut().find(|known| key(known) == key(edge)) {
            Some(known) => {
                known.edge.gap = known.edge.gap.max(edge.edge.gap);
                known.edge.weight = (known.edge.weight + edge.edge.weight).min(*LIMITS.weight.end());
            }
            None => merged.push(*edge),
        }
    }
    merged
}

/// The item before stands at this place too.
fn repeat<T: Clone>(items: &mut [T], at: usize) {
    if at < items.len() {
        items[at] = items[at - 1].clone();
    }
}

fn lengthen(name: &mut Vec<u8>) {
    let len = (name.len() + 1).min(*LIMITS.name_len.end() as usize);
    name.resize(len, b'x');
}

/// An adjustment of tolerance 0 taken for a check.
fn drop_zero(kind: &mut Kind) {
    if *kind == (Kind::Adjustment { tolerance: 0 }) {
        *kind = Kind::Check;
    }
}

fn swap_last<T>(items: &mut [T]) {
    if let [.., first, second] = items {
        std::mem::swap(first, second);
    }
}

//! The row finder, the record form and their wrong variants.

use reference::loops::lowest_on_loop;
use reference::records::{rows_of_edges, rows_of_records, Record};
use reference::refusal::Refusal;
use reference::rows::{find_rows, lowest_rows, row_count};
use reference::table::{Edge, LIMITS, OLD_LIMITS};

use crate::fault::on;
use crate::wrong_merged::one_of_parallel;

pub fn rows(steps: usize, edges: &[Edge]) -> Result<Vec<usize>, Refusal> {
    if on("refuse-11-always") {
        return Err(Refusal::Loop(0));
    }
    let most = if on("rows-old-edges") { OLD_LIMITS.edges as usize } else { edges.len() };
    let edges = &edges[..edges.len().min(most)];
    match rows_of_edges(steps, edges) {
        Err(Refusal::Loop(step)) => wrong_loop(steps, edges, step),
        right => right.map(|right| wrong_rows(edges, right)),
    }
}

fn wrong_loop(steps: usize, edges: &[Edge], step: usize) -> Result<Vec<usize>, Refusal> {
    let on_loop = |step: usize| reaches(edges, steps, step)[step];
    let named = if on("loop-highest") {
        (0..steps).rev().find(|&step| on_loop(step)).unwrap()
    } else if on("loop-leads-in") {
        (0..steps)
            .find(|&start| {
                (0..steps).any(|step| on_loop(step) && (start == step || reaches(edges, steps, start)[step]))
            })
            .unwrap()
    } else if on("loop-old-steps") {
        let old = |edge: &&Edge| edge.from.max(edge.to) < OLD_LIMITS.steps as usize;
        let seen: Vec<Edge> = edges.iter().filter(old).copied().collect();
        return lowest_on_loop(steps, &seen).map_or_else(|| Ok(vec![0; steps]), |step| Err(Refusal::Loop(step)));
    } else if on("loop-missed") && (0..steps).filter(|&step| on_loop(step)).count() > 6 {
        return Ok(vec![0; steps]);
    } else if on("loop-no-step") {
        0
    } else {
        step
    };
    Err(Refusal::Loop(named))
}

fn reaches(edges: &[Edge], steps: usize, start: usize) -> Vec<bool> {
    let mut reached = vec![false; steps];
    let mut open = vec![start];
    while let Some(step) = open.pop() {
        for edge in edges.iter().filter(|edge| edge.from == step) {
            if !std::mem::replace(&mut reached[edge.to], true) {
                open.push(edge.to);
            }
        }
    }
    reached
}

fn wrong_rows(edges: &[Edge], mut rows: Vec<usize>) -> Vec<usize> {
    let steps = rows.len();
    let changed = |change: fn(&Edge) -> Edge| find_rows(steps, &edges.iter().map(change).collect::<Vec<_>>());
    if on("rows-high") {
        lowest_rows(steps, edges, &vec![0; edges.len()])
    } else if on("rows-one-part") {
        let part = part_of_first(steps, edges);
        rows.iter().zip(part).map(|(&row, first)| if first { row } else { row + 1 }).collect()
    } else if on("rows-endless") && edges.iter().filter(|edge| edge.weight == 0).count() > 3 {
        loop {
            std::hint::spin_loop();
        }
    } else if on("rows-not-least") {
        rows.iter().map(|&row| 2 * row).collect()
    } else if on("rows-least-not-lowest") {
        let turned: Vec<Edge> = edges.iter().map(|edge| Edge { from: edge.to, to: edge.from, ..*edge }).collect();
        let last = row_count(&rows).saturating_sub(1);
        find_rows(steps, &turned).iter().map(|&row| last - row).collect()
    } else if on("rows-broken") {
        vec![0; steps]
    } else if on("rows-zero-weight-loose") {
        let bound: Vec<Edge> = edges.iter().filter(|edge| edge.weight > 0).copied().collect();
        find_rows(steps, &bound)
    } else if on("rows-parallel-once") {
        find_rows(steps, &weigh_once(edges))
    } else if let Some(joined) = one_of_parallel("rows-merged-", edges) {
        find_rows(steps, &joined)
    } else if on("rows-weights-ignored") {
        changed(|edge| Edge { weight: 1, ..*edge })
    } else if on("rows-gaps-ignored") {
        changed(|edge| Edge { gap: 1, ..*edge })
    } else if on("rows-from-1") {
        rows.iter().map(|&row| row + 1).collect()
    } else if on("rows-swapped-last") && steps > 1 {
        rows.swap(steps - 2, steps - 1);
        rows
    } else {
        rows
    }
}

/// Of edges with the same ends, all but the first lose their weight.
fn weigh_once(edges: &[Edge]) -> Vec<Edge> {
    let mut kept: Vec<Edge> = Vec::new();
    for edge in edges {
        let known = kept.iter().any(|other| (other.from, other.to) == (edge.from, edge.to));
        kept.push(Edge { weight: if known { 0 } else { edge.weight }, ..*edge });
    }
    kept
}

fn part_of_first(steps: usize, edges: &[Edge]) -> Vec<bool> {
    let mut part = vec![false; steps];
    if let Some(first) = part.first_mut() {
        *first = true;
    }
    for _ in 0..steps {
        for edge in edges {
            let joined = part[edge.from] || part[edge.to];
            (part[edge.from], part[edge.to]) = (joined, joined);
        }
    }
    part
}

pub fn records(steps: usize, records: &[Record]) -> Result<Vec<usize>, Refusal> {
    if on("records-old-steps") && steps > OLD_LIMITS.steps as usize {
        return Err(Refusal::TooManySteps);
    }
    if on("records-old-edges") && steps <= LIMITS.steps as usize && records.len() > OLD_LIMITS.edges as usize {
        return Err(Refusal::TooManyEdges);
    }
    misjudged(steps, records)
}

fn misjudged(steps: usize, records: &[Record]) -> Result<Vec<usize>, Refusal> {
    let out_of_range = |record: &Record| !(1..=4).contains(&record[2]) || record[3] > 255;
    let counts_fit = steps <= LIMITS.steps as usize && records.len() <= LIMITS.edges as usize;
    if on("records-6-first") && counts_fit {
        let first = records.iter().position(out_of_range);
        let faulty = rows_of_records(steps, &records[..first.unwrap_or(records.len())]);
        if first.is_some() && !matches!(faulty, Err(Refusal::BadEnd)) {
            return Err(Refusal::OutOfRange);
        }
    }
    if on("records-8-first") && records.len() > LIMITS.edges as usize {
        return Err(Refusal::TooManyEdges);
    }
    if on("records-ranges-last") && counts_fit {
        let bad_end = |record: &Record| record[0] >= steps || record[1] >= steps || record[0] == record[1];
        if records.iter().any(bad_end) {
            return Err(Refusal::BadEnd);
        }
    }
    let cut = |bits: u32| -> Vec<Record> {
        records.iter().map(|record| record.map(|number| number & ((1 << bits) - 1))).collect()
    };
    if on("records-32-bits") {
        judged(steps, &cut(32))
    } else if on("records-8-bits") {
        judged(steps, &cut(8))
    } else if on("records-one-more") && records.len() == LIMITS.edges as usize + 1 {
        judged(steps, &records[1..])
    } else {
        judged(steps, records)
    }
}

fn judged(steps: usize, records: &[Record]) -> Result<Vec<usize>, Refusal> {
    match rows_of_records(steps, records) {
        Ok(_) | Err(Refusal::Loop(_)) => {
            let edge = |&[from, to, gap, weight]: &Record| Edge { from, to, gap: gap as u32, weight: weight as u32 };
            rows(steps, &records.iter().map(edge).collect::<Vec<_>>())
        }
        refused => refused,
    }
}

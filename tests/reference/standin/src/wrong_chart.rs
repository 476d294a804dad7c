//! The whole chart and its wrong variants.

use reference::chart::Chart;
use reference::merged::MergedEdge;
use reference::points::{count_points, place_points, Layout, MAX_POINTS};
use reference::records::rows_of_edges;
use reference::refusal::Refusal;
use reference::soft::Settled;
use reference::table::{read_table, Edge, Table};

use crate::fault::on;
use crate::wrong_merged::{merge, number_by_edge, one_of_parallel, repeat_pieces};
use crate::wrong_order::find_order;
use crate::wrong_soft;

pub const SAMPLE: &[u8] = b"\x01\x04\x02\x1e\x04warm\x00\x04lock\x00\x05sweep\x01\x32\x05level\x04\
\x00\x01\x01\x01\x01\x02\x02\x03\x00\x03\x01\x01\x03\x02\x01\x05";

/// Wrong rows are handed out beside the points of the right ones, so that every variant has a chart.
pub fn draw(table: &Table) -> Result<Chart, Refusal> {
    if on("refuse-12-always") {
        return Err(Refusal::TooManyPoints);
    }
    if on("sample-always") {
        return reference::chart::draw_chart(&read_table(SAMPLE)?);
    }
    let settled = wrong_soft::settle(table.steps.len(), &table.edges);
    let handed_out = wrong_soft::rows(table.steps.len(), &settled)?;
    let rows = rows_of_edges(table.steps.len(), &settled.edges)?;
    let merged = merge(&table.edges, &settled);
    let most = if on("points-1025") {
        MAX_POINTS + 1
    } else if on("points-1023") {
        MAX_POINTS - 1
    } else {
        MAX_POINTS
    };
    let each: Vec<MergedEdge> = settled.edges.iter().map(|&edge| MergedEdge { edge, number: 0, count: 1 }).collect();
    let judged = if on("merged-12-before") { &each } else { &merged };
    if count_points(judged, &rows) > most {
        return Err(Refusal::TooManyPoints);
    }
    let mut layout = renumber(place_points(&merged, &rows), &settled.turned);
    repeat_pieces(&mut layout, &merged, &rows);
    let (mut order, crossings) = find_order(&layout);
    if on("merged-points-each") {
        let number = number_by_edge(&layout, &settled, &rows);
        order.iter_mut().flatten().for_each(|point| *point = number[*point]);
    }
    if on("merged-count-each") {
        layout.row_of.resize(count_points(&each, &rows), 0);
    }
    let total = total(&settled, &handed_out);
    Ok(Chart { total, rows: handed_out, turned: settled.turned, merged, layout, order, crossings, best_pass: 0 })
}

fn total(Settled { edges, turned }: &Settled, rows: &[usize]) -> u64 {
    if let Some(joined) = one_of_parallel("total-merged-", edges) {
        return reference::rows::total(&joined, rows);
    }
    let term = |(edge, &turned): (&Edge, &bool)| {
        let length = rows[edge.to].saturating_sub(rows[edge.from]) as u64;
        if on("total-of-kept") && turned {
            0
        } else if on("total-unweighted") {
            length
        } else if on("total-of-gaps") {
            u64::from(edge.weight * edge.gap)
        } else {
            u64::from(edge.weight) * length
        }
    };
    let total: u64 = edges.iter().zip(turned).map(term).sum();
    let cut = |bits: u32| total & ((1 << bits) - 1);
    match () {
        _ if on("total-19-bits") => cut(19),
        _ if on("total-24-bits") => cut(24),
        _ => total,
    }
}

/// Gives the pass points other numbers.
fn renumber(layout: Layout, turned: &[bool]) -> Layout {
    let mut points: Vec<usize> = (0..layout.row_of.len()).collect();
    if on("points-by-row") {
        points
            .sort_by_key(|&point| (layout.edge_of[point].map(|_| layout.row_of[point]), layout.edge_of[point], point));
    } else if on("points-rising-up") || on("points-turned-up") {
        let falls = |edge: usize| on("points-rising-up") || turned[edge];
        let place = |point: usize, edge| if falls(edge) { usize::MAX - point } else { point };
        points.sort_by_key(|&point| (layout.edge_of[point], layout.edge_of[point].map_or(point, |e| place(point, e))));
    } else if on("points-turned-last") {
        points.sort_by_key(|&point| (layout.edge_of[point].is_some_and(|edge| turned[edge]), point));
    }
    let mut number = vec![0; points.len()];
    for (new, &old) in points.iter().enumerate() {
        number[old] = new;
    }
    let ends =
        |list: &[Vec<usize>]| points.iter().map(|&old| list[old].iter().map(|&end| number[end]).collect()).collect();
    Layout {
        row_count: layout.row_count,
        row_of: points.iter().map(|&old| layout.row_of[old]).collect(),
        edge_of: points.iter().map(|&old| layout.edge_of[old]).collect(),
        pieces: layout.pieces.iter().map(|&(up, low)| (number[up], number[low])).collect(),
        above: ends(&layout.above),
        below: ends(&layout.below),
    }
}

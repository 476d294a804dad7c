//! The program `chart` of the stand-in, with its wrong variants.

use host::fault::on;
use host::wrong_chart::SAMPLE;
use host::wrong_table::{OLD_EDGES, OLD_STEPS};
use reference::bounds::longest_table;
use reference::chart::{draw_chart, draw_placed, Chart};
use reference::convert::convert_table;
use reference::listing::{list_chart, print_chart};
use reference::merged::MergedEdge;
use reference::order::{count_crossings, run_pass, start_order, PASSES};
use reference::points::Layout;
use reference::program::{judged_bytes, run, MAX_INPUT};
use reference::refusal::Refusal;
use reference::soft::{place_table, Placed};
use reference::table::{read_table, read_within, Table, OLD_LIMITS};

fn main() {
    run(|input| spoil(&input));
}

fn spoil(input: &[u8]) -> Vec<u8> {
    if on("print-sample-always") {
        return print_chart(SAMPLE);
    }
    if on("print-old-rule") {
        let converted = convert_table(input);
        return if converted.starts_with(b"refused") { converted } else { print_chart(&converted) };
    }
    let kept = [("print-old-steps", OLD_STEPS), ("print-old-edges", OLD_EDGES)];
    for (_, limits) in kept.iter().filter(|(fault, _)| on(fault)) {
        if let Err(refusal) = read_within(judged_bytes(input), limits) {
            return refusal.line();
        }
    }
    let most = if on("print-old-longest") { longest_table(&OLD_LIMITS, 2, false) } else { input.len() };
    let right = print_chart(&input[..input.len().min(most)]);
    let text = String::from_utf8_lossy(&right).into_owned();
    if on("print-blank-at-end") {
        return text.replace('\n', " \n").into_bytes();
    }
    if text.starts_with("refused") {
        return match text.trim_end() {
            line if on("print-no-newline") => line.into(),
            line if on("print-no-loop-step") && line.starts_with("refused 11") => b"refused 11\n".to_vec(),
            _ if on("print-whole-input") && input.len() > MAX_INPUT => b"refused 1\n".to_vec(),
            _ => right,
        };
    }
    spoil_listing(input)
}

fn spoil_listing(input: &[u8]) -> Vec<u8> {
    let table = read_table(input).unwrap();
    let drawn = if on("print-merged-never") { draw_each(&table) } else { draw_chart(&table) };
    let mut chart = match drawn {
        Ok(chart) => chart,
        Err(refusal) => return refusal.line(),
    };
    if on("print-point-number") {
        for (point, edge) in chart.layout.edge_of.iter_mut().enumerate() {
            *edge = edge.map(|_| point);
        }
        chart.turned = vec![false; chart.layout.edge_of.len()];
    }
    if on("print-caret-kept") {
        chart.turned = table.edges.iter().map(|edge| edge.soft).collect();
    }
    if on("print-bar-turned") {
        chart.turned.fill(false);
    }
    spoil_numbers(&table, &mut chart);
    if on("print-last-crossings") {
        chart.crossings = last_crossings(&chart.layout);
    }
    if on("print-steps-first") {
        for row in &mut chart.order {
            row.sort_by_key(|&point| chart.layout.edge_of[point].is_some());
        }
    }
    let mut listing = list_chart(input, &table, &chart);
    if on("print-merged-header") {
        let text = String::from_utf8_lossy(&listing);
        let start = |edges: usize| format!("chart {} {edges} ", table.steps.len());
        listing = text.replacen(&start(table.edges.len()), &start(chart.merged.len()), 1).into_bytes();
    }
    if on("print-row-byte") {
        return cut_rows(&listing);
    }
    listing
}

/// Each edge of the table drawn by itself.
fn draw_each(table: &Table) -> Result<Chart, Refusal> {
    let Placed { settled, rows, .. } = place_table(table)?;
    let each = |(number, &edge)| MergedEdge { edge, number, count: 1 };
    let merged = settled.edges.iter().enumerate().map(each).collect();
    draw_placed(Placed { settled, merged, rows })
}

/// Other numbers at the pass points, or other marks.
fn spoil_numbers(table: &Table, chart: &mut Chart) {
    let key = |number: usize| (table.edges[number].edge.from, table.edges[number].edge.to, table.edges[number].soft);
    let line = |number: usize| chart.merged.iter().position(|each| each.number == number).expect("a merged edge");
    let other = |number: usize| match () {
        _ if on("print-merged-last") => (0..table.edges.len()).rev().find(|&last| key(last) == key(number)).unwrap(),
        _ if on("print-merged-count") => line(number),
        _ if on("print-number-8-bits") => number & 0xff,
        _ => number,
    };
    let marks: Vec<bool> = match () {
        _ if on("print-merged-mark") => (0..table.edges.len())
            .map(|number| chart.merged.iter().any(|each| each.number == number) && chart.turned[line(number)])
            .collect(),
        _ => chart.turned.clone(),
    };
    let mut turned = marks.clone();
    for edge in chart.layout.edge_of.iter_mut().flatten() {
        turned[other(*edge)] = marks[*edge];
        *edge = other(*edge);
    }
    chart.turned = turned;
}

/// Of each number of a row its low byte.
fn cut_rows(listing: &[u8]) -> Vec<u8> {
    let text = String::from_utf8_lossy(listing);
    let cut = |line: &str| match line.split_once(' ') {
        Some((row, points)) if line.starts_with(|c: char| c.is_ascii_digit()) => {
            format!("{} {points}\n", row.parse::<usize>().unwrap() & 0xff)
        }
        _ => format!("{line}\n"),
    };
    text.lines().map(cut).collect::<String>().into_bytes()
}

/// The crossings after the last pass, whichever order was the best.
fn last_crossings(layout: &Layout) -> usize {
    let order = (0..PASSES).fold(start_order(layout), |order, pass| run_pass(layout, order, pass % 2 == 0));
    count_crossings(layout, &order)
}

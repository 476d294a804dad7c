//! Small charts, from edges written as rows of numbers.

use reference::chart::{draw_chart, Chart};
use reference::table::{read_table, Edge, Kind, TableEdge};
use reference::writer::{write_table, Draft};

/// From, to, gap, weight, and whether it is soft.
pub type Row = (usize, usize, u32, u32, bool);

pub fn table(steps: usize, rows: &[Row]) -> Vec<u8> {
    let edge = |&(from, to, gap, weight, soft): &Row| TableEdge { edge: Edge { from, to, gap, weight }, soft };
    let edges: Vec<TableEdge> = rows.iter().map(edge).collect();
    let firmness = edges.iter().map(|edge| u32::from(edge.soft)).collect();
    let steps = vec![(Kind::Check, vec![b's']); steps];
    write_table(&Draft { steps, edges: edges.iter().map(|edge| edge.edge).collect(), firmness: Some(firmness) })
}

pub fn draw(bytes: &[u8]) -> Chart {
    draw_chart(&read_table(bytes).expect("a table")).unwrap_or_else(|_| panic!("a chart"))
}

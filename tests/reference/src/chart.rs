//! The whole chart of a table, before any buffer is looked at.

use crate::merged::{edges_of, MergedEdge};
use crate::order::{find_order, Order};
use crate::points::{count_points, place_points, Layout, MAX_POINTS};
use crate::refusal::Refusal;
use crate::rows::total;
use crate::soft::{place_table, Placed};
use crate::table::{Edge, Table};

pub struct Chart {
    pub rows: Vec<usize>,
    /// Of each edge of the table, whether it was turned.
    pub turned: Vec<bool>,
    pub merged: Vec<MergedEdge>,
    pub total: u64,
    pub layout: Layout,
    pub order: Order,
    pub crossings: usize,
    /// The pass that gave the order; 0 for the start.
    pub best_pass: usize,
}

impl Chart {
    pub fn point_count(&self) -> usize {
        self.layout.row_of.len()
    }

    /// The points that there would be if each edge of the table were drawn by itself.
    pub fn points_by_edge(&self) -> usize {
        let length = |edge: &Edge| self.rows[edge.to] - self.rows[edge.from];
        self.rows.len() + self.merged.iter().map(|each| each.count * (length(&each.edge) - 1)).sum::<usize>()
    }

    /// Point numbers row by row, as handed out.
    pub fn listed_order(&self) -> Vec<u16> {
        self.order.concat().into_iter().map(|point| point as u16).collect()
    }
}

pub fn draw_chart(table: &Table) -> Result<Chart, Refusal> {
    draw_placed(place_table(table)?)
}

/// Points, order and crossings go by the merged edges, and so does the total, which is that of the table's edges too.
pub fn draw_placed(Placed { settled, merged, rows }: Placed) -> Result<Chart, Refusal> {
    if count_points(&merged, &rows) > MAX_POINTS {
        return Err(Refusal::TooManyPoints);
    }
    let total = total(&edges_of(&merged), &rows);
    let layout = place_points(&merged, &rows);
    let (order, crossings, best_pass) = find_order(&layout);
    Ok(Chart { rows, turned: settled.turned, merged, total, layout, order, crossings, best_pass })
}

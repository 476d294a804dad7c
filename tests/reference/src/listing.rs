//! What the program `chart` prints.

use crate::chart::{draw_chart, Chart};
use crate::program::judged_bytes;
use crate::rows::row_count;
use crate::table::{read_table, Kind, Table};

pub fn print_chart(input: &[u8]) -> Vec<u8> {
    let bytes = judged_bytes(input);
    let drawn = read_table(bytes).and_then(|table| draw_chart(&table).map(|chart| (table, chart)));
    match drawn {
        Ok((table, chart)) => list_chart(bytes, &table, &chart),
        Err(refusal) => refusal.line(),
    }
}

pub fn list_chart(bytes: &[u8], table: &Table, chart: &Chart) -> Vec<u8> {
    let (steps, edges) = (table.steps.len(), table.edges.len());
    let (total, crossings) = (chart.total, chart.crossings);
    let mut lines = format!("chart {steps} {edges} {} {total} {crossings}\n", row_count(&chart.rows)).into_bytes();
    for (number, row) in chart.order.iter().enumerate() {
        lines.extend(number.to_string().bytes());
        for &point in row {
            lines.push(b' ');
            lines.extend(point_text(bytes, table, chart, point));
        }
        lines.push(b'\n');
    }
    lines
}

fn point_text(bytes: &[u8], table: &Table, chart: &Chart, point: usize) -> Vec<u8> {
    if let Some(edge) = chart.layout.edge_of[point] {
        let mark = if chart.turned[edge] { '^' } else { '|' };
        return format!("{mark}{edge}").into_bytes();
    }
    let step = &table.steps[point];
    let mut text = step.name(bytes).to_vec();
    text.extend(match step.kind {
        Kind::Check => "=C".to_string().into_bytes(),
        Kind::Adjustment { tolerance } => format!("=A{tolerance}").into_bytes(),
        Kind::Wait { minutes } => format!("=W{minutes}").into_bytes(),
    });
    text
}

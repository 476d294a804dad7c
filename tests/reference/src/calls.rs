//! The ten calls as a C caller meets them: packed answers, lent buffers.

use crate::chart::{draw_chart, Chart};
use crate::records::{rows_of_records, Record};
use crate::refusal::Refusal;
use crate::row_order::{find_row_order, RowOrder};
use crate::shortest::{said, shortest};
use crate::soft::rows_of_table;
use crate::strokes::{list_strokes, Corner, Stroke};
use crate::table::{read_stored, read_table, Table};
use crate::xs::find_xs;

/// The refusal's number in the low byte; a loop's step in the byte above.
pub fn pack_refusal(refusal: Refusal) -> u64 {
    let step = if let Refusal::Loop(step) = refusal { step as u64 } else { 0 };
    u64::from(refusal.number()) | step << 8
}

pub fn pack(answer: Result<u64, Refusal>) -> u64 {
    answer.unwrap_or_else(pack_refusal)
}

pub fn counts(table: &Result<Table, Refusal>) -> Result<u64, Refusal> {
    let table = table.as_ref().map_err(|&refusal| refusal)?;
    Ok((table.steps.len() as u64) << 8 | (table.edges.len() as u64) << 16)
}

pub fn name(table: &Result<Table, Refusal>, step: usize) -> Result<u64, Refusal> {
    let table = table.as_ref().map_err(|&refusal| refusal)?;
    let step = table.steps.get(step).ok_or(Refusal::NoSuchStep)?;
    Ok((step.name_len as u64) << 8 | (step.name_start as u64) << 16)
}

pub fn rows(bytes: &[u8], buffer: &mut [u16]) -> u64 {
    let rows = read_table(bytes).and_then(|table| rows_of_table(&table));
    pack(hand_out_rows(&rows, buffer))
}

pub fn records(steps: usize, records: &[Record], buffer: &mut [u16]) -> u64 {
    pack(hand_out_rows(&rows_of_records(steps, records), buffer))
}

pub fn chart(bytes: &[u8], rows: &mut [u16], order: &mut [u16]) -> u64 {
    let chart = read_table(bytes).and_then(|table| draw_chart(&table));
    pack(hand_out_chart(&chart, rows, order))
}

pub fn xs(bytes: &[u8], buffer: &mut [u16]) -> u64 {
    let chart = read_table(bytes).and_then(|table| draw_chart(&table));
    pack(hand_out_xs(&chart.and_then(|chart| find_xs(&chart)), buffer))
}

pub fn stroke_at(bytes: &[u8], index: usize) -> StrokeAnswer {
    let chart = read_table(bytes).and_then(|table| draw_chart(&table));
    let strokes = chart.and_then(|chart| Ok(list_strokes(&chart, &find_xs(&chart)?)));
    hand_out_stroke(&strokes, index)
}

pub fn row_order(bytes: &[u8], row: usize, tries: usize, buffer: &mut [u16]) -> u64 {
    let chart = read_table(bytes).and_then(|table| draw_chart(&table));
    let order = chart.and_then(|chart| find_row_order(&chart, row, tries));
    pack(hand_out_row_order(order.as_ref().map_err(|&refusal| refusal), buffer))
}

pub fn write(bytes: &[u8], buffer: &mut [u8]) -> u64 {
    write_read(bytes, read_table(bytes), buffer)
}

pub fn convert(bytes: &[u8], buffer: &mut [u8]) -> u64 {
    write_read(bytes, read_stored(bytes), buffer)
}

/// Of a table that was read, the shortest form.
fn write_read(bytes: &[u8], table: Result<Table, Refusal>, buffer: &mut [u8]) -> u64 {
    let written = table.map(|table| shortest(&said(bytes, &table)));
    pack(written.and_then(|written| hand_out_bytes(&written, buffer)))
}

/// A buffer is looked at only when nothing else is wrong, and written only when nothing is.
pub fn hand_out_rows(rows: &Result<Vec<usize>, Refusal>, buffer: &mut [u16]) -> Result<u64, Refusal> {
    let rows = rows.as_ref().map_err(|&refusal| refusal)?;
    if buffer.len() < rows.len() {
        return Err(Refusal::ShortBuffer);
    }
    for (entry, &row) in buffer.iter_mut().zip(rows) {
        *entry = row as u16;
    }
    Ok(0)
}

pub fn hand_out_chart(chart: &Result<Chart, Refusal>, rows: &mut [u16], order: &mut [u16]) -> Result<u64, Refusal> {
    let chart = chart.as_ref().map_err(|&refusal| refusal)?;
    if rows.len() < chart.rows.len() || order.len() < chart.point_count() {
        return Err(Refusal::ShortBuffer);
    }
    for (entry, &row) in rows.iter_mut().zip(&chart.rows) {
        *entry = row as u16;
    }
    for (entry, point) in order.iter_mut().zip(chart.listed_order()) {
        *entry = point;
    }
    Ok(pack_chart(chart.point_count(), chart.total, chart.crossings))
}

/// To the entries as rows are, and then how many there are.
pub fn hand_out_xs(xs: &Result<Vec<usize>, Refusal>, buffer: &mut [u16]) -> Result<u64, Refusal> {
    hand_out_rows(xs, buffer)?;
    Ok((xs.as_ref().map_or(0, Vec::len) as u64) << 8)
}

/// To the entries as rows are; then points, floor and crossings where a chart's word has points, total and crossings.
pub fn hand_out_row_order(order: Result<&RowOrder, Refusal>, buffer: &mut [u16]) -> Result<u64, Refusal> {
    let RowOrder { points, crossings, floor } = order?;
    hand_out_rows(&Ok(points.clone()), buffer)?;
    Ok(pack_chart(points.len(), *floor as u64, *crossings))
}

/// A word and the bits of two floats.
#[derive(Clone, Copy, PartialEq, Eq, Debug)]
pub struct StrokeAnswer {
    pub answer: u64,
    pub corner: Corner,
}

/// The numbers of the two cases; that of none is 0.
pub const MOVE: u64 = 1;
pub const LINE: u64 = 2;

/// Both floats are 0 where there is no stroke.
pub fn hand_out_stroke(strokes: &Result<Vec<Stroke>, Refusal>, index: usize) -> StrokeAnswer {
    let (answer, corner) = match strokes.as_ref().map(|strokes| strokes.get(index)) {
        Err(&refusal) => (pack_refusal(refusal), Corner::default()),
        Ok(None) => (0, Corner::default()),
        Ok(Some(&Stroke::Move(corner))) => (MOVE << 8, corner),
        Ok(Some(&Stroke::Line(corner))) => (LINE << 8, corner),
    };
    StrokeAnswer { answer, corner }
}

pub fn hand_out_bytes(written: &[u8], buffer: &mut [u8]) -> Result<u64, Refusal> {
    let used = buffer.get_mut(..written.len()).ok_or(Refusal::ShortBuffer)?;
    used.copy_from_slice(written);
    Ok((written.len() as u64) << 8)
}

pub fn pack_chart(points: usize, total: u64, crossings: usize) -> u64 {
    (points as u64) << 8 | total << 19 | (crossings as u64) << 44
}

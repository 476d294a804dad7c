//! The calls, over the stand-in's layers, with the wrong variants of buffers and packing.

use reference::bounds::{longest_table, LONGEST, LONGEST_STORED};
use reference::calls;
use reference::chart::Chart;
use reference::order::{positions, Order};
use reference::points::{count_points, MAX_POINTS};
use reference::records::Record;
use reference::refusal::Refusal;
use reference::table::{LIMITS, OLD_LIMITS};

use crate::fault::on;
use crate::wrong_chart::draw;
use crate::wrong_entries;
use crate::wrong_merged::{count_merged, merge};
use crate::wrong_rows;
use crate::wrong_soft;
use crate::wrong_table::read;
use crate::wrong_writing::shortest;

pub fn counts(table: &[u8]) -> u64 {
    if on("table-changed") && !table.is_empty() {
        unsafe { (table.as_ptr() as *mut u8).write_volatile(table[0] ^ 1) };
    }
    let read = read("counts", table, false);
    let answer = calls::counts(&read);
    calls::pack(match read {
        Ok(table) if on("counts-merged") => Ok((table.steps.len() as u64) << 8 | (count_merged(&table) as u64) << 16),
        _ if on("counts-edges-8-bits") => answer.map(|packed| packed & 0xff_ffff),
        _ => answer,
    })
}

pub fn name(table: &[u8], step: usize) -> u64 {
    let read = read("name", table, false);
    if on("name-14-first") && step >= LIMITS.steps as usize {
        return 14;
    }
    let step = if on("name-step-cut") { step & 0xff } else { step };
    let answer = calls::name(&read, step);
    calls::pack(if on("name-off") { answer.map(|packed| packed + (1 << 16)) } else { answer })
}

pub fn rows(table: &[u8], buffer: &mut [u16]) -> u64 {
    let rows = read("rows", table, false).and_then(|table| {
        if on("short-first") && buffer.len() < table.steps.len() {
            return Err(Refusal::ShortBuffer);
        }
        let settled = wrong_soft::settle(table.steps.len(), &table.edges);
        let rows = wrong_soft::rows(table.steps.len(), &settled)?;
        if on("rows-judge-12") && count_points(&merge(&table.edges, &settled), &rows) > MAX_POINTS {
            return Err(Refusal::TooManyPoints);
        }
        Ok(rows)
    });
    calls::pack(hand_out_rows(&rows, buffer))
}

pub fn records(steps: usize, records: &[Record], buffer: &mut [u16]) -> u64 {
    calls::pack(hand_out_rows(&wrong_rows::records(steps, records), buffer))
}

fn hand_out_rows(rows: &Result<Vec<usize>, Refusal>, buffer: &mut [u16]) -> Result<u64, Refusal> {
    if on("never-written") {
        return calls::hand_out_rows(rows, &mut buffer.to_vec());
    }
    let used = rows.as_ref().map_or(0, Vec::len);
    if on("buffer-exact") && used > 0 && buffer.len() == used {
        return Err(Refusal::ShortBuffer);
    }
    if on("buffer-one-short") && buffer.len() + 1 == used {
        return calls::hand_out_rows(&rows.clone().map(|rows| rows[..used - 1].to_vec()), buffer);
    }
    let rows = rows.as_ref().map_err(|&refusal| refusal)?;
    if !wrong_entries::fit(used, buffer.len()) {
        return Err(Refusal::ShortBuffer);
    }
    wrong_entries::put(rows, buffer);
    if on("rest-cleared") {
        buffer[used..].fill(0);
    }
    if on("one-past") {
        unsafe { buffer.as_mut_ptr().add(used).write_volatile(0) };
    }
    if on("before-buffer") {
        unsafe { buffer.as_mut_ptr().sub(1).write_volatile(0) };
    }
    Ok(0)
}

pub fn chart(table: &[u8], rows: &mut [u16], order: &mut [u16]) -> u64 {
    let chart = read("chart", table, false).and_then(|table| {
        let drawn = draw(&table);
        let few = rows.len() < table.steps.len();
        match drawn {
            Err(Refusal::Loop(_)) if on("short-first") && few => Err(Refusal::ShortBuffer),
            Err(Refusal::TooManyPoints) if on("short-before-12") && few => Err(Refusal::ShortBuffer),
            drawn => drawn,
        }
    });
    let (rows, order) = if on("buffers-exchanged") { (order, rows) } else { (rows, order) };
    calls::pack(hand_out_chart(chart, rows, order))
}

fn hand_out_chart(chart: Result<Chart, Refusal>, rows: &mut [u16], order: &mut [u16]) -> Result<u64, Refusal> {
    if on("never-written") {
        return calls::hand_out_chart(&chart, &mut rows.to_vec(), &mut order.to_vec());
    }
    let Ok(drawn) = &chart else { return calls::hand_out_chart(&chart, rows, order) };
    let points = drawn.point_count();
    if on("written-when-refused") && rows.len() >= drawn.rows.len() {
        let _ = calls::hand_out_rows(&Ok(drawn.rows.clone()), rows);
    }
    if on("order-unchecked") && order.len() < points {
        let mut whole = vec![0; points];
        let answer = calls::hand_out_chart(&chart, rows, &mut whole)?;
        order.copy_from_slice(&whole[..order.len()]);
        return Ok(answer);
    }
    if !wrong_entries::fit(drawn.rows.len(), rows.len()) {
        return Err(Refusal::ShortBuffer);
    }
    let answer = calls::hand_out_chart(&chart, &mut vec![0; drawn.rows.len()], order)?;
    wrong_entries::put(&drawn.rows, rows);
    if on("rest-cleared") {
        order[points..].fill(0);
    }
    spoil_order(&drawn.order, order);
    Ok(answer)
}

/// Other numbers in place of those handed out.
fn spoil_order(right: &Order, handed_out: &mut [u16]) {
    let other: Vec<usize> = if on("order-inverse") {
        positions(right)
    } else if on("order-row-byte") {
        let mut rows: Vec<_> = right.iter().enumerate().collect();
        rows.sort_by_key(|(row, _)| row & 0xff);
        rows.into_iter().flat_map(|(_, points)| points.clone()).collect()
    } else {
        return;
    };
    for (entry, number) in handed_out.iter_mut().zip(other) {
        *entry = number as u16;
    }
}

/// No table has fewer bytes.
const EMPTY: usize = 3;

pub fn write(table: &[u8], buffer: &mut [u8]) -> u64 {
    write_read("write", table, false, buffer)
}

pub fn convert(table: &[u8], buffer: &mut [u8]) -> u64 {
    let most = match () {
        _ if on("convert-shortest-read") => LONGEST,
        _ if on("convert-old-longest") => longest_table(&OLD_LIMITS, 2, true),
        _ => table.len(),
    };
    write_read("convert", &table[..table.len().min(most)], !on("convert-new-rule"), buffer)
}

fn write_read(call: &str, table: &[u8], stored: bool, buffer: &mut [u8]) -> u64 {
    if on("write-13-first") && buffer.len() < EMPTY {
        return 13;
    }
    let written = shortest(call, table, stored);
    if on("write-refused-cleared") && written.is_err() {
        buffer.fill(0);
    }
    calls::pack(written.and_then(|written| hand_out_written(table.len(), &written, buffer)))
}

fn hand_out_written(table_len: usize, written: &[u8], buffer: &mut [u8]) -> Result<u64, Refusal> {
    let most = if on("write-old-longest") { longest_table(&OLD_LIMITS, 2, false) } else { written.len() };
    let written = &written[..written.len().min(most)];
    let (used, room) = (written.len(), buffer.len());
    let wants = [
        ("write-13-exact", used + 1),
        ("write-13-by-table", table_len),
        ("write-13-by-most", LONGEST),
        ("convert-13-by-most", LONGEST_STORED),
    ];
    if wants.iter().any(|&(fault, wanted)| on(fault) && room < wanted) || on("write-13-largest") && used == LONGEST {
        return Err(Refusal::ShortBuffer);
    }
    if on("write-never") {
        return calls::hand_out_bytes(written, &mut buffer.to_vec());
    }
    if on("write-13-told") && room < used {
        return Ok((used as u64) << 8 | 13);
    }
    if on("write-13-filled") && room < used {
        buffer.copy_from_slice(&written[..room]);
    }
    if on("write-one-short") && room + 1 == used {
        buffer.copy_from_slice(&written[..room]);
        return Ok((used as u64) << 8);
    }
    let answer = calls::hand_out_bytes(written, buffer)?;
    if on("write-rest-cleared") {
        buffer[used..].fill(0);
    }
    if on("write-one-past") {
        unsafe { buffer.as_mut_ptr().add(used).write_volatile(0) };
    }
    Ok(count_told(answer, table_len))
}

fn count_told(answer: u64, table_len: usize) -> u64 {
    let counts = [
        ("write-count-off", answer + (1 << 8)),
        ("write-count-of-table", (table_len as u64) << 8),
        ("write-count-8-bits", answer & 0xffff),
        ("write-count-11-bits", answer & 0x7ffff),
        ("write-count-higher", answer << 8),
    ];
    counts.into_iter().find(|(fault, _)| on(fault)).map_or(answer, |(_, count)| count)
}

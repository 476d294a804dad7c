//! The call for the best order of a row, with the wrong variants of its refusals, its buffer and its answer.

use std::cell::RefCell;

use reference::bounds::MAX_ROW;
use reference::calls::{pack_chart, pack_refusal};
use reference::chart::Chart;
use reference::refusal::Refusal;
use reference::row_order::{orders_of, MOST_ROW_POINTS, MOST_TRIES};
use reference::table::Table;
use reference::xs::MOST_POINTS;

use crate::fault::on;
use crate::wrong_chart::draw;
use crate::wrong_row_orders::{inverse, search, Found};
use crate::wrong_row_pieces::{crossings_of, row_of, Row};
use crate::wrong_table::read;

type Drawn = Result<(Table, Chart), Refusal>;
/// A row, its tries, and what was told of it.
type Told = (usize, usize, u64, Vec<u16>);

thread_local! {
    /// The table before and its chart, since many rows of one table are asked for.
    static BEFORE: RefCell<(Vec<u8>, Drawn)> = const { RefCell::new((Vec::new(), Err(Refusal::CutShort))) };
    static TOLD: RefCell<Option<Told>> = const { RefCell::new(None) };
}

pub fn row_order(table: &[u8], row: usize, tries: usize, buffer: &mut [u16]) -> u64 {
    if let Err(refusal) = judge_first(row, tries, buffer.len()) {
        return pack_refusal(refusal);
    }
    let (row, tries) = (taken_row(row), taken_tries(tries));
    let answer = BEFORE.with_borrow_mut(|(known, drawn)| {
        let same = if on("row-table-kept") { known.len() == table.len() } else { known == table };
        if !same {
            (*known, *drawn) = (table.to_vec(), draw_table(table));
            TOLD.set(None);
        }
        let drawn = drawn.as_ref().map_err(|&refusal| early(refusal, row, tries, buffer.len()));
        drawn.and_then(|(table, chart)| find(table, chart, row, tries, buffer))
    });
    if on("row-refused-cleared") && answer.is_err() {
        buffer.fill(0);
    }
    answer.unwrap_or_else(refuse)
}

/// What a variant judges before the table.
fn judge_first(row: usize, tries: usize, entries: usize) -> Result<(), Refusal> {
    match () {
        _ if on("row-17-first") && (row == 0 || row > MAX_ROW) => Err(Refusal::BadRow),
        _ if on("row-18-first") && tries > MOST_TRIES => Err(Refusal::TooManyTries),
        _ if on("row-13-first") && entries == 0 => Err(Refusal::ShortBuffer),
        _ => Ok(()),
    }
}

fn taken_row(row: usize) -> usize {
    match () {
        _ if on("row-8-bits") => row & 0xff,
        _ if on("row-9-bits") => row & 0x1ff,
        _ if on("row-16-bits") => row & 0xffff,
        _ if on("row-32-bits") => row & 0xffff_ffff,
        _ if on("row-from-1") => row.wrapping_sub(1),
        _ => row,
    }
}

fn taken_tries(tries: usize) -> usize {
    match () {
        _ if on("row-tries-16-bits") => tries & 0xffff,
        _ if on("row-tries-32-bits") => tries & 0xffff_ffff,
        _ if on("row-18-left-out") => tries.min(MOST_TRIES),
        _ => tries,
    }
}

fn draw_table(bytes: &[u8]) -> Drawn {
    let table = read("row", bytes, false)?;
    let chart = draw(&table)?;
    Ok((table, chart))
}

/// What a variant gives before a refusal of the table.
fn early(refusal: Refusal, row: usize, tries: usize, entries: usize) -> Refusal {
    let (looped, large) = (matches!(refusal, Refusal::Loop(_)), refusal == Refusal::TooManyPoints);
    match () {
        _ if on("row-loop-no-step") && looped => Refusal::Loop(0),
        _ if on("row-17-before-11") && looped && row == 0 => Refusal::BadRow,
        _ if on("row-17-before-12") && large && row == 0 => Refusal::BadRow,
        _ if on("row-18-before-11") && looped && tries > MOST_TRIES => Refusal::TooManyTries,
        _ if on("row-18-before-12") && large && tries > MOST_TRIES => Refusal::TooManyTries,
        _ if on("row-13-before-11") && looped && entries == 0 => Refusal::ShortBuffer,
        _ if on("row-13-before-12") && large && entries == 0 => Refusal::ShortBuffer,
        _ => refusal,
    }
}

fn find(table: &Table, chart: &Chart, row: usize, tries: usize, buffer: &mut [u16]) -> Result<u64, Refusal> {
    let count = chart.order.len();
    let row = match () {
        _ if on("row-from-last") => count.wrapping_sub(row.wrapping_add(1)),
        _ if on("row-17-late") && row == count && count > 1 => count - 1,
        _ => row,
    };
    judge(chart, row, tries, buffer.len())?;
    if row == 0 || row >= count {
        // A variant takes a row that has none above it, or is none.
        let points = chart.order.get(row).cloned().unwrap_or_default();
        let used = buffer.get_mut(..points.len()).ok_or(Refusal::ShortBuffer)?;
        used.iter_mut().zip(&points).for_each(|(entry, &point)| *entry = point as u16);
        return Ok(pack_chart(points.len(), 0, 0));
    }
    let kept = TOLD.with_borrow(|told| told.clone().filter(|told| on("row-answer-kept") && told.0 == row && tries > 0));
    let (answer, entries) = match kept {
        Some((.., answer, entries)) => (answer, entries),
        None => {
            let row = row_of(table, chart, row);
            let found = search(&row, tries);
            (word(chart, &row, &found, buffer.len()), entries_of(chart, &row, &found))
        }
    };
    TOLD.set(Some((row, tries, answer, entries.clone())));
    hand_out(chart, row, &entries, buffer)?;
    Ok(answer)
}

fn judge(chart: &Chart, row: usize, tries: usize, entries: usize) -> Result<(), Refusal> {
    let bad_row = is_bad(chart, row);
    let points = chart.order.get(row).map_or(0, Vec::len);
    let most = match () {
        _ if on("row-18-at-50000") => MOST_TRIES - 1,
        _ if on("row-18-above-50001") => MOST_TRIES + 1,
        _ if on("row-18-by-orders") => orders_of(points).min(MOST_TRIES),
        _ if on("row-18-at-16-bits") => usize::from(u16::MAX),
        _ => MOST_TRIES,
    };
    let (many, short) = (tries > most, entries < points);
    match () {
        _ if on("row-16-judged") && chart.point_count() > MOST_POINTS => Err(Refusal::LargeChart),
        _ if on("row-18-before-17") && many => Err(Refusal::TooManyTries),
        _ if on("row-13-before-17") && short => Err(Refusal::ShortBuffer),
        _ if bad_row && on("row-17-as-14") => Err(Refusal::NoSuchStep),
        _ if bad_row && on("row-17-as-16") => Err(Refusal::LargeChart),
        _ if bad_row => Err(Refusal::BadRow),
        _ if on("row-13-before-18") && short => Err(Refusal::ShortBuffer),
        _ if many && on("row-18-as-17") => Err(Refusal::BadRow),
        _ if many => Err(Refusal::TooManyTries),
        _ => Ok(()),
    }
}

fn is_bad(chart: &Chart, row: usize) -> bool {
    let count = chart.order.len();
    let wide = |row: usize| chart.order.get(row).map_or(0, Vec::len);
    let steps = |row: usize| {
        chart.order.get(row).map_or(0, |points| points.iter().filter(|&&point| point < chart.rows.len()).count())
    };
    let counted = match () {
        _ if on("row-17-by-steps") => steps(row),
        _ if on("row-17-by-above") => wide(row.wrapping_sub(1)),
        _ if on("row-17-by-either") => wide(row).max(wide(row.wrapping_sub(1))),
        _ if on("row-17-by-chart") => chart.point_count(),
        _ => wide(row),
    };
    let most = match () {
        _ if on("row-17-at-32") => MOST_ROW_POINTS - 1,
        _ if on("row-17-above-33") => MOST_ROW_POINTS + 1,
        _ if on("row-17-any-width") => usize::MAX,
        _ => MOST_ROW_POINTS,
    };
    let lowest = if on("row-0-taken") { 0 } else { 1 };
    let end = match () {
        _ if on("row-17-last") => count.saturating_sub(1),
        _ if on("row-17-past-taken") => count + 1,
        _ if on("row-empty-taken") && count == 0 => usize::MAX,
        _ if on("row-17-by-most") => MAX_ROW + 1,
        _ => count,
    };
    row < lowest || row >= end || counted > most || on("row-17-single") && wide(row) == 1
}

/// What is written, from the first entry on.
fn entries_of(chart: &Chart, row: &Row, found: &Found) -> Vec<u16> {
    let points: Vec<usize> = found.places.iter().map(|&place| row.points[place]).collect();
    let entries = match () {
        _ if on("row-places-written") => found.places.clone(),
        _ if on("row-new-places-written") => inverse(&found.places),
        _ if on("row-above-written") => row.above.clone(),
        _ if on("row-present-written") => row.points.clone(),
        _ if on("row-backward-written") => points.into_iter().rev().collect(),
        _ if on("row-steps-written") => points.into_iter().filter(|&point| point < chart.rows.len()).collect(),
        _ if on("row-sorted-written") => {
            let mut sorted = points;
            sorted.sort();
            sorted
        }
        _ => points,
    };
    let entries = entries.into_iter().map(|entry| entry as u16);
    match () {
        _ if on("row-bytes-exchanged") => entries.map(u16::swap_bytes).collect(),
        _ if on("row-low-byte") => entries.map(|entry| entry & 0xff).collect(),
        _ => entries.collect(),
    }
}

fn hand_out(chart: &Chart, row: usize, entries: &[u16], buffer: &mut [u16]) -> Result<(), Refusal> {
    let (points, room) = (chart.order[row].len(), buffer.len());
    let needed = match () {
        _ if on("row-13-exact") => points + 1,
        _ if on("row-13-one-short") => points - 1,
        _ if on("row-13-by-most") => MOST_ROW_POINTS,
        _ if on("row-13-by-chart") => chart.point_count(),
        _ if on("row-13-by-above") => chart.order[row - 1].len(),
        _ => points,
    };
    if (room >= needed || on("row-written-when-short")) && !on("row-never-written") {
        buffer.iter_mut().zip(entries).for_each(|(entry, &value)| *entry = value);
    }
    if room < needed {
        return Err(Refusal::ShortBuffer);
    }
    if on("row-rest-cleared") && room > points {
        buffer[points..].fill(0);
    }
    if on("row-next-written") {
        let next = chart.order[row + 1..].concat();
        buffer.iter_mut().skip(points).zip(next).for_each(|(entry, point)| *entry = point as u16);
    }
    if on("row-one-past") {
        unsafe { buffer.as_mut_ptr().add(points).write_volatile(0) };
    }
    if on("row-before-buffer") {
        unsafe { buffer.as_mut_ptr().sub(1).write_volatile(0) };
    }
    Ok(())
}

fn word(chart: &Chart, row: &Row, found: &Found, entries: usize) -> u64 {
    let present: Vec<usize> = (0..row.points.len()).collect();
    let crossings = row.besides
        + match () {
            _ if on("row-told-of-present") => crossings_of(&row.pairs, &present),
            _ if on("row-told-of-last") => found.last,
            _ if on("row-told-of-chart") => chart.crossings,
            _ if on("row-told-above-floor") => found.crossings - row.floor.min(found.crossings),
            _ => found.crossings,
        };
    let floor = row.besides + if on("row-floor-of-answer") { found.crossings } else { row.floor };
    let points = match () {
        _ if on("row-count-of-steps") => row.points.iter().filter(|&&point| point < chart.rows.len()).count(),
        _ if on("row-count-of-chart") => chart.point_count(),
        _ if on("row-count-of-entries") => entries,
        _ if on("row-count-left-out") => 0,
        _ => row.points.len(),
    };
    let (points, floor, crossings) = (points as u64, floor as u64, crossings as u64);
    match () {
        _ if on("row-numbers-exchanged") => points << 8 | crossings << 19 | floor << 44,
        _ if on("row-count-higher") => points << 16 | floor << 19 | crossings << 44,
        _ if on("row-floor-lower") => points << 8 | floor << 16 | crossings << 44,
        _ if on("row-crossings-lower") => points << 8 | floor << 19 | crossings << 40,
        _ if on("row-total-for-floor") => points << 8 | chart.total << 19 | crossings << 44,
        _ if on("row-floor-8-bits") => points << 8 | (floor & 0xff) << 19 | crossings << 44,
        _ if on("row-crossings-8-bits") => points << 8 | floor << 19 | (crossings & 0xff) << 44,
        _ if on("row-crossings-13-bits") => points << 8 | floor << 19 | (crossings & 0x1fff) << 44,
        _ => points << 8 | floor << 19 | crossings << 44,
    }
}

fn refuse(refusal: Refusal) -> u64 {
    let number = u64::from(refusal.number());
    match refusal {
        Refusal::Loop(step) if on("row-loop-step-higher") => number | (step as u64) << 16,
        Refusal::ShortBuffer if on("row-13-told") => number | 1 << 8,
        _ => pack_refusal(refusal),
    }
}

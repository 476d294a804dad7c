//! The call for strokes, with the wrong variants of its refusals, its index and its answer.

use std::cell::{Cell, RefCell};

use reference::calls::{pack_refusal, LINE};
use reference::chart::Chart;
use reference::points::MAX_POINTS;
use reference::refusal::Refusal;
use reference::table::{Table, LIMITS};
use reference::xs::MOST_POINTS;

use crate::fault::on;
use crate::wrong_chart::draw;
use crate::wrong_strokes::{list, Drawn};
use crate::wrong_table::read;
use crate::wrong_xs::find;

#[repr(C)]
pub struct Stroke {
    answer: u64,
    x: f32,
    y: f32,
}

type Strokes = Result<Vec<Drawn>, Refusal>;

/// No chart has more strokes.
const MOST: usize = MOST_POINTS + 2 * LIMITS.edges as usize;

thread_local! {
    /// The table before and its strokes, since many indices of one table are asked for.
    static BEFORE: RefCell<(Vec<u8>, Strokes)> = const { RefCell::new((Vec::new(), Err(Refusal::CutShort))) };
    /// How many calls there were on it.
    static CALLS: Cell<usize> = const { Cell::new(0) };
}

pub fn stroke_at(table: &[u8], index: usize) -> Stroke {
    if on("stroke-end-first") && index >= MOST {
        return none(&[]);
    }
    BEFORE.with_borrow_mut(|(known, strokes)| {
        let same = if on("stroke-table-kept") { known.len() == table.len() } else { known == table };
        if !same || on("stroke-end-before-16") {
            (*known, *strokes) = (table.to_vec(), strokes_of(table, index));
            CALLS.set(0);
        }
        hand_out(strokes, index)
    })
}

fn strokes_of(bytes: &[u8], index: usize) -> Strokes {
    let table = read("stroke", bytes, false)?;
    let chart = match draw(&table) {
        Err(Refusal::Loop(_)) if on("stroke-loop-no-step") => return Err(Refusal::Loop(0)),
        Err(Refusal::Loop(_)) if on("stroke-loop-none") => return Ok(Vec::new()),
        Err(Refusal::TooManyPoints) if on("stroke-16-before-12") => return Err(Refusal::LargeChart),
        chart => chart?,
    };
    judge_large(&table, &chart, index)?;
    let large = chart.point_count() > MOST_POINTS;
    if large && on("stroke-16-none") {
        return Ok(Vec::new());
    }
    // A variant may serve charts that get no x.
    let xs = if large { vec![0; chart.point_count()] } else { find(&table, &chart) };
    Ok(list(&table, &chart, &xs))
}

fn judge_large(table: &Table, chart: &Chart, index: usize) -> Result<(), Refusal> {
    let strokes = chart.layout.pieces.len() + chart.merged.len();
    let counted = match () {
        _ if on("stroke-16-by-edges") => chart.points_by_edge(),
        _ if on("stroke-16-by-strokes") => strokes,
        _ if on("stroke-16-by-segments") => chart.layout.pieces.len(),
        _ => chart.point_count(),
    };
    let most = match () {
        _ if on("stroke-16-above-129") => MOST_POINTS + 1,
        _ if on("stroke-16-at-128") => MOST_POINTS - 1,
        _ if on("stroke-16-none") || on("stroke-16-left-out") => MAX_POINTS,
        _ if on("stroke-16-no-edges") && table.edges.is_empty() => 0,
        _ if on("stroke-end-before-16") && index >= strokes => MAX_POINTS,
        _ => MOST_POINTS,
    };
    match () {
        _ if counted <= most => Ok(()),
        _ if on("stroke-16-as-12") => Err(Refusal::TooManyPoints),
        _ if on("stroke-16-as-13") => Err(Refusal::ShortBuffer),
        _ => Err(Refusal::LargeChart),
    }
}

fn hand_out(strokes: &Strokes, index: usize) -> Stroke {
    match strokes {
        Err(refusal) => refuse(*refusal),
        Ok(strokes) => match at_index(strokes, index) {
            Some(stroke) => Stroke { answer: word(strokes, stroke.case, index), x: stroke.x, y: stroke.y },
            None => none(strokes),
        },
    }
}

fn refuse(refusal: Refusal) -> Stroke {
    let number = u64::from(refusal.number());
    let answer = match refusal {
        Refusal::Loop(step) if on("stroke-loop-step-higher") => number | (step as u64) << 16,
        Refusal::Loop(_) => pack_refusal(refusal),
        _ if on("stroke-refused-case") => number | LINE << 8,
        _ => number,
    };
    let float = match () {
        _ if on("stroke-refused-minus-1") => -1.0,
        _ if on("stroke-refused-minus-0") => -0.0,
        _ if on("stroke-refused-no-number") => f32::NAN,
        _ => 0.0,
    };
    Stroke { answer, x: float, y: float }
}

/// The stroke that a variant takes for the one at an index.
fn at_index(strokes: &[Drawn], index: usize) -> Option<&Drawn> {
    let (count, is_move) = (strokes.len(), |stroke: &&Drawn| stroke.case == 1);
    let low = |bits: u32| index & ((1 << bits) - 1);
    match () {
        _ if on("stroke-index-per-line") => first_as_long(strokes, index),
        _ if on("stroke-index-first-line") => first_line(strokes).get(index),
        _ if on("stroke-index-of-lines") => strokes.iter().filter(is_move).nth(index),
        _ if on("stroke-index-moves-skipped") => strokes.iter().filter(|stroke| !is_move(stroke)).nth(index),
        _ if on("stroke-index-from-1") => strokes.get(index.wrapping_sub(1)),
        _ if on("stroke-index-backward") => strokes.iter().rev().nth(index),
        _ if on("stroke-index-7-bits") => strokes.get(low(7)),
        _ if on("stroke-index-8-bits") => strokes.get(low(8)),
        _ if on("stroke-index-9-bits") => strokes.get(low(9)),
        _ if on("stroke-index-16-bits") => strokes.get(low(16)),
        _ if on("stroke-index-32-bits") => strokes.get(low(32)),
        _ if on("stroke-index-signed") => strokes.get(index).or(strokes.get(count.wrapping_add(index))),
        _ if on("stroke-index-wraps") => strokes.get(index % count.max(1)),
        _ if on("stroke-index-left-out") => strokes.get(CALLS.replace(CALLS.get() + 1)),
        _ if on("stroke-end-early") => strokes[..count.saturating_sub(1)].get(index),
        _ if on("stroke-end-late") && index == count => strokes.last(),
        _ if on("stroke-end-never") => strokes.get(index).or(strokes.last()),
        _ => strokes.get(index),
    }
}

fn first_line(strokes: &[Drawn]) -> &[Drawn] {
    strokes.chunk_by(|_, next| next.case != 1).next().unwrap_or(&[])
}

/// Of the first line that has so many strokes, as if each line were counted from 0.
fn first_as_long(strokes: &[Drawn], index: usize) -> Option<&Drawn> {
    strokes.chunk_by(|_, next| next.case != 1).find_map(|line| line.get(index))
}

fn word(strokes: &[Drawn], case: u64, index: usize) -> u64 {
    match () {
        _ if on("stroke-case-lower") => case,
        _ if on("stroke-case-higher") => case << 16,
        _ if on("stroke-case-at-32") => case << 32,
        _ if on("stroke-count-above") => case << 8 | (strokes.len() as u64) << 16,
        _ if on("stroke-index-above") => case << 8 | (index as u64) << 16,
        _ => case << 8,
    }
}

fn none(strokes: &[Drawn]) -> Stroke {
    let answer = match () {
        _ if on("stroke-none-as-13") => 13,
        _ if on("stroke-none-as-14") => 14,
        _ if on("stroke-no-edges-as-14") && strokes.is_empty() => 14,
        _ if on("stroke-none-as-3") => 3 << 8,
        _ if on("stroke-none-as-move") => 1 << 8,
        _ if on("stroke-none-counted") => (strokes.len() as u64) << 16,
        _ => 0,
    };
    let (x, y) = match strokes.last() {
        Some(last) if on("stroke-none-cornered") => (last.x, last.y),
        _ if on("stroke-none-minus-0") => (-0.0, -0.0),
        _ if on("stroke-none-minus-1") => (-1.0, -1.0),
        _ if on("stroke-none-no-number") => (f32::NAN, f32::NAN),
        _ => (0.0, 0.0),
    };
    Stroke { answer, x, y }
}

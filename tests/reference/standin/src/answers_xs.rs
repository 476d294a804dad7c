//! The call for x, with the wrong variants of its refusals, its buffer and its answer.

use reference::calls;
use reference::chart::Chart;
use reference::points::MAX_POINTS;
use reference::refusal::Refusal;
use reference::xs::MOST_POINTS;

use crate::fault::on;
use crate::wrong_chart::draw;
use crate::wrong_table::read;
use crate::wrong_xs::find;

pub fn xs(table: &[u8], buffer: &mut [u16]) -> u64 {
    let drawn = read("xs", table, false).and_then(|table| {
        let few = buffer.len() < table.steps.len();
        let chart = match draw(&table) {
            Err(Refusal::Loop(_)) if on("xs-13-before-11") && few => return Err(Refusal::ShortBuffer),
            Err(Refusal::Loop(_)) if on("xs-loop-no-step") => return Err(Refusal::Loop(0)),
            Err(Refusal::TooManyPoints) if on("xs-13-before-12") && few => return Err(Refusal::ShortBuffer),
            Err(Refusal::TooManyPoints) if on("xs-16-before-12") => return Err(Refusal::LargeChart),
            chart => chart?,
        };
        judge_large(&chart, buffer.len())?;
        Ok((find(&table, &chart), chart))
    });
    if on("xs-refused-cleared") && drawn.is_err() {
        buffer.fill(0);
    }
    calls::pack(drawn.and_then(|(xs, chart)| hand_out_xs(&xs, &chart, buffer)))
}

fn judge_large(chart: &Chart, entries: usize) -> Result<(), Refusal> {
    let points = if on("xs-16-by-edges") { chart.points_by_edge() } else { chart.point_count() };
    let most = match () {
        _ if on("xs-16-above-129") => MOST_POINTS + 1,
        _ if on("xs-16-at-128") => MOST_POINTS - 1,
        // No table has more steps than points may get x.
        _ if on("xs-16-by-steps") => MAX_POINTS,
        _ => MOST_POINTS,
    };
    match () {
        _ if points <= most => Ok(()),
        _ if on("xs-16-after-13") && entries < points => Err(Refusal::ShortBuffer),
        _ if on("xs-16-as-12") => Err(Refusal::TooManyPoints),
        _ => Err(Refusal::LargeChart),
    }
}

fn hand_out_xs(xs: &[usize], chart: &Chart, buffer: &mut [u16]) -> Result<u64, Refusal> {
    let (points, steps, room) = (xs.len(), chart.rows.len(), buffer.len());
    let needed = match () {
        _ if on("xs-13-exact") && points > 0 => points + 1,
        _ if on("xs-13-one-short") => points.saturating_sub(1),
        _ if on("xs-13-by-steps") => steps,
        _ if on("xs-13-by-most") => MOST_POINTS,
        _ => points,
    };
    let written = match () {
        _ if on("xs-never-written") => 0,
        _ if on("xs-dummies-left-out") => steps,
        _ => points,
    };
    if room >= needed || on("xs-written-when-short") {
        buffer.iter_mut().zip(entries(xs, chart)).take(written).for_each(|(entry, x)| *entry = x);
    }
    if room < needed {
        return Err(Refusal::ShortBuffer);
    }
    spoil_rest(points, buffer);
    let told = match () {
        _ if on("xs-count-of-steps") => steps,
        _ if on("xs-count-left-out") => 0,
        _ if on("xs-count-of-entries") => room,
        _ if on("xs-count-higher") => points << 8,
        _ if on("xs-count-and-total") => points | (chart.total as usize) << 11,
        _ => points,
    };
    Ok((told as u64) << 8)
}

/// What is written, from the first entry on.
fn entries(xs: &[usize], chart: &Chart) -> Vec<u16> {
    match () {
        _ if on("xs-by-row") => chart.order.concat().iter().map(|&point| xs[point] as u16).collect(),
        _ if on("xs-as-bytes") => xs.chunks(2).map(|pair| (pair[0] | pair.get(1).unwrap_or(&0) << 8) as u16).collect(),
        _ if on("xs-bytes-exchanged") => xs.iter().map(|&x| (x as u16).swap_bytes()).collect(),
        _ => xs.iter().map(|&x| x as u16).collect(),
    }
}

/// Writes where there is no point.
fn spoil_rest(points: usize, buffer: &mut [u16]) {
    if on("xs-rest-cleared") && buffer.len() > points {
        buffer[points..].fill(0);
    }
    if on("xs-empty-entry") && points == 0 && !buffer.is_empty() {
        buffer[0] = 0;
    }
    if on("xs-one-past") {
        unsafe { buffer.as_mut_ptr().add(points).write_volatile(0) };
    }
}

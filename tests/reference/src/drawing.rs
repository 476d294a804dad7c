//! Why strokes draw a chart, checked without trust in how they were listed: corners are taken apart into x and row, and each
//! line is followed from the step where it starts to the one where it ends.

use crate::strokes::{Corner, Stroke, ROW_QUARTERS, X_QUARTERS};

/// Lines by the steps that the table has them lead from and to, rows by step, x by point. The pass points are numbered behind
/// the steps, by line and then by rising row.
pub fn check(lines: &[(usize, usize)], rows: &[usize], xs: &[usize], strokes: &[Stroke]) -> Result<(), &'static str> {
    let length = |&(from, to): &(usize, usize)| rows[from].abs_diff(rows[to]);
    let segments: usize = lines.iter().map(length).sum();
    if lines.iter().any(|line| length(line) == 0) || xs.len() + lines.len() != rows.len() + segments {
        return Err("the points are not those of the lines");
    }
    if strokes.len() != segments + lines.len() {
        return Err("the strokes are not as many as segments and lines");
    }
    let runs: Vec<&[Stroke]> = strokes.chunk_by(|_, next| matches!(next, Stroke::Line(_))).collect();
    if runs.len() != lines.len() || runs.iter().any(|run| matches!(run[0], Stroke::Line(_))) {
        return Err("a line has not one move, at its start");
    }
    let mut dummies = rows.len();
    for (line, run) in lines.iter().zip(runs) {
        let places = run.iter().map(place_of).collect::<Option<Vec<Place>>>().ok_or("a corner is of no x and row")?;
        let next = dummies + length(line) - 1;
        follow([line.0, line.1].map(|step| (xs[step], rows[step])), &xs[dummies..next], &places)?;
        dummies = next;
    }
    Ok(())
}

/// An x and a row.
type Place = (usize, usize);

/// From the one end to the other, row by row and past all pass points, whose x come by rising row.
fn follow(ends: [Place; 2], dummies: &[usize], places: &[Place]) -> Result<(), &'static str> {
    if places.len() != dummies.len() + 2 {
        return Err("a line has a stroke too many or too few");
    }
    if [places[0], places[places.len() - 1]] != ends {
        return Err("a line starts or ends elsewhere");
    }
    if places.windows(2).any(|pair| pair[0].1.abs_diff(pair[1].1) != 1) {
        return Err("a stroke leads to no neighbouring row");
    }
    let mut between = places[1..places.len() - 1].to_vec();
    between.sort_by_key(|&(_, row)| row);
    if between.iter().map(|&(x, _)| x).ne(dummies.iter().copied()) {
        return Err("a line leaves its pass points");
    }
    Ok(())
}

fn place_of(stroke: &Stroke) -> Option<Place> {
    let (Stroke::Move(Corner { x, y }) | Stroke::Line(Corner { x, y })) = *stroke;
    Some((times(x, X_QUARTERS)?, times(y, ROW_QUARTERS)?))
}

/// How many times so many quarters a float is, if it is a whole number of times. A float of 64 bits has every quarter of those
/// of 32 exactly, and what is below 0 or no number equals no whole number here.
fn times(float: u32, unit: u32) -> Option<usize> {
    let quarters = f64::from(f32::from_bits(float)) * 4.0;
    let whole = quarters as u32;
    let exact = f64::from(whole).to_bits() == quarters.to_bits() && whole % unit == 0;
    exact.then_some((whole / unit) as usize)
}

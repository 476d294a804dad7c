//! What a pen does that draws the lines of a chart: to where a line starts without drawing, then a line to each point on it.

use crate::chart::Chart;
use crate::drawing::check;
use crate::merged::MergedEdge;
use crate::soft::turn;

/// Millimetres from the left and from the top, each as the bits of a 32-bit float.
#[derive(Clone, Copy, PartialEq, Eq, Debug, Default)]
pub struct Corner {
    pub x: u32,
    pub y: u32,
}

#[derive(Clone, Copy, PartialEq, Eq, Debug)]
pub enum Stroke {
    Move(Corner),
    Line(Corner),
}

/// 12.5 mm for each x and 7.25 mm for each row, in quarters of a millimetre.
pub const X_QUARTERS: u32 = 50;
pub const ROW_QUARTERS: u32 = 29;

/// Line after line, in the order of their first edges. The drawing is checked on every answer.
pub fn list_strokes(chart: &Chart, xs: &[usize]) -> Vec<Stroke> {
    let mut strokes = Vec::new();
    for each in &chart.merged {
        let corners = path_of(chart, each).into_iter().map(|point| corner(xs[point], chart.layout.row_of[point]));
        strokes.extend(corners.enumerate().map(|(at, corner)| match at {
            0 => Stroke::Move(corner),
            _ => Stroke::Line(corner),
        }));
    }
    if let Err(fault) = check(&lines_of(chart), &chart.rows, xs, &strokes) {
        panic!("the reference's own strokes fail: {fault}");
    }
    strokes
}

/// Of each line the steps that the table has it lead from and to.
pub fn lines_of(chart: &Chart) -> Vec<(usize, usize)> {
    chart.merged.iter().map(|each| ends_of(chart, each)).collect()
}

fn ends_of(chart: &Chart, each: &MergedEdge) -> (usize, usize) {
    let edge = if chart.turned[each.number] { turn(each.edge) } else { each.edge };
    (edge.from, edge.to)
}

/// The points of a line from its start on: its pass points by how many rows they are away from there.
fn path_of(chart: &Chart, each: &MergedEdge) -> Vec<usize> {
    let (from, to) = ends_of(chart, each);
    let layout = &chart.layout;
    let mut dummies: Vec<usize> =
        (0..chart.point_count()).filter(|&point| layout.edge_of[point] == Some(each.number)).collect();
    dummies.sort_by_key(|&point| layout.row_of[point].abs_diff(layout.row_of[from]));
    [vec![from], dummies, vec![to]].concat()
}

pub fn corner(x: usize, row: usize) -> Corner {
    Corner { x: float_of_quarters(x as u32 * X_QUARTERS), y: float_of_quarters(row as u32 * ROW_QUARTERS) }
}

const FRACTION_BITS: u32 = 23;
const EXPONENT_OF_1: u32 = 127;

/// The bits of the float that is so many quarters, put together by whole numbers alone: no product of floats is trusted.
pub fn float_of_quarters(count: u32) -> u32 {
    let Some(highest) = count.checked_ilog2() else { return 0 };
    assert!(highest <= FRACTION_BITS, "a float of 32 bits may not be {count} quarters");
    let fraction = (count ^ 1 << highest) << (FRACTION_BITS - highest);
    (EXPONENT_OF_1 + highest - 2) << FRACTION_BITS | fraction
}

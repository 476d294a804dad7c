//! What is told of an order of one row, counted again without trust in how it was found: from the lines, the row of each step
//! and the order of the whole chart.

use crate::row_order::RowOrder;

/// A point and its row.
type Placed = (usize, usize);

/// Lines by the steps that the table has them lead from and to, rows by step, the chart's points row by row. The pass points
/// are numbered behind the steps, by line and then by rising row.
pub fn check(
    lines: &[(usize, usize)],
    rows: &[usize],
    listed: &[usize],
    row: usize,
    told: &RowOrder,
) -> Result<(), &'static str> {
    let routes = routes_of(lines, rows);
    let mut row_of = rows.to_vec();
    row_of.extend(routes.iter().flat_map(|route| &route[1..route.len() - 1]).map(|&(_, row)| row));
    if !same_points(listed, 0..row_of.len()) {
        return Err("the chart's order has other points");
    }
    if listed.windows(2).any(|pair| row_of[pair[0]] > row_of[pair[1]]) {
        return Err("the chart's order is not row by row");
    }
    let in_row = |wanted: usize| listed.iter().copied().filter(|&point| row_of[point] == wanted).collect::<Vec<_>>();
    if !same_points(&told.points, in_row(row)) {
        return Err("the order has other points than the row");
    }
    let above = in_row(row - 1);
    let place = |point: usize| above.iter().position(|&other| other == point).expect("a point in the row above");
    let between = routes.iter().flat_map(|route| route.windows(2)).filter(|ends| ends[1].1 == row);
    let pieces: Vec<Piece> = between.map(|ends| (place(ends[0].0), ends[1].0)).collect();
    judge_numbers(&pieces, told)
}

/// The points of each line, from the upper step to the lower one.
fn routes_of(lines: &[(usize, usize)], rows: &[usize]) -> Vec<Vec<Placed>> {
    let mut dummies = rows.len();
    let mut routes = Vec::new();
    for &(from, to) in lines {
        let (upper, lower) = if rows[from] < rows[to] { (from, to) } else { (to, from) };
        let passed: Vec<Placed> = (dummies..).zip(rows[upper] + 1..rows[lower]).collect();
        dummies += passed.len();
        routes.push([vec![(upper, rows[upper])], passed, vec![(lower, rows[lower])]].concat());
    }
    routes
}

fn same_points(points: &[usize], others: impl IntoIterator<Item = usize>) -> bool {
    let [mut points, mut others] = [points.to_vec(), others.into_iter().collect()];
    points.sort();
    others.sort();
    points == others
}

/// The place of its upper end in the row above, and the point below.
type Piece = (usize, usize);

fn judge_numbers(pieces: &[Piece], told: &RowOrder) -> Result<(), &'static str> {
    if told.floor > told.crossings {
        return Err("the floor is above the crossings");
    }
    if count(pieces, &told.points) != told.crossings {
        return Err("the crossings are not those of the order");
    }
    let fewer = |left: usize, right: usize| count(pieces, &[left, right]).min(count(pieces, &[right, left]));
    let before = |at: usize| told.points[..at].iter().map(move |&left| (left, told.points[at]));
    let floor: usize = (0..told.points.len()).flat_map(before).map(|(left, right)| fewer(left, right)).sum();
    if floor != told.floor {
        return Err("the floor is not that of the pairs");
    }
    Ok(())
}

/// Of the pieces of these points, the pairs that cross where the points stand so.
fn count(pieces: &[Piece], order: &[usize]) -> usize {
    let place = |point: usize| order.iter().position(|&other| other == point);
    let placed: Vec<(usize, usize)> =
        pieces.iter().filter_map(|&(above, point)| place(point).map(|below| (above, below))).collect();
    let crosses = |one: &(usize, usize), other: &(usize, usize)| one.0 < other.0 && one.1 > other.1;
    placed.iter().map(|one| placed.iter().filter(|other| crosses(one, other)).count()).sum()
}

/// Two answers for one row, the second with more tries: never worse, and another order only where it is better.
pub fn check_more(fewer: &RowOrder, more: &RowOrder) -> Result<(), &'static str> {
    if more.crossings > fewer.crossings {
        return Err("more tries are worse");
    }
    if more.crossings == fewer.crossings && more.points != fewer.points {
        return Err("more tries give another order that is no better");
    }
    Ok(())
}

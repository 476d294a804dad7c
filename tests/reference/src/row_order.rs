//! The best order of one row against the row above it, as far as a number of tries goes: each point in turn leftmost, and
//! behind it the orders of the others. Orders whose start alone has as many crossings as the best so far are counted and not
//! listed.

use crate::chart::Chart;
use crate::recount::check;
use crate::refusal::Refusal;
use crate::strokes::lines_of;

/// No order is looked for in a row of more points, or with more tries.
pub const MOST_ROW_POINTS: usize = 32;
pub const MOST_TRIES: usize = 50_000;

#[derive(Clone, PartialEq, Eq, Debug)]
pub struct RowOrder {
    /// From left to right.
    pub points: Vec<usize>,
    pub crossings: usize,
    /// For each two points the fewer crossings of their two orders, added up.
    pub floor: usize,
}

/// An order, and how many come before it.
pub type Numbered = (RowOrder, usize);

/// The first with fewest crossings of the present order and so many more. It is counted again on every answer.
pub fn find_row_order(chart: &Chart, row: usize, tries: usize) -> Result<RowOrder, Refusal> {
    find_numbered(chart, row, tries).map(|(order, _)| order)
}

pub fn find_numbered(chart: &Chart, row: usize, tries: usize) -> Result<Numbered, Refusal> {
    let present = chart.order.get(row).filter(|points| row > 0 && points.len() <= MOST_ROW_POINTS);
    let present = present.ok_or(Refusal::BadRow)?;
    if tries > MOST_TRIES {
        return Err(Refusal::TooManyTries);
    }
    let place =
        |end: &usize| chart.order[row - 1].iter().position(|point| point == end).expect("an end in the row above");
    let ends: Vec<Vec<usize>> =
        present.iter().map(|&point| chart.layout.above[point].iter().map(place).collect()).collect();
    let Best { places, crossings, number } = first_best(&ends, tries + 1);
    let points = places.iter().map(|&place| present[place]).collect();
    let order = RowOrder { points, crossings, floor: floor(&ends) };
    let listed: Vec<usize> = chart.order.concat();
    if let Err(fault) = check(&lines_of(chart), &chart.rows, &listed, row, &order) {
        panic!("the reference's own order of a row fails: {fault}");
    }
    Ok((order, number))
}

/// Places are those that the points have at present; ends are places in the row above, by the place of their point.
struct Best {
    places: Vec<usize>,
    crossings: usize,
    /// How many orders come before it.
    number: usize,
}

/// Of so many orders, at least one.
fn first_best(ends: &[Vec<usize>], count: usize) -> Best {
    let mut search = Search { ends, count, passed: 0, start: Vec::new(), above: Vec::new(), best: None };
    search.go_on(&(0..ends.len()).collect::<Vec<_>>(), 0);
    search.best.expect("the first order is looked at")
}

struct Search<'a> {
    ends: &'a [Vec<usize>],
    /// Orders to look at, and those that are done with.
    count: usize,
    passed: usize,
    /// The places that an order starts with, and all ends of these.
    start: Vec<usize>,
    above: Vec<usize>,
    best: Option<Best>,
}

impl Search<'_> {
    /// All orders that go on from the start with the others, which are in rising order.
    fn go_on(&mut self, others: &[usize], crossings: usize) {
        if self.best.as_ref().is_some_and(|best| best.crossings <= crossings) {
            self.passed = self.passed.saturating_add(orders_of(others.len()));
            return;
        }
        if others.is_empty() {
            self.best = Some(Best { places: self.start.clone(), crossings, number: self.passed });
            self.passed += 1;
        }
        for (at, &next) in others.iter().enumerate() {
            if self.passed >= self.count {
                return;
            }
            let own = &self.ends[next];
            let added = crossed(&self.above, own);
            let known = self.above.len();
            self.above.extend(own);
            self.start.push(next);
            self.go_on(&[&others[..at], &others[at + 1..]].concat(), crossings + added);
            self.start.pop();
            self.above.truncate(known);
        }
    }
}

/// How many orders so many points have, or the largest number there is.
pub fn orders_of(points: usize) -> usize {
    (1..=points).fold(1, usize::saturating_mul)
}

/// Pieces of which one ends further left above and the other below: with these ends of points at the left, and those of points
/// at the right of them.
fn crossed(left: &[usize], right: &[usize]) -> usize {
    right.iter().map(|end| left.iter().filter(|&other| other > end).count()).sum()
}

fn floor(ends: &[Vec<usize>]) -> usize {
    let fewer = |one: &Vec<usize>, other: &Vec<usize>| crossed(one, other).min(crossed(other, one));
    ends.iter().enumerate().map(|(at, one)| ends[..at].iter().map(|other| fewer(one, other)).sum::<usize>()).sum()
}

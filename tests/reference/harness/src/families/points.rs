//! Charts of very nearly 1,024 points, for the most part of exactly 1,024 or 1,025; and of very nearly 128, the most that get x.

use reference::points::MAX_POINTS;
use reference::random::Random;
use reference::soft::turn;
use reference::table::{Edge, TableEdge};
use reference::writer::{write_table, Draft};
use reference::xs::MOST_POINTS;

use crate::drafts::{draft, draft_of};
use crate::judge::Judge;
use crate::shapes::{EDGES, STEPS};

/// Along a chain every edge has the length that the chain forces, so points can be counted out.
pub fn near_limit(judge: &mut Judge, random: &mut Random, group: usize) {
    let target =
        random.pick(&[MAX_POINTS, MAX_POINTS, MAX_POINTS + 1, MAX_POINTS + 1, MAX_POINTS - 1, MAX_POINTS + 30]);
    let plan = Plan { target, kinds: &[Kind::Must], repeats: group % 3, size: any_size };
    let (steps, edges) = plan.find(random);
    judge_near(judge, group, &must_draft(random, steps, &edges));
}

fn any_size(random: &mut Random) -> (usize, usize) {
    let steps = random.between(8, STEPS);
    (steps, random.between(6, steps - 1))
}

/// Edges that pass a step are for the most part soft here, and half of them point back: the chain's must edges turn these.
pub fn soft_near_limit(judge: &mut Judge, random: &mut Random, group: usize) {
    let target = random.pick(&[MAX_POINTS, MAX_POINTS + 1]);
    let (steps, edges) = Plan { target, kinds: &ALL_KINDS, repeats: group % 3, size: any_size }.find(random);
    judge_near(judge, group, &draft_of(random, steps, &edges));
}

/// As many steps as there may be, in few rows and so in wide ones; by turns in either edition.
pub fn wide_near_limit(judge: &mut Judge, random: &mut Random, group: usize) {
    let soft = group % 4 >= 2;
    // In edition 1 there is one line at most between two steps, so the chain has to be longer.
    let size: Size =
        if soft { |random| (STEPS, random.between(12, 16)) } else { |random| (STEPS, random.between(18, 24)) };
    let kinds: &[Kind] = if soft { &ALL_KINDS } else { &[Kind::Must] };
    let (steps, edges) = Plan { target: MAX_POINTS + group % 2, kinds, repeats: 0, size }.find(random);
    let draft = if soft { draft_of(random, steps, &edges) } else { must_draft(random, steps, &edges) };
    judge_near(judge, group, &draft);
}

/// Many more edges than lines: edge by edge there would be far more points than there may be.
pub fn repeated_near_limit(judge: &mut Judge, random: &mut Random, group: usize) {
    let kinds: &[Kind] = if group % 2 == 0 { &ALL_KINDS } else { &[Kind::Must] };
    let size: Size = |random| {
        let links = random.between(24, 60);
        (random.between(links + 1, STEPS), links)
    };
    let (steps, edges) = Plan { target: MAX_POINTS + group / 2 % 2, kinds, repeats: 9, size }.find(random);
    judge_near(judge, group, &draft_of(random, steps, &edges));
}

/// The most points that get x, and one more; with every kind of edges, and with must edges alone.
pub fn near_x_limit(judge: &mut Judge, random: &mut Random, group: usize) {
    let (most, beyond) = (MOST_POINTS, MOST_POINTS + 1);
    let target = random.pick(&[most, most, most, beyond, beyond, most - 1, beyond + 1, beyond + 30]);
    let kinds: &[Kind] = if group % 2 == 0 { &ALL_KINDS } else { &[Kind::Must] };
    let size: Size = |random| {
        let links = random.between(4, 24);
        (random.between(links + 1, random.clone().pick(&[30, 60, STEPS])), links)
    };
    let (steps, edges) = Plan { target, kinds, repeats: group % 3, size }.find(random);
    judge_near(judge, group, &draft_of(random, steps, &edges));
}

/// So many points, with every kind of lines along a chain of so many links, for the most part against it.
pub fn along_chain(random: &mut Random, target: usize, repeats: usize, size: Size) -> (usize, Vec<TableEdge>) {
    Plan { target, kinds: &[Kind::Turned, Kind::Turned, Kind::Kept, Kind::Must], repeats, size }.find(random)
}

/// Few steps with as many lines between them as there are points for: charts have the most segments and crossings.
pub fn most_segments(judge: &mut Judge, random: &mut Random, _: usize) {
    let links = random.between(15, 20);
    let span = random.between(6, 8);
    let near = (0..links).flat_map(|low| (low + 1..=(low + span).min(links)).map(move |high| (low, high)));
    let mut lines: Vec<Line> = near.flat_map(|(low, high)| ALL_KINDS.map(|kind| (low, high, kind))).collect();
    // The must edges of the chain stand first, whatever becomes of the others.
    let in_chain = |line: &Line| line.1 == line.0 + 1 && line.2 == Kind::Must;
    random.shuffle(&mut lines);
    lines.sort_by_key(|line| !in_chain(line));
    let (mut kept, mut points) = (Vec::new(), links + 1);
    for line in lines.into_iter().take(EDGES) {
        let own = line.1 - line.0 - 1;
        if points + own <= MAX_POINTS {
            points += own;
            kept.push(line);
        }
    }
    let row: Vec<usize> = (0..=links).collect();
    let edges = number_edges(random, links + 1, &row, &kept);
    judge.judge_order(&write_table(&draft_of(random, links + 1, &edges)));
}

fn must_draft(random: &mut Random, steps: usize, edges: &[TableEdge]) -> Draft {
    draft(random, steps, edges.iter().map(|edge| edge.edge).collect())
}

fn judge_near(judge: &mut Judge, group: usize, draft: &Draft) {
    let bytes = write_table(draft);
    judge.judge_table(&bytes);
    if group % 16 == 0 {
        judge.judge_buffers(&bytes, &[-10_000, -1, 0, 1]);
    }
}

/// Edges of which a line can be: a must edge, a soft one along the chain, a soft one against it, which is turned.
#[derive(Clone, Copy, PartialEq, Eq)]
enum Kind {
    Must,
    Kept,
    Turned,
}

const ALL_KINDS: [Kind; 3] = [Kind::Must, Kind::Kept, Kind::Turned];

/// The steps of the chain between which a line runs, by their place in it.
type Line = (usize, usize, Kind);

/// How many steps, and how many links the chain is to have.
pub type Size = fn(&mut Random) -> (usize, usize);

/// What chart is wanted: its points, the kinds of edges besides the must edges of the chain, and how many edges repeat others
/// for each that does not, as far as there may be so many.
struct Plan {
    target: usize,
    kinds: &'static [Kind],
    repeats: usize,
    size: Size,
}

impl Plan {
    fn find(&self, random: &mut Random) -> (usize, Vec<TableEdge>) {
        loop {
            let (steps, links) = (self.size)(random);
            if let Some(edges) = self.try_chart(random, steps, links) {
                return (steps, edges);
            }
        }
    }

    /// Lines are added until the points are used up; one that is there already adds none.
    fn try_chart(&self, random: &mut Random, steps: usize, links: usize) -> Option<Vec<TableEdge>> {
        let most = random.pick(&[1, 1, 2, 4]);
        let mut row = vec![0];
        for link in 0..links {
            row.push(row[link] + random.between(1, most));
        }
        let points = |line: &Line| row[line.1] - row[line.0] - 1;
        let mut lines: Vec<Line> = (0..links).map(|link| (link, link + 1, Kind::Must)).collect();
        let mut left = self.target.checked_sub(steps + lines.iter().map(points).sum::<usize>())?;
        let span = random.between(3, links);
        for _ in 0..4 * EDGES {
            let last = |line: &Line| left < 2 * span * most && points(line) == left;
            let line = self.next_line(random, links, span, &last, &lines);
            let known = lines.contains(&line);
            if left == 0 || lines.len() == EDGES || known && self.repeats == 0 {
                continue;
            }
            left = left.checked_sub(if known { 0 } else { points(&line) })?;
            lines.push(line);
        }
        for _ in 0..self.repeats * lines.len() {
            let known = random.pick(&lines);
            lines.push(known);
        }
        lines.truncate(EDGES);
        (left == 0).then(|| number_edges(random, steps, &row, &lines))
    }

    /// Any line, or a new one that ends the chart, if there is one.
    fn next_line(
        &self,
        random: &mut Random,
        links: usize,
        span: usize,
        ends: &dyn Fn(&Line) -> bool,
        known: &[Line],
    ) -> Line {
        let low = random.below(links + 1 - span.min(links));
        let any = (low, low + random.between(1, span), random.pick(self.kinds));
        let pairs = (0..=links).flat_map(|low| (low + 1..=links).map(move |high| (low, high, any.2)));
        pairs.into_iter().find(|line| ends(line) && !known.contains(line)).unwrap_or(any)
    }
}

/// The must edges of the chain keep its gap; any gap that fits will do for the others.
fn number_edges(random: &mut Random, steps: usize, row: &[usize], lines: &[Line]) -> Vec<TableEdge> {
    let mut number: Vec<usize> = (0..steps).collect();
    random.shuffle(&mut number);
    let mut edges = Vec::new();
    for (at, &(low, high, kind)) in lines.iter().enumerate() {
        let length = row[high] - row[low];
        let in_chain = at + 1 < row.len();
        let gap = if in_chain { length } else { random.between(1, length.min(4)) } as u32;
        let edge = Edge { from: number[low], to: number[high], gap, weight: random.below(256) as u32 };
        edges.push(TableEdge { edge: if kind == Kind::Turned { turn(edge) } else { edge }, soft: kind != Kind::Must });
    }
    if random.one_in(2) {
        random.shuffle(&mut edges);
    }
    edges
}

//! Charts that have much to do with x: ties, rows of unlike width, sums that decide by little, steps among pass points.

use reference::random::Random;
use reference::soft::turn;
use reference::table::{Edge, TableEdge, LIMITS};
use reference::writer::write_table;
use reference::xs::MOST_POINTS;

use crate::drafts::draft_of;
use crate::judge::Judge;
use crate::shapes::{EDGES, STEPS};

const HEAVIEST: u32 = *LIMITS.weight.end();

fn edge(from: usize, to: usize, gap: usize, weight: u32) -> TableEdge {
    TableEdge { edge: Edge { from, to, gap: gap as u32, weight }, soft: false }
}

/// Steps keep their numbers or take any; edges come as they are or in any order.
fn judge_edges(judge: &mut Judge, random: &mut Random, steps: usize, mut edges: Vec<TableEdge>) {
    let mut number: Vec<usize> = (0..steps).collect();
    if random.one_in(2) {
        random.shuffle(&mut number);
    }
    for TableEdge { edge, .. } in &mut edges {
        (edge.from, edge.to) = (number[edge.from], number[edge.to]);
    }
    if random.one_in(2) {
        random.shuffle(&mut edges);
    }
    edges.truncate(EDGES);
    judge.judge_order(&write_table(&draft_of(random, steps, &edges)));
}

/// Long lines side by side between a step above and one below, all of one weight, with some lines across: many x have the least
/// sum.
pub fn equal_lines(judge: &mut Judge, random: &mut Random, _: usize) {
    let lines = random.between(2, 18);
    let gap = random.between(1, 4);
    let weight = random.pick(&[1, 1, 3, HEAVIEST]);
    let (upper, lower) = (2, 2 + lines);
    let mut edges = Vec::new();
    for line in 0..lines {
        edges.push(edge(0, upper + line, 1, random.pick(&[weight, weight, 0])));
        edges.push(edge(upper + line, lower + line, gap, weight));
        edges.push(edge(lower + line, 1, 1, random.pick(&[weight, weight, 0])));
    }
    for _ in 0..random.below(3) {
        let (from, to) = (upper + random.below(lines), lower + random.below(lines));
        let across = edge(from, to, gap, weight);
        edges.push(TableEdge { soft: random.one_in(2), ..across });
    }
    judge_edges(judge, random, 2 + 2 * lines, edges);
}

/// Few steps beside a wide row, of other steps or of pass points, so that x are large.
pub fn unlike_rows(judge: &mut Judge, random: &mut Random, group: usize) {
    let (steps, edges) = match group % 4 {
        3 => wide_between(random),
        side => wide_beside(random, side % 2 == 0),
    };
    judge_edges(judge, random, steps, edges);
}

/// Up to 5 steps below a row of up to 90 steps, or above it, each joined with some of these.
fn wide_beside(random: &mut Random, below: bool) -> (usize, Vec<TableEdge>) {
    let wide = random.between(10, STEPS - 6);
    let few = random.between(1, 5);
    let weights = random.pick(&[1, 3, HEAVIEST as usize]);
    let mut edges = Vec::new();
    for step in wide..wide + few {
        // Near each other or anywhere.
        let near = random.below(wide);
        let reach = random.pick(&[1, 4, wide]);
        for _ in 0..random.between(1, random.clone().pick(&[2, 12, 40])) {
            let other = (near + random.below(reach)).min(wide - 1);
            let gap = if random.one_in(8) { 2 } else { 1 };
            let weight = random.between(0, weights) as u32;
            edges.push(if below { edge(other, step, gap, weight) } else { edge(step, other, gap, weight) });
        }
    }
    (wide + few, edges)
}

/// A row of pass points alone between few steps, for the most part with as many points as may get x: must lines between all
/// pairs of steps, and soft ones along them and against them.
pub fn wide_between(random: &mut Random) -> (usize, Vec<TableEdge>) {
    let (upper, lower) = (random.between(2, 7), random.between(2, 7));
    let steps = upper + lower;
    let pairs = (0..upper).flat_map(|up| (upper..steps).map(move |low| (up, low)));
    let weights = random.pick(&[1, 3, HEAVIEST as usize]);
    let mut edges: Vec<TableEdge> =
        pairs.map(|(up, low)| edge(up, low, 2, random.between(0, weights) as u32)).collect();
    let along = edges.iter().map(|must| TableEdge { soft: true, ..*must });
    let against = edges.iter().map(|must| TableEdge { edge: turn(must.edge), soft: true });
    let mut beside: Vec<TableEdge> = along.chain(against).collect();
    random.shuffle(&mut beside);
    edges.extend(beside);
    edges.truncate(MOST_POINTS - steps + random.pick(&[0, 0, 0, 1]));
    (steps, edges)
}

/// By turns lines that nearly balance each other, and two of which one is as heavy as can be.
pub fn heavy_pieces(judge: &mut Judge, random: &mut Random, group: usize) {
    let (steps, edges) = if group % 8 == 0 { heaviest(random) } else { nearly_balanced(random) };
    judge_edges(judge, random, steps, edges);
}

/// Two lines below a step. No 16 bits hold the added weights of the one.
fn heaviest(random: &mut Random) -> (usize, Vec<TableEdge>) {
    let many = random.between(1 + u16::MAX as usize / HEAVIEST as usize, EDGES - 1);
    let below = random.pick(&[[1, 2], [2, 1]]);
    let gaps = [random.between(1, 3), random.between(1, 3)];
    let line = |at: usize| usize::from(at >= many);
    (3, (0..EDGES).map(|at| edge(0, below[line(at)], gaps[line(at)], HEAVIEST)).collect())
}

/// Lines of several edges, whose added weights are 1, 2, 4 and 8 times some weight, or one more or less.
fn nearly_balanced(random: &mut Random) -> (usize, Vec<TableEdge>) {
    let rows = random.between(2, 4);
    let width = random.between(2, 4);
    let lines = random.between(3, 10);
    let most = random.pick(&[40, 2500]);
    let one = random.between(1, most);
    let mut edges = Vec::new();
    for _ in 0..lines {
        let upper = random.below(rows - 1);
        let lower = random.between(upper + 1, rows - 1);
        let (from, to) = (upper * width + random.below(width), lower * width + random.below(width));
        let soft = random.one_in(4);
        let mut left = (one * random.pick(&[1, 2, 4, 8]) + random.below(3)) as u32 - 1;
        while left > 0 && edges.len() < EDGES {
            let weight = left.min(HEAVIEST);
            edges.push(TableEdge { soft, ..edge(from, to, lower - upper, weight) });
            left -= weight;
        }
    }
    (rows * width, edges)
}

/// A chain with steps beside it in all rows, and lines past several of them: steps and pass points stand among each other.
pub fn among_pass_points(judge: &mut Judge, random: &mut Random, _: usize) {
    let links = random.between(3, 7);
    let beside = random.between(1, 12);
    let weights = random.pick(&[2, 6, HEAVIEST as usize]);
    let any_weight = |random: &mut Random| random.between(0, weights) as u32;
    let mut edges: Vec<TableEdge> = (0..links).map(|link| edge(link, link + 1, 1, any_weight(random))).collect();
    for step in links + 1..=links + beside {
        let above = random.below(links);
        let gap = random.between(1, (links - above).min(4));
        edges.push(edge(above, step, gap, any_weight(random)));
        let below = above + gap + random.between(1, 3);
        if below <= links {
            edges.push(edge(step, below, 1, any_weight(random)));
        }
    }
    for _ in 0..random.between(1, 8) {
        let above = random.below(links - 1);
        let below = random.between(above + 2, links);
        let line = edge(above, below, 1, any_weight(random)).edge;
        let back = random.one_in(3);
        edges.push(TableEdge { edge: if back { turn(line) } else { line }, soft: back || random.one_in(2) });
    }
    judge_edges(judge, random, links + 1 + beside, edges);
}

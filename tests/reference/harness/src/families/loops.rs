//! Tables with loops: which step is named, and what comes before a loop is judged.

use reference::random::Random;
use reference::table::Edge;
use reference::writer::write_table;

use crate::drafts::{any_gaps, any_weights, draft, dress};
use crate::judge::Judge;
use crate::shapes;

/// A graph without loops and a few edges at will.
pub fn any_loop(judge: &mut Judge, random: &mut Random, _: usize) {
    let (steps, edges) = looped_edges(random);
    let mut bytes = write_table(&draft(random, steps, edges));
    judge.judge_table(&bytes);
    if random.one_in(8) {
        bytes.push(0);
        judge.judge_table(&bytes);
    }
}

pub fn looped_edges(random: &mut Random) -> (usize, Vec<Edge>) {
    let shape =
        random.pick(&[shapes::sparse as fn(&mut Random) -> _, shapes::tree, shapes::chain, shapes::tiny])(random);
    let (gaps, weights) = (any_gaps(random), any_weights(random));
    let mut edges = dress(random, &shape, gaps, weights);
    for _ in 0..random.between(1, 3) {
        let (a, b) = shapes::pair(random, shape.steps);
        let (from, to) = if random.one_in(2) { (a, b) } else { (b, a) };
        let at = random.below(edges.len() + 1);
        edges.insert(at, Edge { from, to, gap: 1, weight: 1 });
    }
    edges.truncate(shapes::EDGES);
    (shape.steps, edges)
}

/// Low steps lead into a loop of higher ones, and out of it again; sometimes a second loop follows.
pub fn after_tail(judge: &mut Judge, random: &mut Random, _: usize) {
    let (steps, edges) = tailed_edges(random);
    judge.judge_table(&write_table(&draft(random, steps, edges)));
}

pub fn tailed_edges(random: &mut Random) -> (usize, Vec<Edge>) {
    let tail = random.between(1, 10);
    let first = random.between(2, 10);
    let second = if random.one_in(2) { random.between(2, 10) } else { 0 };
    let steps = tail + first + second + random.below(10);
    let mut number: Vec<usize> = (0..steps).collect();
    let fixed = if random.one_in(2) { tail } else { 0 };
    random.shuffle(&mut number[fixed..]);
    let mut ends: Vec<_> = (1..steps).map(|step| (step - 1, step)).collect();
    ends.push((tail + first - 1, tail));
    if second > 0 {
        ends.push((tail + first + second - 1, tail + first));
    }
    random.shuffle(&mut ends);
    let edge = |&(from, to): &(usize, usize)| Edge { from: number[from], to: number[to], gap: 2, weight: 3 };
    (steps, ends.iter().map(edge).collect())
}

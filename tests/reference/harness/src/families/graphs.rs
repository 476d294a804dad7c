//! Accepted tables of every shape.

use reference::random::Random;
use reference::table::{Edge, Kind};
use reference::writer::{write_table, Draft};

use crate::drafts::{any_gaps, any_weights, draft, dress, Weights};
use crate::judge::Judge;
use crate::shapes::{self, Shape};

fn run(judge: &mut Judge, random: &mut Random, make: fn(&mut Random) -> Shape) {
    let weights = any_weights(random);
    run_weighted(judge, random, make, weights);
}

fn run_weighted(judge: &mut Judge, random: &mut Random, make: fn(&mut Random) -> Shape, weights: Weights) {
    let shape = make(random);
    let gaps = any_gaps(random);
    let edges = dress(random, &shape, gaps, weights);
    judge.judge_table(&write_table(&draft(random, shape.steps, edges)));
}

pub fn tiny(judge: &mut Judge, random: &mut Random, _: usize) {
    run(judge, random, shapes::tiny);
}

pub fn sparse(judge: &mut Judge, random: &mut Random, _: usize) {
    run(judge, random, shapes::sparse);
}

pub fn dense(judge: &mut Judge, random: &mut Random, _: usize) {
    run(judge, random, shapes::dense);
}

pub fn full(judge: &mut Judge, random: &mut Random, _: usize) {
    run(judge, random, shapes::full);
}

pub fn chain(judge: &mut Judge, random: &mut Random, _: usize) {
    run(judge, random, shapes::chain);
}

pub fn grid(judge: &mut Judge, random: &mut Random, _: usize) {
    run(judge, random, shapes::grid);
}

pub fn layered(judge: &mut Judge, random: &mut Random, _: usize) {
    run(judge, random, shapes::layered);
}

pub fn wide(judge: &mut Judge, random: &mut Random, _: usize) {
    run(judge, random, shapes::wide);
}

pub fn star(judge: &mut Judge, random: &mut Random, _: usize) {
    run(judge, random, shapes::star);
}

pub fn bipartite(judge: &mut Judge, random: &mut Random, _: usize) {
    run(judge, random, shapes::bipartite);
}

pub fn parallel(judge: &mut Judge, random: &mut Random, _: usize) {
    run(judge, random, shapes::parallel);
}

pub fn tree(judge: &mut Judge, random: &mut Random, _: usize) {
    run(judge, random, shapes::tree);
}

pub fn parts(judge: &mut Judge, random: &mut Random, _: usize) {
    run(judge, random, shapes::parts);
}

pub fn long(judge: &mut Judge, random: &mut Random, _: usize) {
    run(judge, random, shapes::long);
}

pub fn single_row(judge: &mut Judge, random: &mut Random, _: usize) {
    run(judge, random, shapes::single_row);
}

/// All or most weights 0: gaps still bind, and totals tie.
pub fn zero_weights(judge: &mut Judge, random: &mut Random, _: usize) {
    let make = random.pick(&[shapes::dense as fn(&mut Random) -> Shape, shapes::layered, shapes::parts, shapes::tree]);
    let weights = random.pick(&[Weights::Zero, Weights::MostlyZero]);
    run_weighted(judge, random, make, weights);
}

const TINY_STEPS: usize = 3;
/// Ends (ordered, different), and four choices of what else an edge has: here gap 1 or 2 and weight 0 or 1.
const TINY_EDGES: usize = TINY_STEPS * (TINY_STEPS - 1) * 4;
pub const TINY_GRAPHS: usize = 1 + TINY_EDGES + TINY_EDGES.pow(2) + TINY_EDGES.pow(3);

/// The codes of the edges of a list, of all lists of up to three edges on three steps.
pub fn tiny_codes(group: usize) -> Vec<usize> {
    let mut code = group;
    let mut count = 0;
    while code >= TINY_EDGES.pow(count) {
        code -= TINY_EDGES.pow(count);
        count += 1;
    }
    (0..count).map(|place| code / TINY_EDGES.pow(place) % TINY_EDGES).collect()
}

pub fn tiny_draft(edges: Vec<Edge>, firmness: Option<Vec<u32>>) -> Draft {
    let steps = (0..TINY_STEPS).map(|step| (Kind::Check, vec![b'a' + step as u8])).collect();
    Draft { steps, edges, firmness }
}

/// All such lists, those with loops too.
pub fn all_tiny(judge: &mut Judge, _: &mut Random, group: usize) {
    let edges = tiny_codes(group).into_iter().map(tiny_edge).collect();
    judge.judge_table(&write_table(&tiny_draft(edges, None)));
}

pub fn tiny_edge(code: usize) -> Edge {
    let from = code / 4 % TINY_STEPS;
    let to = (from + 1 + code / 4 / TINY_STEPS) % TINY_STEPS;
    Edge { from, to, gap: 1 + (code & 1) as u32, weight: (code >> 1 & 1) as u32 }
}

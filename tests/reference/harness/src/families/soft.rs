//! Tables of edition 2: soft edges kept and turned.

use reference::random::Random;
use reference::soft::turn;
use reference::table::Edge;
use reference::writer::{write_table, Draft};

use crate::drafts::{any_gaps, any_weights, draft, dress, soften, soften_some};
use crate::families::graphs::{self, tiny_codes, tiny_draft};
use crate::families::loops::{looped_edges, tailed_edges};
use crate::judge::Judge;
use crate::shapes::{self, Shape, EDGES, STEPS};

const MAKERS: [fn(&mut Random) -> Shape; 12] = [
    shapes::tiny,
    shapes::tiny,
    shapes::sparse,
    shapes::dense,
    shapes::chain,
    shapes::grid,
    shapes::layered,
    shapes::star,
    shapes::bipartite,
    shapes::tree,
    shapes::parts,
    shapes::long,
];

fn draft_of(random: &mut Random, make: fn(&mut Random) -> Shape) -> Draft {
    let shape = make(random);
    let (gaps, weights) = (any_gaps(random), any_weights(random));
    let edges = dress(random, &shape, gaps, weights);
    draft(random, shape.steps, edges)
}

pub fn any_draft(random: &mut Random) -> Draft {
    let make = random.pick(&MAKERS);
    draft_of(random, make)
}

/// What edition 1 gives for these edges, edition 2 gives too.
pub fn all_must(judge: &mut Judge, random: &mut Random, _: usize) {
    let draft = any_draft(random);
    judge.judge_table(&write_table(&soften(random, draft, 0)));
}

pub fn all_soft(judge: &mut Judge, random: &mut Random, _: usize) {
    let draft = any_draft(random);
    judge.judge_table(&write_table(&soften(random, draft, 10)));
}

pub fn mixed(judge: &mut Judge, random: &mut Random, _: usize) {
    let draft = any_draft(random);
    let tenths = random.pick(&[1, 3, 5, 8]);
    judge.judge_table(&write_table(&soften(random, draft, tenths)));
}

/// Soft edges that point both ways along what must edges behind them lead through.
pub fn before_must(judge: &mut Judge, random: &mut Random, _: usize) {
    judge_sorted(judge, random, |firmness| 1 - firmness);
}

pub fn after_must(judge: &mut Judge, random: &mut Random, _: usize) {
    judge_sorted(judge, random, |firmness| firmness);
}

fn judge_sorted(judge: &mut Judge, random: &mut Random, key: fn(u32) -> u32) {
    let make = random.pick(&[shapes::chain as fn(&mut Random) -> Shape, shapes::tree, shapes::dense, shapes::layered]);
    let draft = draft_of(random, make);
    let draft = soften(random, draft, 5);
    let mut edges: Vec<(Edge, u32)> = draft.edges.into_iter().zip(draft.firmness.unwrap()).collect();
    edges.sort_by_key(|&(_, firmness)| key(firmness));
    let (edges, firmness) = edges.into_iter().unzip();
    judge.judge_table(&write_table(&Draft { steps: draft.steps, edges, firmness: Some(firmness) }));
}

/// Few pairs of ends, each met often, in both directions and with both firmnesses.
pub fn parallel(judge: &mut Judge, random: &mut Random, _: usize) {
    let draft = draft_of(random, shapes::parallel);
    judge.judge_table(&write_table(&soften_some(random, draft)));
}

/// Loops in which any number of edges is soft: only those of must edges are refused, with a step of their own.
pub fn loops(judge: &mut Judge, random: &mut Random, _: usize) {
    let (steps, edges) = if random.one_in(2) { looped_edges(random) } else { tailed_edges(random) };
    let draft = draft(random, steps, edges);
    let soft_in = random.pick(&[2, 4, 8, 30]);
    let firmness = draft.edges.iter().map(|_| u32::from(random.one_in(soft_in))).collect();
    let mut bytes = write_table(&Draft { firmness: Some(firmness), ..draft });
    judge.judge_table(&bytes);
    if random.one_in(8) {
        bytes.push(0);
        judge.judge_table(&bytes);
    }
}

/// As many steps and edges as there may be: must edges, and against each of them a soft one, which is turned.
pub fn half_turned(judge: &mut Judge, random: &mut Random, group: usize) {
    let shape = if group % 2 == 0 { chained(random) } else { wide(random) };
    let (gaps, weights) = (any_gaps(random), any_weights(random));
    let against = |edge: Edge| Edge { gap: 1 + edge.weight % 4, weight: 255 - edge.weight, ..turn(edge) };
    let must = dress(random, &shape, gaps, weights);
    let mut edges: Vec<(Edge, u32)> = must.iter().flat_map(|&edge| [(edge, 0), (against(edge), 1)]).collect();
    random.shuffle(&mut edges);
    let (edges, firmness) = edges.into_iter().unzip();
    let draft = draft(random, STEPS, edges);
    judge.judge_table(&write_table(&Draft { firmness: Some(firmness), ..draft }));
}

/// A chain through all steps, with edges along it.
fn chained(random: &mut Random) -> Shape {
    let links = (1..STEPS).map(|step| (step - 1, step));
    let more = (STEPS..=EDGES / 2).map(|_| shapes::pair(random, STEPS));
    Shape { steps: STEPS, ends: links.chain(more).collect() }
}

/// Wide layers, with edges between neighbouring ones.
fn wide(random: &mut Random) -> Shape {
    let layers = random.pick(&[4, 8]);
    let width = STEPS / layers;
    let ends = (0..EDGES / 2).map(|_| {
        let upper = random.below(layers - 1) * width;
        (upper + random.below(width), upper + width + random.below(width))
    });
    Shape { steps: STEPS, ends: ends.collect() }
}

pub fn buffers(judge: &mut Judge, random: &mut Random, group: usize) {
    let draft = draft_of(random, if group % 2 == 0 { shapes::tiny } else { shapes::long });
    let mut bytes = write_table(&soften(random, draft, 5));
    if group % 8 == 2 {
        *bytes.last_mut().unwrap() = 2;
    }
    judge.judge_buffers(&bytes, &[-10_000, -1, 0, 1, 40]);
}

/// All lists of up to three edges on three steps, each with a firmness, and gap 1 with weight 1 or gap 2 with weight 0.
pub fn all_tiny(judge: &mut Judge, _: &mut Random, group: usize) {
    let (edges, firmness) = tiny_codes(group).into_iter().map(tiny_edge).unzip();
    judge.judge_table(&write_table(&tiny_draft(edges, Some(firmness))));
}

/// The bit that is a weight there is a firmness here.
fn tiny_edge(code: usize) -> (Edge, u32) {
    let Edge { from, to, gap, weight: firmness } = graphs::tiny_edge(code);
    (Edge { from, to, gap, weight: 2 - gap }, firmness)
}

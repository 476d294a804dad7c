//! Tables within the limits up to version 1.3, whose rows a host may have kept as bytes, and tables just past them.

use reference::random::Random;
use reference::writer::write_table;

use crate::drafts::{any_gaps, any_weights, draft, dress, soften_some, Gaps};
use crate::judge::Judge;
use crate::shapes::{self, Shape, OLD_EDGES, OLD_STEPS};

pub fn within(judge: &mut Judge, random: &mut Random, group: usize) {
    let any_steps = random.between(2, OLD_STEPS);
    let any_edges = random.between(0, OLD_EDGES);
    let steps = random.pick(&[OLD_STEPS - 1, OLD_STEPS, OLD_STEPS, any_steps]);
    let edges = random.pick(&[OLD_EDGES - 1, OLD_EDGES, OLD_EDGES, any_edges]);
    let bytes = table_of(random, group, steps, edges);
    judge.judge_table(&bytes);
    judge.judge_kept(&bytes);
}

/// One step or one edge more than there could be.
pub fn past(judge: &mut Judge, random: &mut Random, group: usize) {
    let (steps, edges) = random.pick(&[
        (OLD_STEPS + 1, OLD_EDGES),
        (OLD_STEPS, OLD_EDGES + 1),
        (OLD_STEPS + 1, OLD_EDGES + 1),
        (OLD_STEPS + 1, OLD_STEPS),
        (2, OLD_EDGES + 1),
    ]);
    let bytes = table_of(random, group, steps, edges);
    judge.judge_table(&bytes);
}

/// By turns any edges, and a chain of the largest gaps with few edges beside it, which has the highest rows.
fn table_of(random: &mut Random, group: usize, steps: usize, edges: usize) -> Vec<u8> {
    let weights = any_weights(random);
    let edges = if group % 2 == 0 {
        let gaps = any_gaps(random);
        let shape = shapes::sized(random, steps, edges);
        dress(random, &shape, gaps, weights)
    } else {
        let shape = tall(random, steps, edges);
        dress(random, &shape, Gaps::Four, weights)
    };
    let mut drafted = draft(random, steps, edges);
    if random.one_in(2) {
        drafted = soften_some(random, drafted);
    }
    write_table(&drafted)
}

/// Each link as often as there are edges for, but for a few that pass some steps.
fn tall(random: &mut Random, steps: usize, edges: usize) -> Shape {
    let mut ends: Vec<(usize, usize)> = (0..edges).map(|at| (at % (steps - 1), at % (steps - 1) + 1)).collect();
    for end in ends.iter_mut().skip(steps - 1).take(3) {
        *end = shapes::pair(random, steps);
    }
    Shape { steps, ends }
}

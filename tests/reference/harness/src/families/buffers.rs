//! Every pair of buffer lengths about the ones needed, on accepted and refused tables.

use reference::random::Random;
use reference::writer::write_table;

use crate::drafts::{any_gaps, any_weights, draft, dress};
use crate::families::loops::looped_edges;
use crate::judge::Judge;
use crate::shapes;

const OFFSETS: [isize; 8] = [-10_000, -2, -1, 0, 1, 2, 31, 200];

pub fn all_lengths(judge: &mut Judge, random: &mut Random, group: usize) {
    let (steps, edges) = match group % 4 {
        0 => looped_edges(random),
        1 => (random.below(3), Vec::new()),
        _ => {
            let shape = random.pick(&[shapes::tiny as fn(&mut Random) -> _, shapes::long, shapes::sparse])(random);
            let (gaps, weights) = (any_gaps(random), any_weights(random));
            (shape.steps, dress(random, &shape, gaps, weights))
        }
    };
    let mut bytes = write_table(&draft(random, steps, edges));
    if group % 16 == 2 {
        bytes.pop();
    }
    judge.judge_buffers(&bytes, &OFFSETS);
}

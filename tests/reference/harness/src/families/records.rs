//! The record form: the same graphs without a table, and numbers of any size in every place.

use reference::random::Random;
use reference::records::Record;
use reference::words::{write_words, MAX_ENTRIES, MAX_RECORDS};

use crate::drafts::{any_gaps, any_weights, dress, records_of};
use crate::families::loops::{looped_edges, tailed_edges};
use crate::judge::Judge;
use crate::shapes::{self, Shape, EDGES, OLD_EDGES, OLD_STEPS, STEPS};

const MAKERS: [fn(&mut Random) -> Shape; 12] = [
    shapes::tiny,
    shapes::tiny,
    shapes::sparse,
    shapes::dense,
    shapes::chain,
    shapes::grid,
    shapes::layered,
    shapes::bipartite,
    shapes::parallel,
    shapes::parts,
    shapes::tree,
    shapes::single_row,
];

fn good(random: &mut Random) -> (usize, Vec<Record>) {
    let shape = random.pick(&MAKERS)(random);
    let (gaps, weights) = (any_gaps(random), any_weights(random));
    (shape.steps, records_of(&dress(random, &shape, gaps, weights)))
}

pub fn valid(judge: &mut Judge, random: &mut Random, _: usize) {
    let (steps, records) = good(random);
    judge.judge_records(steps, &records);
}

/// Numbers that are good only when cut to 8, 16 or 32 bits, and others out of range.
fn odd_number(random: &mut Random, good: usize, steps: usize) -> usize {
    random.pick(&[
        0,
        1,
        4,
        5,
        steps,
        steps.wrapping_sub(1),
        steps + 1,
        255,
        256,
        good.wrapping_add(256),
        good.wrapping_add(1 << 16),
        good.wrapping_add(1 << 32),
        good | 1 << 63,
        usize::MAX,
        usize::MAX - 3,
    ])
}

pub fn spoiled(judge: &mut Judge, random: &mut Random, _: usize) {
    let (mut steps, mut records) = good(random);
    for _ in 0..random.between(1, 3) {
        if random.one_in(12) {
            let low = steps % 256;
            let limits = [OLD_STEPS, OLD_STEPS + 1, STEPS, STEPS + 1];
            let others = [0, 1, 256, 256 + low, 65536 + low, (1 << 32) + low, usize::MAX];
            steps = random.pick(&[&limits[..], &others].concat());
        } else if !records.is_empty() {
            let at = random.below(records.len());
            let place = random.below(4);
            records[at][place] = odd_number(random, records[at][place], steps.min(STEPS));
        }
    }
    judge.judge_records(steps, &records);
}

/// About the limits, the old ones too, about how many the program lends, and such as fit when cut to 8 or 9 bits.
const RECORD_COUNTS: [usize; 15] = [
    0,
    1,
    OLD_EDGES - 1,
    OLD_EDGES,
    OLD_EDGES + 1,
    255,
    256,
    EDGES - 1,
    EDGES,
    EDGES + 1,
    MAX_RECORDS,
    MAX_RECORDS + 1,
    256 + OLD_EDGES,
    512 + EDGES,
    900,
];
const STEP_COUNTS: [usize; 13] = [
    0,
    1,
    OLD_STEPS - 1,
    OLD_STEPS,
    OLD_STEPS + 1,
    STEPS - 1,
    STEPS,
    STEPS + 1,
    128,
    256,
    256 + STEPS,
    1 << 32,
    usize::MAX,
];

/// Counts at and past their limits, with good and bad records behind them.
pub fn limits(judge: &mut Judge, random: &mut Random, group: usize) {
    if group == 0 {
        cut_words(judge);
        highest_rows(judge);
    }
    for count in RECORD_COUNTS {
        let steps = random.pick(&[2, 3, OLD_STEPS, STEPS]);
        let record = [0, 1, random.between(1, 4), random.below(256)];
        let mut records = vec![record; count];
        judge.judge_records(steps, &records);
        judge.judge_records(steps + STEPS - 2, &records);
        if count > 0 {
            records[random.below(count)] = random.pick(&[[0, 0, 1, 1], [0, 1, 5, 1], [1, 0, 1, 1], [0, 9999, 1, 256]]);
            judge.judge_records(steps, &records);
        }
    }
    for steps in STEP_COUNTS {
        judge.judge_records(steps, &[]);
        judge.judge_records(steps, &[[0, steps.wrapping_sub(1), 1, 1]]);
        judge.judge_records(steps, &[[0, steps, 1, 1]]);
    }
    for place in 0..4 {
        for number in (0..300).chain([1 << 16, 1 << 32, usize::MAX]) {
            let mut record = [0, 1, 1, 1];
            record[place] = number;
            judge.judge_records(STEPS, &[[2, 3, 1, 1], record]);
        }
    }
}

/// Chains of the largest gaps, about the old limit and the new one.
fn highest_rows(judge: &mut Judge) {
    for steps in [OLD_STEPS - 1, OLD_STEPS, OLD_STEPS + 1, STEPS - 1, STEPS] {
        let records: Vec<Record> = (1..steps).map(|step| [step - 1, step, 4, 1]).collect();
        judge.judge_records(steps, &records);
    }
}

/// The program's input cut everywhere, with counts whose bytes differ.
fn cut_words(judge: &mut Judge) {
    for (steps, entries) in [(2, 2), (STEPS, MAX_ENTRIES), (1 << 56 | 2, 2), (2, 1 << 56)] {
        let words = write_words(steps, entries, &[[1, 0, 1, 1], [0, 1, 1, 1]]);
        for len in 0..=words.len() {
            judge.compare_cut_words(&words[..len]);
        }
    }
}

pub fn loops(judge: &mut Judge, random: &mut Random, _: usize) {
    let (steps, edges) = if random.one_in(2) { looped_edges(random) } else { tailed_edges(random) };
    let mut records = records_of(&edges);
    judge.judge_records(steps, &records);
    let at = random.below(records.len());
    records[at][2] = 5;
    judge.judge_records(steps, &records);
}

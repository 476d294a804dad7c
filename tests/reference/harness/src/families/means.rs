//! Means whose sums, counts and products are the largest that there can be, and means that are nearly equal.

use reference::random::Random;
use reference::writer::write_table;

use crate::drafts::draft_of;
use crate::fans::{self, Fan};
use crate::judge::Judge;

pub use crate::fans::{LARGEST, NEAREST};

pub fn largest(judge: &mut Judge, random: &mut Random, group: usize) {
    judge_fan(judge, random, fans::largest(group));
}

pub fn near(judge: &mut Judge, random: &mut Random, group: usize) {
    let fan = fans::near(random, group);
    judge_fan(judge, random, fan);
}

fn judge_fan(judge: &mut Judge, random: &mut Random, Fan { steps, edges }: Fan) {
    judge.judge_order(&write_table(&draft_of(random, steps, &edges)));
}

//! Good tables with one or two fields spoiled: every refusal at every field, and which of two wins.

use reference::random::Random;
use reference::table::{Kind, LIMITS, OLD_LIMITS};
use reference::writer::{bytes_of, fields_of, short, Draft, Field};

use crate::drafts::{any_kind, any_name, any_weights, dress, soften_some, Gaps};
use crate::judge::Judge;
use crate::shapes;

const STEPS: u32 = LIMITS.steps;
const EDGES: u32 = LIMITS.edges;

/// The limits of all fields and their neighbours, the old ones too.
pub const VALUES: [u32; 32] = [
    0,
    1,
    2,
    3,
    4,
    5,
    15,
    16,
    17,
    OLD_LIMITS.steps,
    OLD_LIMITS.steps + 1,
    STEPS - 1,
    STEPS,
    STEPS + 1,
    127,
    128,
    OLD_LIMITS.edges,
    OLD_LIMITS.edges + 1,
    239,
    240,
    241,
    254,
    255,
    256,
    257,
    EDGES,
    EDGES + 1,
    9_998,
    9_999,
    10_000,
    16_384,
    2_097_151,
];
const BYTES: [u8; 8] = [0, 0x20, 0x21, 0x3d, 0x7e, 0x7f, 0x80, 0xff];

fn small_draft(random: &mut Random) -> Draft {
    let shape = shapes::tiny(random);
    let weights = any_weights(random);
    let edges = dress(random, &shape, Gaps::Mixed, weights);
    let mut steps: Vec<(Kind, Vec<u8>)> = (0..shape.steps).map(|_| (any_kind(random), any_name(random))).collect();
    for (_, name) in &mut steps {
        name.truncate(3);
    }
    Draft { steps, edges, firmness: None }
}

fn small_soft_draft(random: &mut Random) -> Draft {
    let draft = small_draft(random);
    soften_some(random, draft)
}

pub fn each_field(judge: &mut Judge, random: &mut Random, _: usize) {
    let good = fields_of(&small_draft(random));
    spoil_each(judge, random, &good);
}

pub fn each_soft_field(judge: &mut Judge, random: &mut Random, _: usize) {
    let good = fields_of(&small_soft_draft(random));
    spoil_each(judge, random, &good);
}

/// Each field, each value at its edges, each width, the high bit left set, and the bytes cut inside it.
fn spoil_each(judge: &mut Judge, random: &mut Random, good: &[Field]) {
    for at in 0..good.len() {
        let mut fields = good.to_vec();
        match good[at] {
            Field::Byte(_) => {
                for byte in BYTES {
                    fields[at] = Field::Byte(byte);
                    judge.judge_table(&bytes_of(&fields));
                }
            }
            Field::Number { value, .. } => {
                for width in 1..=5 {
                    fields[at] = Field::Number { value, width };
                    judge.judge_table(&bytes_of(&fields));
                }
                for value in VALUES {
                    fields[at] = short(value);
                    judge.judge_table(&bytes_of(&fields));
                    fields[at] = Field::Number { value, width: random.between(2, 3) as u32 };
                    judge.judge_written(&bytes_of(&fields));
                }
            }
        }
        judge.judge_table(&bytes_of(&fields[..at]));
        judge.judge_table(&[bytes_of(&good[..at]), vec![0x80]].concat());
        judge.judge_table(&[bytes_of(&good[..at]), vec![0xff, 0x80]].concat());
        judge.judge_table(&[bytes_of(&good[..at]), vec![0x81, 0x80, 0x80]].concat());
    }
}

pub fn two_fields(judge: &mut Judge, random: &mut Random, _: usize) {
    let fields = fields_of(&small_draft(random));
    spoil_two(judge, random, fields);
}

pub fn two_soft_fields(judge: &mut Judge, random: &mut Random, _: usize) {
    let fields = fields_of(&small_soft_draft(random));
    spoil_two(judge, random, fields);
}

fn spoil_two(judge: &mut Judge, random: &mut Random, mut fields: Vec<Field>) {
    for _ in 0..2 {
        let at = random.below(fields.len());
        fields[at] = match fields[at] {
            Field::Byte(_) => Field::Byte(random.pick(&BYTES)),
            Field::Number { .. } => {
                Field::Number { value: random.pick(&VALUES), width: random.pick(&[1, 1, 1, 2, 3, 4]) }
            }
        };
    }
    let mut bytes = bytes_of(&fields);
    if random.one_in(3) {
        bytes.truncate(random.below(bytes.len()));
    }
    judge.judge_table(&bytes);
}

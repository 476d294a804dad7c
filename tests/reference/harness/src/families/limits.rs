//! The stated short cases, and each limit met exactly and passed by one.

use reference::points::MAX_POINTS;
use reference::random::Random;
use reference::table::{Edge, Kind};
use reference::writer::{bytes_of, fields_of, short, write_table, write_widened, Draft, Field};

use crate::judge::Judge;
use crate::shapes::{EDGES, OLD_EDGES, OLD_STEPS, STEPS};

const SAMPLE: &[u8] = b"\x01\x04\x02\x1e\x04warm\x00\x04lock\x00\x05sweep\x01\x32\x05level\x04\
\x00\x01\x01\x01\x01\x02\x02\x03\x00\x03\x01\x01\x03\x02\x01\x05";

/// The sample in edition 2, with soft edges along its must edges and against them.
const TURNED: &[u8] = b"\x02\x04\x02\x1e\x04warm\x00\x04lock\x00\x05sweep\x01\x32\x05level\x06\
\x00\x01\x01\x01\x00\x01\x02\x02\x03\x00\x02\x00\x04\x01\x01\
\x00\x03\x01\x01\x00\x03\x02\x01\x05\x00\x01\x03\x03\x02\x01";

/// More long forms, and the largest number; the last table is a loop.
const LONG_FORMS: [&[u8]; 9] = [
    &[0x80, 0],
    &[0x81, 0x80, 0],
    &[0xff, 0xff, 0x7f],
    &[1, 0x80, 0, 0],
    &[1, 0, 0x80, 0x80, 0],
    &[0x82, 0x80, 0, 0, 0],
    &[1, 1, 0x83, 0, 1, 0x41, 0],
    &[2, 2, 0, 1, 0x41, 0, 1, 0x42, 1, 0, 1, 1, 1, 0x82, 0],
    &[1, 2, 0, 1, 0x41, 0, 1, 0x42, 2, 0, 1, 1, 1, 0x81, 0, 0, 1, 0x81, 0x80, 0],
];

pub fn stated_cases(judge: &mut Judge, _: &mut Random, _: usize) {
    let cases: [&[u8]; 25] = [
        SAMPLE,
        &[1, 0, 0],
        &[],
        &[2],
        &[0x81, 0, 0, 0],
        &[0x80, 0x80, 0x80],
        &[1, 0x40],
        &[1, 0x41],
        &[1, STEPS as u8],
        &[1, STEPS as u8 + 1],
        &[1, 0, 0, 0],
        &[1, 1, 0, 1, 0x41, 1, 0, 0],
        &[1, 2, 0, 1, 0x41, 0, 1, 0x42, 2, 0, 1, 1, 1, 1, 0, 1, 1],
        &[0x83, 0x80, 0x80],
        &[0x80, 0x80],
        &[0x83, 0x80, 0],
        &[1, 0, 1, 0],
        &[1, 1, 0, 1, 0x41, 1, 1],
        &[0],
        &[3],
        &[2, 0, 0],
        TURNED,
        &TURNED[..TURNED.len() - 1],
        &[2, 2, 0, 1, 0x41, 0, 1, 0x42, 1, 0, 1, 1, 1, 2],
        &[2, 2, 0, 1, 0x41, 0, 1, 0x42, 1, 0, 1, 1, 0x80, 2, 2],
    ];
    for bytes in cases.into_iter().chain(LONG_FORMS) {
        judge.judge_table(bytes);
        judge.compare_listing(bytes);
        judge.compare_conversion(bytes);
        judge.judge_buffers(bytes, &[-100, -1, 0, 1, 100]);
    }
}

pub fn chain(steps: usize, kind: Kind, name: &[u8], edges: usize, gap: u32, weight: u32) -> Draft {
    let links = steps.max(2) - 1;
    let edge = |from| Edge { from, to: from + 1, gap, weight };
    let edges = (0..edges).map(|index| edge(index % links)).collect();
    Draft { steps: vec![(kind, name.to_vec()); steps], edges, firmness: None }
}

/// The chain in edition 2.
fn soft_chain(steps: usize, edges: usize, weight: u32, firmness: u32) -> Draft {
    Draft { firmness: Some(vec![firmness; edges]), ..chain(steps, Kind::Check, b"f", edges, 1, weight) }
}

/// Every limit met and passed, each table in short and long forms; then all small values of the first fields.
pub fn field_limits(judge: &mut Judge, _: &mut Random, _: usize) {
    for draft in [count_limits(), range_limits(), name_limits()].concat() {
        judge_forms(judge, &draft);
    }
    for place in 0..3 {
        for value in 0..300 {
            let mut fields = fields_of(&chain(2, Kind::Check, b"k", 1, 1, 1));
            fields[place] = short(value);
            judge.judge_table(&bytes_of(&fields));
        }
    }
}

/// Firmness met and passed at every edge and at the last, behind good and bad weights; counts in edition 2; and every
/// small edition before edges of five numbers.
pub fn soft_limits(judge: &mut Judge, _: &mut Random, _: usize) {
    for firmness in [0, 1, 2, 3, 4, 127, 128, 129, 255, 256, 257, 16_383, 16_384, 16_385, 65_536, 65_537, 2_097_151] {
        for (edges, weight) in [(1, 1), (3, 255), (3, 256), (EDGES, 0)] {
            let mut draft = soft_chain(4, edges, weight, 1);
            *draft.firmness.as_mut().unwrap().last_mut().unwrap() = firmness;
            judge_forms(judge, &draft);
            judge_forms(judge, &soft_chain(4, edges, weight, firmness));
        }
    }
    for edges in [0].into_iter().chain(EDGE_COUNTS) {
        judge_forms(judge, &soft_chain(STEPS, edges, 255, 0));
        judge_forms(judge, &soft_chain(2, edges, 0, 1));
    }
    for (value, width) in (0..300).flat_map(|value| (1..=4).map(move |width| (value, width))) {
        let mut fields = fields_of(&soft_chain(2, 1, 1, 1));
        fields[0] = Field::Number { value, width };
        judge.judge_table(&bytes_of(&fields));
    }
}

/// At and about the limits, the old ones too, and the largest numbers of seven and eight bits.
const STEP_COUNTS: [usize; 14] =
    [0, 1, 2, OLD_STEPS - 1, OLD_STEPS, OLD_STEPS + 1, STEPS - 1, STEPS, STEPS + 1, STEPS + 2, 127, 128, 255, 256];
const EDGE_COUNTS: [usize; 11] =
    [1, OLD_EDGES - 1, OLD_EDGES, OLD_EDGES + 1, 255, 256, 257, EDGES - 1, EDGES, EDGES + 1, EDGES + 2];

fn count_limits() -> Vec<Draft> {
    let mut drafts = vec![largest_total(), most_points()];
    for steps in STEP_COUNTS {
        drafts.push(chain(steps, Kind::Check, b"s", 0, 1, 1));
        drafts.push(chain(steps, Kind::Check, b"s", steps.saturating_sub(1).min(EDGES), 4, 255));
    }
    for edges in EDGE_COUNTS {
        for steps in [OLD_STEPS, STEPS] {
            drafts.push(chain(steps, Kind::Check, b"e", edges, 1, 255));
        }
        drafts.push(chain(2, Kind::Check, b"e", edges, 4, 0));
    }
    drafts
}

/// The largest total that a chart can have. The links of a chain to row R are at least R / 4 edges, of length 4 at most, and no
/// edge is longer than R; so the longest chain is best, and all other edges from its start to its end, as one line.
fn largest_total() -> Draft {
    let mut draft = chain(STEPS, Kind::Check, b"t", STEPS - 1, 4, 255);
    draft.edges.resize(EDGES, Edge { from: 0, to: STEPS - 1, gap: 1, weight: 255 });
    draft
}

/// As many points as there may be: lines from the start of a chain past its links, the longest first, and steps for the rest.
fn most_points() -> Draft {
    const LINKS: usize = 32;
    let mut draft = chain(LINKS + 1, Kind::Check, b"p", LINKS, 4, 1);
    let mut left = MAX_POINTS - (4 * LINKS + 1);
    for to in (2..=LINKS).rev() {
        if let Some(rest) = left.checked_sub(4 * to - 1) {
            left = rest;
            draft.edges.push(Edge { from: 0, to, gap: 1, weight: 1 });
        }
    }
    draft.steps.resize(LINKS + 1 + left, (Kind::Check, b"p".to_vec()));
    draft
}

fn range_limits() -> Vec<Draft> {
    let mut drafts = Vec::new();
    for gap in [0, 1, 4, 5, 128, 257, 260] {
        drafts.push(chain(5, Kind::Check, b"g", 4, gap, 1));
    }
    for weight in [0, 127, 128, 254, 255, 256, 257, 16_384, 65_536, 65_537] {
        drafts.push(chain(5, Kind::Check, b"w", 4, 1, weight));
    }
    for tolerance in [0, 127, 128, 9_998, 9_999, 10_000, 16_383, 16_384, 65_536, 2_097_151] {
        drafts.push(chain(2, Kind::Adjustment { tolerance }, b"a", 1, 1, 1));
    }
    for minutes in [0, 1, 127, 128, 239, 240, 241, 256, 257, 65_537, 2_097_151] {
        drafts.push(chain(2, Kind::Wait { minutes }, b"w", 1, 1, 1));
    }
    drafts
}

fn name_limits() -> Vec<Draft> {
    let mut drafts = Vec::new();
    for len in [0, 1, 15, 16, 17, 32, 128] {
        drafts.push(chain(3, Kind::Check, &vec![b'n'; len], 2, 1, 1));
    }
    for byte in 0..=255 {
        drafts.push(chain(2, Kind::Check, &[byte], 1, 1, 1));
        drafts.push(chain(2, Kind::Check, &[b'x', byte, b'y'], 1, 1, 1));
    }
    drafts
}

fn judge_forms(judge: &mut Judge, draft: &Draft) {
    judge.judge_table(&write_table(draft));
    judge.judge_buffers(&write_table(draft), &[-1, 0, 1]);
    for width in 2..=4 {
        judge.judge_table(&write_widened(draft, || width));
    }
}

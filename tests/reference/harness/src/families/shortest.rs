//! Tables for the calls that write: every spelling of a table has the same shortest form.

use reference::bounds::{LONGEST, LONGEST_STORED};
use reference::random::Random;
use reference::table::{Edge, Kind, LIMITS};
use reference::writer::{bytes_of, fields_of, widen, write_table, write_widened, Draft, Field};

use crate::drafts::{draft, longest_draft, number_places, soften_some, with_long_forms};
use crate::families::limits::chain;
use crate::families::loops::looped_edges;
use crate::families::soft::any_draft;
use crate::judge::Judge;
use crate::shapes::{EDGES, STEPS};

const WIDTHS: [u32; 3] = [1, 2, 3];

/// The empty table in both editions and all widths of its three numbers.
pub fn empty_spellings(judge: &mut Judge, _: &mut Random, _: usize) {
    for code in 0..2 * 27 {
        let number = |value, place: u32| Field::Number { value, width: WIDTHS[code / 3usize.pow(place) % 3] };
        let bytes = bytes_of(&[number(1 + code as u32 / 27, 0), number(0, 1), number(0, 2)]);
        judge.judge_table(&bytes);
        judge.judge_written_buffers(&bytes, &[-3, -2, -1, 0, 1, 2, 3, 60]);
    }
}

/// Each number in each width, beside others that are all short, all longer or all longest.
pub fn single_long_forms(judge: &mut Judge, _: &mut Random, _: usize) {
    for firmness in [None, Some(vec![0, 0, 0]), Some(vec![0, 0, 1]), Some(vec![1, 0, 0]), Some(vec![1, 1, 1])] {
        let fields = fields_of(&Draft { firmness, ..telling_draft() });
        for (own, others) in WIDTHS.into_iter().flat_map(|own| WIDTHS.map(|others| (own, others))) {
            for at in number_places(&fields) {
                let mut spelled = fields.clone();
                widen(&mut spelled, || others);
                widen(&mut spelled[at..=at], || own);
                judge.judge_written(&bytes_of(&spelled));
            }
        }
    }
}

/// Every kind of field, and of each number one that takes one byte and one that takes two; the must edges form a loop.
pub fn telling_draft() -> Draft {
    let (low, high) = (Kind::Adjustment { tolerance: 50 }, Kind::Adjustment { tolerance: 9999 });
    let (brief, long) = (Kind::Wait { minutes: 30 }, Kind::Wait { minutes: 240 });
    let names: [&[u8]; 5] = [b"lock", b"=|^~", b"abcdefghijklmnop", b"w", b"15_bytes_long_a"];
    let steps = [Kind::Check, low, high, brief, long].into_iter().zip(names.map(<[u8]>::to_vec)).collect();
    let edge = |from, to, gap, weight| Edge { from, to, gap, weight };
    Draft { steps, edges: vec![edge(0, 1, 1, 0), edge(4, 2, 4, 255), edge(1, 0, 2, 5)], firmness: None }
}

/// Every value that a tolerance, a wait, a weight, a gap or a count can have.
pub fn values(judge: &mut Judge, _: &mut Random, _: usize) {
    for kind in LIMITS.tolerance.map(|tolerance| Kind::Adjustment { tolerance }) {
        judge_widths(judge, &chain(1, kind, b"t", 0, 1, 1));
    }
    for kind in LIMITS.minutes.map(|minutes| Kind::Wait { minutes }) {
        judge_widths(judge, &chain(1, kind, b"m", 0, 1, 1));
    }
    for (weight, gap) in LIMITS.weight.flat_map(|weight| LIMITS.gap.map(move |gap| (weight, gap))) {
        judge_firmness(judge, &chain(2, Kind::Check, b"w", 1, gap, weight));
    }
    for steps in 0..=STEPS {
        judge_widths(judge, &chain(steps, Kind::Check, b"s", 0, 1, 1));
    }
    for edges in 0..=EDGES {
        judge_firmness(judge, &chain(STEPS, Kind::Check, b"e", edges, 1, 128));
    }
}

/// Every pair of ends; one in five with all numbers in longer forms too.
pub fn ends(judge: &mut Judge, _: &mut Random, _: usize) {
    let mut draft = chain(STEPS, Kind::Check, b"e", 1, 1, 1);
    for (from, to) in (0..STEPS * STEPS).map(|code| (code / STEPS, code % STEPS)).filter(|(from, to)| from != to) {
        draft.edges[0] = Edge { from, to, gap: 1, weight: 1 };
        if (from + to) % 5 == 0 {
            judge_widths(judge, &draft);
        } else {
            judge.judge_written(&write_table(&draft));
        }
    }
}

/// In edition 1; in edition 2 with no soft edge, and with the last soft.
fn judge_firmness(judge: &mut Judge, draft: &Draft) {
    judge_widths(judge, draft);
    let mut firmness = vec![0; draft.edges.len()];
    judge_widths(judge, &Draft { firmness: Some(firmness.clone()), ..draft.clone() });
    if let Some(last) = firmness.last_mut() {
        *last = 1;
        judge_widths(judge, &Draft { firmness: Some(firmness), ..draft.clone() });
    }
}

fn judge_widths(judge: &mut Judge, draft: &Draft) {
    for width in WIDTHS {
        judge.judge_written(&write_widened(draft, || width));
    }
}

/// One soft edge at every place among many must edges, and one must edge among soft ones.
pub fn single_soft(judge: &mut Judge, _: &mut Random, _: usize) {
    for edges in [1, 2, 3, 127, 128, 256, EDGES - 1, EDGES] {
        let draft = chain(STEPS, Kind::Check, b"f", edges, 2, 200);
        for (at, soft) in (0..edges).flat_map(|at| [(at, 0), (at, 1)]) {
            let mut firmness = vec![1 - soft; edges];
            firmness[at] = soft;
            judge.judge_written(&write_table(&Draft { firmness: Some(firmness), ..draft.clone() }));
        }
    }
}

/// Every pair of lengths of two names.
pub fn names(judge: &mut Judge, _: &mut Random, _: usize) {
    let name = |len: usize| (b'A'..).take(len).collect::<Vec<u8>>();
    for (first, second) in (0..16 * 16).map(|code| (1 + code / 16, 1 + code % 16)) {
        for kind in [Kind::Check, Kind::Adjustment { tolerance: 128 }, Kind::Wait { minutes: 7 }] {
            let steps = vec![(kind, name(first)), (Kind::Check, name(second))];
            judge_widths(judge, &Draft { steps, ..chain(2, kind, b"n", 1, 1, 1) });
        }
    }
}

/// Tables of any shape, with loops too, each in several spellings.
pub fn spellings(judge: &mut Judge, random: &mut Random, group: usize) {
    let mut drafted = if group % 3 == 0 {
        let (steps, edges) = looped_edges(random);
        draft(random, steps, edges)
    } else {
        any_draft(random)
    };
    if random.one_in(2) {
        drafted = soften_some(random, drafted);
    }
    judge.judge_written(&write_table(&drafted));
    for _ in 0..3 {
        judge.judge_written(&with_long_forms(random, &drafted));
    }
}

/// A buffer of every length, for tables with long forms and without, and for ones that are cut.
pub fn buffers(judge: &mut Judge, random: &mut Random, group: usize) {
    let mut drafted = any_draft(random);
    drafted.steps.truncate(3);
    drafted.edges.retain(|edge| edge.from.max(edge.to) < 3);
    drafted.edges.truncate(4);
    if group % 2 == 0 {
        drafted = soften_some(random, drafted);
    }
    for mut bytes in [with_long_forms(random, &drafted), write_table(&drafted)] {
        if group % 8 == 1 {
            bytes.pop();
        }
        let len = bytes.len() as isize;
        judge.judge_written_buffers(&bytes, &(-len..=len).collect::<Vec<_>>());
    }
}

/// As many steps and edges as there may be, names of 16 bytes, and numbers of two bytes wherever one can be.
pub fn largest(judge: &mut Judge, random: &mut Random, group: usize) {
    let mut draft = longest_draft(random);
    judge_firmness(judge, &draft);
    let mut firmness = vec![0; EDGES];
    firmness[EDGES - 1 - group % EDGES] = 1;
    draft.firmness = Some(firmness);
    let (short, long) = (write_table(&draft), write_widened(&draft, || 3));
    assert_eq!([short.len(), long.len()], [LONGEST, LONGEST_STORED]);
    judge.judge_table(&short);
    judge.judge_written_buffers(&long, &[-10_000, -1, 0, 1, 1000]);
    judge.compare_conversion(&long);
    judge.judge_written(&with_long_forms(random, &draft));
}

//! Charts that have much to do with strokes: none of them, few and many, lines that lead up, repeated ones and low ones, and
//! tables that are refused.

use reference::points::MAX_POINTS;
use reference::random::Random;
use reference::soft::turn;
use reference::table::{Edge, TableEdge, LIMITS};
use reference::writer::{write_table, Draft};
use reference::xs::MOST_POINTS;

use crate::drafts::{any_weights, draft, draft_of, dress, soften_some, Gaps};
use crate::families::points::{along_chain, Size};
use crate::families::xs::wide_between;
use crate::judge::Judge;
use crate::shapes::{self, EDGES, STEPS};

pub const GAP: usize = *LIMITS.gap.end() as usize;

pub fn edge(from: usize, to: usize, gap: usize) -> TableEdge {
    TableEdge { edge: Edge { from, to, gap: gap as u32, weight: 1 }, soft: false }
}

pub fn soft(edge: TableEdge) -> TableEdge {
    TableEdge { soft: true, ..edge }
}

/// Between the same two steps: a must line, a soft one along it, and one against it, which is turned.
pub fn beside(must: TableEdge) -> [TableEdge; 3] {
    [must, soft(must), soft(TableEdge { edge: turn(must.edge), ..must })]
}

/// About the ends of any chart, and the largest numbers of fewer bits than an index has.
fn far_indices() -> impl Iterator<Item = usize> {
    let near = [0, 1, 2, MOST_POINTS, MOST_POINTS + 2 * EDGES];
    let bits = (7..usize::BITS).flat_map(|bits| [(1 << bits) - 1, 1 << bits, (1 << bits) + 1]);
    near.into_iter().chain(bits).chain([usize::MAX - 1, usize::MAX])
}

/// Numbers of strokes up to 24, and about those at which 7, 8 and 9 bits are not enough.
const COUNTS: [usize; 36] = [
    0, 2, 3, 4, 5, 6, 7, 8, 9, 10, 11, 12, 13, 14, 15, 16, 17, 18, 19, 20, 21, 22, 23, 24, 127, 128, 129, 130, 255,
    256, 257, 258, 511, 512, 513, 514,
];
pub const COUNTED: usize = COUNTS.len();

/// Lines of two strokes each, and one of three for an odd number.
pub fn counts(judge: &mut Judge, random: &mut Random, group: usize) {
    let count = COUNTS[group];
    let lines = count / 2;
    let upper = (1..).find(|side| 3 * side * side >= lines).expect("a square as large");
    let pairs = (0..upper).flat_map(|up| (0..upper).map(move |low| edge(up, upper + low, 1)));
    let mut edges: Vec<TableEdge> = pairs.flat_map(beside).take(lines).collect();
    let (mut steps, odd) = (2 * upper, count % 2 == 1);
    if odd {
        edges[lines - 1] = edge(steps, steps + 1, 2);
        steps += 2;
    }
    random.shuffle(&mut edges);
    let bytes = write_table(&draft_of(random, steps, &edges));
    judge.judge_drawing(&bytes);
    judge.judge_indices(&bytes, far_indices());
    judge.judge_indices(&bytes, (7..usize::BITS).map(|bits| (1 << bits) + count.saturating_sub(1)));
}

/// No edge, in either edition.
pub fn none(judge: &mut Judge, random: &mut Random, steps: usize) {
    for firmness in [None, Some(Vec::new())] {
        let bytes = write_table(&Draft { firmness, ..draft(random, steps, Vec::new()) });
        judge.judge_drawing(&bytes);
        judge.judge_indices(&bytes, far_indices().step_by(7));
    }
}

/// What the reader refuses by 1, 2 and 4 to 10 behind an edition.
const UNREAD: [&[u8]; 9] = [
    &[1, 0, 1],
    &[0x80, 0x80, 0x80],
    &[STEPS as u8 + 1],
    &[1, 3],
    &[1, 0, 17],
    &[1, 0, 1, 0x20],
    &[0, 0x80 | (EDGES + 1) as u8, ((EDGES + 1) >> 7) as u8],
    &[1, 0, 1, 0x41, 1, 0, 0],
    &[0, 0, 0],
];

/// Every refusal that the call has, whatever the index.
pub fn refused(judge: &mut Judge, random: &mut Random, _: usize) {
    for bytes in refused_tables(random) {
        judge.judge_indices(&bytes, far_indices());
    }
}

/// A table for each refusal of a whole chart, and charts of the most points that get x, of the most that there may be, and of
/// one more each.
pub fn refused_tables(random: &mut Random) -> Vec<Vec<u8>> {
    let mut tables: Vec<Vec<u8>> = vec![Vec::new(), vec![3]];
    tables.extend([1, 2].into_iter().flat_map(|edition| UNREAD.map(|rest| [&[edition], rest].concat())));
    let bad_firmness = Draft { firmness: Some(vec![2]), ..draft(random, 2, vec![edge(0, 1, 1).edge]) };
    tables.push(write_table(&bad_firmness));
    let looped = [chain(90), vec![edge(90, 80, 1)]].concat();
    tables.push(write_table(&draft_of(random, STEPS, &looped)));
    tables.push(write_table(&draft(random, STEPS, looped.iter().map(|edge| edge.edge).collect())));
    tables.extend([MOST_POINTS, MOST_POINTS + 1].map(|points| write_table(&long_lines(random, 15, 1, points))));
    tables.extend([MAX_POINTS, MAX_POINTS + 1].map(|points| write_table(&long_lines(random, 64, 3, points))));
    tables
}

fn chain(links: usize) -> Vec<TableEdge> {
    (0..links).map(|link| edge(link, link + 1, GAP)).collect()
}

/// A chain of so many links and so many lines past all of it, with as many other steps as there are points left.
fn long_lines(random: &mut Random, links: usize, lines: usize, points: usize) -> Draft {
    let edges = [&chain(links)[..], &beside(edge(0, links, 1))[..lines]].concat();
    let rows = GAP * links;
    draft_of(random, links + 1 + points - (rows + 1) - lines * (rows - 1), &edges)
}

/// A chain of few links, and long lines along it and against it.
pub fn turned(judge: &mut Judge, random: &mut Random, group: usize) {
    let points = random.between(16, random.clone().pick(&[24, 40, 80]));
    let size: Size = |random| {
        let links = random.between(3, 8);
        (links + random.between(1, 3), links)
    };
    let (steps, edges) = along_chain(random, points, group % 2, size);
    judge.judge_drawing(&write_table(&draft_of(random, steps, &edges)));
}

/// The most points that get x, and one more or less; by turns along short chains and along tall ones.
pub fn near_limit(judge: &mut Judge, random: &mut Random, group: usize) {
    let points = random.pick(&[MOST_POINTS, MOST_POINTS, MOST_POINTS + 1, MOST_POINTS - 1]);
    let sizes: [Size; 2] = [
        |random| {
            let links = random.between(4, 16);
            (random.between(links + 1, 60), links)
        },
        |random| {
            let links = random.between(28, 40);
            (links + random.between(1, 3), links)
        },
    ];
    let (steps, edges) = along_chain(random, points, group % 3, sizes[group % 2]);
    judge.judge_drawing(&write_table(&draft_of(random, steps, &edges)));
}

/// How many highest rows are tried, from the largest that a chart with x can have.
pub const TALL: usize = 28;

/// A chain of the largest gaps down to such a row, the last gap 1; and a line up from its end, as far as there are points for.
pub fn tall(judge: &mut Judge, random: &mut Random, left: usize) {
    let highest = MOST_POINTS - 1 - left;
    let mut rows: Vec<usize> = (0..highest).rev().step_by(GAP).collect();
    rows.extend((rows[rows.len() - 1] > 0).then_some(0));
    rows.reverse();
    rows.push(highest);
    let last = rows.len() - 1;
    let mut edges: Vec<TableEdge> = (0..last).map(|link| edge(link, link + 1, rows[link + 1] - rows[link])).collect();
    let start = (0..last).find(|&step| highest - rows[step] <= left + 1).expect("the last link has no pass point");
    edges.push(soft(edge(last, start, 1)));
    random.shuffle(&mut edges);
    judge.judge_drawing(&write_table(&draft_of(random, last + 1, &edges)));
}

/// Rows of pass points alone, where x are largest.
pub fn wide(judge: &mut Judge, random: &mut Random, _: usize) {
    let (steps, edges) = wide_between(random);
    judge.judge_drawing(&write_table(&draft_of(random, steps, &edges)));
}

/// Few steps with many edges between them, in both directions and of both firmnesses, some of them next to equal ones; by
/// turns in edition 1.
pub fn joined(judge: &mut Judge, random: &mut Random, group: usize) {
    let steps = random.between(2, 5);
    let count = random.between(2, random.clone().pick(&[6, 12, 40]));
    let shape = shapes::Shape { steps, ends: (0..count).map(|_| shapes::pair(random, steps)).collect() };
    let weights = any_weights(random);
    let edges = dress(random, &shape, Gaps::MostlyOne, weights);
    let draft = draft(random, steps, edges);
    judge.judge_drawing(&write_table(&if group % 4 == 0 { draft } else { soften_some(random, draft) }));
}

/// Steps above and below with three lines between any two, as many as there may be, of which some are as long as the points
/// allow.
pub fn most(judge: &mut Judge, random: &mut Random, group: usize) {
    let upper = random.between(8, 14);
    let lower = (EDGES / 3).div_ceil(upper);
    let steps = upper + lower;
    let mut edges: Vec<TableEdge> =
        (0..EDGES / 3).flat_map(|pair| beside(edge(pair % upper, upper + pair / upper, 1))).collect();
    // A row more for the last of the lower steps: each of its lines has a pass point.
    let deep = random.between(1, ((MOST_POINTS - steps) / (3 * upper)).min(lower - 1));
    for edge in edges.iter_mut().filter(|each| each.edge.from.max(each.edge.to) >= steps - deep) {
        edge.edge.gap = 2;
    }
    random.shuffle(&mut edges);
    let bytes = write_table(&draft_of(random, steps, &edges));
    if group % 8 == 0 {
        judge.judge_drawing(&bytes);
    }
    let most = MOST_POINTS + 2 * EDGES;
    judge.judge_indices(&bytes, (0..24).map(|_| random.below(most)));
}

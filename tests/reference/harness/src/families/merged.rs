//! Repeated edges, which are drawn as one line.

use reference::random::Random;
use reference::table::{Edge, TableEdge, LIMITS};
use reference::writer::{write_table, Draft};

use crate::drafts::{draft_of, records_of, soften_some};
use crate::families::soft::any_draft;
use crate::judge::Judge;
use crate::shapes::EDGES;

/// Direction, firmness, and gap 1 or 3.
const CODES: usize = 8;
const LISTED: u32 = 4;
pub const ALL_LISTS: usize = {
    let (mut all, mut len) = (0, 0);
    while len <= LISTED {
        all += CODES.pow(len);
        len += 1;
    }
    all
};

/// All lists of up to four edges between two steps, each with a weight of its own.
pub fn all_lists(judge: &mut Judge, random: &mut Random, group: usize) {
    let (mut code, mut len) = (group, 0);
    while code >= CODES.pow(len) {
        code -= CODES.pow(len);
        len += 1;
    }
    let edge = |place: u32| {
        let code = code / CODES.pow(place) % CODES;
        let from = code & 1;
        let gap = 1 + 2 * (code >> 1 & 1) as u32;
        TableEdge { edge: Edge { from, to: 1 - from, gap, weight: 1 << (2 * place) }, soft: code >> 2 == 1 }
    };
    let bytes = write_table(&draft_of(random, 2, &(0..len).map(edge).collect::<Vec<_>>()));
    judge.judge_table(&bytes);
    if group % 16 == 0 {
        judge.compare_listing(&bytes);
    }
}

/// Charts of any shape in which edges are repeated, right behind or anywhere, with other gaps and weights.
pub fn repeated(judge: &mut Judge, random: &mut Random, group: usize) {
    let drafted = any_draft(random);
    let drafted = if group % 4 == 0 { drafted } else { soften_some(random, drafted) };
    let firmness = drafted.firmness.clone().unwrap_or_else(|| vec![0; drafted.edges.len()]);
    let mut edges: Vec<(Edge, u32)> = drafted.edges.iter().copied().zip(firmness).collect();
    let room = EDGES - edges.len();
    for _ in 0..random.below(random.clone().pick(&[3, 20, 2 * EDGES])).min(room).min(4 * edges.len()) {
        let at = random.below(edges.len());
        let (edge, firmness) = edges[at];
        let again = Edge { gap: random.between(1, 4) as u32, weight: any_weight(random), ..edge };
        let place = if random.one_in(3) { at + 1 } else { random.below(edges.len() + 1) };
        edges.insert(place, (again, firmness));
    }
    let (edges, firmness) = edges.into_iter().unzip();
    let firmness = drafted.firmness.is_some().then_some(firmness);
    let bytes = write_table(&Draft { edges, firmness, ..drafted });
    judge.judge_table(&bytes);
    if group % 32 == 0 {
        judge.compare_listing(&bytes);
    }
}

fn any_weight(random: &mut Random) -> u32 {
    let any = random.below(256) as u32;
    random.pick(&[0, 1, 255, any, any])
}

/// Numbers of edges of which one is another than the rest.
const PLACES: [usize; 12] = [0, 1, 2, 127, 128, 191, 192, 193, 255, 256, EDGES - 2, EDGES - 1];
pub const EQUAL: usize = PLACES.len() * 6;

/// All edges equal but one, which has another firmness, direction, gap or weight, and edges of a third step behind them.
pub fn all_equal(judge: &mut Judge, random: &mut Random, group: usize) {
    let (place, other) = (PLACES[group % PLACES.len()], group / PLACES.len());
    let soft = other % 2 == 1;
    let mut edges = vec![TableEdge { edge: Edge { from: 0, to: 1, gap: 2, weight: 255 }, soft }; EDGES];
    let odd = &mut edges[place];
    match other / 2 {
        0 => odd.edge.gap = 4,
        1 => odd.soft = !soft,
        _ => *odd = TableEdge { edge: Edge { from: 1, to: 0, gap: 3, weight: 0 }, soft: true },
    }
    let third = place.min(EDGES - 5);
    if group % 3 == 0 {
        edges[third + 3].edge = Edge { from: 0, to: 2, gap: 4, weight: 1 };
        edges[third + 4].edge = Edge { from: 1, to: 2, gap: 1, weight: 1 };
    }
    let bytes = write_table(&draft_of(random, 3, &edges));
    judge.judge_table(&bytes);
    judge.compare_listing(&bytes);
    judge.judge_buffers(&bytes, &[-1, 0, 1]);
}

/// A step between two others that are kept apart: where it stands hangs on which of two sums of weights is larger, and these are
/// nearly equal, or the largest that there can be. As a table, and as lent edges where none is soft.
pub fn heavy(judge: &mut Judge, random: &mut Random, group: usize) {
    const MOST: u32 = *LIMITS.weight.end();
    let edge = |from, to, gap, weight| Edge { from, to, gap, weight };
    let above = random.pick(&[EDGES / 2 - 1, EDGES / 2, 6, 8, 30, EDGES - 33, EDGES - 30, EDGES - 6]);
    let weight = if group % 2 == 0 { MOST } else { random.between(1, MOST as usize) as u32 };
    let mut edges = vec![edge(0, 3, 4, 0), edge(3, 2, 4, 0)];
    while edges.len() < EDGES {
        let (from, to) = if edges.len() - 2 < above { (0, 1) } else { (1, 2) };
        edges.push(edge(from, to, random.between(1, 3) as u32, weight));
    }
    // The sums differ by a few.
    let at = random.between(2, EDGES - 1);
    edges[at].weight = edges[at].weight.saturating_sub(random.below(3) as u32);
    random.shuffle(&mut edges);
    judge.judge_records(4, &records_of(&edges));
    let soft_in = random.pick(&[1, 2, EDGES, 8 * EDGES]);
    let edges: Vec<TableEdge> =
        edges.into_iter().map(|edge| TableEdge { edge, soft: edge.gap < 4 && random.one_in(soft_in) }).collect();
    judge.judge_table(&write_table(&draft_of(random, 4, &edges)));
}

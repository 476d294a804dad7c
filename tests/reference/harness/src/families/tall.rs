//! Tall charts: rows about the largest of a byte, and up to the highest that there can be.

use reference::bounds::{highest_row, MAX_ROW};
use reference::random::Random;
use reference::soft::turn;
use reference::table::{Edge, TableEdge, LIMITS, OLD_LIMITS};
use reference::writer::{write_table, Draft};

use crate::drafts::{draft, draft_of, records_of};
use crate::judge::Judge;
use crate::shapes::STEPS;

const GAP: usize = *LIMITS.gap.end() as usize;
/// No table within the old limits has a higher row.
const OLD_ROW: usize = highest_row(&OLD_LIMITS);
const BYTE: usize = u8::MAX as usize;

/// Chains that force the row of each of their steps, with steps beside them; as a table and as records.
pub fn tall(judge: &mut Judge, random: &mut Random, group: usize) {
    let (steps, edges) = tall_edges(random, false);
    let edges: Vec<Edge> = edges.iter().map(|edge| edge.edge).collect();
    judge.judge_records(steps, &records_of(&edges));
    judge_tall(judge, group, &draft(random, steps, edges));
}

/// The must edges of the chain have gap 1, and soft ones against them, which are turned, the gaps that force the rows.
pub fn tall_soft(judge: &mut Judge, random: &mut Random, group: usize) {
    let (steps, edges) = tall_edges(random, true);
    judge_tall(judge, group, &draft_of(random, steps, &edges));
}

/// The program `chart` prints numbers of rows that the calls do not tell, so it gets more of these tables than of others.
fn judge_tall(judge: &mut Judge, group: usize, draft: &Draft) {
    let bytes = write_table(draft);
    judge.judge_table(&bytes);
    if group % 4 == 0 {
        judge.compare_listing(&bytes);
    }
    if group % 16 == 0 {
        judge.judge_buffers(&bytes, &[-10_000, -1, 0, 1]);
    }
}

fn tall_edges(random: &mut Random, turned: bool) -> (usize, Vec<TableEdge>) {
    let gaps = gaps_of_chain(random);
    let steps = random.between(gaps.len() + 1, STEPS);
    let mut edges = Vec::new();
    for (step, &gap) in gaps.iter().enumerate() {
        let link = Edge { from: step, to: step + 1, gap: gap as u32, weight: any_weight(random) };
        if turned {
            edges.push(must(Edge { gap: 1, ..link }));
            edges.push(TableEdge { edge: turn(link), soft: true });
        } else {
            edges.push(must(link));
        }
    }
    for side in gaps.len() + 1..steps {
        edges.extend(hang(random, &gaps, side));
    }
    // Few, so that most of the charts have points enough.
    for _ in 0..random.below(3) {
        let from = random.below(gaps.len());
        let edge = Edge { from, to: random.between(from + 1, gaps.len()), gap: 1, weight: any_weight(random) };
        let back = turned && random.one_in(2);
        edges.push(TableEdge { edge: if back { turn(edge) } else { edge }, soft: turned });
    }
    number(random, steps, &mut edges);
    (steps, edges)
}

/// They add up to a row about the old limit's highest, a byte's largest, the highest of all, or between these.
fn gaps_of_chain(random: &mut Random) -> Vec<usize> {
    let any = random.between(OLD_ROW, MAX_ROW);
    let highest =
        random.pick(&[OLD_ROW, OLD_ROW + 1, BYTE - 1, BYTE, BYTE + 1, BYTE + 2, MAX_ROW - 1, MAX_ROW, any, any]);
    let mut gaps = vec![GAP; random.between(highest.div_ceil(GAP), STEPS - 1)];
    for _ in highest..gaps.len() * GAP {
        let wide: Vec<usize> = (0..gaps.len()).filter(|&at| gaps[at] > 1).collect();
        gaps[random.pick(&wide)] -= 1;
    }
    gaps
}

/// A step beside the chain, below one of its steps and where there is room above another one.
fn hang(random: &mut Random, gaps: &[usize], side: usize) -> Vec<TableEdge> {
    let links = random.between(1, 3);
    let upper = random.below(gaps.len() - links);
    let room: usize = gaps[upper..upper + links].iter().sum();
    let above = random.between(1, GAP.min(room.max(2) - 1));
    let edge = |from, to, gap, random: &mut Random| Edge { from, to, gap: gap as u32, weight: any_weight(random) };
    let mut edges = vec![must(edge(upper, side, above, random))];
    if above < room {
        let below = random.between(1, GAP.min(room - above));
        edges.push(must(edge(side, upper + links, below, random)));
    }
    edges
}

fn must(edge: Edge) -> TableEdge {
    TableEdge { edge, soft: false }
}

fn any_weight(random: &mut Random) -> u32 {
    let any = random.below(256) as u32;
    random.pick(&[0, 1, 255, any, any])
}

/// Steps keep their numbers, or take them backward or shuffled; edges come in any order.
fn number(random: &mut Random, steps: usize, edges: &mut [TableEdge]) {
    let mut number: Vec<usize> = (0..steps).collect();
    match random.below(3) {
        0 => {}
        1 => number.reverse(),
        _ => random.shuffle(&mut number),
    }
    for TableEdge { edge, .. } in edges.iter_mut() {
        (edge.from, edge.to) = (number[edge.from], number[edge.to]);
    }
    if random.one_in(2) {
        random.shuffle(edges);
    }
}

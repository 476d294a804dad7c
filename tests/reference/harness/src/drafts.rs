//! From shapes to tables: gaps, weights, numbering, kinds and names.

use reference::random::Random;
use reference::records::Record;
use reference::soft::turn;
use reference::table::{Edge, Kind, TableEdge};
use reference::writer::{bytes_of, fields_of, widen, write_widened, Draft, Field};

use crate::shapes::{self, Shape};

/// How gaps are drawn.
#[derive(Clone, Copy)]
pub enum Gaps {
    One,
    Four,
    Mixed,
    MostlyOne,
}

/// How weights are drawn.
#[derive(Clone, Copy)]
pub enum Weights {
    One,
    Zero,
    Few,
    Any,
    Most,
    MostlyZero,
}

pub fn any_gaps(random: &mut Random) -> Gaps {
    random.pick(&[Gaps::One, Gaps::One, Gaps::Four, Gaps::Mixed, Gaps::MostlyOne])
}

pub fn any_weights(random: &mut Random) -> Weights {
    random.pick(&[Weights::One, Weights::Few, Weights::Any, Weights::Any, Weights::Most, Weights::MostlyZero])
}

fn gap(random: &mut Random, gaps: Gaps) -> u32 {
    match gaps {
        Gaps::One => 1,
        Gaps::Four => 4,
        Gaps::Mixed => random.between(1, 4) as u32,
        Gaps::MostlyOne => random.pick(&[1, 1, 1, 1, 2, 3, 4]),
    }
}

fn weight(random: &mut Random, weights: Weights) -> u32 {
    match weights {
        Weights::One => 1,
        Weights::Zero => 0,
        Weights::Few => random.below(4) as u32,
        Weights::Any => random.below(256) as u32,
        Weights::Most => 255,
        Weights::MostlyZero => random.pick(&[0, 0, 0, 0, 1, 7, 255]),
    }
}

/// Steps keep the shape's numbers, or take them backward or shuffled; edges likewise.
pub fn dress(random: &mut Random, shape: &Shape, gaps: Gaps, weights: Weights) -> Vec<Edge> {
    let mut number: Vec<usize> = (0..shape.steps).collect();
    match random.below(4) {
        0 => {}
        1 => number.reverse(),
        _ => random.shuffle(&mut number),
    }
    let mut edges: Vec<Edge> = shape
        .ends
        .iter()
        .map(|&(low, high)| Edge {
            from: number[low],
            to: number[high],
            gap: gap(random, gaps),
            weight: weight(random, weights),
        })
        .collect();
    if random.one_in(2) {
        random.shuffle(&mut edges);
    }
    edges
}

pub fn draft(random: &mut Random, steps: usize, edges: Vec<Edge>) -> Draft {
    Draft { steps: (0..steps).map(|_| (any_kind(random), any_name(random))).collect(), edges, firmness: None }
}

/// The same of edges with their firmness, in edition 2.
pub fn draft_of(random: &mut Random, steps: usize, edges: &[TableEdge]) -> Draft {
    let firmness = edges.iter().map(|edge| u32::from(edge.soft)).collect();
    let edges = edges.iter().map(|edge| edge.edge).collect();
    Draft { firmness: Some(firmness), ..draft(random, steps, edges) }
}

/// Every count at its limit, and every step and edge as long as it can be in its fewest bytes.
pub fn longest_draft(random: &mut Random) -> Draft {
    let shape = shapes::full(random);
    let (gaps, weights) = (any_gaps(random), any_weights(random));
    let mut edges = dress(random, &shape, gaps, weights);
    for edge in &mut edges {
        edge.weight |= 0x80;
    }
    let mut draft = draft(random, shape.steps, edges);
    for (kind, name) in &mut draft.steps {
        *kind = Kind::Adjustment { tolerance: 9999 };
        name.resize(16, b'n');
    }
    draft
}

pub fn with_long_forms(random: &mut Random, draft: &Draft) -> Vec<u8> {
    write_widened(draft, || random.between(1, 3) as u32)
}

/// One number in three bytes, the others in their fewest.
pub fn with_one_long_form(random: &mut Random, draft: &Draft) -> Vec<u8> {
    let mut fields = fields_of(draft);
    let at = random.pick(&number_places(&fields));
    widen(&mut fields[at..=at], || 3);
    bytes_of(&fields)
}

/// The fields that are numbers.
pub fn number_places(fields: &[Field]) -> Vec<usize> {
    (0..fields.len()).filter(|&at| matches!(fields[at], Field::Number { .. })).collect()
}

/// The draft in edition 2, with so many tenths of its edges soft, and some of these the other way round. Must edges
/// keep their way: where the draft has no loop, they have none.
pub fn soften(random: &mut Random, draft: Draft, tenths: usize) -> Draft {
    let back_tenths = random.pick(&[1, 3, 5, 9]);
    let mut softened = Draft { firmness: Some(Vec::new()), edges: Vec::new(), ..draft };
    for edge in draft.edges {
        let soft = random.below(10) < tenths;
        let back = soft && random.below(10) < back_tenths;
        softened.edges.push(if back { turn(edge) } else { edge });
        softened.firmness.as_mut().unwrap().push(u32::from(soft));
    }
    softened
}

/// A few or many of the edges soft, now and then all or none.
pub fn soften_some(random: &mut Random, draft: Draft) -> Draft {
    let tenths = random.pick(&[0, 1, 3, 5, 8, 10]);
    soften(random, draft, tenths)
}

pub fn any_kind(random: &mut Random) -> Kind {
    match random.below(3) {
        0 => Kind::Check,
        1 => Kind::Adjustment { tolerance: random.pick(&[0, 1, 50, 127, 128, 999, 9998, 9999]) },
        _ => Kind::Wait { minutes: random.pick(&[1, 2, 30, 127, 128, 239, 240]) },
    }
}

pub fn any_name(random: &mut Random) -> Vec<u8> {
    let len = random.pick(&[1, 1, 2, 3, 4, 8, 15, 16]);
    (0..len).map(|_| random.pick(b"!AZaz09=|^~\x22\x7e\x21")).collect()
}

pub fn records_of(edges: &[Edge]) -> Vec<Record> {
    edges.iter().map(|edge| [edge.from, edge.to, edge.gap as usize, edge.weight as usize]).collect()
}

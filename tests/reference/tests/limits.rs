//! The limits, what follows from them, and what stays of the ones before.

use reference::bounds::{highest_row, longest_table, LONGEST, LONGEST_STORED, MAX_ROW};
use reference::calls;
use reference::chart::draw_chart;
use reference::points::MAX_POINTS;
use reference::random::Random;
use reference::refusal::Refusal;
use reference::soft::rows_of_table;
use reference::table::{read_stored, read_table, read_within, Edge, Kind, Limits, LIMITS, OLD_LIMITS};
use reference::words::{print_words, write_words};
use reference::writer::{write_table, Draft};

const STEPS: usize = LIMITS.steps as usize;
const EDGES: usize = LIMITS.edges as usize;

/// The figures that the format states.
#[test]
fn stated_figures() {
    let longest = |limits: &Limits| {
        [(1, false), (2, false), (1, true), (2, true)].map(|(edition, stored)| longest_table(limits, edition, stored))
    };
    assert_eq!((LIMITS.steps, LIMITS.edges, MAX_ROW), (96, 288, 380));
    assert_eq!(longest(&LIMITS), [3364, 3652, 5865, 6729]);
    assert_eq!([LONGEST, LONGEST_STORED], [3652, 6729]);
    assert_eq!((highest_row(&OLD_LIMITS), longest(&OLD_LIMITS)), (252, [2244, 2436, 3913, 4489]));
}

/// A chain of so many steps, gone through as often as there are edges for.
fn chain(steps: usize, edges: usize, gap: u32) -> Draft {
    let links = steps.max(2) - 1;
    let edges = (0..edges).map(|at| Edge { from: at % links, to: at % links + 1, gap, weight: 1 }).collect();
    Draft { steps: vec![(Kind::Check, vec![b's']); steps], edges, firmness: None }
}

fn refusals(bytes: &[u8]) -> [u64; 8] {
    let (mut rows, mut order, mut written) = ([0; STEPS], [0; MAX_POINTS], [0; LONGEST]);
    let table = read_table(bytes);
    [
        calls::pack(calls::counts(&table)),
        calls::pack(calls::name(&table, 0)),
        calls::rows(bytes, &mut rows),
        calls::chart(bytes, &mut rows, &mut order),
        calls::xs(bytes, &mut order),
        calls::stroke_at(bytes, EDGES).answer,
        calls::write(bytes, &mut written),
        calls::convert(bytes, &mut written),
    ]
    .map(|answer| answer & 0xff)
}

#[test]
fn counts_met_and_passed() {
    for (steps, edges, due) in
        [(STEPS, 0, 0), (STEPS + 1, 0, 4), (STEPS, EDGES, 0), (STEPS, EDGES + 1, 8), (2, EDGES + 1, 8)]
    {
        let bytes = write_table(&chain(steps, edges, 1));
        assert_eq!(refusals(&bytes), [due; 8], "{steps} steps, {edges} edges");
    }
    let counts = calls::pack(calls::counts(&read_table(&write_table(&chain(STEPS, EDGES, 1)))));
    assert_eq!(counts, (STEPS as u64) << 8 | (EDGES as u64) << 16);
}

/// A point in every row, up to the highest: in each call that hands out rows, and in the program on records.
#[test]
fn the_highest_row() {
    let draft = chain(STEPS, STEPS - 1, 4);
    let due: Vec<u16> = (0..STEPS as u16).map(|step| 4 * step).collect();
    assert_eq!(due.last(), Some(&(MAX_ROW as u16)));
    let bytes = write_table(&draft);
    let records: Vec<_> = draft.edges.iter().map(|edge| [edge.from, edge.to, 4, 1]).collect();
    let (mut rows, mut order) = ([9; STEPS], [9; MAX_ROW + 1]);
    assert_eq!(calls::rows(&bytes, &mut rows), 0);
    assert_eq!(rows[..], due);
    rows.fill(9);
    assert_eq!(calls::records(STEPS, &records, &mut rows), 0);
    assert_eq!(rows[..], due);
    rows.fill(9);
    let answer = calls::chart(&bytes, &mut rows, &mut order);
    assert_eq!(answer, calls::pack_chart(MAX_ROW + 1, MAX_ROW as u64, 0));
    assert_eq!(rows[..], due);
    let line = String::from_utf8(print_words(&write_words(STEPS, STEPS, &records))).unwrap();
    assert!(line.ends_with(&format!(" {} {MAX_ROW}\n", MAX_ROW - 4)), "{line}");
}

/// Edges from a lower to a higher step, of any gap.
fn random_draft(random: &mut Random, steps: usize, edges: usize) -> Draft {
    let mut draft = chain(steps, 0, 1);
    for _ in 0..edges {
        let from = random.below(steps - 1);
        let to = random.between(from + 1, steps - 1);
        draft.edges.push(Edge { from, to, gap: random.between(1, 4) as u32, weight: random.below(256) as u32 });
    }
    draft
}

/// Of so many steps, no row is above that of a chain with the largest gaps.
#[test]
fn rows_by_steps() {
    let mut random = Random::new(5);
    for _ in 0..200 {
        let steps = random.between(2, STEPS);
        let edges = random.between(0, EDGES);
        let mut draft = random_draft(&mut random, steps, edges);
        let links = random.below(steps).min(EDGES - edges);
        draft.edges.extend(chain(steps, links, 4).edges);
        let rows = rows_of_table(&read_table(&write_table(&draft)).unwrap()).unwrap();
        let highest = highest_row(&Limits { steps: steps as u32, ..LIMITS });
        assert!(rows.iter().all(|&row| row <= highest), "{rows:?}");
        assert!(steps > OLD_LIMITS.steps as usize || rows.iter().all(|&row| u8::try_from(row).is_ok()));
    }
}

/// What was accepted within the old limits reads as it did; what only they refused is read on.
#[test]
fn within_the_old_limits() {
    let number = |read: Result<_, Refusal>| read.err().map_or(0, Refusal::number);
    let (steps, edges) = (OLD_LIMITS.steps as usize, OLD_LIMITS.edges as usize);
    for (steps, edges, old) in
        [(steps - 1, edges - 1, 0), (steps, edges, 0), (steps + 1, edges, 4), (steps, edges + 1, 8)]
    {
        let bytes = write_table(&chain(steps, edges, 1));
        let (now, before) = (read_table(&bytes), read_within(&bytes, &OLD_LIMITS));
        assert_eq!(number(before.clone()), old, "{steps} steps, {edges} edges");
        assert!(now.is_ok() && (old > 0 || now == before) && read_stored(&bytes) == now);
        assert!(draw_chart(&now.unwrap()).is_ok());
    }
}

//! Soft edges: kept and turned ones against every numbering of the steps, what turning keeps, and the stored tables.

use reference::calls;
use reference::chart::draw_chart;
use reference::listing::print_chart;
use reference::loops::lowest_on_loop;
use reference::random::Random;
use reference::records::rows_of_edges;
use reference::refusal::Refusal;
use reference::soft::{must_edges, rows_of_table, settle, turn, Settled};
use reference::table::{read_table, Edge, Kind, TableEdge, LIMITS};
use reference::writer::{write_table, Draft};

mod stored;

const STEPS: usize = 3;
/// Ends (ordered, different) and firmness.
const CHOICES: usize = STEPS * (STEPS - 1) * 2;
const MOST_EDGES: u32 = 4;

fn tiny_edge(code: usize) -> TableEdge {
    let from = code / 2 % STEPS;
    let to = (from + 1 + code / 2 / STEPS) % STEPS;
    TableEdge { edge: Edge { from, to, gap: 1 + code as u32 % 4, weight: code as u32 }, soft: code % 2 == 1 }
}

/// Every list of up to so many edges on three steps.
fn all_tiny(mut look: impl FnMut(&[TableEdge])) {
    for count in 0..=MOST_EDGES {
        for code in 0..CHOICES.pow(count) {
            let edges: Vec<TableEdge> = (0..count).map(|at| tiny_edge(code / CHOICES.pow(at) % CHOICES)).collect();
            look(&edges);
        }
    }
}

/// No loop: in some numbering of the three steps every edge runs upward.
fn has_numbering(edges: &[Edge]) -> bool {
    let numberings = [[0, 1, 2], [0, 2, 1], [1, 0, 2], [1, 2, 0], [2, 0, 1], [2, 1, 0]];
    numberings.iter().any(|place| edges.iter().all(|edge| place[edge.from] < place[edge.to]))
}

/// Which edges are turned, if the must edges have no loop: the sentence of the format, taken word by word.
fn turned_by_trial(edges: &[TableEdge]) -> Option<Vec<bool>> {
    let mut standing = must_edges(edges);
    if !has_numbering(&standing) {
        return None;
    }
    let mut turned = Vec::new();
    for &TableEdge { edge, soft } in edges {
        let closes = soft && !has_numbering(&[&standing[..], &[edge]].concat());
        if soft && !closes {
            standing.push(edge);
        }
        turned.push(closes);
    }
    Some(turned)
}

#[test]
fn all_tiny_tables_by_trial() {
    let (mut settled, mut turned) = (0, 0);
    all_tiny(|edges| match (settle(STEPS, edges), turned_by_trial(edges)) {
        (Ok(found), Some(due)) => {
            assert_eq!(found.turned, due, "{edges:?}");
            settled += 1;
            turned += due.iter().filter(|&&turned| turned).count();
        }
        (Err(Refusal::Loop(_)), None) => {}
        (found, due) => panic!("{found:?} for {due:?}: {edges:?}"),
    });
    assert!(settled > 10_000 && turned > 5_000, "{settled} lists, {turned} edges turned");
}

fn check_settled(steps: usize, edges: &[TableEdge], settled: &Settled) {
    let kept: Vec<Edge> = (0..edges.len()).filter(|&at| !settled.turned[at]).map(|at| edges[at].edge).collect();
    assert_eq!(lowest_on_loop(steps, &kept), None);
    assert_eq!(lowest_on_loop(steps, &settled.edges), None);
    for (at, &TableEdge { edge, soft }) in edges.iter().enumerate() {
        let turned = settled.turned[at];
        assert_eq!(settled.edges[at], if turned { turn(edge) } else { edge });
        assert!(soft || !turned);
        // Pointing its own way, a turned edge would close a loop with the kept ones.
        assert!(!turned || lowest_on_loop(steps, &[&kept[..], &[edge]].concat()).is_some());
    }
}

fn random_edges(random: &mut Random, steps: usize, soft_in: usize) -> Vec<TableEdge> {
    let count = random.below(4 * steps);
    let edge = |random: &mut Random| {
        let from = random.below(steps);
        let to = (from + random.between(1, steps - 1)) % steps;
        Edge { from, to, gap: random.between(1, 4) as u32, weight: random.below(256) as u32 }
    };
    (0..count).map(|_| TableEdge { edge: edge(random), soft: !random.one_in(soft_in) }).collect()
}

#[test]
fn turned_edges_would_close_a_loop() {
    all_tiny(|edges| {
        if let Ok(settled) = settle(STEPS, edges) {
            check_settled(STEPS, edges, &settled);
        }
    });
    let mut random = Random::new(1);
    for _ in 0..3000 {
        let most = random.pick(&[20, 20, 20, LIMITS.steps as usize]);
        let (steps, soft_in) = (random.between(2, most), random.between(2, 40));
        let edges = random_edges(&mut random, steps, soft_in);
        if let Ok(settled) = settle(steps, &edges) {
            check_settled(steps, &edges, &settled);
        }
    }
}

/// With no soft edge, and so in edition 1, rows, refusals and listings are those of the edges as they stand.
#[test]
fn must_edges_stay_as_they_are() {
    let mut random = Random::new(2);
    for _ in 0..500 {
        let steps = random.between(2, 8);
        let mut edges: Vec<Edge> = random_edges(&mut random, steps, 2).iter().map(|edge| edge.edge).collect();
        if random.one_in(2) {
            edges.retain(|edge| edge.from < edge.to);
        }
        let table_edges: Vec<TableEdge> = edges.iter().map(|&edge| TableEdge { edge, soft: false }).collect();
        match settle(steps, &table_edges) {
            Ok(settled) => assert_eq!(settled, Settled { turned: vec![false; edges.len()], edges: edges.clone() }),
            Err(refusal) => assert_eq!(refusal, Refusal::Loop(lowest_on_loop(steps, &edges).unwrap())),
        }
        let draft = |firmness| Draft { steps: vec![(Kind::Check, vec![b's']); steps], edges: edges.clone(), firmness };
        let (first, second) = (write_table(&draft(None)), write_table(&draft(Some(vec![0; edges.len()]))));
        let (one, two) = (read_table(&first).unwrap(), read_table(&second).unwrap());
        assert_eq!(one, two);
        assert_eq!(rows_of_table(&two), rows_of_edges(steps, &edges));
        assert_eq!(print_chart(&first), print_chart(&second));
    }
}

/// Steps A and B, then these bytes of edges.
fn two_steps(edition: u8, edges: &[u8]) -> Vec<u8> {
    [&[edition, 2, 0, 1, 0x41, 0, 1, 0x42], edges].concat()
}

#[test]
fn firmness_is_judged_behind_the_weight() {
    let refusal = |edition, edges: &[u8]| read_table(&two_steps(edition, edges)).err().map_or(0, Refusal::number);
    assert_eq!(refusal(2, &[1, 0, 1, 1, 1, 0]), 0);
    assert_eq!(refusal(2, &[1, 0, 1, 1, 1, 1]), 0);
    assert_eq!(refusal(2, &[1, 0, 1, 1, 1, 2]), 15);
    assert_eq!(refusal(2, &[1, 0, 1, 1, 1, 0x82, 0]), 2);
    assert_eq!(refusal(2, &[1, 0, 1, 1, 1, 0x81, 1]), 15);
    assert_eq!(refusal(2, &[1, 0, 1, 1, 1, 0x82, 0x80, 0x80]), 2);
    assert_eq!(refusal(2, &[1, 0, 1, 1, 0x80, 2, 2]), 6);
    assert_eq!(refusal(2, &[1, 0, 1, 1, 1]), 1);
    assert_eq!(refusal(2, &[2, 0, 1, 1, 1, 2, 5]), 15);
    assert_eq!(refusal(1, &[1, 0, 1, 1, 1, 0]), 10);
    assert_eq!(refusal(3, &[1, 0, 1, 1, 1, 0]), 3);
    assert_eq!(refusal(0, &[1, 0, 1, 1, 1, 0]), 3);
    let bad = two_steps(2, &[1, 0, 1, 1, 1, 2]);
    let (mut rows, mut order) = ([9; 2], [9; 2]);
    assert_eq!(calls::pack(calls::counts(&read_table(&bad))), 15);
    assert_eq!(calls::pack(calls::name(&read_table(&bad), 9)), 15);
    assert_eq!(calls::rows(&bad, &mut rows), 15);
    assert_eq!(calls::chart(&bad, &mut rows, &mut order), 15);
    assert_eq!((rows, order), ([9; 2], [9; 2]));
}

/// A to B must, B to A soft with the larger gap: the pass points of both are numbered by rising row.
#[test]
fn a_turned_edge_in_the_chart() {
    let bytes = two_steps(2, &[2, 0, 1, 1, 1, 0, 1, 0, 3, 2, 1]);
    let chart = draw_chart(&read_table(&bytes).unwrap()).unwrap();
    assert_eq!((chart.rows.as_slice(), chart.total, chart.point_count()), (&[0, 3][..], 9, 6));
    assert_eq!(chart.turned, [false, true]);
    assert_eq!(chart.listed_order(), [0, 2, 4, 3, 5, 1]);
    assert_eq!(print_chart(&bytes), b"chart 2 2 4 9 0\n0 A=C\n1 |0 ^1\n2 |0 ^1\n3 B=C\n");
}

#[test]
fn stored_tables() {
    let mut met = 0;
    for (table, printed) in stored::charts() {
        assert_eq!(String::from_utf8(print_chart(&table)).unwrap(), printed, "{table:02x?}");
        met += 1;
    }
    assert!(met > 200, "{met} tables");
}

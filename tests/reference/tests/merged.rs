//! Repeated edges drawn as one line: what is joined, charts worked by hand, and that rows and total are those of the table's edges.

use reference::calls;
use reference::chart::{draw_chart, Chart};
use reference::listing::print_chart;
use reference::merged::{edges_of, merge, MergedEdge};
use reference::points::MAX_POINTS;
use reference::random::Random;
use reference::refusal::Refusal;
use reference::rows::{find_rows, lowest_rows, total};
use reference::soft::{settle, Settled};
use reference::table::{read_table, Edge, Kind, TableEdge, LIMITS};
use reference::writer::{write_table, Draft};

const EDGES: usize = LIMITS.edges as usize;

/// From, to, gap, weight, and whether it is soft.
type Row = (usize, usize, u32, u32, bool);

fn table_edges(rows: &[Row]) -> Vec<TableEdge> {
    let edge = |&(from, to, gap, weight, soft): &Row| TableEdge { edge: Edge { from, to, gap, weight }, soft };
    rows.iter().map(edge).collect()
}

fn table(steps: usize, edges: &[TableEdge]) -> Vec<u8> {
    let steps = (0..steps).map(|step| (Kind::Check, vec![b'A' + step as u8])).collect();
    let firmness = edges.iter().map(|edge| u32::from(edge.soft)).collect();
    write_table(&Draft { steps, edges: edges.iter().map(|edge| edge.edge).collect(), firmness: Some(firmness) })
}

fn draw(steps: usize, edges: &[TableEdge]) -> Result<Chart, Refusal> {
    draw_chart(&read_table(&table(steps, edges)).expect("a table"))
}

fn printed(steps: usize, rows: &[Row]) -> String {
    String::from_utf8(print_chart(&table(steps, &table_edges(rows)))).unwrap()
}

/// The largest gap is neither the first nor the last, and another edge stands between.
#[test]
fn gaps_and_weights() {
    let edges = table_edges(&[(0, 1, 2, 5, false), (0, 2, 1, 1, false), (0, 1, 3, 0, false), (0, 1, 1, 7, false)]);
    let settled = settle(3, &edges).unwrap();
    let due = [(0, 1, 3, 12, 0, 3), (0, 2, 1, 1, 1, 1)].map(|(from, to, gap, weight, number, count)| MergedEdge {
        edge: Edge { from, to, gap, weight },
        number,
        count,
    });
    assert_eq!(merge(&edges, &settled), due);
    let chart = draw(3, &edges).unwrap_or_else(|_| panic!("a chart"));
    assert_eq!((chart.rows.as_slice(), chart.total, chart.point_count()), (&[0, 3, 1][..], 37, 5));
    assert_eq!((chart.listed_order(), chart.points_by_edge()), (vec![0, 2, 3, 4, 1], 9));
}

/// Three lines between two steps: of must edges, of soft ones along them and of soft ones against them.
#[test]
fn firmness_and_direction_keep_lines_apart() {
    let rows = [
        (0, 1, 2, 1, false),
        (1, 0, 1, 1, true),
        (0, 1, 1, 1, true),
        (0, 1, 1, 1, false),
        (1, 0, 2, 1, true),
        (0, 1, 2, 1, true),
    ];
    assert_eq!(printed(2, &rows), "chart 2 6 3 12 0\n0 A=C\n1 |0 ^1 |2\n2 B=C\n");
}

/// Two equal edges would cross a third twice, as one line they cross it once.
#[test]
fn crossings_go_by_lines() {
    let rows =
        [(0, 3, 1, 1, false), (0, 3, 1, 1, false), (0, 2, 1, 1, false), (1, 2, 1, 1, false), (1, 3, 1, 1, false)];
    assert_eq!(printed(4, &rows), "chart 4 5 2 5 1\n0 A=C B=C\n1 C=C D=C\n");
}

/// As many equal edges as there may be, each weight the largest.
#[test]
fn all_edges_equal() {
    let rows = [(0, 1, 4, 255, false); EDGES];
    let total = 255 * 4 * EDGES;
    assert_eq!(printed(2, &rows), format!("chart 2 {EDGES} 5 {total} 0\n0 A=C\n1 |0\n2 |0\n3 |0\n4 B=C\n"));
}

/// Along a chain of steps with gap 4, edges from its start to its end and to a step before it: 12 goes by the lines.
#[test]
fn points_go_by_lines() {
    let chain = |steps: usize| (1..steps).map(|step| (step - 1, step, 4, 1, false));
    let long = |last: usize, count: usize| vec![(0, last, 1, 1, false); count];
    let soft = |last: usize, count: usize| vec![(0, last, 1, 1, true); count];
    let points =
        |rows: Vec<Row>| draw(20, &table_edges(&rows)).map(|chart| (chart.point_count(), chart.points_by_edge()));
    let many = [chain(20).collect(), long(19, 100), soft(19, 50)].concat();
    assert_eq!(points(many), Ok((20 + 19 * 3 + 2 * 75, 20 + 19 * 3 + 150 * 75)));
    let apart = (2..20).flat_map(|last| [long(last, 1), soft(last, 1)].concat());
    assert_eq!(points([chain(20).collect(), apart.collect::<Vec<Row>>()].concat()), Err(Refusal::TooManyPoints));
}

/// Few pairs of ends, so that most edges are repeated; in any direction, but without loops of must edges.
fn random_edges(random: &mut Random, steps: usize) -> Vec<TableEdge> {
    let pairs = random.between(1, 3 * steps);
    let pool: Vec<(usize, usize)> = (0..pairs)
        .map(|_| {
            let low = random.below(steps - 1);
            (low, random.between(low + 1, steps - 1))
        })
        .collect();
    let count = random.below(random.clone().pick(&[6, 20, 60]));
    let weights = random.pick(&[4, 256]);
    (0..count)
        .map(|_| {
            let (low, high) = random.pick(&pool);
            let soft = random.one_in(2);
            let (from, to) = if soft && random.one_in(2) { (high, low) } else { (low, high) };
            TableEdge {
                edge: Edge { from, to, gap: random.between(1, 4) as u32, weight: random.below(weights) as u32 },
                soft,
            }
        })
        .collect()
}

fn key(edge: &TableEdge) -> (usize, usize, bool) {
    (edge.edge.from, edge.edge.to, edge.soft)
}

/// On random tables, each with its edges as kept or turned and the lines that are drawn for them.
fn on_random_tables(seed: u64, mut look: impl FnMut(&mut Random, usize, &[TableEdge], &Settled, &[Edge])) {
    let mut random = Random::new(seed);
    let mut repeated = 0;
    for _ in 0..3000 {
        let steps = random.between(2, random.clone().pick(&[3, 8, 30]));
        let edges = random_edges(&mut random, steps);
        let settled = settle(steps, &edges).expect("no loop of must edges");
        let lines = edges_of(&merge(&edges, &settled));
        repeated += edges.len() - lines.len();
        look(&mut random, steps, &edges, &settled, &lines);
    }
    assert!(repeated > 20_000, "{repeated} edges repeat others");
}

#[test]
fn equal_soft_edges_are_turned_alike() {
    let mut turned = 0;
    on_random_tables(6, |_, _, edges, settled, _| {
        for at in 0..edges.len() {
            let first = (0..at).find(|&first| key(&edges[first]) == key(&edges[at])).unwrap_or(at);
            assert_eq!(settled.turned[first], settled.turned[at], "{edges:?}");
            turned += usize::from(first < at && settled.turned[at]);
        }
    });
    assert!(turned > 2_000, "{turned} turned edges repeat others");
}

/// Each kind of edge once, at the place of the first.
#[test]
fn lines_stand_in_the_order_of_their_first_edges() {
    on_random_tables(7, |_, _, edges, settled, _| {
        let merged = merge(edges, settled);
        let first = |at: &usize| edges[..*at].iter().all(|edge| key(edge) != key(&edges[*at]));
        let due: Vec<usize> = (0..edges.len()).filter(first).collect();
        assert_eq!(merged.iter().map(|each| each.number).collect::<Vec<_>>(), due);
        assert_eq!(merged.iter().map(|each| each.count).sum::<usize>(), edges.len());
    });
}

fn is_feasible(edges: &[Edge], rows: &[usize]) -> bool {
    edges.iter().all(|edge| rows[edge.to] >= rows[edge.from] + edge.gap as usize)
}

/// Rows that are feasible for the lines and those for the table's edges are the same, and so are their totals.
#[test]
fn rows_are_feasible_alike() {
    let (mut feasible, mut broken) = (0, 0);
    on_random_tables(8, |random, steps, edges, settled, lines| {
        let lowest = lowest_rows(steps, lines, &vec![0; lines.len()]);
        for _ in 0..8 {
            // Near the lowest feasible rows, where a row more or less decides.
            let rows: Vec<usize> = lowest.iter().map(|&row| 1 + row * random.between(1, 2)).collect();
            let rows: Vec<usize> = rows.iter().map(|&row| row - usize::from(random.one_in(9))).collect();
            let is_feasible = [is_feasible(&settled.edges, &rows), is_feasible(lines, &rows)];
            assert_eq!(is_feasible[0], is_feasible[1], "{edges:?} in rows {rows:?}");
            if is_feasible[0] {
                assert_eq!(total(&settled.edges, &rows), total(lines, &rows));
                feasible += 1;
            } else {
                broken += 1;
            }
        }
    });
    assert!(feasible > 1_000 && broken > 1_000, "{feasible} feasible, {broken} not");
}

/// Found for the table's own edges, rows and total are the chart's.
#[test]
fn rows_and_total_are_those_of_the_edges() {
    let mut charts = 0;
    on_random_tables(9, |_, steps, edges, settled, lines| {
        let rows = find_rows(steps, &settled.edges);
        assert_eq!(find_rows(steps, lines), rows, "{edges:?}");
        if let Ok(chart) = draw(steps, edges) {
            assert_eq!((&chart.rows, chart.total), (&rows, total(&settled.edges, &rows)));
            charts += 1;
        }
    });
    assert!(charts > 2_000, "{charts} charts");
}

/// A table whose repeated edges are written as one, where the sum of weights can be, has the same chart.
#[test]
fn written_as_one_edge() {
    let mut same = 0;
    on_random_tables(10, |_, steps, edges, settled, _| {
        let merged = merge(edges, settled);
        let one = |each: &MergedEdge| {
            let TableEdge { edge, soft } = edges[each.number];
            TableEdge { edge: Edge { gap: each.edge.gap, weight: each.edge.weight, ..edge }, soft }
        };
        let written: Vec<TableEdge> = merged.iter().map(one).collect();
        if written.iter().any(|edge| edge.edge.weight > 255) {
            return;
        }
        let answers = [edges, &written].map(|edges| {
            let (mut rows, mut order) = (vec![9; steps], vec![9; MAX_POINTS]);
            (calls::chart(&table(steps, edges), &mut rows, &mut order), rows, order)
        });
        assert_eq!(answers[0], answers[1], "{edges:?}");
        same += usize::from(written.len() < edges.len());
    });
    assert!(same > 300, "{same} tables with repeated edges");
}

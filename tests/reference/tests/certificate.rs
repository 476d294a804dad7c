//! The certificate turns down rows and flows that are not the answer.

use reference::certificate::check;
use reference::flow::find_flow;
use reference::table::Edge;

fn sample() -> Vec<Edge> {
    [(0, 1, 1, 1), (1, 2, 2, 3), (0, 3, 1, 1), (3, 2, 1, 5)]
        .map(|(from, to, gap, weight)| Edge { from, to, gap, weight })
        .to_vec()
}

#[test]
fn accepts_the_answer() {
    let edges = sample();
    assert_eq!(check(4, &edges, &find_flow(4, &edges), &[0, 1, 3, 2]), Ok(()));
}

#[test]
fn turns_down_wrong_rows() {
    let edges = sample();
    let flow = find_flow(4, &edges);
    assert_eq!(check(4, &edges, &flow, &[0, 0, 0, 0]), Err("a gap is broken"));
    assert_eq!(check(4, &edges, &flow, &[0, 1, 3, 1]), Err("flow on a loose edge"));
    assert_eq!(check(4, &edges, &flow, &[1, 2, 4, 3]), Err("a step could be lower"));
}

#[test]
fn turns_down_wrong_flows() {
    let edges = sample();
    let rows = [0, 1, 3, 2];
    let weights: Vec<i64> = edges.iter().map(|edge| i64::from(edge.weight)).collect();
    assert_eq!(check(4, &edges, &weights, &rows), Err("flow on a loose edge"));
    assert_eq!(check(4, &edges, &[0; 4], &rows), Err("the flow is not balanced"));
    assert_eq!(check(4, &edges, &[3, 5, -1, 3], &rows), Err("a flow is negative"));
}

#[test]
fn turns_down_a_part_off_row_0() {
    assert_eq!(check(2, &[], &[], &[0, 1]), Err("a step could be lower"));
}

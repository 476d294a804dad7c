//! Orders worked by hand: places that points without pieces keep, exact means, ties, repeated pieces.

use reference::merged::MergedEdge;
use reference::order::{count_crossings, find_order, run_pass, start_order};
use reference::points::{count_points, place_points, Layout};
use reference::table::Edge;

/// Merged edges with these ends, each of one edge; two with the same ends are of unlike firmness.
fn merged(ends: &[(usize, usize)]) -> Vec<MergedEdge> {
    let edge = |&(from, to)| Edge { from, to, gap: 1, weight: 1 };
    ends.iter().map(edge).enumerate().map(|(number, edge)| MergedEdge { edge, number, count: 1 }).collect()
}

fn layout(rows: &[usize], ends: &[(usize, usize)]) -> Layout {
    place_points(&merged(ends), rows)
}

#[test]
fn a_point_without_piece_keeps_its_place() {
    // Below 0 1 2 stand 3 4 5; 4 hangs on nothing, 3 on 2 and 5 on 0.
    let layout = layout(&[0, 0, 0, 1, 1, 1], &[(2, 3), (0, 5)]);
    let order = run_pass(&layout, start_order(&layout), true);
    assert_eq!(order[1], [5, 4, 3]);
}

#[test]
fn means_are_fractions() {
    // Mean of 3 is (0 + 1 + 1) / 3, of 4 it is 1 / 2: both 0 when the remainder is dropped.
    let layout = layout(&[0, 0, 0, 1, 1], &[(0, 3), (1, 3), (1, 3), (0, 4), (1, 4)]);
    let order = run_pass(&layout, start_order(&layout), true);
    assert_eq!(order[1], [4, 3]);
}

#[test]
fn equal_means_stay_as_they_stand() {
    // The down pass turns 2 and 3 about; seen from 4 they tie, so the up pass leaves them so.
    let layout = layout(&[0, 0, 1, 1, 2], &[(0, 3), (1, 2), (2, 4), (3, 4)]);
    let down = run_pass(&layout, start_order(&layout), true);
    assert_eq!(down[1], [3, 2]);
    assert_eq!(run_pass(&layout, down.clone(), false), down);
}

#[test]
fn parallel_pieces_each_cross_a_third() {
    let layout = layout(&[0, 0, 1, 1], &[(0, 3), (0, 3), (1, 2)]);
    assert_eq!(count_crossings(&layout, &start_order(&layout)), 2);
    assert_eq!(find_order(&layout).1, 0);
}

#[test]
fn shared_ends_do_not_cross() {
    let layout = layout(&[0, 1, 1, 0], &[(0, 1), (0, 2), (3, 2)]);
    assert_eq!(count_crossings(&layout, &start_order(&layout)), 0);
}

#[test]
fn pass_points_follow_edges_then_rows() {
    let layout = layout(&[0, 3, 1], &[(0, 1), (2, 1)]);
    assert_eq!(layout.row_of, [0, 3, 1, 1, 2, 2]);
    assert_eq!(layout.edge_of, [None, None, None, Some(0), Some(0), Some(1)]);
    assert_eq!(layout.pieces, [(0, 3), (3, 4), (4, 1), (2, 5), (5, 1)]);
    assert_eq!(count_points(&merged(&[(0, 1), (2, 1)]), &[0, 3, 1]), 6);
}

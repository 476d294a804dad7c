//! The row finder against every list of rows, on tables small enough for that; loops against walks.

use reference::loops::lowest_on_loop;
use reference::random::Random;
use reference::rows::find_rows;
use reference::table::{Edge, LIMITS};

/// Over all lists with rows up to the bound: the least total, and at each step the least row
/// among lists of that total.
fn try_all(steps: usize, edges: &[Edge], bound: usize) -> (usize, Vec<usize>) {
    let mut best = (usize::MAX, Vec::new());
    let mut rows = vec![0; steps];
    loop {
        if let Some(total) = total_if_feasible(edges, &rows) {
            if total < best.0 {
                best = (total, rows.clone());
            } else if total == best.0 {
                for (lowest, &row) in best.1.iter_mut().zip(&rows) {
                    *lowest = row.min(*lowest);
                }
            }
        }
        match rows.iter().position(|&row| row < bound) {
            None => return best,
            Some(step) => {
                rows[step] += 1;
                rows[..step].fill(0);
            }
        }
    }
}

fn total_if_feasible(edges: &[Edge], rows: &[usize]) -> Option<usize> {
    let mut total = 0;
    for edge in edges {
        let length = rows[edge.to].checked_sub(rows[edge.from])?;
        if length < edge.gap as usize {
            return None;
        }
        total += length * edge.weight as usize;
    }
    Some(total)
}

/// Edges run from a lower to a higher place in a shuffled list of the steps.
fn random_edges(random: &mut Random, steps: usize, gaps: usize, weights: usize) -> Vec<Edge> {
    let mut place: Vec<usize> = (0..steps).collect();
    random.shuffle(&mut place);
    let count = if steps < 2 { 0 } else { random.below(2 * steps) };
    (0..count)
        .map(|_| {
            let low = random.below(steps - 1);
            let high = random.between(low + 1, steps - 1);
            let (gap, weight) = (random.between(1, gaps) as u32, random.between(0, weights) as u32);
            Edge { from: place[low], to: place[high], gap, weight }
        })
        .collect()
}

fn agree(seed: u64, steps: usize, gaps: usize, tables: usize) {
    let mut random = Random::new(seed);
    for _ in 0..tables {
        let weights = random.pick(&[0, 1, 2, 5, 255]);
        let edges = random_edges(&mut random, steps, gaps, weights);
        let (_, lowest) = try_all(steps, &edges, gaps * steps.saturating_sub(1) + 1);
        assert_eq!(find_rows(steps, &edges), lowest, "{edges:?}");
    }
}

#[test]
fn up_to_three_steps_all_gaps() {
    for steps in 0..=3 {
        agree(steps as u64, steps, 4, 500);
    }
}

#[test]
fn four_steps() {
    agree(4, 4, 3, 200);
}

#[test]
fn five_steps() {
    agree(5, 5, 1, 200);
    agree(6, 5, 2, 60);
}

/// Whether some walk of one or more edges leads from the step back to itself.
fn walks_back(steps: usize, edges: &[Edge], step: usize) -> bool {
    let mut ends = vec![step];
    for _ in 0..steps {
        let next: Vec<usize> = edges.iter().filter(|edge| ends.contains(&edge.from)).map(|edge| edge.to).collect();
        if next.contains(&step) {
            return true;
        }
        ends = next;
        ends.sort();
        ends.dedup();
    }
    false
}

#[test]
fn loops() {
    let mut random = Random::new(7);
    for table in 0..2000 {
        let most = if table % 100 == 0 { LIMITS.steps as usize } else { 9 };
        let steps = random.between(2, most);
        let count = random.below(steps + 3);
        let edges: Vec<Edge> = (0..count)
            .map(|_| {
                let from = random.below(steps);
                Edge { from, to: (from + random.between(1, steps - 1)) % steps, gap: 1, weight: 1 }
            })
            .collect();
        let lowest = (0..steps).find(|&step| walks_back(steps, &edges, step));
        assert_eq!(lowest_on_loop(steps, &edges), lowest, "{edges:?}");
    }
}

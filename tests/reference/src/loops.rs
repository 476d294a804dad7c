//! Loops, by the transitive closure.

use crate::table::{Edge, LIMITS};

/// A set of steps, a bit each. There is room for one step more than there may be.
type Steps = u128;
const _: () = assert!(LIMITS.steps < Steps::BITS);

/// The lowest step from which one or more edges lead back to itself.
pub fn lowest_on_loop(steps: usize, edges: &[Edge]) -> Option<usize> {
    let mut reached: Vec<Steps> = vec![0; steps];
    for edge in edges {
        reached[edge.from] |= 1 << edge.to;
    }
    for middle in 0..steps {
        for start in 0..steps {
            if reached[start] >> middle & 1 == 1 {
                reached[start] |= reached[middle];
            }
        }
    }
    (0..steps).find(|&step| reached[step] >> step & 1 == 1)
}

//! Graphs without loops, as pairs of places: every edge runs from a lower place to a higher one.

use reference::random::Random;
use reference::table::{LIMITS, OLD_LIMITS};

pub const STEPS: usize = LIMITS.steps as usize;
pub const EDGES: usize = LIMITS.edges as usize;
/// The limits up to version 1.3.
pub const OLD_STEPS: usize = OLD_LIMITS.steps as usize;
pub const OLD_EDGES: usize = OLD_LIMITS.edges as usize;

pub struct Shape {
    pub steps: usize,
    pub ends: Vec<(usize, usize)>,
}

/// Many small graphs, some large ones.
pub fn any_size(random: &mut Random) -> usize {
    let most = random.pick(&[4, 8, 8, 16, 32, OLD_STEPS, STEPS]);
    random.between(2, most)
}

pub fn pair(random: &mut Random, steps: usize) -> (usize, usize) {
    let low = random.below(steps - 1);
    (low, random.between(low + 1, steps - 1))
}

/// Any edges, so many of them.
pub fn sized(random: &mut Random, steps: usize, edges: usize) -> Shape {
    Shape { steps, ends: pairs(random, steps, edges) }
}

fn pairs(random: &mut Random, steps: usize, count: usize) -> Vec<(usize, usize)> {
    (0..count.min(EDGES)).map(|_| pair(random, steps)).collect()
}

pub fn sparse(random: &mut Random) -> Shape {
    let steps = any_size(random);
    let count = random.between(0, steps);
    Shape { steps, ends: pairs(random, steps, count) }
}

pub fn dense(random: &mut Random) -> Shape {
    let steps = any_size(random);
    let count = random.between(steps, (steps * steps / 2).min(EDGES).max(steps));
    Shape { steps, ends: pairs(random, steps, count) }
}

pub fn full(random: &mut Random) -> Shape {
    sized(random, STEPS, EDGES)
}

pub fn chain(random: &mut Random) -> Shape {
    let steps = any_size(random);
    let mut ends: Vec<_> = (1..steps).map(|step| (step - 1, step)).collect();
    let skips = random.below(5);
    ends.extend(pairs(random, steps, skips));
    Shape { steps, ends }
}

pub fn grid(random: &mut Random) -> Shape {
    let width = random.between(1, 8);
    let height = random.between(1, STEPS / 8);
    let mut ends = Vec::new();
    for row in 0..height {
        for column in 0..width {
            let here = row * width + column;
            if column + 1 < width {
                ends.push((here, here + 1));
            }
            if row + 1 < height {
                ends.push((here, here + width));
            }
        }
    }
    Shape { steps: width * height, ends }
}

/// Edges between neighbouring layers, now and then over several.
pub fn layered(random: &mut Random) -> Shape {
    let layers = random.between(2, 8);
    let width = random.between(1, STEPS / layers);
    let steps = layers * width;
    let count = random.between(width, (3 * steps).min(EDGES));
    let ends = (0..count).map(|_| {
        let upper = random.below(layers - 1);
        let lower = if random.one_in(5) { random.between(upper + 1, layers - 1) } else { upper + 1 };
        (upper * width + random.below(width), lower * width + random.below(width))
    });
    Shape { steps, ends: ends.collect() }
}

/// Two or three wide rows, where ordering has most to do.
pub fn wide(random: &mut Random) -> Shape {
    let layers = random.between(2, 3);
    let width = random.between(3, STEPS / layers);
    let count = random.between(width, EDGES);
    let ends = (0..count).map(|_| {
        let upper = random.below(layers - 1);
        (upper * width + random.below(width), (upper + 1) * width + random.below(width))
    });
    Shape { steps: layers * width, ends: ends.collect() }
}

pub fn star(random: &mut Random) -> Shape {
    let steps = any_size(random);
    let centre = random.below(steps);
    let others = (0..steps).filter(|&step| step != centre);
    Shape { steps, ends: others.map(|step| (step.min(centre), step.max(centre))).collect() }
}

pub fn bipartite(random: &mut Random) -> Shape {
    let upper = random.between(1, 16);
    let lower = random.between(1, EDGES / 16);
    let all = (0..upper).flat_map(|up| (0..lower).map(move |low| (up, upper + low)));
    let share = random.between(1, 4);
    Shape { steps: upper + lower, ends: all.filter(|_| share == 4 || random.below(4) < share).collect() }
}

pub fn parallel(random: &mut Random) -> Shape {
    let steps = random.between(2, 12);
    let kinds = random.between(1, 8);
    let pool = pairs(random, steps, kinds);
    let count = random.between(1, random.clone().pick(&[10, 40, EDGES]));
    Shape { steps, ends: (0..count).map(|_| random.pick(&pool)).collect() }
}

pub fn tree(random: &mut Random) -> Shape {
    let steps = any_size(random);
    let inward = random.one_in(2);
    let mut ends = Vec::new();
    for step in 1..steps {
        let parent = random.below(step);
        ends.push(if inward { (steps - 1 - step, steps - 1 - parent) } else { (parent, step) });
    }
    Shape { steps, ends }
}

/// Several graphs side by side, some of them single steps.
pub fn parts(random: &mut Random) -> Shape {
    let mut whole = Shape { steps: 0, ends: Vec::new() };
    for _ in 0..random.between(2, 6) {
        let part = match random.below(4) {
            0 => Shape { steps: 1, ends: Vec::new() },
            1 => chain(random),
            2 => sparse(random),
            _ => bipartite(random),
        };
        if whole.steps + part.steps <= STEPS && whole.ends.len() + part.ends.len() <= EDGES {
            whole.ends.extend(part.ends.iter().map(|&(low, high)| (low + whole.steps, high + whole.steps)));
            whole.steps += part.steps;
        }
    }
    whole
}

/// A chain with edges that pass many of its steps.
pub fn long(random: &mut Random) -> Shape {
    let steps = random.between(6, 40);
    let mut ends: Vec<_> = (1..steps).filter(|_| !random.one_in(8)).map(|step| (step - 1, step)).collect();
    for _ in 0..random.between(1, 30) {
        let low = random.below(steps / 3);
        ends.push((low, random.between(2 * steps / 3, steps - 1)));
    }
    Shape { steps, ends }
}

pub fn single_row(random: &mut Random) -> Shape {
    Shape { steps: random.between(0, STEPS), ends: Vec::new() }
}

pub fn tiny(random: &mut Random) -> Shape {
    let steps = random.between(2, 7);
    let count = random.between(1, 2 * steps);
    Shape { steps, ends: pairs(random, steps, count) }
}

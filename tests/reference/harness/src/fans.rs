//! Charts with all the edges that there may be, each drawn as a line of its own, to few steps: points have the most ends, and
//! rows are the widest. Nothing of the harness is needed here, so that the reference's tests measure the very charts that are
//! compared.

use reference::random::Random;
use reference::soft::turn;
use reference::table::{Edge, TableEdge, LIMITS};

const STEPS: usize = LIMITS.steps as usize;
const EDGES: usize = LIMITS.edges as usize;

pub struct Fan {
    pub steps: usize,
    pub edges: Vec<TableEdge>,
}

/// The lines that there can be between two steps: of a must edge, of a soft one along it, and of a soft one against it, which
/// is turned.
const BESIDE: usize = 3;

/// A line: the steps that it leads from and to, and its gap.
type Line = (usize, usize, usize);

/// A table whose edges, in this order, are drawn as these lines.
fn fan(steps: usize, lines: &[Line]) -> Fan {
    let edge = |at: usize| {
        let (from, to, gap) = lines[at];
        let edge = Edge { from, to, gap: gap as u32, weight: 1 };
        match lines[..at].iter().filter(|line| (line.0, line.1) == (from, to)).count() {
            0 => TableEdge { edge, soft: false },
            1 => TableEdge { edge, soft: true },
            beside => {
                assert!(beside < BESIDE, "a line of its own");
                TableEdge { edge: turn(edge), soft: true }
            }
        }
    };
    Fan { steps, edges: (0..lines.len()).map(edge).collect() }
}

/// Upper steps, as many as are needed, and below them so many that own the places of the row between, left to right.
fn above(lower: usize, gap: usize, owners: &[usize]) -> Fan {
    let blocks = blocks(owners);
    let upper = blocks.last().map_or(0, |last| last + 1);
    let lines: Vec<Line> = blocks.iter().zip(owners).map(|(&from, &owner)| (from, upper + owner, gap)).collect();
    assert!(upper + lower <= STEPS, "{upper} steps above {lower}");
    fan(upper + lower, &lines)
}

/// Parts the places of a row among steps on the other side, so that no step has more lines of one owner than there can be.
fn blocks(owners: &[usize]) -> Vec<usize> {
    let (mut block, mut start) = (0, 0);
    let mut blocks = Vec::new();
    for (at, owner) in owners.iter().enumerate() {
        if owners[start..at].iter().filter(|&other| other == owner).count() == BESIDE {
            (block, start) = (block + 1, at);
        }
        blocks.push(block);
    }
    blocks
}

/// Two points whose ends stand apart: no other charts have products so large.
const APART: [fn(usize) -> Fan; 3] = [apart_above, apart_below, apart_in_row_0];
/// How many ends the one has: with fewer or more, some edge would lead to neither of the two. With 122 the product is the
/// largest.
const FEWEST: usize = 14;
const MOST: usize = 281;
const EVERY: usize = 3;
/// How many charts there are of these.
pub const LARGEST: usize = APART.len() * (1 + (MOST - FEWEST) / EVERY);

/// Each kind with every third number of ends.
pub fn largest(at: usize) -> Fan {
    APART[at % APART.len()](FEWEST + EVERY * (at / APART.len()))
}

/// Of two steps in row 4, the first has so many ends at the right of a row of as many points as there are edges, and the second
/// all others, at the left. Their row stands so in the third pass.
///
/// The 94 other steps have 282 lines if each leads to one of the two, so three lead to both. Side by side, lines of the one to
/// the right would stand before lines of the next to the left; so they are in three rows, and the passes put each between the
/// lines of those above it. Two steps that lead to the right are numbered before the lowest of the three, or the first up pass
/// would not move it far enough.
fn apart_above(count: usize) -> Fan {
    const SHARED: usize = 3;
    let others = EDGES - count;
    let left = (others - 2 * BESIDE - 1) / BESIDE;
    let right = STEPS - 2 - SHARED - left;
    let (highest, high, first) = (0, 1, 2);
    let both = first + left + 2;
    let [to_left, to_right] = [STEPS - 1, STEPS - 2];
    let beside = |from, to, gap, count| vec![(from, to, gap); count];
    let mut lines = Vec::new();
    for step in first..=first + left + right {
        let target = if step < first + left { to_left } else { to_right };
        lines.extend(beside(step, target, 2, BESIDE));
        if step == both {
            lines.extend(beside(step, to_left, 2, BESIDE));
        }
    }
    for to in [to_left, to_right] {
        lines.extend(beside(high, to, 3, BESIDE));
    }
    lines.extend(beside(highest, to_left, 4, others - BESIDE * (left + 2)));
    lines.extend(beside(highest, to_right, 4, count - BESIDE * (right + 2)));
    fan(STEPS, &lines)
}

/// So many places of the second behind those of the first, as many as two steps with all others on one side can have.
fn two_runs(count: usize) -> Vec<usize> {
    let (whole, spare) = (count - count % BESIDE, count % BESIDE);
    [vec![0; BESIDE * (STEPS - 2) - whole + spare], vec![1; whole]].concat()
}

/// Of two steps in row 0, the second has so many ends at the right. The lines of a step below come one here and one there in
/// the table, which leaves crossings up to the pass that compares the two, so that its order is the one handed out.
fn apart_below(count: usize) -> Fan {
    let owners = two_runs(count);
    let blocks = blocks(&owners);
    let mut lines: Vec<Line> = owners.iter().zip(&blocks).map(|(&owner, block)| (owner, 2 + block, 2)).collect();
    let rank = |at: usize| (0..at).filter(|&other| (owners[other], blocks[other]) == (owners[at], blocks[at])).count();
    let mut places: Vec<usize> = (0..lines.len()).collect();
    places.sort_by_key(|&at| rank(at));
    lines = places.into_iter().map(|at| lines[at]).collect();
    fan(STEPS, &lines)
}

/// Of two steps below row 0, the first has its ends there at the right, three at each.
fn apart_in_row_0(count: usize) -> Fan {
    let owners: Vec<usize> = two_runs(count).iter().map(|owner| 1 - owner).collect();
    above(2, 1, &owners)
}

/// Means that are equal or nearly so, and others around them.
const NEAR: [fn(&mut Random, usize) -> Fan; 5] = [within, nearest_above, nearest_in_row_0, nearest_below, around];
const COUNTS: usize = EDGES / 2;
/// How many charts have each kind with every odd number of ends, as far as it can have them.
pub const NEAREST: usize = NEAR.len() * COUNTS;

/// Beyond `NEAREST` the numbers come again, with other charts.
pub fn near(random: &mut Random, at: usize) -> Fan {
    NEAR[at % NEAR.len()](random, 1 + at / NEAR.len() % COUNTS * 2)
}

/// The ends of one step stand in the midst of those of another; either may be the first.
fn within(random: &mut Random, count: usize) -> Fan {
    // As many places as three runs of owners leave steps enough for.
    let places = BESIDE * (STEPS - 3);
    let count = count.min(places - 1);
    let left = before_midst(random, places - count);
    let inner = random.below(2);
    let mut owners = vec![1 - inner; places];
    owners[left..left + count].fill(inner);
    above(2, any_gap(random), &owners)
}

/// How many of the others stand to the left: half of them, which makes the means equal, or nearly so.
fn before_midst(random: &mut Random, others: usize) -> usize {
    (others / 2 + random.below(4)).saturating_sub(1).min(others)
}

fn any_gap(random: &mut Random) -> usize {
    random.pick(&[2, 2, 2, 3, 4])
}

/// Of three steps below others, the first two have means that are nearly equal; the third takes what keeps them from it.
fn nearest_above(random: &mut Random, count: usize) -> Fan {
    // With fewer places of one step, runs of the other's would be too long for the steps above.
    let first = count.clamp(EDGES / 12, EDGES - EDGES / 12);
    // Now and then twice as many ends as the other has.
    let counts = if random.one_in(8) { [EDGES / 2, EDGES / 4] } else { [first, EDGES - 1 - first] };
    let times = any_times(random);
    let owners = share_places(random, EDGES, 1, counts, times);
    above(3, any_gap(random), &owners)
}

/// By how many times the least amount for their counts the first mean is above the second. Most are to be exchanged by the
/// least, since points that are taken for equal stay as they are.
fn any_times(random: &mut Random) -> isize {
    random.pick(&[1, 1, 1, 1, 1, -1, -1, 0, 2])
}

/// Whose each place is, of so many: of the first, of the second, or of none of the two. So many places together are a point of
/// a row. The means differ by so many times the least amount that the counts allow.
fn share_places(random: &mut Random, all: usize, together: usize, counts: [usize; 2], times: isize) -> Vec<usize> {
    let both = counts[0] + counts[1];
    let apart = times * common(counts[0], counts[1]) as isize;
    let mut places: Vec<usize> = (0..all).collect();
    random.shuffle(&mut places);
    let sum = loop {
        let sum: usize = places[..both].iter().map(|place| place / together).sum();
        let scaled = (counts[0] * sum) as isize + apart;
        if scaled % both as isize == 0 {
            break scaled as usize / both;
        }
        places.swap(random.below(both), random.between(both, all - 1));
    };
    bring_to(random, &mut places[..both], together, counts[0], sum);
    let mut owners = vec![2; all];
    for (at, &place) in places[..both].iter().enumerate() {
        owners[place] = usize::from(at >= counts[0]);
    }
    owners
}

/// Exchanges places of the first, so many, with those behind them until their points add up to the sum.
fn bring_to(random: &mut Random, places: &mut [usize], together: usize, count: usize, sum: usize) {
    let mut present: usize = places[..count].iter().map(|place| place / together).sum();
    while present != sum {
        let (own, other) = (random.below(count), random.between(count, places.len() - 1));
        let next = present + places[other] / together - places[own] / together;
        if next.abs_diff(sum) <= present.abs_diff(sum) {
            places.swap(own, other);
            present = next;
        }
    }
}

/// Lines from any steps of row 0: nearly any two sums can be had, and so the least difference that counts allow.
fn nearest_in_row_0(random: &mut Random, count: usize) -> Fan {
    let upper = STEPS - 2;
    let count = count.clamp(EDGES / 16, EDGES - EDGES / 16);
    let other = EDGES - count;
    let apart = any_times(random) * common(count, other) as isize;
    // So far from either end of the row do the ends of the larger one stand in the mean at least.
    let margin = count.max(other) / (2 * BESIDE) + 1;
    let least = count * random.between(margin, upper - 2 - margin);
    let scaled = |sum: usize| (other * sum) as isize - apart;
    let sum = (least..least + count).find(|&sum| scaled(sum) % count as isize == 0).expect("sums so far apart");
    let own = spread(random, count, sum, upper).into_iter().map(|place| (place, upper, 1));
    let others = spread(random, other, scaled(sum) as usize / count, upper);
    let mut lines: Vec<Line> = own.chain(others.into_iter().map(|place| (place, upper + 1, 1))).collect();
    random.shuffle(&mut lines);
    fan(STEPS, &lines)
}

/// So many points of a row of steps, with this sum, and none more often than there can be lines.
fn spread(random: &mut Random, count: usize, sum: usize, row: usize) -> Vec<usize> {
    let mut places: Vec<usize> = (0..BESIDE * row).collect();
    random.shuffle(&mut places);
    bring_to(random, &mut places, BESIDE, count, sum);
    places[..count].iter().map(|place| place / BESIDE).collect()
}

/// Two steps of row 0, and a third that takes what keeps them from nearly equal means. The steps below are held in their order,
/// for the most part, by lines from others.
fn nearest_below(random: &mut Random, count: usize) -> Fan {
    let held = (STEPS - 3) / 2;
    let ends = BESIDE * held;
    let both = ends - ends / 12;
    let first = count.clamp(1, both - 1);
    let times = any_times(random);
    let owners = share_places(random, ends, BESIDE, [first, both - first], times);
    let below = |at: usize| 3 + held + at / BESIDE;
    let own = owners.iter().enumerate().map(|(at, &owner)| (owner, below(at), 1));
    let holding = (0..ends).map(|at| (3 + at / BESIDE, below(at), 1));
    fan(3 + 2 * held, &own.chain(holding).collect::<Vec<Line>>())
}

fn around(random: &mut Random, count: usize) -> Fan {
    if random.one_in(2) {
        between(random, count)
    } else {
        any_lines(random, count)
    }
}

/// Two steps in a middle row, with half of the edges above them and half below.
fn between(random: &mut Random, count: usize) -> Fan {
    let half = EDGES / 2;
    let mut owners: Vec<usize> = (0..half).map(|at| usize::from(at < count.div_ceil(2))).collect();
    random.shuffle(&mut owners);
    let middle = blocks(&owners)[half - 1] + 1;
    let mut lines: Vec<Line> =
        blocks(&owners).into_iter().zip(&owners).map(|(from, owner)| (from, middle + owner, 2)).collect();
    random.shuffle(&mut owners);
    // Steps below as far as they go.
    let lower = blocks(&owners).into_iter().zip(&owners).map(|(block, owner)| (middle + owner, middle + 2 + block, 2));
    lines.extend(lower.filter(|line| line.1 < STEPS));
    let steps = 1 + lines.iter().map(|line| line.1).max().expect("a fan has lines");
    fan(steps, &lines)
}

/// Any lines between some upper steps and some lower ones, the first of these with more than others.
fn any_lines(random: &mut Random, first: usize) -> Fan {
    let (upper, lower) = (random.between(10, 60), random.between(2, 30));
    let mut pairs: Vec<(usize, usize)> =
        (0..upper * lower * BESIDE).map(|at| (at / BESIDE % upper, at / BESIDE / upper)).collect();
    random.shuffle(&mut pairs[..BESIDE * upper]);
    random.shuffle(&mut pairs[(BESIDE * upper).min(first)..]);
    let gap = any_gap(random);
    let lines: Vec<Line> = pairs.into_iter().take(EDGES).map(|(from, to)| (from, upper + to, gap)).collect();
    fan(upper + lower, &lines)
}

/// The largest number that divides both.
pub fn common(a: usize, b: usize) -> usize {
    if b == 0 {
        a
    } else {
        common(b, a % b)
    }
}

//! The charts of many ends that are compared: how large and how near the means are that their passes compare.

use reference::chart::{draw_chart, Chart};
use reference::order::{positions, run_pass, start_order, PASSES};
use reference::random::Random;
use reference::table::{read_table, Kind, LIMITS};
use reference::writer::{write_table, Draft};

#[path = "../harness/src/fans.rs"]
mod fans;

use fans::{common, largest, near, Fan, LARGEST, NEAREST};

const EDGES: usize = LIMITS.edges as usize;

fn draw(Fan { steps, edges }: Fan) -> Chart {
    let firmness = edges.iter().map(|edge| u32::from(edge.soft)).collect();
    let edges = edges.iter().map(|edge| edge.edge).collect();
    let draft = Draft { steps: vec![(Kind::Check, vec![b'f']); steps], edges, firmness: Some(firmness) };
    draw_chart(&read_table(&write_table(&draft)).expect("a table")).unwrap_or_else(|_| panic!("a chart"))
}

#[derive(Default)]
struct Met {
    sum: usize,
    count: usize,
    product: usize,
    /// One over this is the least difference of two unequal means.
    nearest: usize,
    charts: usize,
    /// Charts with another order than the one at the start.
    moved: usize,
}

impl Met {
    fn of(fans: impl Iterator<Item = Fan>) -> Met {
        let mut met = Met::default();
        for chart in fans.map(draw) {
            met.charts += 1;
            met.moved += usize::from(chart.best_pass > 0);
            met.note_passes(&chart);
        }
        met
    }

    /// Of the steps alone: a pass point has one end on either side.
    fn note_passes(&mut self, chart: &Chart) {
        let mut order = start_order(&chart.layout);
        for pass in 1..=PASSES {
            let down = pass % 2 == 1;
            order = run_pass(&chart.layout, order, down);
            // A row is left as the next one sees it.
            let position = positions(&order);
            let ends = if down { &chart.layout.above } else { &chart.layout.below };
            for row in &order {
                let steps = row.iter().filter(|&&point| point < chart.rows.len() && !ends[point].is_empty());
                let mean = |&point: &usize| (ends[point].iter().map(|&end| position[end]).sum(), ends[point].len());
                self.note_row(&steps.map(mean).collect::<Vec<_>>());
            }
        }
    }

    fn note_row(&mut self, means: &[(usize, usize)]) {
        for (at, &(sum, count)) in means.iter().enumerate() {
            (self.sum, self.count) = (self.sum.max(sum), self.count.max(count));
            for &(other_sum, other_count) in &means[..at] {
                let products = (sum * other_count, other_sum * count);
                self.product = self.product.max(products.0).max(products.1);
                let apart = products.0.abs_diff(products.1);
                self.nearest = self.nearest.max((count * other_count).checked_div(apart).unwrap_or(0));
            }
        }
    }
}

/// Each edge is an end of one of the two points at most, and a row below row 0 has no more points than there are edges. So
/// the largest product is that of a point with the places at the right and one with all others.
#[test]
fn the_largest_products() {
    let product = |count| (EDGES - count..EDGES).sum::<usize>() * (EDGES - count);
    let bound = (1..EDGES).map(product).max().unwrap();
    let met = Met::of((0..LARGEST).map(largest));
    assert_eq!((met.product, bound), (4_587_078, 4_587_078));
    assert!(bound >= 1 << 22 && met.sum >= 1 << 15 && met.count >= 1 << 8);
    assert!(met.moved * 10 > met.charts * 9, "{} of {} charts in another order", met.moved, met.charts);
}

/// Two fractions differ by no less than one over the least number that both counts divide.
#[test]
fn the_nearest_means() {
    let pairs = (1..EDGES).flat_map(|count| (1..=EDGES - count).map(move |other| (count, other)));
    let bound = pairs.map(|(count, other)| count * other / common(count, other)).max().unwrap();
    let met = Met::of((0..NEAREST).map(|at| near(&mut Random::new(at as u64), at)));
    assert_eq!((met.nearest, bound), (20_735, 20_735));
    assert!(met.product >= 1 << 21);
    assert!(met.moved * 5 > met.charts * 4, "{} of {} charts in another order", met.moved, met.charts);
}

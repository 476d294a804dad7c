//! The best order of a row: by hand, against all orders by their numbers, in order with refusals, and what counts it again.

use reference::calls::{self, pack_refusal};
use reference::chart::{draw_chart, Chart};
use reference::random::Random;
use reference::recount::{check, check_more};
use reference::refusal::Refusal;
use reference::row_order::{find_numbered, find_row_order, orders_of, RowOrder, MOST_ROW_POINTS, MOST_TRIES};
use reference::strokes::lines_of;
use reference::table::read_table;

mod small;
mod stored;

use small::draw;

/// From and to; all gaps and weights are 1, and all edges must.
fn table(steps: usize, ends: &[(usize, usize)]) -> Vec<u8> {
    let rows: Vec<small::Row> = ends.iter().map(|&(from, to)| (from, to, 1, 1, false)).collect();
    small::table(steps, &rows)
}

/// Of points at present in order 0 1 2 and so on, the order of a number, by its digits in the factorial number system.
fn order_of_number(points: usize, mut number: usize) -> Vec<usize> {
    let mut others: Vec<usize> = (0..points).collect();
    let mut order = Vec::new();
    for left in (0..points).rev() {
        order.push(others.remove(number / orders_of(left)));
        number %= orders_of(left);
    }
    order
}

#[test]
fn orders_come_as_in_a_dictionary() {
    for points in 0..7 {
        let orders: Vec<Vec<usize>> = (0..orders_of(points)).map(|number| order_of_number(points, number)).collect();
        assert!(orders.windows(2).all(|pair| pair[0] < pair[1]));
    }
    assert_eq!(orders_of(MOST_ROW_POINTS), usize::MAX);
}

/// Each two pieces between the rows, by the places of their ends.
fn crossings_of(chart: &Chart, row: usize, order: &[usize]) -> usize {
    let place = |points: &[usize], point: usize| points.iter().position(|&other| other == point).unwrap();
    let between = chart.layout.pieces.iter().filter(|piece| chart.layout.row_of[piece.1] == row);
    let ends: Vec<(usize, usize)> =
        between.map(|&(up, low)| (place(&chart.order[row - 1], up), place(order, low))).collect();
    let pairs = (0..ends.len()).flat_map(|at| (0..at).map(move |other| (at, other)));
    pairs
        .filter(|&(at, other)| (ends[at].0 < ends[other].0) == (ends[at].1 > ends[other].1))
        .filter(|&(at, other)| ends[at].0 != ends[other].0 && ends[at].1 != ends[other].1)
        .count()
}

/// All orders up to a number, one after another.
fn try_all(chart: &Chart, row: usize, tries: usize) -> (Vec<usize>, usize, usize) {
    let present = &chart.order[row];
    let count = orders_of(present.len()).min(tries + 1);
    let orders = (0..count).map(|number| {
        let order: Vec<usize> = order_of_number(present.len(), number).into_iter().map(|at| present[at]).collect();
        (crossings_of(chart, row, &order), number, order)
    });
    let (crossings, number, order) = orders.min().unwrap();
    (order, crossings, number)
}

/// A chart of up to three rows, wider or narrower, with lines side by side and some that are turned.
fn any_chart(random: &mut Random) -> Chart {
    let widths = [0; 3].map(|_| random.between(1, 6));
    let mut rows: Vec<small::Row> = Vec::new();
    for (start, row) in [(0, 1), (widths[0], 2)] {
        for _ in 0..random.between(1, 3 * widths[row]) {
            let ends = (start + random.below(widths[row - 1]), start + widths[row - 1] + random.below(widths[row]));
            let (soft, weight) = (random.one_in(3), random.below(3) as u32);
            rows.push((ends.0, ends.1, 1, weight, soft));
            if random.one_in(4) {
                rows.push((ends.1, ends.0, 1, weight, true));
            }
        }
    }
    draw(&small::table(widths.iter().sum(), &rows))
}

#[test]
fn as_by_all_orders() {
    let random = &mut Random::new(9);
    let mut moved = 0;
    for _ in 0..1500 {
        let chart = any_chart(random);
        for row in (1..chart.order.len()).filter(|&row| chart.order[row].len() <= 6) {
            for tries in [0, 1, random.below(24), random.below(720), MOST_TRIES] {
                let (order, number) = find_numbered(&chart, row, tries).unwrap();
                assert_eq!((order.points.clone(), order.crossings, number), try_all(&chart, row, tries));
                moved += usize::from(number > 0);
            }
        }
    }
    assert!(moved > 100, "{moved} moved");
}

/// Nine steps held in their order by a zigzag of lines from ten others, and three below, of which each two are better in
/// another order than the third allows: 12 crossings if each pair could choose, and 13 at best.
fn going_round() -> Vec<u8> {
    let (held, below) = (10, 19);
    let mut rows: Vec<small::Row> = Vec::new();
    for at in 0..9 {
        let beside = |from, to| [(from, to, 1, 1, false), (from, to, 1, 1, true), (to, from, 1, 1, true)];
        rows.extend([beside(at, held + at), beside(at + 1, held + at)].concat());
        rows.push((held + at, below + [1, 0, 2, 0, 2, 1, 2, 1, 0][at], 1, 1, false));
    }
    small::table(22, &rows)
}

#[test]
fn a_floor_that_no_order_meets() {
    let chart = draw(&going_round());
    assert_eq!(chart.order[1], (10..19).collect::<Vec<_>>());
    let all: Vec<usize> = (0..6)
        .map(|number| crossings_of(&chart, 2, &order_of_number(3, number).iter().map(|at| 19 + at).collect::<Vec<_>>()))
        .collect();
    let best = find_row_order(&chart, 2, 5).unwrap();
    assert_eq!((best.floor, best.crossings, all.iter().min()), (12, 13, Some(&13)));
    assert_eq!(all.iter().sum::<usize>(), 3 * 27);
}

/// Steps 2, 3 and 4 below 0 and 1, and 5 and 6 below these; the lines below are many more than those above, so that the row
/// stands as they have it.
fn pulled() -> Vec<u8> {
    let below = [(2, 6), (3, 5), (4, 5)];
    let mut rows: Vec<small::Row> =
        [(0, 2), (1, 3), (1, 4), (0, 5), (1, 6)].map(|(from, to)| (from, to, 1, 1, false)).to_vec();
    for (from, to) in below {
        rows.extend([(from, to, 1, 1, false), (from, to, 1, 1, true), (to, from, 1, 1, true)]);
    }
    small::table(7, &rows)
}

#[test]
fn by_hand() {
    let chart = draw(&pulled());
    let row = |tries: usize| find_row_order(&chart, 1, tries).unwrap();
    let present = row(0);
    assert_eq!(present.points, chart.order[1]);
    assert_eq!(present.crossings, crossings_of(&chart, 1, &chart.order[1]));
    let (best, number) = find_numbered(&chart, 1, MOST_TRIES).unwrap();
    assert_eq!((best.points.clone(), best.crossings, number), try_all(&chart, 1, MOST_TRIES));
    for tries in 1..orders_of(best.points.len()) + 2 {
        assert_eq!(check_more(&row(tries - 1), &row(tries)), Ok(()));
        assert_eq!(row(tries).points == best.points, tries >= number);
    }
}

/// The word, and entries behind the row as they were.
#[test]
fn handed_out() {
    let bytes = table(4, &[(0, 3), (1, 2)]);
    let mut buffer = [9; 4];
    assert_eq!(calls::row_order(&bytes, 1, 1, &mut buffer), 2 << 8);
    assert_eq!(buffer, [3, 2, 9, 9]);
    // Two lines side by side cross two others wherever the points stand.
    let rows = [(0, 2), (0, 3), (1, 2), (1, 3)].map(|(from, to)| [(from, to, 1, 1, false), (from, to, 1, 1, true)]);
    let bytes = small::table(4, &rows.concat());
    assert_eq!(calls::row_order(&bytes, 1, MOST_TRIES, &mut buffer), 2 << 8 | 4 << 19 | 4 << 44);
}

/// A step above so many others.
fn fan(width: usize) -> Vec<u8> {
    table(1 + width, &(1..=width).map(|step| (0, step)).collect::<Vec<_>>())
}

#[test]
fn refusals_in_order() {
    let (most, beyond) = (MOST_ROW_POINTS, MOST_TRIES + 1);
    let ask = |bytes: &[u8], row: usize, tries: usize, entries: usize| {
        let mut buffer = vec![7; entries];
        let answer = calls::row_order(bytes, row, tries, &mut buffer);
        assert!(answer & 0xff == 0 || buffer == vec![7; entries], "a refused call changed its buffer");
        answer & 0xff
    };
    let (served, wide) = (fan(most), fan(most + 1));
    assert_eq!(ask(&served, 1, MOST_TRIES, most), 0);
    assert_eq!([ask(&served, 1, 0, most - 1), ask(&served, 1, 0, 0)], [13, 13]);
    assert_eq!([ask(&served, 1, beyond, most), ask(&served, 1, beyond, 0), ask(&served, 1, usize::MAX, 0)], [18; 3]);
    for row in [0, 2, 3, 257, usize::MAX] {
        assert_eq!([ask(&served, row, 0, most), ask(&served, row, beyond, 0)], [17; 2]);
    }
    assert_eq!([ask(&wide, 1, 0, most + 1), ask(&wide, 1, beyond, 0)], [17; 2]);
    assert_eq!(
        [ask(&table(0, &[]), 0, 0, 0), ask(&table(0, &[]), 1, beyond, 0), ask(&table(2, &[]), 1, 0, 2)],
        [17; 3]
    );
    assert_eq!([ask(&table(2, &[(0, 1), (1, 0)]), 9, beyond, 0), ask(&[1], 9, beyond, 0)], [11, 1]);
    assert_eq!([Refusal::BadRow, Refusal::TooManyTries].map(pack_refusal), [17, 18]);
}

/// The sample of a check: a chart, and what is told of its row 1 at its best.
fn sample() -> (Chart, RowOrder) {
    let chart = draw(&pulled());
    let best = find_row_order(&chart, 1, MOST_TRIES).unwrap();
    (chart, best)
}

fn judge(chart: &Chart, listed: &[usize], told: &RowOrder) -> Result<(), &'static str> {
    check(&lines_of(chart), &chart.rows, listed, 1, told)
}

#[test]
fn wrong_orders_are_turned_down() {
    let (chart, right) = sample();
    let listed = chart.order.concat();
    assert_eq!(judge(&chart, &listed, &right), Ok(()));
    let change = |alter: fn(&mut RowOrder)| {
        let mut told = right.clone();
        alter(&mut told);
        judge(&chart, &listed, &told).expect_err("a wrong order")
    };
    let points = "the order has other points than the row";
    assert_eq!(change(|told| told.points[0] = told.points[1]), points);
    assert_eq!(change(|told| told.points[0] = 0), points);
    assert_eq!(change(|told| told.points.truncate(2)), points);
    assert_eq!(change(|told| told.crossings += 1), "the crossings are not those of the order");
    assert_eq!(change(|told| told.floor = told.crossings + 1), "the floor is above the crossings");
    let round = draw(&going_round());
    let told = find_row_order(&round, 2, 5).unwrap();
    let met = RowOrder { floor: told.crossings, ..told };
    let fault = check(&lines_of(&round), &round.rows, &round.order.concat(), 2, &met);
    assert_eq!(fault, Err("the floor is not that of the pairs"));
    assert_eq!(judge(&chart, &listed[1..], &right), Err("the chart's order has other points"));
    let turned: Vec<usize> = listed.iter().rev().copied().collect();
    assert_eq!(judge(&chart, &turned, &right), Err("the chart's order is not row by row"));
}

#[test]
fn more_tries_are_held_to_fewer() {
    let (_, told) = sample();
    assert_eq!(check_more(&told, &told), Ok(()));
    let other = RowOrder { points: told.points.iter().rev().copied().collect(), ..told.clone() };
    assert_eq!(check_more(&told, &other), Err("more tries give another order that is no better"));
    let worse = RowOrder { crossings: told.crossings + 1, ..told.clone() };
    assert_eq!(check_more(&told, &worse), Err("more tries are worse"));
    assert_eq!(check_more(&worse, &other), Ok(()));
}

/// Every row of every stored chart, each answer counted again when it is found; short ones against all orders.
#[test]
fn stored_tables() {
    let (mut orders, mut moved, mut refused) = (0, 0, 0);
    for (bytes, _) in stored::charts() {
        let Ok(chart) = read_table(&bytes).and_then(|table| draw_chart(&table)) else { continue };
        for row in 0..=chart.order.len() {
            let Ok((order, number)) = find_numbered(&chart, row, 200) else {
                refused += 1;
                continue;
            };
            if order.points.len() <= 5 {
                assert_eq!((order.points, order.crossings, number), try_all(&chart, row, 200));
            }
            orders += 1;
            moved += usize::from(number > 0);
        }
    }
    assert!(orders > 1000 && moved > 20 && refused > 500, "{orders} orders, {moved} moved, {refused} refused");
}

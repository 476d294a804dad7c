//! The x of points: against every choice of x, by forces, by hand, and on the stored tables.

use reference::calls;
use reference::forces::{check, neighbours, sum, Forces, Piece};
use reference::order::Order;
use reference::points::MAX_POINTS;
use reference::random::Random;
use reference::refusal::Refusal;
use reference::xs::{find_xs, judge_xs, lowest_xs, pieces_of, MOST_POINTS};

mod small;
mod stored;

use small::{draw, table, Row};

/// Over all choices up to the bound that keep neighbours apart: the least sum, and at each point the least x among choices of
/// that sum.
fn try_all(order: &Order, pieces: &[Piece], bound: usize) -> (u64, Vec<usize>) {
    let pairs = neighbours(order);
    let mut best = (u64::MAX, Vec::new());
    let mut xs = vec![0; order.iter().map(Vec::len).sum()];
    loop {
        if pairs.iter().all(|&(left, right)| xs[left] < xs[right]) {
            let sum = sum(pieces, &xs);
            if sum < best.0 {
                best = (sum, xs.clone());
            } else if sum == best.0 {
                for (lowest, &x) in best.1.iter_mut().zip(&xs) {
                    *lowest = x.min(*lowest);
                }
            }
        }
        match xs.iter().position(|&x| x < bound) {
            None => return best,
            Some(point) => {
                xs[point] += 1;
                xs[..point].fill(0);
            }
        }
    }
}

/// Any points in any rows, and pieces between any two rows that follow each other.
fn random_chart(random: &mut Random, points: usize) -> (Order, Vec<Piece>) {
    let rows = random.between(1, points.min(4));
    let mut order: Order = vec![Vec::new(); rows];
    let mut numbers: Vec<usize> = (0..points).collect();
    random.shuffle(&mut numbers);
    for point in numbers {
        order[random.below(rows)].push(point);
    }
    let costs = random.pick(&[1, 2, 5, 600_000]);
    let mut pieces = Vec::new();
    for pair in order.windows(2).filter(|pair| !pair[0].is_empty() && !pair[1].is_empty()) {
        for _ in 0..random.below(2 * points) {
            let ends = (random.pick(&pair[0]), random.pick(&pair[1]));
            let ends = if random.one_in(2) { ends } else { (ends.1, ends.0) };
            pieces.push(Piece { ends, cost: random.between(0, costs) as u64 });
        }
    }
    (order, pieces)
}

fn agree(seed: u64, points: usize, bound: usize, charts: usize) {
    let mut random = Random::new(seed);
    let mut moved = 0;
    for _ in 0..charts {
        let (order, pieces) = random_chart(&mut random, points);
        let (least, lowest) = try_all(&order, &pieces, bound);
        let xs = lowest_xs(&order, &pieces);
        assert_eq!((sum(&pieces, &xs), &xs), (least, &lowest), "{order:?}, {pieces:?}");
        moved += usize::from(xs != reference::order::positions(&order));
    }
    assert!(points < 4 || moved * 8 > charts, "{moved} of {charts} charts with a point moved from its position");
}

/// No lowest best x is as large as the number of points.
#[test]
fn all_choices() {
    for points in 1..=4 {
        agree(points as u64, points, points + 1, 800);
    }
    agree(5, 5, 5, 800);
    agree(6, 6, 5, 1000);
    agree(7, 7, 6, 60);
}

/// Of any x, best or not, the answer alone passes.
#[test]
fn any_x_are_judged() {
    let mut random = Random::new(8);
    let (mut dearer, mut higher) = (0, 0);
    for _ in 0..3000 {
        let points = random.between(1, random.clone().pick(&[4, 8, 30]));
        let (order, pieces) = random_chart(&mut random, points);
        let lowest = lowest_xs(&order, &pieces);
        assert_eq!(judge_xs(&order, &pieces, &lowest), Ok(()));
        for _ in 0..10 {
            // For the most part a few points moved by one.
            let rarely = random.pick(&[1, 2, points]);
            let mut xs = lowest.clone();
            xs.iter_mut().filter(|_| random.one_in(rarely)).for_each(|x| *x += 1);
            if random.one_in(3) {
                xs.iter_mut().filter(|_| random.one_in(rarely)).for_each(|x| *x = x.saturating_sub(1));
            }
            let judged = judge_xs(&order, &pieces, &xs);
            assert_eq!(judged.is_ok(), xs == lowest, "{xs:?} for {lowest:?}: {order:?}, {pieces:?}");
            dearer += usize::from(sum(&pieces, &xs) > sum(&pieces, &lowest));
            higher += usize::from(judged == Err("a point could be lower"));
        }
    }
    assert!(dearer > 5000 && higher > 3000, "{dearer} x with a larger sum, {higher} best but not the lowest");
}

/// A line of two edges past two rows, one from row to row, and a turned one past one beside a line of weight 0.
#[test]
fn costs_of_pieces() {
    let twice = [(0, 1, 3, 10, false), (0, 2, 1, 7, false), (0, 1, 1, 1, false)];
    let chart = draw(&table(3, &[&twice[..], &[(2, 1, 1, 0, false), (1, 2, 2, 5, true)]].concat()));
    assert_eq!((chart.rows.as_slice(), chart.point_count()), (&[0, 3, 1][..], 7));
    let first = [((0, 3), 22), ((3, 4), 88), ((4, 1), 22), ((0, 2), 7)];
    let due = [&first[..], &[((2, 5), 0), ((5, 1), 0), ((2, 6), 10), ((6, 1), 10)]].concat();
    let costs: Vec<_> = pieces_of(&chart).iter().map(|piece| (piece.ends, piece.cost)).collect();
    assert_eq!(costs, due);
}

/// A step over two others, the second of them heavier by one.
fn small() -> (Order, Vec<Piece>) {
    (vec![vec![0], vec![1, 2]], [(1, 3), (2, 4)].map(|(low, cost)| Piece { ends: (0, low), cost }).to_vec())
}

fn forces(pulls: [i64; 2], push: i64) -> Forces {
    Forces { pulls: pulls.to_vec(), pushes: vec![push] }
}

#[test]
fn forces_of_the_answer() {
    let (order, pieces) = small();
    assert_eq!(lowest_xs(&order, &pieces), [1, 0, 1]);
    assert_eq!(check(&order, &pieces, &forces([-3, 3], 3), &[1, 0, 1]), Ok(()));
}

#[test]
fn wrong_x_are_turned_down() {
    let (order, pieces) = small();
    let check = |xs: &[usize]| check(&order, &pieces, &forces([-3, 3], 3), xs);
    assert_eq!(check(&[0, 0, 1]), Err("a bound is broken"));
    assert_eq!(check(&[0, 0, 0]), Err("a bound is broken"));
    assert_eq!(check(&[2, 0, 2]), Err("a bound is broken"));
    assert_eq!(check(&[2, 1, 2]), Err("a point could be lower"));
    // With equal costs both x of the upper step are best.
    let equal: Vec<Piece> = pieces.iter().map(|piece| Piece { cost: 3, ..*piece }).collect();
    let check = |xs: &[usize]| reference::forces::check(&order, &equal, &forces([-3, 3], 3), xs);
    assert_eq!((check(&[0, 0, 1]), check(&[1, 0, 1])), (Ok(()), Err("a point could be lower")));
}

#[test]
fn wrong_forces_are_turned_down() {
    let (order, pieces) = small();
    let check = |forces| check(&order, &pieces, &forces, &[1, 0, 1]);
    assert_eq!(check(forces([-4, 4], 4)), Err("a pull is too strong"));
    assert_eq!(check(forces([3, -3], -3)), Err("neighbours pull each other"));
    assert_eq!(check(forces([-3, 4], 3)), Err("the forces are not balanced"));
    assert_eq!(check(forces([-2, 2], 2)), Err("a bound is broken"));
}

/// As a C caller meets them.
#[test]
fn answers_and_buffers() {
    let bytes = table(4, &[(0, 3, 2, 1, false), (1, 2, 1, 1, false)]);
    let mut buffer = [9; 7];
    for short in 0..5 {
        assert_eq!(calls::xs(&bytes, &mut buffer[..short]), 13);
    }
    assert_eq!(buffer, [9; 7]);
    assert_eq!(calls::xs(&bytes, &mut buffer[..5]), 5 << 8);
    assert_eq!(buffer, [0, 1, 1, 0, 0, 9, 9]);
    assert_eq!(calls::xs(&[1, 0, 0], &mut []), 0);
    assert_eq!(calls::xs(&[1, 0, 0], &mut buffer[5..]), 0);
    assert_eq!(buffer[5..], [9, 9]);
}

/// Edges of the largest gap from step to step, so many, and one from the first step to the last of these: so many lines, each
/// of its own firmness.
fn long_lines(links: usize, loose: usize, lines: usize) -> Vec<u8> {
    let mut rows: Vec<Row> = (0..links).map(|link| (link, link + 1, 4, 1, false)).collect();
    rows.extend([(0, links, 1, 1, false), (0, links, 1, 1, true), (links, 0, 1, 1, true)].into_iter().take(lines));
    table(links + 1 + loose, &rows)
}

/// 12, then 16, then 13.
#[test]
fn refusals_in_order() {
    let mut buffer = [9; MAX_POINTS + 1];
    let points = |bytes: &[u8]| draw(bytes).point_count();
    let (served, large) = (long_lines(16, 0, 1), long_lines(16, 1, 1));
    assert_eq!((points(&served), points(&large)), (MOST_POINTS, MOST_POINTS + 1));
    let (most, beyond) = (long_lines(64, 2, 3), long_lines(64, 3, 3));
    assert_eq!(points(&most), MAX_POINTS);
    for len in [0, 1, MOST_POINTS - 1, MOST_POINTS, MOST_POINTS + 1, MAX_POINTS + 1] {
        let lent = &mut buffer[..len];
        let due = if len < MOST_POINTS { 13 } else { (MOST_POINTS as u64) << 8 };
        assert_eq!(calls::xs(&large, lent), 16);
        assert_eq!(calls::xs(&most, lent), 16);
        assert_eq!(calls::xs(&beyond, lent), 12);
        assert_eq!(calls::xs(&table(2, &[(0, 1, 1, 1, false), (1, 0, 1, 1, false)]), lent), 11);
        assert_eq!(calls::xs(&[1], lent), 1);
        assert!(lent.iter().all(|&entry| entry == 9));
        assert_eq!(calls::xs(&served, &mut lent.to_vec()), due);
    }
    assert_eq!(find_xs(&draw(&large)), Err(Refusal::LargeChart));
}

#[test]
fn stored_tables() {
    let (mut charts, mut refused) = (0, 0);
    for (table, due) in stored::read_lines(include_str!("../../xs.txt")) {
        let mut buffer = [u16::MAX; MOST_POINTS + 1];
        let answer = calls::xs(&table, &mut buffer);
        let xs = buffer[..(answer >> 8) as usize].iter().map(|x| format!(" {x}"));
        let line = match answer & 0xff {
            0 => format!("x{}\n", xs.collect::<String>()),
            11 => format!("refused 11 {}\n", answer >> 8),
            refusal => format!("refused {refusal}\n"),
        };
        assert_eq!(line, due, "{table:02x?}");
        (charts, refused) = if answer & 0xff == 0 { (charts + 1, refused) } else { (charts, refused + 1) };
    }
    assert!(charts > 150 && refused > 30, "{charts} charts, {refused} refusals");
}

//! Strokes: by hand, by the check that follows each line, in order with refusals, and the floats against those of 64 bits.

use reference::bounds::MAX_ROW;
use reference::calls::{self, hand_out_stroke, StrokeAnswer};
use reference::chart::draw_chart;
use reference::drawing::check;
use reference::points::MAX_POINTS;
use reference::random::Random;
use reference::refusal::Refusal;
use reference::strokes::{corner, float_of_quarters, lines_of, list_strokes, Corner, Stroke};
use reference::table::read_table;
use reference::xs::{find_xs, MOST_POINTS};

mod small;
mod stored;

use small::draw;

#[test]
fn floats_of_quarters() {
    let random = &mut Random::new(1);
    let large = (0..100_000).map(|_| random.below(1 << 24) as u32);
    for count in (0..1 << 16).chain(large).chain([(1 << 24) - 1]) {
        assert_eq!(f64::from(f32::from_bits(float_of_quarters(count))) * 4.0, f64::from(count));
    }
    assert_eq!(float_of_quarters(0), 0);
}

/// A float of 64 bits holds each product, and one of 32 bits loses nothing of it.
#[test]
fn no_corner_is_rounded() {
    for number in 0..=MAX_POINTS.max(MAX_ROW) {
        let Corner { x, y } = corner(number, number);
        assert_eq!(f64::from(f32::from_bits(x)), 12.5 * number as f64);
        assert_eq!(f64::from(f32::from_bits(y)), 7.25 * number as f64);
    }
}

/// From, to, gap, and whether it is soft; all weights are 1.
type Row = (usize, usize, u32, bool);

fn table(steps: usize, rows: &[Row]) -> Vec<u8> {
    let weighed: Vec<small::Row> = rows.iter().map(|&(from, to, gap, soft)| (from, to, gap, 1, soft)).collect();
    small::table(steps, &weighed)
}

/// The case of a stroke, and its millimetres as a listing would have them.
fn told(bytes: &[u8], index: usize) -> String {
    let StrokeAnswer { answer, corner: Corner { x, y } } = calls::stroke_at(bytes, index);
    format!("{answer:#x} {} {}", f32::from_bits(x), f32::from_bits(y))
}

fn all_told(bytes: &[u8]) -> Vec<String> {
    let drawn = |told: &String| told != "0x0 0 0";
    (0..).map(|index| told(bytes, index)).take_while(drawn).collect()
}

const SAMPLE: &[u8] = b"\x01\x04\x02\x1e\x04warm\x00\x04lock\x00\x05sweep\x01\x32\x05level\x04\
\x00\x01\x01\x01\x01\x02\x02\x03\x00\x03\x01\x01\x03\x02\x01\x05";

/// Rows 0, 1, 3, 2, and a pass point each at the lines from step 1 to 2 and from step 0 to 3.
#[test]
fn strokes_of_the_sample() {
    let chart = draw(SAMPLE);
    assert_eq!((chart.rows.as_slice(), find_xs(&chart).unwrap()), (&[0, 1, 3, 2][..], vec![1, 0, 0, 1, 0, 1]));
    let first = ["0x100 12.5 0", "0x200 0 7.25", "0x100 0 7.25", "0x200 0 14.5", "0x200 0 21.75"];
    let second = ["0x100 12.5 0", "0x200 12.5 7.25", "0x200 12.5 14.5", "0x100 12.5 14.5", "0x200 0 21.75"];
    assert_eq!(all_told(SAMPLE), [first, second].concat());
}

/// A must line down three rows; a soft one of three edges against it, which goes up; a soft one along it; each of its own
/// pass points.
#[test]
fn turned_lines_lead_up() {
    let down = (0, 1, 3, false);
    let up = (1, 0, 1, true);
    let bytes = table(2, &[up, down, up, (0, 1, 1, true), up]);
    let chart = draw(&bytes);
    let xs = find_xs(&chart).unwrap();
    assert_eq!((chart.rows.as_slice(), lines_of(&chart).as_slice()), (&[0, 3][..], &[(1, 0), (0, 1), (0, 1)][..]));
    let rows = all_told(&bytes).iter().map(|told| told.split(' ').nth(2).unwrap().to_string()).collect::<Vec<_>>();
    let (falling, rising) = (["21.75", "14.5", "7.25", "0"], ["0", "7.25", "14.5", "21.75"]);
    assert_eq!(rows, [falling, rising, rising].concat());
    // The pass points of a line are numbered by rising row: those of the first are 2 above 3.
    let x = |index: usize| f64::from(f32::from_bits(calls::stroke_at(&bytes, index).corner.x));
    assert_eq!([x(1), x(2), x(5), x(6)], [3, 2, 4, 5].map(|point: usize| 12.5 * xs[point] as f64));
}

#[test]
fn no_stroke_from_the_end_on() {
    let far = |end: usize| [end, end + 1, end + 256, end + (1 << 16), end + (1 << 32), 1 << 63, usize::MAX];
    for steps in 0..4 {
        assert!(far(0).into_iter().all(|index| told(&table(steps, &[]), index) == "0x0 0 0"));
    }
    let bytes = table(2, &[(0, 1, 2, false)]);
    assert_eq!(all_told(&bytes), ["0x100 0 0", "0x200 0 7.25", "0x200 0 14.5"]);
    assert!(far(3).into_iter().all(|index| told(&bytes, index) == "0x0 0 0"));
}

/// Whatever the index: 11, then 12, then 16, with no corner.
#[test]
fn refusals_in_order() {
    let long = |links: usize, loose: usize| {
        let mut rows: Vec<Row> = (0..links).map(|link| (link, link + 1, 4, false)).collect();
        rows.extend([(0, links, 1, false), (0, links, 1, true), (links, 0, 1, true)]);
        table(links + 1 + loose, &rows)
    };
    let (served, large) = (long(7, 18), long(7, 19));
    let points = |bytes: &[u8]| draw(bytes).point_count();
    assert_eq!((points(&served), points(&large)), (MOST_POINTS, MOST_POINTS + 1));
    let (most, beyond) = (long(64, 2), long(64, 3));
    assert_eq!(points(&most), MAX_POINTS);
    let looped = table(3, &[(1, 2, 1, false), (2, 1, 1, false)]);
    for index in [0, 1, 200, usize::MAX] {
        assert_eq!(told(&large, index), "0x10 0 0");
        assert_eq!(told(&most, index), "0x10 0 0");
        assert_eq!(told(&beyond, index), "0xc 0 0");
        assert_eq!(told(&looped, index), "0x10b 0 0");
        assert_eq!(told(&[1], index), "0x1 0 0");
    }
    let refused = hand_out_stroke(&Err(Refusal::LargeChart), 0);
    assert_eq!((refused.answer, refused.corner), (16, Corner { x: 0, y: 0 }));
    assert_eq!(all_told(&served).len(), 10 + 7 * 4 + 3 * 28);
}

/// A line with two pass points and one without, in rows 0 to 3 and 0 to 1: rows, x and strokes.
fn small() -> ([(usize, usize); 2], [usize; 3], [usize; 5], Vec<Stroke>) {
    let start = |x, row| Stroke::Move(corner(x, row));
    let line = |x, row| Stroke::Line(corner(x, row));
    let strokes = [start(4, 3), line(2, 2), line(1, 1), line(0, 0), start(0, 0), line(3, 1)];
    ([(1, 0), (0, 2)], [0, 3, 1], [0, 4, 3, 1, 2], strokes.to_vec())
}

#[test]
fn drawings_are_followed() {
    let (lines, rows, xs, strokes) = small();
    assert_eq!(check(&lines, &rows, &xs, &strokes), Ok(()));
    assert_eq!(check(&[], &[0, 0], &[0, 1], &[]), Ok(()));
    assert_eq!(check(&lines, &[0, 3, 0], &xs, &strokes), Err("the points are not those of the lines"));
    assert_eq!(check(&lines, &rows, &xs[..4], &strokes), Err("the points are not those of the lines"));
    assert_eq!(check(&[(0, 1), (0, 2)], &rows, &xs, &strokes), Err("a line starts or ends elsewhere"));
    assert_eq!(check(&lines, &rows, &[0, 4, 3, 2, 1], &strokes), Err("a line leaves its pass points"));
}

/// Each from the right strokes by one change.
#[test]
fn wrong_drawings_are_turned_down() {
    let (lines, rows, xs, right) = small();
    let change = |alter: fn(&mut Vec<Stroke>)| {
        let mut strokes = right.clone();
        alter(&mut strokes);
        check(&lines, &rows, &xs, &strokes).expect_err("a wrong drawing")
    };
    let few = "the strokes are not as many as segments and lines";
    assert_eq!(change(|strokes| strokes.truncate(5)), few);
    assert_eq!(change(|strokes| strokes.push(strokes[5])), few);
    let moves = "a line has not one move, at its start";
    assert_eq!(change(|strokes| strokes[4] = Stroke::Line(corner(0, 0))), moves);
    assert_eq!(change(|strokes| strokes[2] = Stroke::Move(corner(1, 1))), moves);
    assert_eq!(change(|strokes| strokes.swap(0, 1)), moves);
    assert_eq!(change(|strokes| strokes.swap(3, 4)), "a line has a stroke too many or too few");
    assert_eq!(change(|strokes| strokes[3] = strokes[5]), "a line starts or ends elsewhere");
    assert_eq!(change(|strokes| strokes.swap(1, 2)), "a stroke leads to no neighbouring row");
    assert_eq!(change(|strokes| strokes[1] = Stroke::Line(corner(1, 2))), "a line leaves its pass points");
    let other = "a corner is of no x and row";
    assert_eq!(
        change(|strokes| strokes[0] = Stroke::Move(Corner { x: float_of_quarters(201), ..corner(4, 3) })),
        other
    );
    assert_eq!(change(|strokes| strokes[3] = Stroke::Line(Corner { x: 1 << 31, y: 0 })), other);
    assert_eq!(change(|strokes| strokes[3] = Stroke::Line(Corner { x: 0, y: f32::NAN.to_bits() })), other);
}

/// Every chart that gets x is drawn; the strokes of each pass the check when they are listed.
#[test]
fn stored_tables() {
    let (mut drawn, mut upward, mut refused) = (0, 0, 0);
    let tables = stored::charts().into_iter().chain(stored::read_lines(include_str!("../../xs.txt")));
    for (bytes, _) in tables {
        let chart = read_table(&bytes).and_then(|table| draw_chart(&table));
        let xs = chart.as_ref().map_err(|&refusal| refusal).and_then(find_xs);
        let (Ok(chart), Ok(xs)) = (chart, xs) else {
            refused += 1;
            continue;
        };
        let strokes = list_strokes(&chart, &xs);
        assert_eq!(strokes.len(), chart.layout.pieces.len() + chart.merged.len());
        drawn += 1;
        upward += lines_of(&chart).iter().filter(|&&(from, to)| chart.rows[from] > chart.rows[to]).count();
    }
    assert!(drawn > 300 && upward > 300 && refused > 200, "{drawn} drawn, {upward} lines upward, {refused} refused");
}

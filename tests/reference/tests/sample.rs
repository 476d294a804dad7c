//! The worked sample and the short cases that the specification stars.

use reference::calls;
use reference::chart::draw_chart;
use reference::listing::print_chart;
use reference::rows::total;
use reference::soft::must_edges;
use reference::table::{read_table, Edge, LIMITS};
use reference::words::{print_words, write_words};

const SAMPLE: [u8; 47] = [
    0x01, 0x04, 0x02, 0x1e, 0x04, 0x77, 0x61, 0x72, 0x6d, 0x00, 0x04, 0x6c, 0x6f, 0x63, 0x6b, 0x00, 0x05, 0x73, 0x77,
    0x65, 0x65, 0x70, 0x01, 0x32, 0x05, 0x6c, 0x65, 0x76, 0x65, 0x6c, 0x04, 0x00, 0x01, 0x01, 0x01, 0x01, 0x02, 0x02,
    0x03, 0x00, 0x03, 0x01, 0x01, 0x03, 0x02, 0x01, 0x05,
];

fn printed(bytes: &[u8]) -> String {
    String::from_utf8(print_chart(bytes)).unwrap()
}

#[test]
fn sample_rows_total_crossings() {
    let chart = draw_chart(&read_table(&SAMPLE).unwrap()).unwrap();
    assert_eq!(chart.rows, [0, 1, 3, 2]);
    assert_eq!((chart.total, chart.crossings, chart.point_count()), (14, 0, 6));
    assert_eq!(chart.listed_order(), [0, 1, 5, 4, 3, 2]);
}

#[test]
fn sample_listing() {
    let lines = ["chart 4 4 4 14 0", "0 warm=W30", "1 lock=C |2", "2 |1 level=A50", "3 sweep=C", ""];
    assert_eq!(printed(&SAMPLE), lines.join("\n"));
}

#[test]
fn sample_by_longest_paths_totals_18() {
    let table = read_table(&SAMPLE).unwrap();
    assert_eq!(total(&must_edges(&table.edges), &[0, 1, 3, 1]), 18);
}

#[test]
fn starred_cases() {
    let cases: [(&[u8], &str); 13] = [
        (&[1, 0, 0], "chart 0 0 0 0 0\n"),
        (&[], "refused 1\n"),
        (&[2], "refused 1\n"),
        (&[0x81, 0, 0, 0], "refused 2\n"),
        (&[0x80, 0x80, 0x80], "refused 2\n"),
        (&[1, 0x40], "refused 1\n"),
        (&[1, 0x41], "refused 1\n"),
        (&[1, 0x60], "refused 1\n"),
        (&[1, 0x61], "refused 4\n"),
        (&[1, 0, 0, 0], "refused 10\n"),
        (&[1, 1, 0, 1, 0x41, 1, 0, 0], "refused 9\n"),
        (&[1, 2, 0, 1, 0x41, 0, 1, 0x42, 2, 0, 1, 1, 1, 1, 0, 1, 1], "refused 11 0\n"),
        (&[1, 1, 1, 0, 1, 0x41, 0], "chart 1 0 1 0 0\n0 A=A0\n"),
    ];
    for (bytes, expected) in cases {
        assert_eq!(printed(bytes), expected, "{bytes:02x?}");
    }
}

#[test]
fn packed_answers_and_buffers() {
    let table = read_table(&SAMPLE);
    assert_eq!(calls::pack(calls::counts(&table)), 4 << 8 | 4 << 16);
    assert_eq!(calls::pack(calls::name(&table, 3)), 5 << 8 | 25 << 16);
    assert_eq!(calls::pack(calls::name(&table, 4)), 14);
    let (mut rows, mut order) = ([9; 5], [9; 7]);
    assert_eq!(calls::chart(&SAMPLE, &mut rows[..3], &mut order), 13);
    assert_eq!(calls::chart(&SAMPLE, &mut rows, &mut order[..5]), 13);
    assert_eq!((rows, order), ([9; 5], [9; 7]));
    assert_eq!(calls::chart(&SAMPLE, &mut rows, &mut order), 6 << 8 | 14 << 19);
    assert_eq!((rows, order), ([0, 1, 3, 2, 9], [0, 1, 5, 4, 3, 2, 9]));
}

#[test]
fn records_judge_ends_before_ranges() {
    const STEPS: usize = LIMITS.steps as usize;
    const EDGES: usize = LIMITS.edges as usize;
    let mut rows = [9; 3];
    assert_eq!(calls::records(STEPS + 1, &[[0, 0, 0, 0]; EDGES + 1], &mut rows), 4);
    assert_eq!(calls::records(2, &[[0, 0, 1, 1]; EDGES + 1], &mut rows), 8);
    assert_eq!(calls::records(2, &[[0, 0, 9, 1]], &mut rows), 9);
    assert_eq!(calls::records(2, &[[0, 1, 5, 1], [0, 0, 1, 1]], &mut rows), 6);
    assert_eq!(calls::records(3, &[[1, 2, 1, 1], [2, 1, 1, 1]], &mut rows), 11 | 1 << 8);
    assert_eq!(calls::records(4, &[], &mut rows), 13);
    assert_eq!(rows, [9; 3]);
    assert_eq!(calls::records(2, &[[1, 0, 4, 0]; EDGES], &mut rows), 0);
    assert_eq!(rows, [4, 0, 9]);
}

#[test]
fn words_of_records() {
    let records = [[0, 1, 1, 1], [1, 2, 2, 3], [0, 3, 1, 1], [3, 2, 1, 5]];
    let print = |input: &[u8]| String::from_utf8(print_words(input)).unwrap();
    let mut input = write_words(4, 300, &records);
    assert_eq!(input[..24], [4, 0, 0, 0, 0, 0, 0, 0, 44, 1, 0, 0, 0, 0, 0, 0, 0, 0, 0, 0, 0, 0, 0, 0]);
    assert_eq!(print(&input), "rows 0 1 3 2\n");
    input.extend([0xff; 31]);
    assert_eq!(print(&input), "rows 0 1 3 2\n");
    assert_eq!(print(&write_words(4, 3, &records)), "refused 13\n");
    assert_eq!(print(&write_words(3, 3, &[[1, 2, 1, 1], [2, 1, 1, 1]])), "refused 11 1\n");
    assert_eq!(print(&write_words(2, 2, &[[0, 1, 1, 1]; 900])), "refused 8\n");
    assert_eq!(print(&[]), "rows\n");
    assert_eq!(print(&write_words(1, 1, &[])[..15]), "refused 13\n");
}

#[test]
fn a_loop_names_a_step_on_it() {
    let edge = |from, to| Edge { from, to, gap: 1, weight: 1 };
    let edges = [edge(0, 3), edge(3, 2), edge(2, 4), edge(4, 3), edge(4, 1)];
    assert_eq!(reference::loops::lowest_on_loop(5, &edges), Some(2));
    assert_eq!(reference::loops::lowest_on_loop(5, &edges[..3]), None);
}

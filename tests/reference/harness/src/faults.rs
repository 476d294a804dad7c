//! Runs the comparison once for each wrong variant of the stand-in and shows what catches it.

use std::process::Command;

use crate::watch;

const LIST: &str = include_str!("../../standin/faults.txt");
const CHART: &str = concat!(env!("CARGO_MANIFEST_DIR"), "/../target/release/standin_chart");
const RECORDS: &str = concat!(env!("CARGO_MANIFEST_DIR"), "/../target/release/standin_records");
const CONVERT: &str = concat!(env!("CARGO_MANIFEST_DIR"), "/../target/release/standin_convert");
/// Seconds until a call counts as not coming back.
const PATIENCE: &str = "5";

/// With a name, only the variants whose names start with it. Returns the exit status.
pub fn run(only: &str) -> i32 {
    let (mut caught, mut missed) = (0, 0);
    for line in LIST.lines().filter(|line| !line.is_empty() && !line.starts_with("# ")) {
        let Some((name, meaning)) = line.split_once(' ').filter(|_| !line.starts_with("##")) else {
            println!("{line}");
            continue;
        };
        if !name.starts_with(only) {
            continue;
        }
        let differences: Vec<Option<String>> =
            trials(name).iter().map(|options| first_difference(name, options)).collect();
        let is_caught = differences.iter().all(Option::is_some);
        println!("{}  {name}: {}", if is_caught { "caught" } else { "MISSED" }, meaning.trim());
        for difference in differences.into_iter().flatten() {
            println!("        {difference}");
        }
        caught += i32::from(is_caught);
        missed += i32::from(!is_caught);
    }
    println!("{} variants, {caught} caught, {missed} missed", caught + missed);
    i32::from(missed > 0)
}

/// Starts of the names of variants that only the chart call can show.
const DRAWN: [&str; 9] = ["points", "start", "means", "ties", "loose", "passes", "best", "crossings", "merged"];

/// Those that give points other numbers, which three calls show.
const NUMBERED: [&str; 4] = ["points-by-row", "points-rising-up", "points-turned-up", "points-turned-last"];

/// The options of the runs that have to catch a variant. Three calls hand out rows, and wrong rows are to be caught in
/// each; two of them have soft edges. Two calls write the shortest form, one of them of stored tables.
fn trials(fault: &str) -> Vec<Vec<&'static str>> {
    if fault.starts_with("print") {
        return vec![vec!["--calls", "counts", "--program", CHART, "--every", "40"]];
    }
    if fault.starts_with("lent") {
        return vec![vec!["--calls", "records", "--records-program", RECORDS, "--every", "10"]];
    }
    if fault.starts_with("records") {
        return vec![vec!["--calls", "records"]];
    }
    if fault.starts_with("output") {
        return vec![vec!["--calls", "convert", "--convert-program", CONVERT, "--every", "40"]];
    }
    if fault.starts_with("convert") {
        return vec![vec!["--calls", "convert"]];
    }
    if fault.starts_with("write-") {
        return each_alone(&["write", "convert"]);
    }
    if fault.starts_with("xs") {
        return each_alone(&["xs"]);
    }
    if fault.starts_with("stroke") {
        return each_alone(&["stroke_at"]);
    }
    if fault.starts_with("row-") {
        return each_alone(&["row_order"]);
    }
    if NUMBERED.contains(&fault) {
        return each_alone(&["chart", "xs", "row_order"]);
    }
    if fault.starts_with("soft") {
        return each_alone(&["rows", "chart"]);
    }
    if DRAWN.iter().any(|start| fault.starts_with(start)) {
        return each_alone(&["chart"]);
    }
    let in_all_rows = fault.starts_with("rows") && fault != "rows-judge-12";
    if in_all_rows || ["never-written", "refuse-11-always"].contains(&fault) {
        return each_alone(&["rows", "records", "chart"]);
    }
    vec![Vec::new()]
}

fn each_alone(calls: &[&'static str]) -> Vec<Vec<&'static str>> {
    calls.iter().map(|&call| vec!["--calls", call]).collect()
}

/// What the comparison says of it, cut to a line. A crash of the harness itself catches nothing.
fn first_difference(fault: &str, options: &[&str]) -> Option<String> {
    let mut command = Command::new(std::env::current_exe().expect("the harness knows its path"));
    command.env("STANDIN_FAULT", fault).args(["--stop-at-first", "--patience", PATIENCE]).args(options);
    let output = command.output().expect("the harness starts");
    let text = String::from_utf8_lossy(&output.stdout).into_owned();
    let line = text.lines().find(|line| line.starts_with("difference: ") && !line.contains(watch::NOT_OURS))?;
    Some(line.chars().skip("difference: ".len()).take(150).collect())
}

//! Compares the product's library, call by call, with the reference.

mod drafts;
mod families;
mod fans;
mod faults;
mod host;
mod judge;
mod lent;
mod options;
mod program;
mod shapes;
mod tally;
mod watch;

use std::time::{Duration, Instant};

use families::{group_random, FAMILIES};
use host::{CHART, CONVERT};
use judge::Judge;
use options::Options;

/// Rounds of the long mode that make up about one selection.
const ROUNDS: usize = 60;

fn main() {
    let words: Vec<String> = std::env::args().skip(1).collect();
    if words.first().is_some_and(|word| word == "faults") {
        std::process::exit(faults::run(words.get(1).map_or("", String::as_str)));
    }
    let options = Options::read();
    watch::start(Duration::from_secs(options.patience));
    let mut judge = Judge::new(options.calls, options.stop_at_first, options.programs());
    if options.null_when_empty {
        judge.lend_null_when_empty();
    }
    let began = Instant::now();
    match options.seconds {
        None => run_selection(&mut judge, &options),
        Some(seconds) => run_long(&mut judge, &options, Duration::from_secs(seconds)),
    }
    judge.tally.report(began.elapsed());
    std::process::exit(i32::from(judge.tally.differences > 0));
}

fn run_group(judge: &mut Judge, options: &Options, family: usize, group: usize) {
    let mut random = group_random(options.seed, FAMILIES[family].name, group);
    watch::enter_group(family, group);
    judge.enter_group(FAMILIES[family].name, group, random.clone());
    (FAMILIES[family].run)(judge, &mut random, group);
}

fn run_selection(judge: &mut Judge, options: &Options) {
    for (index, family) in FAMILIES.iter().enumerate().filter(|(_, family)| options.wants(family.name)) {
        let (counted, began) = (count(judge), Instant::now());
        let groups = options.group.map_or(0..family.groups, |group| group..group + 1);
        for group in groups.step_by(options.share) {
            run_group(judge, options, index, group);
        }
        let [cases, listings, converted] = [0, 1, 2].map(|at| count(judge)[at] - counted[at]);
        let (name, seconds) = (family.name, began.elapsed().as_secs_f64());
        println!("{name:23} {cases:8} cases, of them {listings:6} of chart, {converted:6} of convert {seconds:6.1} s");
    }
}

/// Cases so far, and those of them that are outputs of the programs `chart` and `convert`.
fn count(judge: &Judge) -> [u64; 3] {
    [judge.tally.cases, judge.tally.outputs(CHART), judge.tally.outputs(CONVERT)]
}

/// New groups, beyond those of the fixed selection and in like proportion, until the time is up.
fn run_long(judge: &mut Judge, options: &Options, limit: Duration) {
    let began = Instant::now();
    let mut said = Duration::ZERO;
    for round in 0.. {
        let endless = FAMILIES.iter().enumerate().filter(|(_, family)| family.endless && options.wants(family.name));
        for (index, family) in endless {
            let count = family.groups.div_ceil(ROUNDS);
            for group in 0..count {
                run_group(judge, options, index, family.groups + round * count + group);
                if began.elapsed() > limit {
                    return;
                }
            }
        }
        if began.elapsed() > said + Duration::from_secs(60) {
            said = began.elapsed();
            println!("{} s, {} cases, {} differences", said.as_secs(), judge.tally.cases, judge.tally.differences);
        }
    }
}

//! The command line.

use crate::host::{exported, Calls, CALLS};
use crate::program::{Program, Programs};

const USAGE: &str = "harness [--calls counts,name,rows,records,chart,write,convert,xs,stroke_at,row_order]
        [--seed N] [--seconds K] [--family NAME] [--group N] [--patience S] [--stop-at-first] [--program PATH]
        [--records-program PATH] [--convert-program PATH] [--every N] [--null-when-empty] [--share N]";

pub struct Options {
    pub calls: Calls,
    pub seed: u64,
    pub seconds: Option<u64>,
    pub family: Option<String>,
    pub group: Option<usize>,
    pub patience: u64,
    /// Of so many groups of the selection one is run.
    pub share: usize,
    pub stop_at_first: bool,
    pub null_when_empty: bool,
    chart_path: Option<String>,
    records_path: Option<String>,
    convert_path: Option<String>,
    every: u64,
}

impl Options {
    pub fn read() -> Options {
        let mut options = Options {
            calls: exported(),
            seed: 1,
            seconds: None,
            family: None,
            group: None,
            patience: 20,
            share: 1,
            stop_at_first: false,
            null_when_empty: false,
            chart_path: None,
            records_path: None,
            convert_path: None,
            every: 50,
        };
        let mut words = std::env::args().skip(1);
        while let Some(word) = words.next() {
            let mut value = || words.next().unwrap_or_else(|| stop("a value is missing"));
            match word.as_str() {
                "--calls" => options.calls = read_calls(&value()),
                "--seed" => options.seed = read_number(&value()),
                "--seconds" => options.seconds = Some(read_number(&value())),
                "--family" => options.family = Some(value()),
                "--group" => options.group = Some(read_number(&value()) as usize),
                "--patience" => options.patience = read_number(&value()),
                "--share" => options.share = read_number(&value()).max(1) as usize,
                "--stop-at-first" => options.stop_at_first = true,
                "--null-when-empty" => options.null_when_empty = true,
                "--program" => options.chart_path = Some(value()),
                "--records-program" => options.records_path = Some(value()),
                "--convert-program" => options.convert_path = Some(value()),
                "--every" => options.every = read_number(&value()).max(1),
                _ => stop("an unknown option"),
            }
        }
        options
    }

    pub fn wants(&self, family: &str) -> bool {
        self.family.as_ref().is_none_or(|wanted| wanted == family)
    }

    pub fn programs(&self) -> Programs {
        let program = |path: &Option<String>| path.clone().map(|path| Program { path, every: self.every });
        Programs {
            chart: program(&self.chart_path),
            records: program(&self.records_path),
            convert: program(&self.convert_path),
        }
    }
}

fn read_calls(list: &str) -> Calls {
    let mut calls = [false; CALLS.len()];
    for word in list.split(',') {
        let call = CALLS.iter().position(|&call| call == word).unwrap_or_else(|| stop("an unknown call"));
        if !exported()[call] {
            stop(&format!("the library does not export {word}"));
        }
        calls[call] = true;
    }
    calls
}

fn read_number(word: &str) -> u64 {
    word.parse().unwrap_or_else(|_| stop("a number is wanted"))
}

fn stop(why: &str) -> ! {
    eprintln!("{why}\n{USAGE}");
    std::process::exit(2);
}

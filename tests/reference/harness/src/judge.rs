//! Puts one input to the library and to the reference and compares answers and buffers.

mod kept;
mod lists;
mod placed;
mod printed;
mod row_orders;
mod strokes;
mod written;
mod xs;

use std::fmt::Display;

use reference::calls::{counts, name, pack};
use reference::random::Random;
use reference::soft::place_table;
use reference::table::read_table;

use crate::host::{self, Calls, CALLS, COUNTS, NAME, ROWS};
use crate::lent::Arena;
use crate::program::Programs;
use crate::shapes::STEPS;
use crate::tally::Tally;
use crate::watch;

pub use row_orders::{points_of, Ask};

/// Differences printed in full.
const SHOWN: u64 = 10;

pub struct Judge {
    pub tally: Tally,
    wanted: Calls,
    stop_at_first: bool,
    programs: Programs,
    /// Family and group at hand.
    place: (&'static str, usize),
    tables: u64,
    lists: u64,
    stored: u64,
    random: Random,
    table: Arena,
    numbers: Arena,
    rows: Arena,
    order: Arena,
    written: Arena,
}

impl Judge {
    pub fn new(wanted: Calls, stop_at_first: bool, programs: Programs) -> Judge {
        Judge {
            tally: Tally::new(),
            wanted,
            stop_at_first,
            programs,
            place: ("", 0),
            tables: 0,
            lists: 0,
            stored: 0,
            random: Random::new(0),
            table: Arena::new(16),
            numbers: Arena::new(32),
            rows: Arena::new(2),
            order: Arena::new(4),
            written: Arena::new(4),
        }
    }

    /// Lends empty stretches as null pointers, as a C program may.
    pub fn lend_null_when_empty(&mut self) {
        for arena in [&mut self.table, &mut self.numbers, &mut self.rows, &mut self.order, &mut self.written] {
            arena.null_when_empty = true;
        }
    }

    /// The next groups draw buffer lengths and contents from this seed.
    pub fn enter_group(&mut self, family: &'static str, group: usize, random: Random) {
        (self.place, self.random) = ((family, group), random);
    }

    /// All wanted calls on a table, with buffers exact and one other choice.
    pub fn judge_table(&mut self, bytes: &[u8]) {
        let table = read_table(bytes);
        if self.wanted[COUNTS] {
            let expected = pack(counts(&table));
            self.run_on_table(COUNTS, bytes, expected, None, None);
        }
        if self.wanted[NAME] {
            let steps = table.as_ref().map_or(0, |table| table.steps.len());
            for step in [0, steps.saturating_sub(1), steps, self.odd_step(steps)] {
                let expected = pack(name(&table, step));
                self.run_name(bytes, step, expected);
            }
        }
        if self.wanted[ROWS] || self.wants_chart() {
            self.judge_placed(bytes, table.and_then(|table| place_table(&table)));
        }
        self.judge_written(bytes);
        self.sample_listing(bytes);
    }

    fn odd_step(&mut self, steps: usize) -> usize {
        let inside = self.random.below(steps.max(1));
        self.random.pick(&[inside, inside, inside + 256, inside + 65536, inside + (1 << 32), STEPS, usize::MAX])
    }

    /// Some length other than the one needed, for the most part near it.
    fn other_len(&mut self, needed: usize, refused: bool) -> usize {
        let any = self.random.below(300);
        if refused {
            return any;
        }
        self.random.pick(&[
            needed.saturating_sub(1),
            needed.saturating_sub(1),
            needed + 1,
            needed + 1,
            0,
            needed + 17,
            any,
        ])
    }

    fn filling(&mut self, len: usize) -> Vec<u8> {
        (0..len).map(|_| self.random.next() as u8).collect()
    }

    fn filled_entries(&mut self, len: usize) -> Vec<u16> {
        (0..len).map(|_| self.random.next() as u16).collect()
    }

    fn run_name(&mut self, bytes: &[u8], step: usize, expected: u64) {
        let flush = self.random.one_in(2);
        let table = self.table.place(bytes, flush, 1);
        let (answer, took) = watch::timed(NAME, || host::name((table, bytes.len()), step));
        self.tally.note_call(NAME, expected, took, self.place);
        let fault = self.input_fault(bytes).or_else(|| answer_fault(expected, answer));
        self.settle(NAME, fault, || format!("step {step}, table {}", hex(bytes)));
    }

    /// A call on a table; each output buffer with its filling and what it has to hold afterwards.
    fn run_on_table(&mut self, call: usize, bytes: &[u8], expected: u64, rows: Lending, order: Lending) {
        let flush = self.random.one_in(2);
        let table = (self.table.place(bytes, flush, 1) as *const u8, bytes.len());
        let (rows_filling, rows_due) = rows.unwrap_or_default();
        let (order_filling, order_due) = order.unwrap_or_default();
        let lent_rows = self.rows.place_entries(&rows_filling, flush);
        let lent_order = self.order.place_entries(&order_filling, flush);
        let (answer, took) = watch::timed(call, || match call {
            COUNTS => host::counts(table),
            ROWS => host::rows(table, lent_rows),
            _ => host::chart(table, lent_rows, lent_order),
        });
        self.tally.note_call(call, expected, took, self.place);
        let fault = self
            .input_fault(bytes)
            .or_else(|| answer_fault(expected, answer))
            .or_else(|| entries_fault("rows", &mut self.rows, &rows_due))
            .or_else(|| entries_fault("order", &mut self.order, &order_due));
        let lens = (lent_rows.1, lent_order.1);
        self.settle(call, fault, || format!("buffers {lens:?}, table {}", hex(bytes)));
    }

    fn input_fault(&mut self, bytes: &[u8]) -> Option<String> {
        buffer_fault("table", &mut self.table, bytes)
    }

    fn settle(&mut self, call: usize, fault: Option<String>, input: impl FnOnce() -> String) {
        self.tally.cases += 1;
        watch::finish_case(self.tally.cases);
        let Some(fault) = fault else { return };
        self.tally.differences += 1;
        if self.tally.differences <= SHOWN {
            let (case, call, (family, group)) = (self.tally.cases, CALLS[call], self.place);
            println!("difference: case {case}, call {call}, family {family}, group {group}: {fault}: {}", input());
        }
        if self.stop_at_first {
            std::process::exit(1);
        }
    }
}

/// What a buffer holds before the call and what it has to hold after it.
type Lending = Option<(Vec<u16>, Vec<u16>)>;

fn answer_fault(expected: u64, answer: u64) -> Option<String> {
    (answer != expected).then(|| format!("answer {answer:#x} for {expected:#x}"))
}

fn buffer_fault(what: &str, arena: &mut Arena, due: &[u8]) -> Option<String> {
    guard_fault(what, arena).or_else(|| first_fault(what, "byte", arena.content(), due))
}

/// The same for entries of 16 bits.
fn entries_fault(what: &str, arena: &mut Arena, due: &[u16]) -> Option<String> {
    guard_fault(what, arena).or_else(|| first_fault(what, "entry", &arena.entries(), due))
}

fn guard_fault(what: &str, arena: &mut Arena) -> Option<String> {
    (!arena.guards_hold()).then(|| format!("bytes beside {what} written"))
}

fn first_fault<T: PartialEq + Display>(what: &str, item: &str, content: &[T], due: &[T]) -> Option<String> {
    let at = (0..due.len()).find(|&at| content[at] != due[at])?;
    Some(format!("{what} {item} {at} is {} for {}", content[at], due[at]))
}

fn hex(bytes: &[u8]) -> String {
    bytes.iter().map(|byte| format!("{byte:02X}")).collect::<Vec<_>>().join(" ")
}

//! The program `convert` of the stand-in, with its wrong variants.

use host::fault::on;
use host::wrong_table::{OLD_EDGES, OLD_STEPS};
use reference::bounds::{longest_table, LONGEST};
use reference::convert::convert_table;
use reference::loops::lowest_on_loop;
use reference::program::{judged_bytes, run, MAX_INPUT};
use reference::refusal::Refusal;
use reference::shortest::{draft_of, said};
use reference::soft::must_edges;
use reference::table::{any_form, read_stored, read_table, read_within, Limits, Table, OLD_LIMITS};
use reference::writer::write_table;

fn main() {
    run(|input| spoil(looked_at(&input)));
}

/// The part of the input that is judged.
fn looked_at(input: &[u8]) -> &[u8] {
    let line_feed = input.iter().position(|&byte| byte == b'\n').unwrap_or(input.len());
    let parts = [
        ("output-line-read", line_feed),
        ("output-4096-read", 4096),
        ("output-shortest-read", LONGEST),
        ("output-old-longest", longest_table(&OLD_LIMITS, 2, true)),
    ];
    let len = parts.into_iter().find(|(fault, _)| on(fault)).map_or(input.len(), |(_, len)| len);
    &input[..len.min(input.len())]
}

fn spoil(input: &[u8]) -> Vec<u8> {
    let bytes = judged_bytes(input);
    match read_stored(bytes) {
        Err(refusal) => spoil_line(input, refusal),
        Ok(table) => refuse_too_much(bytes, &table).map_or_else(|| spoil_table(bytes, &table), Refusal::line),
    }
}

fn spoil_line(input: &[u8], refusal: Refusal) -> Vec<u8> {
    let line = refusal.line();
    match () {
        _ if on("output-no-newline") => line[..line.len() - 1].to_vec(),
        _ if on("output-line-behind") => [input, &line].concat(),
        _ if on("output-line-before") => [&line, input].concat(),
        _ if on("output-no-line") => Vec::new(),
        _ if on("output-refused-copied") => input.to_vec(),
        _ if on("output-whole-input") && input.len() > MAX_INPUT => Refusal::CutShort.line(),
        _ => line,
    }
}

/// What is no refusal of the converter.
fn refuse_too_much(bytes: &[u8], table: &Table) -> Option<Refusal> {
    if on("output-new-rule") {
        return read_table(bytes).err();
    }
    let kept = [("output-old-steps", OLD_STEPS), ("output-old-edges", OLD_EDGES)];
    if let Some((_, limits)) = kept.into_iter().find(|(fault, _)| on(fault)) {
        return read_within(bytes, &Limits { rule: any_form, ..limits }).err();
    }
    let step = lowest_on_loop(table.steps.len(), &must_edges(&table.edges));
    step.filter(|_| on("output-loop-11")).map(Refusal::Loop)
}

fn spoil_table(bytes: &[u8], table: &Table) -> Vec<u8> {
    let mut right = convert_table(bytes);
    let part = |len: Option<usize>| right[..len.unwrap_or(right.len())].to_vec();
    match () {
        _ if on("output-copy") => bytes.to_vec(),
        _ if on("output-edition-kept") => write_table(&draft_of(&said(bytes, table), bytes[0] & 0x7f == 2)),
        _ if on("output-stopped-at-00") => part(right.iter().position(|&byte| byte == 0)),
        _ if on("output-2048-written") => part(Some(right.len().min(2048))),
        _ if on("output-hexadecimal") => right.iter().flat_map(|byte| format!("{byte:02X} ").into_bytes()).collect(),
        _ if on("output-as-text") => {
            right.iter().flat_map(|&byte| if byte == b'\n' { vec![b'\r', byte] } else { vec![byte] }).collect()
        }
        _ if on("output-line-added") => [&right[..], b"\n"].concat(),
        _ if on("output-padded") => {
            right.resize(LONGEST, 0);
            right
        }
        _ => right,
    }
}

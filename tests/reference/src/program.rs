//! What the programs on a table have in common.

use std::io::{Read, Write};

/// A program looks at no more of its input.
pub const MAX_INPUT: usize = 8192;

pub fn judged_bytes(input: &[u8]) -> &[u8] {
    &input[..input.len().min(MAX_INPUT)]
}

/// Hands out on standard output what is due for the bytes on standard input.
pub fn run(due: impl FnOnce(Vec<u8>) -> Vec<u8>) {
    let mut input = Vec::new();
    std::io::stdin().read_to_end(&mut input).expect("standard input can be read");
    std::io::stdout().write_all(&due(input)).expect("standard output can be written");
}

/// The number of the refusal that an output tells; 0 for a chart or a table.
pub fn refusal_of(output: &[u8]) -> u8 {
    let text = String::from_utf8_lossy(output);
    let number = text.strip_prefix("refused ").and_then(|rest| rest.split_whitespace().next());
    number.map_or(0, |number| number.parse().expect("a refusal has a number"))
}

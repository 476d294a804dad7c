//! The reader and its wrong variants.

use reference::bounds::longest_table;
use reference::loops::lowest_on_loop;
use reference::refusal::Refusal;
use reference::soft::must_edges;
use reference::table::{read_within, Limits, Table, LIMITS, OLD_LIMITS};

use crate::fault::{on, on_with};
use crate::wrong_forms;

/// What a call reads: by the old rule of a stored table, else by today's.
pub fn read(call: &str, bytes: &[u8], stored: bool) -> Result<Table, Refusal> {
    let by_old_rule = stored || on_with("old-rule-", call);
    let right = limits_of(call, by_old_rule);
    let most = if on("read-old-longest") && !stored { longest_table(&OLD_LIMITS, 2, false) } else { bytes.len() };
    let bytes = &bytes[..bytes.len().min(most)];
    let read = read_wrongly(bytes, &right);
    match if by_old_rule { read } else { wrong_forms::judge(bytes, read) } {
        Err(Refusal::BadFirmness) if takes_any_firmness(call) => read_any_firmness(bytes, &right),
        read => read,
    }
}

/// Limits of which one is the old one.
pub const OLD_STEPS: Limits = Limits { steps: OLD_LIMITS.steps, ..LIMITS };
pub const OLD_EDGES: Limits = Limits { edges: OLD_LIMITS.edges, ..LIMITS };

fn limits_of(call: &str, by_old_rule: bool) -> Limits {
    let right = wrong_forms::limits(by_old_rule);
    let kept = [("old-steps-", OLD_STEPS), ("old-edges-", OLD_EDGES)];
    match kept.into_iter().find(|(start, _)| on_with(start, call)) {
        Some((_, limits)) => Limits { rule: right.rule, ..limits },
        None => right,
    }
}

/// Either call that writes has the variant of both.
fn takes_any_firmness(call: &str) -> bool {
    on_with(if call == "convert" { "write" } else { call }, "-no-15")
}

/// The limits are right but for the forms of numbers.
fn read_wrongly(bytes: &[u8], right: &Limits) -> Result<Table, Refusal> {
    if on("overread") && !bytes.is_empty() {
        std::hint::black_box(unsafe { bytes.as_ptr().add(bytes.len()).read_volatile() });
    }
    match read_within(bytes, &altered(right)) {
        Err(Refusal::SpareBytes) if on("spare-accepted") => Ok(accepted_start(bytes, right)),
        Err(Refusal::SpareBytes) if on("spare-after-loop") => {
            let table = accepted_start(bytes, right);
            match lowest_on_loop(table.steps.len(), &must_edges(&table.edges)) {
                Some(step) => Err(Refusal::Loop(step)),
                None => Err(Refusal::SpareBytes),
            }
        }
        Err(Refusal::CutShort) if on("cut-as-10") => Err(Refusal::SpareBytes),
        Err(Refusal::BadEnd) if on("bad-end-late") && shows_at_end(bytes, right) => Err(Refusal::CutShort),
        Err(Refusal::BadFirmness) if on("firmness-as-6") => Err(Refusal::OutOfRange),
        Err(Refusal::BadFirmness) if on("firmness-late") => {
            read_any_firmness(bytes, right).and(Err(Refusal::BadFirmness))
        }
        Err(Refusal::OutOfRange) if on("firmness-before-weight") && bad_firmness_next(bytes, right) => {
            Err(Refusal::BadFirmness)
        }
        Err(Refusal::CutShort) if on("edition-2-of-four") && bytes.first() == Some(&2) => {
            read_within(&[&[1], &bytes[1..]].concat(), right).or(Err(Refusal::CutShort))
        }
        read => read,
    }
}

fn read_any_firmness(bytes: &[u8], right: &Limits) -> Result<Table, Refusal> {
    read_within(bytes, &Limits { firmness: 0..=u32::MAX, ..right.clone() })
}

/// Whether what is out of range is a weight, with a bad firmness right behind it.
fn bad_firmness_next(bytes: &[u8], right: &Limits) -> bool {
    let end = bytes.len().min(fault_end(bytes, right) + LIMITS.number_bytes as usize);
    let any_weight = Limits { weight: 0..=u32::MAX, ..right.clone() };
    read_within(&bytes[..end], &any_weight) == Err(Refusal::BadFirmness)
}

/// Up to where the bytes are looked at: the end of the number or name byte at fault.
pub fn fault_end(bytes: &[u8], right: &Limits) -> usize {
    let shown = |&len: &usize| read_within(&bytes[..len], right) != Err(Refusal::CutShort);
    (0..bytes.len()).find(shown).unwrap_or(bytes.len())
}

/// The limit that a variant alters.
const ALTERED: &[(&str, fn(&mut Limits))] = &[
    ("steps-one-more", |limits| limits.steps += 1),
    ("steps-one-fewer", |limits| limits.steps -= 1),
    ("edges-one-more", |limits| limits.edges += 1),
    ("edges-one-fewer", |limits| limits.edges -= 1),
    ("steps-old-limit", |limits| limits.steps = OLD_LIMITS.steps),
    ("edges-old-limit", |limits| limits.edges = OLD_LIMITS.edges),
    ("gap-5", |limits| limits.gap = 1..=5),
    ("gap-3", |limits| limits.gap = 1..=3),
    ("gap-0", |limits| limits.gap = 0..=4),
    ("weight-256", |limits| limits.weight = 0..=256),
    ("weight-254", |limits| limits.weight = 0..=254),
    ("name-17", |limits| limits.name_len = 1..=17),
    ("name-empty", |limits| limits.name_len = 0..=16),
    ("name-byte-20", |limits| limits.name_byte = 0x20..=0x7e),
    ("name-byte-7f", |limits| limits.name_byte = 0x21..=0x7f),
    ("kind-3", |limits| limits.kinds = 4),
    ("tolerance-10000", |limits| limits.tolerance = 0..=10_000),
    ("minutes-0", |limits| limits.minutes = 0..=240),
    ("minutes-241", |limits| limits.minutes = 1..=241),
    ("edition-2-refused", |limits| limits.edition = 1..=1),
    ("edition-3", |limits| limits.edition = 1..=3),
    ("edition-0", |limits| limits.edition = 0..=2),
    ("firmness-2", |limits| limits.firmness = 0..=2),
    ("firmness-0", |limits| limits.firmness = 0..=0),
    ("edition-any", |limits| limits.edition = 0..=u32::MAX),
    ("numbers-two-bytes", |limits| limits.number_bytes = 2),
];

fn altered(right: &Limits) -> Limits {
    let mut limits = right.clone();
    for (_, alter) in ALTERED.iter().filter(|(fault, _)| on(fault)) {
        alter(&mut limits);
    }
    limits
}

/// The table that the bytes start with.
fn accepted_start(bytes: &[u8], right: &Limits) -> Table {
    (0..bytes.len()).find_map(|len| read_within(&bytes[..len], right).ok()).unwrap()
}

/// Whether the fault shows only with the last byte.
fn shows_at_end(bytes: &[u8], right: &Limits) -> bool {
    read_within(&bytes[..bytes.len() - 1], right) == Err(Refusal::CutShort)
}

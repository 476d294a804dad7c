//! Which forms of numbers are taken, with a switch at each place where a plausible mistake can be made.

use reference::refusal::Refusal;
use reference::shortest::{draft_of, said};
use reference::table::{any_form, fewest_bytes, read_stored, Limits, Rule, Table, LIMITS};
use reference::writer::{bytes_of, fields_of};

use crate::fault::{any_on, on, on_with};
use crate::wrong_spelling::{in_edition_2, widths, Role, NUMBERS};
use crate::wrong_table::fault_end;

/// Other rules in place of today's.
const MISREAD: &[(&str, Rule)] = &[
    ("form-00-refused", |number| number.last() != Some(&0)),
    ("form-01-refused", |number| number.len() == 1 || number.last() > Some(&1)),
    ("form-80-00-taken", |number| fewest_bytes(number) || number == [0x80, 0]),
    ("form-zero-taken", |number| fewest_bytes(number) || number.iter().all(|byte| byte & 0x7f == 0)),
    ("form-two-taken", |number| fewest_bytes(number) || number.len() == 2),
    ("form-three-taken", |number| fewest_bytes(number) || number.len() == 3),
    ("form-two-in-three-taken", |number| fewest_bytes(number) || number.len() == 3 && number[1] > 0x80),
    ("form-middle-refused", |number| fewest_bytes(number) && number.get(1) != Some(&0x80)),
];

/// Other rules in place of the old one.
const MISREAD_STORED: &[(&str, Rule)] = &[
    ("convert-two-refused", |number| fewest_bytes(number) || number.len() == 3),
    ("convert-three-refused", |number| fewest_bytes(number) || number.len() == 2),
    ("convert-zero-refused", |number| fewest_bytes(number) || number[0] > 0x80),
];

/// The limits of the reader, by the old rule or by today's.
pub fn limits(stored: bool) -> Limits {
    let (rules, right): (_, Rule) = if stored { (MISREAD_STORED, any_form) } else { (MISREAD, fewest_bytes) };
    let rule = rules.iter().find(|(fault, _)| on(fault)).map_or(right, |&(_, rule)| rule);
    let four_bytes = on("convert-four-bytes") && stored;
    Limits { rule, number_bytes: LIMITS.number_bytes + u32::from(four_bytes), ..LIMITS }
}

/// What is made of a number that is cut or in a long form.
pub fn judge(bytes: &[u8], read: Result<Table, Refusal>) -> Result<Table, Refusal> {
    if !any_on("form-") {
        return read;
    }
    let open = bytes.iter().rev().take_while(|&&byte| byte >= 0x80).count();
    match read {
        Err(Refusal::CutShort) if on("form-cut-as-2") && open > 0 => Err(Refusal::LongNumber),
        Err(Refusal::CutShort) if on("form-cut-at-third-as-2") && open == 2 => Err(Refusal::LongNumber),
        Err(Refusal::LongNumber) => judge_long_form(bytes),
        read => read,
    }
}

/// By the old rule it is taken, or only its value is refused.
fn judge_long_form(bytes: &[u8]) -> Result<Table, Refusal> {
    let by_old = read_stored(&bytes[..fault_end(bytes, &LIMITS)]);
    let lenient = NUMBERS.iter().find(|(name, _)| on_with("form-in-", name));
    match (by_old, lenient) {
        (Err(Refusal::LongNumber), _) => Err(Refusal::LongNumber),
        (_, Some(&(_, role))) => {
            read_stored(bytes).ok().filter(|table| stands_in(bytes, table, role)).ok_or(Refusal::LongNumber)
        }
        _ if on("form-as-1") => Err(Refusal::CutShort),
        _ if on("form-as-3") => Err(Refusal::Edition),
        _ if on("form-as-10") => Err(Refusal::SpareBytes),
        _ if on("form-late") => read_stored(bytes).and(Err(Refusal::LongNumber)),
        (Err(refusal), _) if on("form-after-value") && refusal != Refusal::CutShort => Err(refusal),
        _ => Err(Refusal::LongNumber),
    }
}

/// Whether all long forms of a table stand for numbers of this role.
fn stands_in(bytes: &[u8], table: &Table, role: Role) -> bool {
    let draft = draft_of(&said(bytes, table), in_edition_2(bytes));
    let fewest = fields_of(&draft).into_iter().map(|field| bytes_of(&[field]).len() as u32);
    widths(bytes, &draft).into_iter().zip(fewest).all(|((own, width), fewest)| own == role || width == fewest)
}

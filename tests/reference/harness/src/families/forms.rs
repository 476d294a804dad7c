//! Long forms, which every call refuses but the one for stored tables.

use reference::random::Random;
use reference::writer::{bytes_of, fields_of, short, write_table, Draft, Field};

use crate::drafts::{number_places, soften_some, with_long_forms, with_one_long_form};
use crate::families::shortest::telling_draft;
use crate::families::soft::any_draft;
use crate::families::spoiled::VALUES;
use crate::judge::Judge;

/// A table with every kind of field, in both editions.
fn telling_fields() -> [Vec<Field>; 2] {
    [None, Some(vec![0, 1, 0])].map(|firmness| fields_of(&Draft { firmness, ..telling_draft() }))
}

/// Each number in turn in one to four bytes, the others in their fewest.
pub fn each_place(judge: &mut Judge, _: &mut Random, _: usize) {
    for fields in telling_fields() {
        for at in number_places(&fields) {
            let Field::Number { value, .. } = fields[at] else { continue };
            (1..=4).for_each(|width| judge_cuts(judge, &fields, at, Field::Number { value, width }));
        }
    }
}

/// In the place of each number others in two bytes and in three, good ones and bad: the form is judged before the value.
pub fn each_value(judge: &mut Judge, _: &mut Random, _: usize) {
    for fields in telling_fields() {
        for at in number_places(&fields) {
            for (value, width) in VALUES.into_iter().flat_map(|value| [(value, 2), (value, 3)]) {
                judge_cuts(judge, &fields, at, Field::Number { value, width });
            }
        }
    }
}

/// A table with this number at a place: whole, cut behind the number, and before its last byte.
fn judge_cuts(judge: &mut Judge, fields: &[Field], at: usize, number: Field) {
    let mut spelled = fields.to_vec();
    spelled[at] = number;
    let end = bytes_of(&spelled[..=at]).len();
    let bytes = bytes_of(&spelled);
    for len in [end - 1, end, bytes.len()] {
        judge.judge_table(&bytes[..len]);
    }
}

/// A long form at every place and another fault at every other: the first decides.
pub fn beside_faults(judge: &mut Judge, _: &mut Random, _: usize) {
    for fields in telling_fields() {
        for long in number_places(&fields) {
            let Field::Number { value, .. } = fields[long] else { continue };
            for other in (0..fields.len()).filter(|&other| other != long) {
                let mut spelled = fields.clone();
                spelled[long] = Field::Number { value, width: 3 };
                let is_name = matches!(fields[other], Field::Byte(_));
                spelled[other] = if is_name { Field::Byte(b' ') } else { short(2_097_151) };
                judge.judge_table(&bytes_of(&spelled));
            }
        }
    }
}

/// The program `convert` on a table in several spellings, cut, and with a byte changed.
pub fn conversions(judge: &mut Judge, random: &mut Random, _: usize) {
    let mut draft = any_draft(random);
    if random.one_in(2) {
        draft = soften_some(random, draft);
    }
    judge.compare_conversion(&write_table(&draft));
    judge.compare_conversion(&with_one_long_form(random, &draft));
    let mut bytes = with_long_forms(random, &draft);
    judge.compare_conversion(&bytes);
    judge.compare_conversion(&bytes[..random.below(bytes.len())]);
    let at = random.below(bytes.len());
    bytes[at] = random.next() as u8;
    judge.compare_conversion(&bytes);
}

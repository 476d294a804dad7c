//! Bytes that are hardly or not at all a table.

use reference::bounds::longest_table;
use reference::program::MAX_INPUT;
use reference::random::Random;
use reference::table::{LIMITS, OLD_LIMITS};
use reference::writer::{write_table, write_widened, Draft};

use crate::drafts::{
    any_gaps, any_weights, draft, dress, longest_draft, soften_some, with_long_forms, with_one_long_form,
};
use crate::judge::Judge;
use crate::shapes;

/// Bytes with which each kind of field can be good and bad.
const LETTERS: [u8; 11] = [0, 1, 2, 3, 5, 0x20, 0x41, 0x7e, 0x7f, 0x80, 0x81];
const LONGEST: u32 = 4;
pub const SHORT_TABLES: usize = {
    let (mut all, mut len) = (0, 0);
    while len <= LONGEST {
        all += LETTERS.len().pow(len);
        len += 1;
    }
    all
};

/// All strings of these letters up to a length, then again behind a good edition and count.
pub fn all_short(judge: &mut Judge, _: &mut Random, group: usize) {
    for head in [&[][..], &[1, 1], &[1, 2, 0, 1, 0x41, 0, 1, 0x42, 1]] {
        judge.judge_table(&[head, &short_string(group)].concat());
    }
}

/// All such strings for gap, weight and firmness; and for weight and firmness of an edge against a must edge.
pub fn all_short_soft(judge: &mut Judge, _: &mut Random, group: usize) {
    for edges in [&[1, 0, 1][..], &[2, 0, 1, 1, 1, 0, 1, 0, 2]] {
        judge.judge_table(&[&[2, 2, 0, 1, 0x41, 0, 1, 0x42], edges, &short_string(group)].concat());
    }
}

fn short_string(number: usize) -> Vec<u8> {
    let mut code = number;
    let mut len = 0;
    while code >= LETTERS.len().pow(len) {
        code -= LETTERS.len().pow(len);
        len += 1;
    }
    (0..len).map(|place| LETTERS[code / LETTERS.len().pow(place) % LETTERS.len()]).collect()
}

fn small_draft(random: &mut Random) -> Draft {
    let shape = random.pick(&[shapes::tiny as fn(&mut Random) -> _, shapes::single_row, shapes::sparse])(random);
    let (gaps, weights) = (any_gaps(random), any_weights(random));
    let edges = dress(random, &shape, gaps, weights);
    draft(random, shape.steps, edges)
}

fn small_soft_draft(random: &mut Random) -> Draft {
    let draft = small_draft(random);
    soften_some(random, draft)
}

/// A table in its fewest bytes, for all calls; and in long forms, which but one call refuse soon, for those that write.
fn spell(random: &mut Random, draft: &Draft) -> [(Vec<u8>, fn(&mut Judge, &[u8])); 2] {
    [(write_table(draft), Judge::judge_table), (with_long_forms(random, draft), Judge::judge_written)]
}

pub fn cut_everywhere(judge: &mut Judge, random: &mut Random, _: usize) {
    let draft = small_draft(random);
    cut(judge, random, &draft);
}

pub fn cut_soft(judge: &mut Judge, random: &mut Random, _: usize) {
    let draft = small_soft_draft(random);
    cut(judge, random, &draft);
}

fn cut(judge: &mut Judge, random: &mut Random, draft: &Draft) {
    for (bytes, put) in spell(random, draft) {
        (0..=bytes.len()).for_each(|len| put(judge, &bytes[..len]));
    }
}

pub fn spare(judge: &mut Judge, random: &mut Random, _: usize) {
    let draft = small_draft(random);
    for (mut bytes, put) in spell(random, &draft) {
        for _ in 0..random.between(1, 3) {
            bytes.push(random.pick(&[0, 1, 0x41, 0x80, 0xff]));
            put(judge, &bytes);
        }
    }
}

pub fn long_forms(judge: &mut Judge, random: &mut Random, _: usize) {
    let draft = small_draft(random);
    judge_spellings(judge, random, &draft);
}

pub fn soft_long_forms(judge: &mut Judge, random: &mut Random, _: usize) {
    let draft = small_soft_draft(random);
    judge_spellings(judge, random, &draft);
}

/// The same table with long forms all over, with one somewhere, and with none.
fn judge_spellings(judge: &mut Judge, random: &mut Random, draft: &Draft) {
    judge.judge_table(&with_long_forms(random, draft));
    judge.judge_table(&with_one_long_form(random, draft));
    judge.judge_table(&write_table(draft));
}

pub fn mutated(judge: &mut Judge, random: &mut Random, _: usize) {
    let draft = small_draft(random);
    mutate(judge, random, &draft);
}

pub fn mutated_soft(judge: &mut Judge, random: &mut Random, _: usize) {
    let draft = small_soft_draft(random);
    mutate(judge, random, &draft);
}

fn mutate(judge: &mut Judge, random: &mut Random, draft: &Draft) {
    for (mut bytes, put) in spell(random, draft) {
        spoil(random, &mut bytes);
        put(judge, &bytes);
    }
}

/// Bytes changed, put in or taken out.
fn spoil(random: &mut Random, bytes: &mut Vec<u8>) {
    for _ in 0..random.between(1, 4) {
        let at = random.below(bytes.len());
        match random.below(5) {
            0 => bytes[at] ^= 1 << random.below(8),
            1 => bytes[at] = random.next() as u8,
            2 => bytes.insert(at, random.pick(&LETTERS)),
            3 if bytes.len() > 1 => drop(bytes.remove(at)),
            _ => bytes[at] = bytes[at].wrapping_add(random.pick(&[1, 255])),
        }
    }
}

pub fn random_bytes(judge: &mut Judge, random: &mut Random, _: usize) {
    let len = random.below(random.clone().pick(&[8, 30, 100]));
    let letters = random.one_in(2);
    let mut bytes: Vec<u8> =
        (0..len).map(|_| if letters { random.pick(&LETTERS) } else { random.next() as u8 }).collect();
    if random.one_in(2) && len > 2 {
        bytes[0] = random.pick(&[1, 2]);
        bytes[1] %= 4;
    }
    judge.judge_table(&bytes);
}

/// Longer than any accepted table, and than the programs look at.
pub fn long_input(judge: &mut Judge, random: &mut Random, group: usize) {
    let draft = if group % 3 == 0 { small_draft(random) } else { longest_draft(random) };
    lengthen(judge, random, &draft, group);
}

pub fn long_soft_input(judge: &mut Judge, random: &mut Random, group: usize) {
    let draft = if group % 3 == 0 { small_draft(random) } else { longest_draft(random) };
    let draft = soften_some(random, draft);
    lengthen(judge, random, &draft, group);
}

/// By turns in the fewest bytes and with every number in three.
fn lengthen(judge: &mut Judge, random: &mut Random, draft: &Draft, group: usize) {
    let mut bytes = write_widened(draft, || [1, 3][group % 2]);
    let len = random.pick(&lengths());
    let filling = random.pick(&[0, 1, 0x41, 0x80]);
    for len in [bytes.len(), bytes.len() + 1, len.max(bytes.len() + 1)] {
        bytes.resize(len, filling);
        judge.judge_table(&bytes);
        judge.compare_listing(&bytes);
        judge.compare_conversion(&bytes);
    }
}

/// The longest tables of either edition and rule, with these limits and the old ones, and a byte more; about the most that a
/// program looks at; and longer.
fn lengths() -> Vec<usize> {
    let forms = [(1, false), (2, false), (1, true), (2, true)];
    let longest = |limits| forms.map(|(edition, stored)| longest_table(limits, edition, stored));
    let tables = [&OLD_LIMITS, &LIMITS].into_iter().flat_map(longest).flat_map(|len| [len, len + 1]);
    tables.chain([MAX_INPUT - 1, MAX_INPUT, MAX_INPUT + 1, 10_000, 20_000]).collect()
}

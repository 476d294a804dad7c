//! What follows from the limits of a table.

use crate::table::{Limits, LIMITS};

/// No row is above this.
pub const MAX_ROW: usize = highest_row(&LIMITS);
/// No accepted table has more bytes, and no shortest form.
pub const LONGEST: usize = longest_table(&LIMITS, FIRMNESS, false);
/// No stored table has more bytes.
pub const LONGEST_STORED: usize = longest_table(&LIMITS, FIRMNESS, true);

/// The edition whose edges have a firmness.
const FIRMNESS: u32 = 2;

/// A chain through all steps, with the largest gap at each link.
pub const fn highest_row(limits: &Limits) -> usize {
    *limits.gap.end() as usize * (limits.steps as usize - 1)
}

/// The most bytes of a table of an edition: as many steps and edges as there may be, the steps adjustments with the longest
/// names, and each number the longest of its kind; in a stored table, in the longest form.
pub const fn longest_table(limits: &Limits, edition: u32, stored: bool) -> usize {
    let (steps, edges) = (limits.steps as usize, limits.edges as usize);
    let name = number(*limits.name_len.end(), stored) + *limits.name_len.end() as usize;
    let step = number(limits.kinds - 1, stored) + number(*limits.tolerance.end(), stored) + name;
    let firmness = if edition < FIRMNESS { 0 } else { number(*limits.firmness.end(), stored) };
    let ends = 2 * number(limits.steps - 1, stored);
    let edge = ends + number(*limits.gap.end(), stored) + number(*limits.weight.end(), stored) + firmness;
    let counts = number(limits.steps, stored) + number(limits.edges, stored);
    number(edition, stored) + counts + steps * step + edges * edge
}

/// The most bytes of a number up to this one.
const fn number(most: u32, stored: bool) -> usize {
    if stored {
        return LIMITS.number_bytes as usize;
    }
    let (mut bytes, mut rest) = (1, most >> 7);
    while rest > 0 {
        bytes += 1;
        rest >>= 7;
    }
    bytes
}

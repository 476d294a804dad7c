//! How the shortest form is spelled, with a switch at each place where a plausible mistake can be made.

use reference::table::{Kind, LIMITS};
use reference::writer::{bytes_of, fields_of, short, Draft, Field};

use crate::fault::{on, on_with};

/// What a field of a table is.
#[derive(Clone, Copy, PartialEq)]
pub enum Role {
    Edition,
    StepCount,
    Kind,
    Tolerance,
    Minutes,
    Length,
    Name,
    EdgeCount,
    From,
    To,
    Gap,
    Weight,
    Firmness,
}

fn roles_of(draft: &Draft) -> Vec<Role> {
    let mut roles = vec![Role::Edition, Role::StepCount];
    for (kind, name) in &draft.steps {
        roles.extend(match kind {
            Kind::Check => vec![Role::Kind],
            Kind::Adjustment { .. } => vec![Role::Kind, Role::Tolerance],
            Kind::Wait { .. } => vec![Role::Kind, Role::Minutes],
        });
        roles.push(Role::Length);
        roles.extend(name.iter().map(|_| Role::Name));
    }
    roles.push(Role::EdgeCount);
    for _ in &draft.edges {
        roles.extend([Role::From, Role::To, Role::Gap, Role::Weight]);
        roles.extend(draft.firmness.iter().map(|_| Role::Firmness));
    }
    roles
}

/// The edition in which a table came, in any form.
pub fn in_edition_2(bytes: &[u8]) -> bool {
    bytes[0] & 0x7f == 2
}

/// The bytes that each field took in the table as it came.
pub fn widths(bytes: &[u8], draft: &Draft) -> Vec<(Role, u32)> {
    let mut rest = bytes;
    let mut took = |role| {
        let more = |byte: &&u8| role != Role::Name && **byte >= 0x80;
        let width = (rest.iter().take_while(more).count() + 1).min(rest.len());
        rest = &rest[width..];
        (role, width as u32)
    };
    roles_of(draft).into_iter().map(&mut took).collect()
}

/// What the numbers of a table are called in the names of variants.
pub const NUMBERS: &[(&str, Role)] = &[
    ("edition", Role::Edition),
    ("steps", Role::StepCount),
    ("kind", Role::Kind),
    ("tolerance", Role::Tolerance),
    ("minutes", Role::Minutes),
    ("length", Role::Length),
    ("edges", Role::EdgeCount),
    ("from", Role::From),
    ("to", Role::To),
    ("gap", Role::Gap),
    ("weight", Role::Weight),
    ("firmness", Role::Firmness),
];

/// Numbers that are spelled wrongly.
const MISSPELT: &[(&str, Role, fn(u32) -> Field)] = &[
    ("write-firmness-in-1", Role::Edition, |_| short(1)),
    ("write-kind-2-as-1", Role::Kind, |kind| short(kind.min(1))),
    ("write-tolerance-8-bits", Role::Tolerance, |tolerance| short(tolerance & 0xff)),
    ("write-tolerance-13-bits", Role::Tolerance, |tolerance| short(tolerance & 0x1fff)),
    ("write-tolerance-127", Role::Tolerance, long_127),
    ("write-tolerance-128", Role::Tolerance, cut_128),
    ("write-minutes-127", Role::Minutes, long_127),
    ("write-minutes-128", Role::Minutes, cut_128),
    ("write-length-15", Role::Length, |length| short(length.min(15))),
    ("write-edges-7-bits", Role::EdgeCount, |count| short(count & 0x7f)),
    ("write-edges-8-bits", Role::EdgeCount, |count| short(count & 0xff)),
    ("write-edges-127", Role::EdgeCount, long_127),
    ("write-edges-128", Role::EdgeCount, cut_128),
    ("write-from-last", Role::From, |from| short(from.min(LIMITS.steps - 2))),
    ("write-gap-1", Role::Gap, |_| short(1)),
    ("write-gap-4", Role::Gap, |gap| short(gap & 3)),
    ("write-weight-7-bits", Role::Weight, |weight| short(weight & 0x7f)),
    ("write-weight-127", Role::Weight, long_127),
    ("write-weight-128", Role::Weight, cut_128),
    ("write-weight-255", Role::Weight, |weight| short(weight.min(254))),
    ("write-firmness-turned", Role::Firmness, |firmness| short(1 - firmness)),
];

/// The largest number of one byte, in two.
fn long_127(value: u32) -> Field {
    Field::Number { value, width: 1 + u32::from(value == 127) }
}

/// The smallest number of two bytes, in the first of them.
fn cut_128(value: u32) -> Field {
    if value == 128 {
        Field::Byte(128)
    } else {
        short(value)
    }
}

/// The bytes of a draft, of whose fields it is known in how many bytes they came.
pub fn spell(draft: &Draft, came: &[(Role, u32)]) -> Vec<u8> {
    let mut fields = fields_of(draft);
    let mut roles = roles_of(draft);
    let in_1 = draft.firmness.is_none();
    let came = came.iter().filter(|(role, _)| !in_1 || *role != Role::Firmness);
    let last = fields.len() - 1;
    for (at, (field, &(role, width))) in fields.iter_mut().zip(came).enumerate() {
        leave_long(field, role, width, at == last);
    }
    for (field, role) in fields.iter_mut().zip(&roles) {
        let Field::Number { value, .. } = *field else { continue };
        for (_, _, spell) in MISSPELT.iter().filter(|(fault, wrong, _)| on(fault) && wrong == role) {
            *field = spell(value);
        }
    }
    if on("write-firmness-left-out") {
        fields.retain(|_| roles.remove(0) != Role::Firmness);
    }
    bytes_of(&fields)
}

/// A field that came in so many bytes.
fn leave_long(field: &mut Field, role: Role, came: u32, last: bool) {
    let Field::Number { value, width } = field else { return };
    let kept = NUMBERS.iter().any(|&(name, long)| long == role && on_with("convert-long-", name))
        || on("convert-long-last") && last
        || on("convert-long-two") && came == 2
        || on("convert-long-zero") && came == 2 && *value == 0;
    if kept {
        *width = came;
    } else if on("convert-long-three") && came == 3 {
        *width = 2;
    }
}

//! Tables from drafts: as short as they can be, but for fields that are spoiled or widened before they are written.

use crate::table::{Edge, Kind};

#[derive(Clone, Copy, PartialEq, Eq, Debug)]
pub enum Field {
    /// A number and the bytes it is to take (at least those it needs).
    Number { value: u32, width: u32 },
    /// One byte as it is.
    Byte(u8),
}

#[derive(Clone, Debug)]
pub struct Draft {
    pub steps: Vec<(Kind, Vec<u8>)>,
    pub edges: Vec<Edge>,
    /// For each edge its firmness, in edition 2; none in edition 1.
    pub firmness: Option<Vec<u32>>,
}

pub fn short(value: u32) -> Field {
    Field::Number { value, width: 1 }
}

pub fn fields_of(draft: &Draft) -> Vec<Field> {
    let edition = if draft.firmness.is_some() { 2 } else { 1 };
    let mut fields = vec![short(edition), short(draft.steps.len() as u32)];
    for (kind, name) in &draft.steps {
        match *kind {
            Kind::Check => fields.push(short(0)),
            Kind::Adjustment { tolerance } => fields.extend([short(1), short(tolerance)]),
            Kind::Wait { minutes } => fields.extend([short(2), short(minutes)]),
        }
        fields.push(short(name.len() as u32));
        fields.extend(name.iter().map(|&byte| Field::Byte(byte)));
    }
    fields.push(short(draft.edges.len() as u32));
    for (index, edge) in draft.edges.iter().enumerate() {
        fields.extend([edge.from as u32, edge.to as u32, edge.gap, edge.weight].map(short));
        fields.extend(draft.firmness.iter().map(|firmness| short(firmness[index])));
    }
    fields
}

/// Gives every number a width.
pub fn widen(fields: &mut [Field], mut choose: impl FnMut() -> u32) {
    for field in fields {
        if let Field::Number { width, .. } = field {
            *width = choose();
        }
    }
}

pub fn bytes_of(fields: &[Field]) -> Vec<u8> {
    let mut bytes = Vec::new();
    for field in fields {
        match *field {
            Field::Byte(byte) => bytes.push(byte),
            Field::Number { value, width } => write_number(&mut bytes, value, width),
        }
    }
    bytes
}

pub fn write_table(draft: &Draft) -> Vec<u8> {
    bytes_of(&fields_of(draft))
}

/// With a width for each number.
pub fn write_widened(draft: &Draft, choose: impl FnMut() -> u32) -> Vec<u8> {
    let mut fields = fields_of(draft);
    widen(&mut fields, choose);
    bytes_of(&fields)
}

/// Widths above 3 write what the reader has to turn down.
fn write_number(bytes: &mut Vec<u8>, value: u32, width: u32) {
    let mut rest = value;
    let mut written = 1;
    while rest >= 0x80 || written < width {
        bytes.push(0x80 | (rest & 0x7f) as u8);
        rest >>= 7;
        written += 1;
    }
    bytes.push(rest as u8);
}

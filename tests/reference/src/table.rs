//! The table reader: bytes in; steps and edges, or the first fault, out.

use crate::refusal::Refusal;
use std::ops::RangeInclusive;

#[derive(Clone, Copy, PartialEq, Eq, Hash, Debug)]
pub enum Kind {
    Check,
    Adjustment { tolerance: u32 },
    Wait { minutes: u32 },
}

#[derive(Clone, Copy, PartialEq, Eq, Debug)]
pub struct Step {
    pub kind: Kind,
    /// Where the name stands in the table's bytes.
    pub name_start: usize,
    pub name_len: usize,
}

impl Step {
    /// Its name, of the bytes that the table was read from.
    pub fn name<'a>(&self, bytes: &'a [u8]) -> &'a [u8] {
        &bytes[self.name_start..self.name_start + self.name_len]
    }
}

#[derive(Clone, Copy, PartialEq, Eq, Hash, Debug)]
pub struct Edge {
    pub from: usize,
    pub to: usize,
    pub gap: u32,
    pub weight: u32,
}

/// An edge as the table has it, and whether it may give way.
#[derive(Clone, Copy, PartialEq, Eq, Hash, Debug)]
pub struct TableEdge {
    pub edge: Edge,
    pub soft: bool,
}

#[derive(Clone, PartialEq, Eq, Debug)]
pub struct Table {
    pub steps: Vec<Step>,
    pub edges: Vec<TableEdge>,
}

/// Which forms of a number are taken: told of its bytes, all but the last with the high bit set.
pub type Rule = fn(&[u8]) -> bool;

/// The last of several bytes is not 00.
pub fn fewest_bytes(number: &[u8]) -> bool {
    number.len() == 1 || number.last() != Some(&0)
}

/// The rule under which older tables were stored.
pub fn any_form(_: &[u8]) -> bool {
    true
}

/// What is in range, and which forms of numbers are taken. The product's limits are `LIMITS`; wrong variants alter one of
/// them.
#[derive(Clone)]
pub struct Limits {
    pub number_bytes: u32,
    pub rule: Rule,
    pub edition: RangeInclusive<u32>,
    pub steps: u32,
    pub kinds: u32,
    pub tolerance: RangeInclusive<u32>,
    pub minutes: RangeInclusive<u32>,
    pub name_len: RangeInclusive<u32>,
    pub name_byte: RangeInclusive<u8>,
    pub edges: u32,
    pub gap: RangeInclusive<u32>,
    pub weight: RangeInclusive<u32>,
    pub firmness: RangeInclusive<u32>,
}

pub const LIMITS: Limits = Limits {
    number_bytes: 3,
    rule: fewest_bytes,
    edition: 1..=2,
    steps: 96,
    kinds: 3,
    tolerance: 0..=9999,
    minutes: 1..=240,
    name_len: 1..=16,
    name_byte: 0x21..=0x7e,
    edges: 288,
    gap: 1..=4,
    weight: 0..=255,
    firmness: 0..=1,
};

/// The limits up to version 1.3. A table within them reads as it did then.
pub const OLD_LIMITS: Limits = Limits { steps: 64, edges: 192, ..LIMITS };

pub fn read_table(bytes: &[u8]) -> Result<Table, Refusal> {
    read_within(bytes, &LIMITS)
}

/// By the old rule, for a table stored before long forms were refused.
pub fn read_stored(bytes: &[u8]) -> Result<Table, Refusal> {
    read_within(bytes, &Limits { rule: any_form, ..LIMITS })
}

/// Reads fields in order; each is judged as soon as its last byte is there.
pub fn read_within(bytes: &[u8], limits: &Limits) -> Result<Table, Refusal> {
    let mut reader = Reader { bytes, at: 0, limits };
    let edition = reader.number_in(&limits.edition, Refusal::Edition)?;
    let step_count = reader.number_in(&(0..=limits.steps), Refusal::TooManySteps)?;
    let mut steps = Vec::new();
    for _ in 0..step_count {
        steps.push(reader.step()?);
    }
    let edge_count = reader.number_in(&(0..=limits.edges), Refusal::TooManyEdges)?;
    let mut edges = Vec::new();
    for _ in 0..edge_count {
        let edge = reader.edge(step_count)?;
        // Edition 1 has no firmness: its edges are must.
        let soft = edition > 1 && reader.number_in(&limits.firmness, Refusal::BadFirmness)? > 0;
        edges.push(TableEdge { edge, soft });
    }
    if reader.at < bytes.len() {
        return Err(Refusal::SpareBytes);
    }
    Ok(Table { steps, edges })
}

struct Reader<'a> {
    bytes: &'a [u8],
    at: usize,
    limits: &'a Limits,
}

impl Reader<'_> {
    fn byte(&mut self) -> Result<u8, Refusal> {
        let byte = *self.bytes.get(self.at).ok_or(Refusal::CutShort)?;
        self.at += 1;
        Ok(byte)
    }

    fn number(&mut self) -> Result<u32, Refusal> {
        let start = self.at;
        let mut value = 0;
        for group in 0..self.limits.number_bytes {
            let byte = self.byte()?;
            value |= u32::from(byte & 0x7f) << (7 * group);
            if byte < 0x80 {
                let taken = (self.limits.rule)(&self.bytes[start..self.at]);
                return if taken { Ok(value) } else { Err(Refusal::LongNumber) };
            }
        }
        Err(Refusal::LongNumber)
    }

    fn number_in(&mut self, range: &RangeInclusive<u32>, fault: Refusal) -> Result<u32, Refusal> {
        let value = self.number()?;
        if range.contains(&value) {
            Ok(value)
        } else {
            Err(fault)
        }
    }

    fn step(&mut self) -> Result<Step, Refusal> {
        let limits = self.limits;
        let kind = match self.number_in(&(0..=limits.kinds - 1), Refusal::UnknownKind)? {
            1 => Kind::Adjustment { tolerance: self.number_in(&limits.tolerance, Refusal::OutOfRange)? },
            2 => Kind::Wait { minutes: self.number_in(&limits.minutes, Refusal::OutOfRange)? },
            _ => Kind::Check,
        };
        let name_len = self.number_in(&limits.name_len, Refusal::OutOfRange)? as usize;
        let name_start = self.at;
        for _ in 0..name_len {
            let byte = self.byte()?;
            if !limits.name_byte.contains(&byte) {
                return Err(Refusal::NameByte);
            }
        }
        Ok(Step { kind, name_start, name_len })
    }

    fn edge(&mut self, step_count: u32) -> Result<Edge, Refusal> {
        let from = self.number()?;
        if from >= step_count {
            return Err(Refusal::BadEnd);
        }
        let to = self.number()?;
        if to >= step_count || to == from {
            return Err(Refusal::BadEnd);
        }
        let gap = self.number_in(&self.limits.gap, Refusal::OutOfRange)?;
        let weight = self.number_in(&self.limits.weight, Refusal::OutOfRange)?;
        Ok(Edge { from: from as usize, to: to as usize, gap, weight })
    }
}

//! What a table says, however it is spelled, and the shortest table that says it.

use crate::table::{Kind, Table, TableEdge};
use crate::writer::{write_table, Draft};

#[derive(Clone, PartialEq, Eq, Hash, Debug)]
pub struct Said {
    pub steps: Vec<(Kind, Vec<u8>)>,
    pub edges: Vec<TableEdge>,
}

/// Of the bytes that the table was read from.
pub fn said(bytes: &[u8], table: &Table) -> Said {
    let steps = table.steps.iter().map(|step| (step.kind, step.name(bytes).to_vec())).collect();
    Said { steps, edges: table.edges.clone() }
}

/// Firmness takes edition 2, which only a soft edge needs; a draft's numbers are as short as they can be.
pub fn shortest(said: &Said) -> Vec<u8> {
    write_table(&draft_of(said, said.edges.iter().any(|edge| edge.soft)))
}

/// What is said, in edition 2 or without its firmness in edition 1.
pub fn draft_of(said: &Said, edition_2: bool) -> Draft {
    let firmness = said.edges.iter().map(|edge| u32::from(edge.soft)).collect();
    let edges = said.edges.iter().map(|edge| edge.edge).collect();
    Draft { steps: said.steps.clone(), edges, firmness: edition_2.then_some(firmness) }
}

//! The shortest form: by hand, against every spelling of small tables, and on the stored tables.

use std::collections::HashMap;

use reference::bounds::{LONGEST, LONGEST_STORED};
use reference::calls;
use reference::listing::print_chart;
use reference::refusal::Refusal;
use reference::shortest::{draft_of, said, shortest, Said};
use reference::table::{read_stored, read_table, Edge, Kind, TableEdge, LIMITS};
use reference::writer::write_widened;

mod stored;

/// The shortest form of a stored table that is accepted.
fn shortest_of(bytes: &[u8]) -> Vec<u8> {
    shortest(&said(bytes, &read_stored(bytes).unwrap()))
}

#[test]
fn by_hand() {
    let cases: [(&[u8], &[u8]); 9] = [
        (&[1, 0, 0], &[1, 0, 0]),
        (&[2, 0, 0], &[1, 0, 0]),
        (&[0x82, 0x80, 0, 0x80, 0, 0x80, 0x80, 0], &[1, 0, 0]),
        (&[0x81, 0, 1, 0x80, 0, 0x81, 0x80, 0, 0x41, 0], &[1, 1, 0, 1, 0x41, 0]),
        (&[1, 1, 0x81, 0, 0xff, 0, 2, 0x41, 0x42, 0], &[1, 1, 1, 0x7f, 2, 0x41, 0x42, 0]),
        (&[1, 1, 1, 0x80, 0x81, 0, 1, 0x7e, 0], &[1, 1, 1, 0x80, 1, 1, 0x7e, 0]),
        (&[1, 1, 2, 0xf0, 0x81, 0, 1, 0x21, 0], &[1, 1, 2, 0xf0, 1, 1, 0x21, 0]),
        // must edges that form a loop, in edition 2
        (
            &[2, 2, 0, 1, 0x41, 0, 1, 0x42, 2, 0, 1, 0x81, 0, 5, 0, 1, 0x80, 0, 1, 0xff, 0x81, 0, 0x80, 0x80, 0],
            &[1, 2, 0, 1, 0x41, 0, 1, 0x42, 2, 0, 1, 1, 5, 1, 0, 1, 0xff, 1],
        ),
        // the last of them soft
        (
            &[2, 2, 0, 1, 0x41, 0, 1, 0x42, 0x82, 0, 0, 1, 1, 5, 0x80, 0, 1, 0, 1, 0x80, 1, 0x81, 0],
            &[2, 2, 0, 1, 0x41, 0, 1, 0x42, 2, 0, 1, 1, 5, 0, 1, 0, 1, 0x80, 1, 1],
        ),
    ];
    for (bytes, due) in cases {
        assert_eq!(shortest_of(bytes), due, "{bytes:02x?}");
    }
}

/// Tables by what they say, as far as all bytes come from these letters.
struct Spellings {
    letters: Vec<u8>,
    longest: usize,
    tables: HashMap<Said, Vec<Vec<u8>>>,
}

impl Spellings {
    fn find(letters: Vec<u8>, longest: usize) -> Spellings {
        let mut found = Spellings { letters, longest, tables: HashMap::new() };
        found.extend(&mut Vec::new());
        found
    }

    /// Bytes that are not cut short are no start of a longer table.
    fn extend(&mut self, bytes: &mut Vec<u8>) {
        match read_stored(bytes) {
            Ok(table) => self.tables.entry(said(bytes, &table)).or_default().push(bytes.clone()),
            Err(Refusal::CutShort) if bytes.len() < self.longest => {
                for letter in self.letters.clone() {
                    bytes.push(letter);
                    self.extend(bytes);
                    bytes.pop();
                }
            }
            Err(_) => {}
        }
    }

    /// Of all tables that say the same, one has the fewest bytes and is the shortest form of each. Where there is no edge,
    /// and so no firmness to write, it has an equal in edition 2.
    fn check(&self) -> (usize, usize) {
        for (said, tables) in &self.tables {
            let least = tables.iter().map(Vec::len).min().unwrap();
            let leasts: Vec<&Vec<u8>> = tables.iter().filter(|table| table.len() == least).collect();
            let mut due = vec![shortest(said)];
            if said.edges.is_empty() {
                due.push([&[2], &due[0][1..]].concat());
            }
            assert_eq!(leasts, due.iter().collect::<Vec<_>>(), "{said:?}");
        }
        (self.tables.len(), self.tables.values().map(Vec::len).sum())
    }
}

/// Tables without edges: numbers about the largest of one byte, names, both editions.
#[test]
fn all_spellings_without_edges() {
    let (said, tables) = Spellings::find(vec![0, 1, 2, 3, 0x21, 0x7e, 0x7f, 0x80, 0x81, 0x82, 0xff], 10).check();
    assert!(said > 500 && tables > 10_000, "{tables} tables that say {said} things");
}

/// Tables with edges: firmness, and the editions that tell it or do not.
#[test]
fn all_spellings_with_edges() {
    let found = Spellings::find(vec![0, 1, 2, 0x41, 0x80, 0x81, 0x82], 15);
    let (said, tables) = found.check();
    let soft = found.tables.keys().filter(|said| said.edges.iter().any(|edge| edge.soft)).count();
    assert!(
        said > 4000 && tables > 300_000 && soft > 250,
        "{tables} tables that say {said} things, {soft} of them soft"
    );
}

/// As long as tables can be, in the fewest bytes and in three bytes a number.
#[test]
fn the_longest_tables() {
    let (last_step, last_edge) = (LIMITS.steps as usize - 1, LIMITS.edges as usize - 1);
    let steps = vec![(Kind::Adjustment { tolerance: 128 }, vec![b'~'; 16]); last_step + 1];
    let edge = |number: usize| Edge { from: number % last_step, to: last_step, gap: 4, weight: 128 };
    let edges = (0..=last_edge).map(|number| TableEdge { edge: edge(number), soft: number == last_edge }).collect();
    let said = Said { steps, edges };
    let (short, long) = (shortest(&said), write_widened(&draft_of(&said, true), || 3));
    assert_eq!((short.len(), long.len()), (LONGEST, LONGEST_STORED));
    assert_eq!((shortest_of(&short), shortest_of(&long)), (short.clone(), short));
}

#[test]
fn answers_and_buffers() {
    let stored = [0x82, 0, 1, 0x80, 0, 1, 0x41, 0];
    let table = [2, 1, 0, 1, 0x41, 0];
    let written = [1, 1, 0, 1, 0x41, 0];
    let too_many = LIMITS.steps as u8 + 1;
    let mut buffer = [9; 8];
    for short in 0..6 {
        assert_eq!(calls::write(&table, &mut buffer[..short]), 13);
        assert_eq!(calls::convert(&stored, &mut buffer[..short]), 13);
        assert_eq!(calls::write(&[1, too_many], &mut buffer[..short]), 4);
        assert_eq!(calls::convert(&[1, too_many], &mut buffer[..short]), 4);
    }
    assert_eq!(calls::write(&stored, &mut buffer), 2);
    assert_eq!(buffer, [9; 8]);
    assert_eq!(calls::convert(&stored, &mut buffer[..6]), 6 << 8);
    assert_eq!(buffer[..6], written);
    buffer.fill(9);
    assert_eq!(calls::write(&table, &mut buffer[..6]), 6 << 8);
    assert_eq!(buffer[..6], written);
    assert_eq!(calls::write(&written, &mut buffer), 6 << 8);
    assert_eq!((&buffer[..6], &buffer[6..]), (&written[..], &[9, 9][..]));
    assert_eq!(calls::write(&with_firmness(2), &mut []), 15);
}

/// A table of one edge.
fn with_firmness(firmness: u8) -> [u8; 14] {
    [2, 2, 0, 1, 0x41, 0, 1, 0x42, 1, 0, 1, 1, 1, firmness]
}

/// What is printed for a table is printed for its shortest form, which is its own.
#[test]
fn stored_tables() {
    let mut shorter = 0;
    for (table, printed) in stored::charts() {
        if read_table(&table).is_ok() {
            let written = shortest_of(&table);
            assert_eq!(String::from_utf8(print_chart(&written)).unwrap(), printed, "{table:02x?}");
            assert_eq!(shortest_of(&written), written);
            assert!(written.len() <= table.len());
            shorter += usize::from(written.len() < table.len());
        }
    }
    assert!(shorter > 10, "{shorter} tables shortened");
}

#[test]
fn stored_shortest_forms() {
    check_stored(include_str!("../../writing.txt"), calls::write);
    check_stored(include_str!("../../convert.txt"), calls::convert);
}

fn check_stored(lines: &str, write: fn(&[u8], &mut [u8]) -> u64) {
    let mut met = 0;
    for (table, due) in stored::read_lines(lines) {
        let mut buffer = [0; LONGEST];
        let answer = write(&table, &mut buffer);
        let bytes = buffer[..(answer >> 8) as usize].iter().map(|byte| format!(" {byte:02X}"));
        let line = if answer & 0xff == 0 {
            format!("writes{}\n", bytes.collect::<String>())
        } else {
            format!("refused {answer}\n")
        };
        assert_eq!(line, due, "{table:02x?}");
        met += 1;
    }
    assert!(met > 60, "{met} tables");
}

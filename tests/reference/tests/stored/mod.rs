//! The stored tables. Not every test needs all of this.
#![allow(dead_code)]

/// Each table with what `chart` prints for it.
pub fn charts() -> Vec<(Vec<u8>, String)> {
    ["chart.txt", "soft.txt", "forms.txt", "bigger.txt", "merged.txt"]
        .iter()
        .flat_map(|name| read_lines(&read_file(name)))
        .collect()
}

fn read_file(name: &str) -> String {
    let path = format!("{}/../{name}", env!("CARGO_MANIFEST_DIR"));
    std::fs::read_to_string(path).unwrap_or_else(|error| panic!("{name}: {error}"))
}

/// Tables with the lines that are due.
pub fn read_lines(stored: &str) -> Vec<(Vec<u8>, String)> {
    stored.lines().filter(|line| !line.starts_with('#')).filter_map(read_line).collect()
}

fn read_line(line: &str) -> Option<(Vec<u8>, String)> {
    let (table, printed) = line.split_once(" -> ")?;
    let bytes = table.split_whitespace().map(|byte| u8::from_str_radix(byte, 16).unwrap()).collect();
    Some((bytes, printed.replace(" / ", "\n") + "\n"))
}

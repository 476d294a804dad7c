//! Rows in lent entries of 16 bits, with a switch at each place where a plausible mistake can be made.

use reference::bounds::highest_row;
use reference::table::OLD_LIMITS;

use crate::fault::on;

/// Whether a buffer of so many entries is taken for so many rows.
pub fn fit(rows: usize, entries: usize) -> bool {
    let taken = match () {
        _ if on("rows-13-early") => entries / 2,
        _ if on("rows-13-late") => entries * 2,
        _ => entries,
    };
    rows <= taken
}

/// As far as the buffer goes.
pub fn put(rows: &[usize], buffer: &mut [u16]) {
    if on("rows-as-bytes") {
        return put_bytes(rows, buffer);
    }
    let most = if on("rows-old-steps") { OLD_LIMITS.steps as usize } else { rows.len() };
    for (entry, &row) in buffer.iter_mut().zip(rows).take(most) {
        *entry = entry_of(row);
    }
    if let Some(entry) = buffer.get_mut(rows.len()).filter(|_| on("rows-entry-beyond")) {
        *entry = 0;
    }
}

fn entry_of(row: usize) -> u16 {
    let right = row as u16;
    match () {
        _ if on("rows-low-byte") => right & 0xff,
        _ if on("rows-bytes-exchanged") => right.swap_bytes(),
        _ if on("rows-old-highest") => right.min(highest_row(&OLD_LIMITS) as u16),
        _ => right,
    }
}

/// Two rows an entry.
fn put_bytes(rows: &[usize], buffer: &mut [u16]) {
    for (entry, rows) in buffer.iter_mut().zip(rows.chunks(2)) {
        let mut bytes = entry.to_ne_bytes();
        for (byte, &row) in bytes.iter_mut().zip(rows) {
            *byte = row as u8;
        }
        *entry = u16::from_ne_bytes(bytes);
    }
}

//! A stand-in for the product's library: the same symbols, answered by the reference. The variable
//! STANDIN_FAULT chooses a deliberately wrong variant, so that the comparison itself can be tried.

mod answers;
mod answers_row_orders;
mod answers_strokes;
mod answers_xs;
pub mod fault;
pub mod wrong_chart;
mod wrong_entries;
mod wrong_forms;
mod wrong_merged;
mod wrong_order;
mod wrong_row_orders;
mod wrong_row_pieces;
mod wrong_rows;
mod wrong_soft;
mod wrong_spelling;
mod wrong_strokes;
pub mod wrong_table;
mod wrong_writing;
mod wrong_xs;

use std::slice::{from_raw_parts, from_raw_parts_mut};

#[no_mangle]
pub unsafe extern "C" fn yuvatondro_counts(table: *const u8, table_len: usize) -> u64 {
    answers::counts(unsafe { from_raw_parts(table, table_len) })
}

#[no_mangle]
pub unsafe extern "C" fn yuvatondro_name(table: *const u8, table_len: usize, step: usize) -> u64 {
    answers::name(unsafe { from_raw_parts(table, table_len) }, step)
}

#[no_mangle]
pub unsafe extern "C" fn yuvatondro_rows(table: *const u8, table_len: usize, rows: *mut u16, rows_len: usize) -> u64 {
    unsafe { answers::rows(from_raw_parts(table, table_len), from_raw_parts_mut(rows, rows_len)) }
}

#[no_mangle]
pub unsafe extern "C" fn yuvatondro_records(
    steps: usize,
    records: *const usize,
    numbers: usize,
    rows: *mut u16,
    rows_len: usize,
) -> u64 {
    let records = unsafe { from_raw_parts(records as *const [usize; 4], numbers / 4) };
    answers::records(steps, records, unsafe { from_raw_parts_mut(rows, rows_len) })
}

#[no_mangle]
pub unsafe extern "C" fn yuvatondro_chart(
    table: *const u8,
    table_len: usize,
    rows: *mut u16,
    rows_len: usize,
    order: *mut u16,
    order_len: usize,
) -> u64 {
    let table = unsafe { from_raw_parts(table, table_len) };
    unsafe { answers::chart(table, from_raw_parts_mut(rows, rows_len), from_raw_parts_mut(order, order_len)) }
}

#[no_mangle]
pub unsafe extern "C" fn yuvatondro_write(table: *const u8, table_len: usize, out: *mut u8, out_len: usize) -> u64 {
    unsafe { answers::write(from_raw_parts(table, table_len), from_raw_parts_mut(out, out_len)) }
}

#[no_mangle]
pub unsafe extern "C" fn yuvatondro_convert(table: *const u8, table_len: usize, out: *mut u8, out_len: usize) -> u64 {
    unsafe { answers::convert(from_raw_parts(table, table_len), from_raw_parts_mut(out, out_len)) }
}

#[no_mangle]
pub unsafe extern "C" fn yuvatondro_xs(table: *const u8, table_len: usize, xs: *mut u16, xs_len: usize) -> u64 {
    unsafe { answers_xs::xs(from_raw_parts(table, table_len), from_raw_parts_mut(xs, xs_len)) }
}

#[no_mangle]
pub unsafe extern "C" fn yuvatondro_stroke_at(
    table: *const u8,
    table_len: usize,
    index: usize,
) -> answers_strokes::Stroke {
    answers_strokes::stroke_at(unsafe { from_raw_parts(table, table_len) }, index)
}

#[no_mangle]
pub unsafe extern "C" fn yuvatondro_row_order(
    table: *const u8,
    table_len: usize,
    row: usize,
    tries: usize,
    order: *mut u16,
    order_len: usize,
) -> u64 {
    // Where there is no entry the pointer is not followed, and may be null.
    let order: &mut [u16] = if order_len == 0 { &mut [] } else { unsafe { from_raw_parts_mut(order, order_len) } };
    answers_row_orders::row_order(unsafe { from_raw_parts(table, table_len) }, row, tries, order)
}

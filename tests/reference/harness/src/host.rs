//! The library under test. Calls that it does not export are never reached: see `exported`.

use reference::calls::StrokeAnswer;

mod linked {
    /// As the header has it, by value.
    #[cfg(host_stroke_at)]
    #[repr(C)]
    pub struct Stroke {
        pub answer: u64,
        pub x: f32,
        pub y: f32,
    }

    extern "C" {
        #[cfg(host_counts)]
        pub fn yuvatondro_counts(table: *const u8, table_len: usize) -> u64;
        #[cfg(host_name)]
        pub fn yuvatondro_name(table: *const u8, table_len: usize, step: usize) -> u64;
        #[cfg(host_rows)]
        pub fn yuvatondro_rows(table: *const u8, table_len: usize, rows: *mut u16, rows_len: usize) -> u64;
        #[cfg(host_records)]
        pub fn yuvatondro_records(
            steps: usize,
            records: *const usize,
            numbers: usize,
            rows: *mut u16,
            rows_len: usize,
        ) -> u64;
        #[cfg(host_chart)]
        pub fn yuvatondro_chart(
            table: *const u8,
            table_len: usize,
            rows: *mut u16,
            rows_len: usize,
            order: *mut u16,
            order_len: usize,
        ) -> u64;
        #[cfg(host_write)]
        pub fn yuvatondro_write(table: *const u8, table_len: usize, out: *mut u8, out_len: usize) -> u64;
        #[cfg(host_convert)]
        pub fn yuvatondro_convert(table: *const u8, table_len: usize, out: *mut u8, out_len: usize) -> u64;
        #[cfg(host_xs)]
        pub fn yuvatondro_xs(table: *const u8, table_len: usize, xs: *mut u16, xs_len: usize) -> u64;
        #[cfg(host_stroke_at)]
        pub fn yuvatondro_stroke_at(table: *const u8, table_len: usize, index: usize) -> Stroke;
        #[cfg(host_row_order)]
        pub fn yuvatondro_row_order(
            table: *const u8,
            table_len: usize,
            row: usize,
            tries: usize,
            order: *mut u16,
            order_len: usize,
        ) -> u64;
    }
}

pub const CALLS: [&str; 10] =
    ["counts", "name", "rows", "records", "chart", "write", "convert", "xs", "stroke_at", "row_order"];
pub const COUNTS: usize = 0;
pub const NAME: usize = 1;
pub const ROWS: usize = 2;
pub const RECORDS: usize = 3;
pub const CHART: usize = 4;
pub const WRITE: usize = 5;
pub const CONVERT: usize = 6;
pub const XS: usize = 7;
pub const STROKE_AT: usize = 8;
pub const ROW_ORDER: usize = 9;

/// Some of the calls.
pub type Calls = [bool; CALLS.len()];

pub fn exported() -> Calls {
    [
        cfg!(host_counts),
        cfg!(host_name),
        cfg!(host_rows),
        cfg!(host_records),
        cfg!(host_chart),
        cfg!(host_write),
        cfg!(host_convert),
        cfg!(host_xs),
        cfg!(host_stroke_at),
        cfg!(host_row_order),
    ]
}

/// A lent stretch as C hands it over.
pub type Bytes = (*const u8, usize);
pub type BytesMut = (*mut u8, usize);
pub type EntriesMut = (*mut u16, usize);

#[allow(unused_variables)]
pub fn counts(table: Bytes) -> u64 {
    #[cfg(host_counts)]
    return unsafe { linked::yuvatondro_counts(table.0, table.1) };
    #[cfg(not(host_counts))]
    unreachable!()
}

#[allow(unused_variables)]
pub fn name(table: Bytes, step: usize) -> u64 {
    #[cfg(host_name)]
    return unsafe { linked::yuvatondro_name(table.0, table.1, step) };
    #[cfg(not(host_name))]
    unreachable!()
}

#[allow(unused_variables)]
pub fn rows(table: Bytes, rows: EntriesMut) -> u64 {
    #[cfg(host_rows)]
    return unsafe { linked::yuvatondro_rows(table.0, table.1, rows.0, rows.1) };
    #[cfg(not(host_rows))]
    unreachable!()
}

#[allow(unused_variables)]
pub fn records(steps: usize, numbers: (*const usize, usize), rows: EntriesMut) -> u64 {
    #[cfg(host_records)]
    return unsafe { linked::yuvatondro_records(steps, numbers.0, numbers.1, rows.0, rows.1) };
    #[cfg(not(host_records))]
    unreachable!()
}

#[allow(unused_variables)]
pub fn chart(table: Bytes, rows: EntriesMut, order: EntriesMut) -> u64 {
    #[cfg(host_chart)]
    return unsafe { linked::yuvatondro_chart(table.0, table.1, rows.0, rows.1, order.0, order.1) };
    #[cfg(not(host_chart))]
    unreachable!()
}

#[allow(unused_variables)]
pub fn write(table: Bytes, out: BytesMut) -> u64 {
    #[cfg(host_write)]
    return unsafe { linked::yuvatondro_write(table.0, table.1, out.0, out.1) };
    #[cfg(not(host_write))]
    unreachable!()
}

#[allow(unused_variables)]
pub fn convert(table: Bytes, out: BytesMut) -> u64 {
    #[cfg(host_convert)]
    return unsafe { linked::yuvatondro_convert(table.0, table.1, out.0, out.1) };
    #[cfg(not(host_convert))]
    unreachable!()
}

#[allow(unused_variables)]
pub fn xs(table: Bytes, xs: EntriesMut) -> u64 {
    #[cfg(host_xs)]
    return unsafe { linked::yuvatondro_xs(table.0, table.1, xs.0, xs.1) };
    #[cfg(not(host_xs))]
    unreachable!()
}

/// The floats as their bits, so that -0 is not 0 and what is no number can be told.
#[allow(unused_variables)]
pub fn stroke_at(table: Bytes, index: usize) -> StrokeAnswer {
    #[cfg(host_stroke_at)]
    {
        let linked::Stroke { answer, x, y } = unsafe { linked::yuvatondro_stroke_at(table.0, table.1, index) };
        let corner = reference::strokes::Corner { x: x.to_bits(), y: y.to_bits() };
        return StrokeAnswer { answer, corner };
    }
    #[cfg(not(host_stroke_at))]
    unreachable!()
}

#[allow(unused_variables)]
pub fn row_order(table: Bytes, row: usize, tries: usize, order: EntriesMut) -> u64 {
    #[cfg(host_row_order)]
    return unsafe { linked::yuvatondro_row_order(table.0, table.1, row, tries, order.0, order.1) };
    #[cfg(not(host_row_order))]
    unreachable!()
}

//! The reference's own `convert`: a stored table on standard input, its shortest form on standard output.

fn main() {
    reference::program::run(|input| reference::convert::convert_table(&input));
}

//! The reference's own `chart`: a table on standard input, its listing on standard output.

fn main() {
    reference::program::run(|input| reference::listing::print_chart(&input));
}

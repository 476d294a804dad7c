//! The families of cases. A family is run group by group; seed, family and group name a case.

mod buffers;
mod bytes;
mod forms;
mod graphs;
mod limits;
mod loops;
mod means;
mod merged;
mod old;
mod points;
mod records;
mod row_orders;
mod shortest;
mod soft;
mod spoiled;
mod strokes;
mod tall;
mod xs;

use reference::random::Random;

use crate::judge::Judge;
use crate::shapes;

pub struct Family {
    pub name: &'static str,
    /// Groups in the fixed selection.
    pub groups: usize,
    /// Whether groups beyond these bring new cases.
    pub endless: bool,
    pub run: fn(&mut Judge, &mut Random, usize),
}

const fn endless(name: &'static str, groups: usize, run: fn(&mut Judge, &mut Random, usize)) -> Family {
    Family { name, groups, endless: true, run }
}

const fn fixed(name: &'static str, groups: usize, run: fn(&mut Judge, &mut Random, usize)) -> Family {
    Family { name, groups, endless: false, run }
}

/// Cheap families first, so that a wrong library is soon found out.
pub const FAMILIES: &[Family] = &[
    fixed("stated cases", 1, limits::stated_cases),
    fixed("limits", 1, limits::field_limits),
    fixed("soft limits", 1, limits::soft_limits),
    fixed("long forms in place", 1, forms::each_place),
    fixed("long forms of values", 1, forms::each_value),
    fixed("long forms beside faults", 1, forms::beside_faults),
    fixed("empty spellings", 1, shortest::empty_spellings),
    fixed("single long forms", 1, shortest::single_long_forms),
    fixed("written values", 1, shortest::values),
    fixed("written ends", 1, shortest::ends),
    fixed("single soft edges", 1, shortest::single_soft),
    fixed("written names", 1, shortest::names),
    fixed("all tiny graphs", graphs::TINY_GRAPHS, graphs::all_tiny),
    fixed("all tiny soft graphs", graphs::TINY_GRAPHS, soft::all_tiny),
    fixed("all repeated edges", merged::ALL_LISTS, merged::all_lists),
    fixed("equal edges", merged::EQUAL, merged::all_equal),
    fixed("all short tables", bytes::SHORT_TABLES, bytes::all_short),
    fixed("all short soft edges", bytes::SHORT_TABLES, bytes::all_short_soft),
    fixed("refused strokes", 1, strokes::refused),
    fixed("no strokes", shapes::STEPS + 1, strokes::none),
    fixed("stroke counts", strokes::COUNTED, strokes::counts),
    fixed("tall strokes", strokes::TALL, strokes::tall),
    fixed("refused row orders", 1, row_orders::refused),
    fixed("row numbers", row_orders::TALL, row_orders::numbers),
    fixed("all tries", row_orders::TRIED, row_orders::all_tries),
    fixed("row widths", row_orders::WIDTHS, row_orders::widths),
    endless("tiny", 6000, graphs::tiny),
    endless("mixed firmness", 4000, soft::mixed),
    endless("all soft", 2000, soft::all_soft),
    endless("all must", 1000, soft::all_must),
    endless("soft before must", 1000, soft::before_must),
    endless("soft after must", 1000, soft::after_must),
    endless("soft parallel", 1000, soft::parallel),
    endless("repeated edges", 1500, merged::repeated),
    endless("soft loops", 2000, soft::loops),
    endless("loops", 2000, loops::any_loop),
    endless("loops after tails", 1000, loops::after_tail),
    endless("records", 3000, records::valid),
    endless("spoiled records", 3000, records::spoiled),
    endless("record limits", 40, records::limits),
    endless("record loops", 1000, records::loops),
    endless("heavy lines", 200, merged::heavy),
    endless("spare bytes", 500, bytes::spare),
    endless("long forms", 1000, bytes::long_forms),
    endless("soft long forms", 1000, bytes::soft_long_forms),
    endless("spellings", 3000, shortest::spellings),
    endless("writing buffers", 300, shortest::buffers),
    endless("largest spellings", 60, shortest::largest),
    endless("conversions", 400, forms::conversions),
    endless("long input", 90, bytes::long_input),
    endless("long soft input", 45, bytes::long_soft_input),
    endless("two spoiled fields", 3000, spoiled::two_fields),
    endless("two soft fields", 3000, spoiled::two_soft_fields),
    endless("mutated", 6000, bytes::mutated),
    endless("mutated soft", 3000, bytes::mutated_soft),
    endless("random bytes", 6000, bytes::random_bytes),
    endless("point limit", 600, points::near_limit),
    endless("soft point limit", 200, points::soft_near_limit),
    endless("wide point limit", 100, points::wide_near_limit),
    endless("repeated point limit", 120, points::repeated_near_limit),
    endless("most segments", 60, points::most_segments),
    endless("x point limit", 300, points::near_x_limit),
    endless("equal lines", 600, xs::equal_lines),
    endless("unlike rows", 400, xs::unlike_rows),
    endless("heavy pieces", 800, xs::heavy_pieces),
    endless("among pass points", 1000, xs::among_pass_points),
    endless("turned strokes", 400, strokes::turned),
    endless("joined strokes", 600, strokes::joined),
    endless("stroke point limit", 120, strokes::near_limit),
    endless("wide strokes", 48, strokes::wide),
    endless("most strokes", 64, strokes::most),
    endless("deciding tries", 1000, row_orders::deciding),
    endless("loose row points", 600, row_orders::loose),
    endless("below held rows", 400, row_orders::held),
    endless("parallel in a row", 600, row_orders::parallel),
    endless("dummies in a row", 200, row_orders::dummies),
    endless("large row orders", 120, row_orders::large),
    endless("every row", 600, row_orders::every_row),
    endless("tall", 200, tall::tall),
    endless("tall soft", 120, tall::tall_soft),
    endless("old limits", 200, old::within),
    endless("past old limits", 100, old::past),
    fixed("largest means", means::LARGEST, means::largest),
    endless("near means", means::NEAREST, means::near),
    endless("buffers", 400, buffers::all_lengths),
    endless("soft buffers", 200, soft::buffers),
    endless("sparse", 1500, graphs::sparse),
    endless("dense", 1000, graphs::dense),
    endless("chains", 700, graphs::chain),
    endless("grids", 700, graphs::grid),
    endless("layered", 1000, graphs::layered),
    endless("wide", 800, graphs::wide),
    endless("stars", 500, graphs::star),
    endless("bipartite", 700, graphs::bipartite),
    endless("parallel", 1000, graphs::parallel),
    endless("trees", 700, graphs::tree),
    endless("zero weights", 1000, graphs::zero_weights),
    endless("parts", 1500, graphs::parts),
    endless("long edges", 1000, graphs::long),
    endless("single rows", 200, graphs::single_row),
    endless("full", 150, graphs::full),
    endless("half turned", 150, soft::half_turned),
    endless("cut", 210, bytes::cut_everywhere),
    endless("cut soft", 56, bytes::cut_soft),
    endless("spoiled fields", 46, spoiled::each_field),
    endless("spoiled soft fields", 19, spoiled::each_soft_field),
];

/// A generator of its own for each group, by the family's name, so that a family keeps its cases when others come.
pub fn group_random(seed: u64, family: &str, group: usize) -> Random {
    let named = family.bytes().fold(seed, |mixed, byte| Random::new(mixed ^ u64::from(byte)).next());
    let mut mixer = Random::new(named ^ (group as u64) << 8);
    Random::new(mixer.next())
}

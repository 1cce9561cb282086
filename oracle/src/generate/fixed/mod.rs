//! Parts whose requests are told one by one: short inputs, limits met exactly and missed by one,
//! examples. What a limit leaves free is still drawn from the seed.
pub mod boundaries;
pub mod corners;
pub mod followed;
pub mod graphs;
pub mod labels;
pub mod lists;
pub mod names;
pub mod parents;
pub mod reads;
pub mod scripts;
mod short;
pub mod shows;
pub mod validations;

use super::Part;

/// In the order in which they draw from the seed.
pub const PARTS: [Part; 15] = [
    short::short,
    boundaries::boundaries,
    corners::every_corner,
    validations::small,
    graphs::graphs,
    scripts::limits,
    scripts::full_buffers,
    scripts::every_take,
    reads::reads,
    labels::labels,
    names::every_template,
    names::every_pair,
    shows::shows,
    lists::lists,
    parents::parents,
];

//! Parts whose requests are drawn from the seed, other ones each time that they are asked.
pub mod lists;
pub mod names;
mod noise;
pub mod parents;
pub mod readings;
mod scripts;
pub mod shows;
pub mod validations;

use super::Part;

/// In the order in which they draw from the seed.
pub const PARTS: [Part; 10] = [
    noise::noise,
    readings::scenes_and_updates,
    readings::each_kind,
    readings::configurations,
    validations::validations,
    scripts::scripts,
    names::names,
    shows::shows,
    lists::lists,
    parents::parents,
];

//! Scripts with a label. The Rust has no method for a label: it stands inside a metadata
//! configuration, so such a script has one form and is answered by `metadata_configuration`.
use crate::answer::Field;
use crate::script::makes_field;
use apac::run::{Action, Op};

/// The steps of a metadata configuration with one parameter of kind 9, no speakers, no groups.
pub const FORM: [Action; 13] = [
    Action::Flag,
    Action::Flag,
    Action::Flag,
    Action::Esc([4, 7, 10]),
    Action::Esc([4, 7, 10]),
    Action::Take(2),
    Action::Esc([1, 3, 8]),
    Action::Esc([1, 3, 8]),
    Action::Label,
    Action::Take(4),
    Action::Take(8),
    Action::Count {
        value: 0,
        least: 33,
    },
    Action::Esc([4, 7, 10]),
];

/// The fields that it must give: the end of each name, and its value where the form fixes it.
const FIELDS: [(&str, Option<u64>); 12] = [
    ("compression_present", Some(0)),
    ("configuration_present", Some(1)),
    ("parameters_present", Some(1)),
    ("parameter_count", Some(1)),
    ("parameters[0].id", Some(9)),
    ("parameters[0].resource.type", None),
    ("parameters[0].resource.parameter_0", None),
    ("parameters[0].resource.parameter_1", None),
    ("parameters[0].label", None),
    ("parameters[0].layout_encoded", None),
    ("parameters[0].speaker_count", Some(0)),
    ("group_count", Some(0)),
];

/// Whether a label stands in the script.
pub fn stands_in(ops: &[Op]) -> bool {
    ops.iter().any(|op| op.action == Action::Label)
}

/// Whether the script is exactly that of `FORM`.
pub fn has_form(ops: &[Op]) -> bool {
    ops.iter().all(|op| op.repeat == 1) && ops.iter().map(|op| op.action).eq(FORM)
}

/// The fields of the metadata configuration under the names of the script.
pub fn rename(ops: &[Op], fields: &mut [Field]) {
    assert!(has_form(ops), "a label in a script of another form");
    let names = ops.iter().filter(|op| makes_field(op.action));
    for ((field, expected), op) in fields.iter_mut().zip(FIELDS).zip(names) {
        check(field, expected);
        field.name = op.name.to_string();
    }
}

/// Bytes of another form would make the script and the configuration part ways.
fn check(field: &Field, (name, value): (&str, Option<u64>)) {
    assert_eq!(field.name, format!("ancillary.metadata.{name}"));
    assert!(value.is_none_or(|v| v == field.value), "{field:?}");
}

//! Document 01's numbers of the errors and stops that the Rust can give.

/// The number of each error kind.
pub const REFUSALS: [(u8, &str); 19] = [
    (3, "truncated"),
    (4, "field-limit"),
    (6, "count-range"),
    (7, "position-extensions"),
    (8, "scene-parent"),
    (9, "scene-parent-cycle"),
    (10, "metadata-presence"),
    (11, "metadata-parameter-count"),
    (12, "renderer-parameter-count"),
    (13, "renderer-reverb-type"),
    (14, "renderer-matrix-location"),
    (15, "renderer-radiation-type"),
    (16, "metadata-component-type"),
    (17, "metadata-string-limit"),
    (18, "metadata-headphone-size"),
    (19, "metadata-compression-size"),
    (20, "metadata-table-resource-limit"),
    (21, "metadata-codeword-width"),
    (22, "metadata-probability"),
];

/// The number of each stop's reason.
pub const STOPS: [(u8, &str); 5] = [
    (
        31,
        "reference renderer does not implement this room-geometry fallback",
    ),
    (
        32,
        "reference renderer does not implement double-precision radiation data",
    ),
    (
        33,
        "bound reference reader and writer reject resource-based HRTF declarations",
    ),
    (34, "reference renderer does not implement this HRTF type"),
    (
        35,
        "bound LZW metadata reader supports initial widths through 15 and maximum widths through 16",
    ),
];

/// The number of an error kind or of a stop's reason, if document 01 has one.
pub fn number(table: &[(u8, &str)], text: &str) -> Option<u8> {
    table.iter().find(|row| row.1 == text).map(|row| row.0)
}

/// The error kind or the stop's reason of a number.
pub fn text(table: &[(u8, &'static str)], number: u8) -> Option<&'static str> {
    table.iter().find(|row| row.0 == number).map(|row| row.1)
}

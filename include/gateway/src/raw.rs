//! The declarations of `gateway.h`, which says what each asks of its caller.

/// The greatest number of positions, and so of shapes.
pub const MAX_POSITIONS: usize = 63;

/// The shape of one position. Positions are numbered from 1, and parent 0 means none.
#[repr(C)]
#[derive(Clone, Copy, Debug, Default, PartialEq, Eq)]
pub struct PositionSyntax {
    pub parent_dynamic: bool,
    pub range_dynamic: bool,
    pub position_precision: usize,
    pub rotation_precision: usize,
    pub parent: usize,
    pub polar: bool,
}

#[repr(C)]
#[derive(Clone, Copy, Debug, PartialEq, Eq)]
pub struct GatewayAnswer {
    pub outcome: u64,
    pub number: u64,
    pub position: usize,
    pub counted: usize,
}

#[repr(C)]
#[derive(Clone, Copy, Debug, PartialEq, Eq)]
pub struct GatewayGraphAnswer {
    pub outcome: u64,
    pub number: u64,
    pub position: usize,
    pub counted: usize,
    pub deepest: usize,
}

#[repr(C)]
#[derive(Clone, Debug, PartialEq, Eq)]
pub struct GatewayScene {
    pub answer: GatewayGraphAnswer,
    pub count: usize,
    pub shapes: [PositionSyntax; MAX_POSITIONS],
}

unsafe extern "C" {
    pub fn gateway_scene(
        bytes: *const u8,
        bytes_len: usize,
        offset: usize,
        recording: bool,
        words: *mut u64,
        words_len: usize,
    ) -> GatewayScene;

    pub fn gateway_update(
        bytes: *const u8,
        bytes_len: usize,
        offset: usize,
        recording: bool,
        words: *mut u64,
        words_len: usize,
        shapes: *mut PositionSyntax,
        shapes_len: usize,
    ) -> GatewayGraphAnswer;

    pub fn gateway_position(
        bytes: *const u8,
        bytes_len: usize,
        offset: usize,
        recording: bool,
        words: *mut u64,
        words_len: usize,
        shape: *mut PositionSyntax,
        full: bool,
    ) -> GatewayAnswer;

    pub fn gateway_metadata(
        bytes: *const u8,
        bytes_len: usize,
        offset: usize,
        recording: bool,
        words: *mut u64,
        words_len: usize,
    ) -> GatewayAnswer;

    pub fn gateway_validation(
        shapes: *const PositionSyntax,
        shapes_len: usize,
        at: usize,
    ) -> GatewayGraphAnswer;

    pub fn gateway_name(word: u64, bytes: *mut u8, bytes_len: usize) -> GatewayAnswer;

    pub fn gateway_parents(
        shapes: *const PositionSyntax,
        shapes_len: usize,
        parents: *const usize,
        parents_len: usize,
        packet: *mut u8,
        packet_len: usize,
    ) -> GatewayAnswer;
}

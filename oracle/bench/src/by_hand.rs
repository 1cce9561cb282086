//! The scene that is read by hand in C: `scene.c`.
use gateway::GraphAnswer;
use gateway::raw::GatewayScene;
use oracle::request::Call;
use std::mem::MaybeUninit;

unsafe extern "C" {
    fn scene_by_hand(
        bytes: *const u8,
        bytes_len: usize,
        offset: usize,
        recording: bool,
        words: *mut u64,
        words_len: usize,
        scene: *mut GatewayScene,
    );
}

pub fn read_scene(bytes: &[u8], offset: usize, recording: bool, words: &mut [u64]) -> GatewayScene {
    let mut scene = MaybeUninit::uninit();
    // SAFETY: every pointer is that of a borrow, with its length, and all of the scene is written.
    unsafe {
        scene_by_hand(
            bytes.as_ptr(),
            bytes.len(),
            offset,
            recording,
            words.as_mut_ptr(),
            words.len(),
            scene.as_mut_ptr(),
        );
        scene.assume_init()
    }
}

/// By hand and by the port, answer, shapes and words must be the same, also the words that are left
/// alone.
pub fn hold_to_port(call: &Call) {
    let (offset, recording) = (call.offset as usize, call.recording);
    let mut by_hand: Vec<u64> = (0..u64::from(call.room)).map(|i| !i).collect();
    let mut by_port = by_hand.clone();
    let hand = read_scene(&call.bytes, offset, recording, &mut by_hand);
    let port = gateway::read_scene(&call.bytes, offset, recording, &mut by_port);
    assert_eq!(GraphAnswer::from(hand.answer), port.answer(), "{call}");
    let (declared, beyond) = hand.shapes.split_at(hand.count);
    assert_eq!((declared, beyond), (port.shapes(), port.beyond()), "{call}");
    assert_eq!(by_hand, by_port, "{call}");
}

#[cfg(test)]
mod tests {
    use super::*;
    use oracle::generate::generate;
    use oracle::request::{Question, Request};
    use port::compare::agreed;

    /// All scenes that seed 1 asks for: by hand as by the port, and by the port as by the Rust.
    #[test]
    fn generated_scenes() {
        let mut scenes = 0;
        for request in generate(1, 1).flatten() {
            if let Request::Call(call) = &request
                && call.question == Question::Scene
            {
                hold_to_port(call);
                agreed(&request).expect("the same answer");
                scenes += 1;
            }
        }
        assert!(scenes > 100_000, "{scenes} scenes");
    }
}

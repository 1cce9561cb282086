//! The fuzz target: libFuzzer calls it with each of its inputs.
#![no_main]
use fuzz::caller::Caller;
use fuzz::input::{KINDS, decode};
use oracle::answer::Answer;
use port::compare::agreed;
use std::cell::RefCell;
use std::ffi::c_int;
use std::process::abort;
use std::slice;
use std::sync::atomic::{AtomicU8, Ordering};

/// More than the greatest number of an answer.
const NUMBERS: usize = 39;

/// Which kind of request was answered by which number. libFuzzer takes these for branches, so that it
/// looks for every number of every kind.
#[used]
#[unsafe(link_section = "__libfuzzer_extra_counters")]
static ANSWERED: [[AtomicU8; NUMBERS]; KINDS.len()] =
    [const { [const { AtomicU8::new(0) }; NUMBERS] }; KINDS.len()];

thread_local! {
    static CALLER: RefCell<Caller> = RefCell::default();
}

#[unsafe(no_mangle)]
extern "C" fn LLVMFuzzerTestOneInput(bytes: *const u8, length: usize) -> c_int {
    // SAFETY: libFuzzer lends so many bytes until this returns.
    let input = unsafe { slice::from_raw_parts(bytes, length) };
    if let Err(message) = compared(input) {
        eprintln!("{message}");
        abort();
    }
    0
}

fn compared(input: &[u8]) -> Result<(), String> {
    let request = decode(input);
    let answer = agreed(&request)?;
    count(&answer);
    let confirmed = CALLER.with_borrow_mut(|caller| caller.confirm(&request, &answer));
    confirmed.map_err(|message| format!("{request}\nbeside faulting pages: {message}"))
}

/// Counts an answer, or of a list those of its packets.
fn count(answer: &Answer) {
    let kind = KINDS.iter().position(|&kind| kind == answer.kind);
    let answered = &ANSWERED[kind.expect("a kind of request")];
    let answers = match answer.packets.as_slice() {
        [] => slice::from_ref(answer),
        packets => packets,
    };
    for answer in answers {
        answered[usize::from(answer.verdict.number)].store(1, Ordering::Relaxed);
    }
}

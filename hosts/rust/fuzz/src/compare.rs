//! A call on both implementations.

use library::{Library, Plain, Refusal, Static};
use std::fmt::Debug;

/// Counters that the fuzzer reads besides the coverage: an answer that is new is
/// worth keeping.
#[cfg_attr(
    target_os = "linux",
    unsafe(link_section = "__libfuzzer_extra_counters")
)]
static mut ANSWERS: [u8; 4096] = [0; 4096];

fn note(call: u8, number: u8, place: u8) {
    let at = (call as usize) << 9 | (number as usize & 31) << 4 | place as usize & 15;
    unsafe { ANSWERS[at & 4095] = 1 };
}

/// Runs a call on both, each with its own copy of the lent bytes, and compares
/// answers and bytes. Returns the answer and the bytes.
pub fn both<T, E>(
    call: u8,
    lent: &[&[u8]],
    run: impl Fn(&dyn Library, &mut [Vec<u8>]) -> Result<T, E>,
) -> (Result<T, E>, Vec<Vec<u8>>)
where
    T: PartialEq + Debug,
    E: PartialEq + Debug + Copy + Into<Refusal>,
{
    let copy = || lent.iter().map(|bytes| bytes.to_vec()).collect::<Vec<_>>();
    let (mut ours, mut plain) = (copy(), copy());
    let answer = run(&Static, &mut ours);
    let expected = run(&Plain, &mut plain);
    assert_eq!(answer, expected, "the answers differ");
    assert!(ours == plain, "{answer:?}: the bytes differ");
    match &answer {
        Ok(_) => note(call, 0, 0),
        Err(refused) => {
            let refusal: Refusal = (*refused).into();
            note(call, refusal.number, refusal.place);
        }
    }
    (answer, ours)
}

/// Shows the tree of a log and its base on both.
pub fn show(log: &[u8], base: &[u8]) {
    let tree = vec![0xa5; plain::TREE];
    let _ = both(7, &[&tree], |library, lent| {
        library.show(log, base, &mut lent[0])
    });
}

//! The harnesses on inputs drawn by chance, without the fuzzer.

use workload::Chance;

fn run(harness: fn(&[u8]), seed: u64) {
    let mut chance = Chance::new(seed);
    for _ in 0..3000 {
        let mut input = vec![0; chance.below(400)];
        chance.bytes(&mut input);
        harness(&input);
    }
}

#[test]
fn takes() {
    run(fuzz::take, 1);
}

#[test]
fn files() {
    run(fuzz::read_file, 2);
}

#[test]
fn acts() {
    run(fuzz::act, 3);
}

#[test]
fn merges() {
    run(fuzz::merge, 4);
}

#[test]
fn rows() {
    run(fuzz::row_calls, 5);
}

#[test]
fn folds() {
    run(fuzz::fold, 7);
}

#[test]
fn sab2_files() {
    run(fuzz::sab2, 8);
}

#[test]
fn orders() {
    run(fuzz::order, 8);
}

#[test]
fn indexes() {
    run(fuzz::index, 6);
}

#[test]
fn plans() {
    run(fuzz::plan, 8);
}

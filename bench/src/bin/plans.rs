//! `plans [--rounds N]`: the time of plans of 4,096 blocks with five events each,
//! the slowest known ones, by each implementation; milliseconds, least of some
//! rounds.

use library::{LOGS, Library, Plain};
use plain::BLOCK;
use std::time::Instant;

const EVENTS: usize = 5 * 4_096;

type Event = [u8; 84];

fn act(unit: u8, label: &str) -> Event {
    let mut event = [0; 84];
    event[..2].copy_from_slice(&[1, unit]);
    let record = &mut event[4..];
    record[..2].copy_from_slice(&[unit, 2]);
    record[28..32].copy_from_slice(&[0xe9, 7, 3, 3]);
    record[32..32 + label.len()].copy_from_slice(label.as_bytes());
    record[64..].fill(0x11);
    event
}

fn pass(from: usize, to: usize) -> Event {
    let mut event = [0; 84];
    event[..3].copy_from_slice(&[2, from as u8, to as u8]);
    event
}

/// The records of all units: 511, made in turn.
fn made() -> Vec<Event> {
    (0..511).map(|i| act((i % 8) as u8, &format!("Trace {i}"))).collect()
}

/// What each unit lacks of the others is brought to all.
fn spread() -> Vec<Event> {
    let around = (0..8).flat_map(|from| (0..8).map(move |to| (from, to)));
    let pairs = around.filter(|(from, to)| from != to);
    // 64 records of each unit at the most, and some that came by the way.
    pairs.flat_map(|(from, to)| vec![pass(from, to); 12]).collect()
}

fn filled(mut events: Vec<Event>, more: impl Fn(usize) -> Event) -> Vec<u8> {
    let more = (events.len()..EVENTS).map(more);
    events.extend(more);
    let block = |events: &[Event]| {
        let mut block = [0; BLOCK];
        block[..4].copy_from_slice(b"PLN1");
        block[9] = events.len() as u8;
        block[28..28 + 84 * events.len()].copy_from_slice(events.as_flattened());
        let (first, second) = plain::sums(&block);
        block[508..510].copy_from_slice(&first.to_le_bytes());
        block[510..].copy_from_slice(&second.to_le_bytes());
        block
    };
    events.chunks(5).flat_map(block).collect()
}

fn plans() -> [(&'static str, Vec<u8>); 4] {
    let all = || [made(), spread()].concat();
    // Each record is passed on alone, to the next unit and around.
    let alone = |i: usize| match i % 8 {
        0 => act(0, &format!("Trace {i}")),
        step => pass(step - 1, step),
    };
    [
        ("511 records at all units, then acts that do not fit", filled(all(), |i| act((i % 8) as u8, "Trace 0"))),
        ("the same, then passes of nothing", filled(all(), |i| pass(i % 8, (i + 1) % 8))),
        ("each record passed on alone", filled(Vec::new(), alone)),
        ("acts that are malformed", filled(Vec::new(), |i| act((i % 8) as u8, ""))),
    ]
}

fn libraries() -> Vec<(&'static str, Box<dyn Library>)> {
    vec![
        ("plain", Box::new(Plain)),
        #[cfg(feature = "static")]
        ("static", Box::new(library::Static)),
    ]
}

fn main() {
    let words: Vec<String> = std::env::args().skip(1).collect();
    let rounds = match words.as_slice() {
        [] => 3,
        [word, rounds] if word == "--rounds" => rounds.parse().unwrap_or(3),
        _ => {
            eprintln!("usage: plans [--rounds N]");
            std::process::exit(2);
        }
    };
    let libraries = libraries();
    println!("4,096 blocks of five events, milliseconds, least of {rounds} rounds");
    let mut logs = vec![0; LOGS];
    let round = logs.first_chunk_mut().expect("eight logs");
    for (name, plan) in plans() {
        print!("{name:56}");
        let mut texts = Vec::new();
        for (column, library) in &libraries {
            let mut least = f64::INFINITY;
            for _ in 0..rounds {
                let start = Instant::now();
                let (tried, text) = library.try_plan(&plan, round);
                least = least.min(start.elapsed().as_secs_f64());
                assert_eq!(tried, Ok(()), "{name}");
                texts.push(text);
            }
            print!(" {column} {:8.1}", 1000.0 * least);
        }
        assert!(texts.windows(2).all(|two| two[0] == two[1]), "{name}");
        println!();
    }
}

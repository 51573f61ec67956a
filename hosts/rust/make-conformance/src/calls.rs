//! Starting, handing out, writing files and showing; a meeting; a full log.

use crate::blocks::unsound_logs;
use crate::kit::{Calls, Shown, Written, lent, log_of};
use make_vectors::chain::blocks_of_six;
use make_vectors::examples::{ROOT, paper, record};
use make_vectors::list::{Lent, List};
use make_vectors::lists;
use plain::{BLOCK, FILE, LOG};

pub fn list() -> Written {
    let mut calls = Calls::new("starting, handing out, writing a file, showing the tree");
    starting(&mut calls);
    handing(&mut calls);
    writing(&mut calls);
    showing(&mut calls);
    calls.written("calls", "the other calls")
}

fn starting(calls: &mut Calls) {
    let log = log_of(&paper());
    let start = |log: Vec<u8>, unit| move |list: &mut List| list.start(0, lent(&log), 7, unit);
    calls.call(1, "start: a log one byte short", start(vec![0; LOG - 1], 0));
    calls.call(1, "start: no log and own unit 8: 1", start(Vec::new(), 8));
    calls.call(21, "start: own unit 8", start(log.clone(), 8));
    calls.call(0, "start: a log with records becomes zeros", start(log, 7));
    for (what, log) in unsound_logs().into_iter().take(1) {
        calls.call(0, &format!("start: a log with {what} too"), start(log, 0));
    }
}

/// A hand-out by unit 1 into 512 lent bytes.
fn hand(log: &[u8], asked: [u16; 8]) -> impl FnOnce(&mut List) -> u8 {
    move |list| list.hand_out(1, lent(log), 7, 1, &asked, (BLOCK, 9))
}

fn handing(calls: &mut Calls) {
    let log = log_of(&blocks_of_six(2)[..7]);
    calls.call(
        1,
        "hand out: a log one byte short",
        hand(&log[..LOG - 1], [0; 8]),
    );
    for length in [0, BLOCK - 1, BLOCK + 1] {
        calls.call(1, &format!("hand out: {length} bytes to write"), |list| {
            list.hand_out(1, lent(&log), 7, 8, &[0; 8], (length, 9))
        });
    }
    calls.call(21, "hand out: own unit 8", |list| {
        list.hand_out(1, lent(&log), 7, 8, &[0; 8], (BLOCK, 9))
    });
    for (what, log) in unsound_logs() {
        calls.call(
            19,
            &format!("hand out: a lent log with {what}"),
            hand(&log, [0; 8]),
        );
    }
    calls.call(
        0,
        "hand out: of seven lacking records the first six by rank",
        hand(&log, [0; 8]),
    );
    calls.call(
        0,
        "hand out: the seventh, to a vector that has the six",
        hand(&log, [4, 1, 1, 0, 0, 0, 0, 0]),
    );
    calls.call(
        0,
        "hand out: nothing lacking, a block of count 0",
        hand(&log, [5, 1, 1, 0, 0, 0, 0, 0]),
    );
    calls.call(
        0,
        "hand out: to a vector with counts that the log has not",
        hand(&log, [65_535, 0, 65_535, 0, 0, 0, 0, 1]),
    );
    calls.call(
        0,
        "hand out: lacking is judged unit by unit",
        hand(&log, [2, 0, 0, 9, 0, 0, 0, 0]),
    );
    calls.call(0, "hand out: of an empty log", hand(&vec![0; LOG], [0; 8]));
}

fn writing(calls: &mut Calls) {
    let log = log_of(&blocks_of_six(2)[..7]);
    let write = |log: &[u8], unit: u8, length: usize| {
        let log = log.to_vec();
        move |list: &mut List| list.write(1, lent(&log), u32::MAX, unit, length, 9)
    };
    calls.call(
        1,
        "write: a log one byte long",
        write(&vec![0; LOG + 1], 1, FILE),
    );
    calls.call(1, "write: no bytes to write", write(&log, 1, 0));
    calls.call(
        1,
        "write: one byte less to write and own unit 8: 1",
        write(&log, 8, FILE - 1),
    );
    calls.call(21, "write: own unit 8", write(&log, 8, FILE));
    for (what, log) in unsound_logs().into_iter().take(1) {
        calls.call(
            19,
            &format!("write: a lent log with {what}"),
            write(&log, 1, FILE),
        );
    }
    calls.call(
        0,
        "write: an empty log, one block; zeros behind it",
        write(&vec![0; LOG], 7, FILE),
    );
    calls.call(
        0,
        "write: six records, one block",
        write(&log_of(&blocks_of_six(1)), 1, FILE),
    );
    calls.call(0, "write: seven records, two blocks", write(&log, 1, FILE));
}

fn showing(calls: &mut Calls) {
    let show = |log: Vec<u8>| move |list: &mut List| list.show(1, lent(&log));
    calls.call(1, "show: a log one byte short", show(vec![0; LOG - 1]));
    for (what, log) in unsound_logs() {
        calls.call(19, &format!("show: a lent log with {what}"), show(log));
    }
    calls.call(0, "show: an empty log", show(vec![0; LOG]));
    calls.call(
        0,
        "show: the worked example of docs/FORMAT.md",
        show(log_of(&paper())),
    );
}

/// A meeting of two units that is cut, continued and repeated; then a unit that
/// lost its log.
pub fn meeting() -> Written {
    let mut calls = Calls::new("a meeting that is cut and continued, and a unit that lost its log");
    let act = |unit: u8, operation: u8, named: (u8, u16), label: &'static str, mark: u8| {
        move |list: &mut List| {
            let mut wish = record(unit, &[], operation, named, label, mark, 3);
            wish[2..20].fill(0);
            list.act(unit as usize, Lent::Own, 7, unit, &wish)
        }
    };
    let hand = |from: usize, to: usize| {
        move |list: &mut List| {
            let asked = workload::vector_of(&list.logs[to]);
            list.hand_out(from, Lent::Own, 7, from as u8, &asked, (BLOCK, 1))
        }
    };
    // A block given before, counted back from the last.
    let take = |to: usize, back: usize| {
        move |list: &mut List| {
            let block = list.given[list.given.len() - 1 - back].clone();
            list.take(to, Lent::Own, 7, to as u8, &block)
        }
    };
    let show = |slot: usize| move |list: &mut List| list.show(slot, Lent::Own);
    let start = |slot: usize| move |list: &mut List| list.start(slot, Lent::Own, 7, slot as u8);

    calls.call(0, "unit 0 starts", start(0));
    calls.call(0, "unit 1 starts", start(1));
    for (shows, label) in [("0.1", "a"), ("0.2", "b"), ("0.3", "c"), ("0.4", "d")] {
        calls.call(
            0,
            &format!("{shows} makes a trace"),
            act(0, 2, ROOT, label, 1),
        );
    }
    for (shows, label) in [("0.5", "e"), ("0.6", "f"), ("0.7", "g")] {
        calls.call(
            0,
            &format!("{shows} makes a trace"),
            act(0, 2, ROOT, label, 1),
        );
    }
    calls.call(
        0,
        "1.1 makes a trace of a label that 0.1 has",
        act(1, 2, ROOT, "a", 2),
    );
    calls.call(0, "unit 0 hands out the first six of seven", hand(0, 1));
    calls.call(
        0,
        "unit 1 takes them; 1.1 stands aside from now on",
        take(1, 0),
    );
    calls.call(
        0,
        "what unit 1 shows when the meeting breaks off here",
        show(1),
    );
    calls.call(0, "0.8 removes the first trace", act(0, 4, (0, 1), "", 0));
    calls.call(
        0,
        "a later meeting goes on: unit 0 hands out the other two",
        hand(0, 1),
    );
    calls.call(0, "unit 1 takes them", take(1, 0));
    calls.call(
        0,
        "the first block comes again and changes nothing",
        take(1, 1),
    );
    calls.call(0, "unit 0 hands out: nothing lacking", hand(0, 1));
    calls.call(0, "unit 1 takes the block without records", take(1, 0));
    calls.call(0, "unit 1 hands out 1.1", hand(1, 0));
    calls.call(0, "unit 0 takes it", take(0, 0));
    calls.call(0, "both show the same: unit 0", show(0));
    calls.call(0, "both show the same: unit 1", show(1));
    calls.call(0, "0.9 settles 1.1", act(0, 6, (1, 1), "", 0));
    calls.call(0, "unit 0 shows the aside settled", show(0));
    calls.call(0, "unit 1 is started again and has lost its log", start(1));
    calls.call(
        0,
        "it acts before it took its own record back: another 1.1",
        act(1, 2, ROOT, "z", 9),
    );
    calls.call(
        0,
        "unit 1 hands it out to a unit that has nothing",
        hand(1, 5),
    );
    calls.call(10, "unit 0 holds another 1.1", take(0, 0));
    calls.call(
        0,
        "started once more, it gets its own record from unit 0",
        start(1),
    );
    calls.call(0, "unit 0 hands out the first six", hand(0, 1));
    calls.call(0, "unit 1 takes them, its own among them", take(1, 0));
    calls.call(0, "unit 0 hands out the rest", hand(0, 1));
    calls.call(0, "unit 1 takes them", take(1, 0));
    calls.call(0, "now it acts: 1.2", act(1, 2, ROOT, "z", 9));
    calls.call(0, "what unit 1 shows", show(1));
    calls.written("meeting", "a meeting, call by call")
}

/// A log filled to 512 records, then full.
pub fn full() -> Written {
    let shown = |shows: &str, answer: &str| Shown {
        shows: shows.to_string(),
        answer: answer.to_string(),
    };
    Written {
        name: "full",
        about: "a log filled to 512 records by 86 takes, then full",
        text: lists::full(),
        cases: vec![
            shown("86 blocks are taken, up to the 512th record", "0 each"),
            shown("the full log is shown, written and handed out", "0 each"),
            shown("an act on a full log", "11"),
            shown("a malformed wish on a full log: 7 comes before 11", "7"),
            shown(
                "a stroke in a label on a full log: 24 comes before 11",
                "24",
            ),
            shown("a block with a 513th record", "11"),
            shown(
                "the same with another number, then with seen that is not closed: 8 and 9 come before 11",
                "8, 9",
            ),
            shown("a block of held records only is taken by a full log", "0"),
        ],
    }
}

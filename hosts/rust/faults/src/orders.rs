//! Every order in which three units with few records meet.

use crate::study::{Plan, Tally, Wrong, incorrect};
use crate::world::{Goal, apart, held, meet, pass};
use library::Library;
use workload::{Mix, vector_of};

/// From which unit to which a block can pass.
const WAYS: [(usize, usize); 6] = [(0, 1), (0, 2), (1, 0), (1, 2), (2, 0), (2, 1)];

/// Every sequence of so many passes of one block, then meetings until all hold
/// all.
pub fn all(library: &dyn Library, plan: &Plan) -> Tally {
    let mut tally = Tally::default();
    for round in 0..plan.count(4, 24) {
        let mix = [Mix::CONFLICTS, Mix::MOVES, Mix::CASES][round % 3];
        let logs = apart(3, 4 + round % 5, &mix, 77 * plan.seed + round as u64);
        let goal = Goal::of(&logs);
        let mut orders = Orders {
            library,
            plan,
            goal: &goal,
            way: Vec::new(),
            tally: &mut tally,
        };
        orders.from(logs, plan.count(3, 5));
    }
    tally
}

struct Orders<'a> {
    library: &'a dyn Library,
    plan: &'a Plan,
    goal: &'a Goal,
    /// The passes so far.
    way: Vec<(usize, usize)>,
    tally: &'a mut Tally,
}

impl Orders<'_> {
    /// Goes on from these logs with every sequence of so many passes.
    fn from(&mut self, logs: Vec<Vec<u8>>, passes: usize) {
        if !self.tally.goes_on(self.plan) {
            return;
        }
        if passes == 0 {
            let end = self.close(logs);
            self.tally.count(|| format!("passes {:?}", self.way), end);
            return;
        }
        for (from, to) in WAYS {
            let mut logs = logs.clone();
            self.way.push((from, to));
            match pass(self.library, &mut logs, from, to, 1) {
                Ok(_) => self.from(logs, passes - 1),
                Err(wrong) => self
                    .tally
                    .count(|| format!("passes {:?}", self.way), Err(wrong)),
            }
            self.way.pop();
        }
    }

    /// Equal vectors have equal logs; then the units meet until all hold all.
    fn close(&self, mut logs: Vec<Vec<u8>>) -> Result<bool, Wrong> {
        for (one, other) in [(0, 1), (0, 2), (1, 2)] {
            let same = vector_of(&logs[one]) == vector_of(&logs[other]);
            if same != (logs[one] == logs[other]) {
                return incorrect("equal vectors, other logs");
            }
        }
        let turn = self.way.iter().map(|(from, _)| *from).sum::<usize>() % 3;
        let all = held(&self.goal.log);
        for meeting in 0..4 {
            let one = (turn + meeting) % 3;
            meet(self.library, &mut logs, one, (one + 1) % 3)?;
            if logs.iter().all(|log| held(log) == all) {
                break;
            }
        }
        self.goal.reached(self.library, &logs)
    }
}

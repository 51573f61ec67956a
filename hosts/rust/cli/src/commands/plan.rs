//! `sab plan`: a round of visits, tried out.

use super::{Command, Session};
use crate::args::{as_text, nearest, value};
use crate::failure::{Failure, Outcome, PlanRefused, usage};
use crate::files::{self, Over};
use crate::json::Object;
use crate::out::{Status, shown};
use crate::plan_text::{self, Fault};
use crate::why::{self, counted};
use sab::raw;
use std::path::Path;

/// `sab plan`.
pub const COMMAND: Command = Command {
    name: "plan",
    usage: &[
        "plan run PLAN",
        "plan show PLAN",
        "plan compile TEXT -o PLAN",
    ],
    summary: "try out a round of visits: who ends with what",
    page: "\
A plan says what eight units do that start empty: acts, and blocks passed from one
to another. docs/PLANS.md has its form. run tries it and prints, byte for byte as
the program visits does, the vector of each unit, how each pair compares, and how
many acts were skipped since they were refused. An answer 0 of a pair means the
same records and the same tree; 1 that the first has all of the second's and more,
2 the other way round, 3 that each lacks something. show prints a plan as text,
and compile makes a plan of such a text; - is standard input.

    $ cat round.txt
    # Tuesday: the van meets the bench
    archive 7
    act 0 make-folder Bench on 2025-03-03
    act 0 make-trace \"Gain A\" in 0.1 on 2025-03-04 mark 11111111111111111111111111111111
    pass 0 1
    act 1 rename 0.2 \"Gain B\" on 2025-03-05
    pass 1 0
    $ sab plan compile round.txt -o round.pln
    round.pln: 1 block, 5 events
    $ sab plan run round.pln | head -2
    unit 0 seen 2 1 0 0 0 0 0 0
    unit 1 seen 2 1 0 0 0 0 0 0

A line of the text is an event; # begins a remark. The first line names the archive.

    act UNIT make-folder LABEL [in FOLDER] on DATE
    act UNIT make-trace LABEL [in FOLDER] on DATE mark MARK
    act UNIT store TRACE on DATE mark MARK
    act UNIT rename ENTRY LABEL on DATE
    act UNIT move ENTRY LABEL [in FOLDER] on DATE
    act UNIT remove ENTRY on DATE
    act UNIT settle RECORD on DATE
    act UNIT record BYTES
    pass UNIT OTHER [x TIMES]
    block

Labels with spaces stand between quotes, with a backslash before a quote or a
backslash in them. FOLDER, TRACE, ENTRY and RECORD are identities, as 0.2; without
in it is the root. record gives the 80 bytes of a wish in hexadecimal. block
begins a new block; otherwise five events go into each. A fault is told with its
line and its column.",
    options: &[value(
        "output",
        Some('o'),
        "PLAN",
        "the file to write; - is standard output",
    )],
    statuses: "0 tried, shown or written; 2 the text is wrong: line and column are told; 3 a file cannot be read or \
               written; 4 the plan is refused",
    run,
};

/// One byte more than a plan may have.
const LIMIT: usize = 4_096 * raw::BLOCK + 1;

const WORDS: [&str; 3] = ["run", "show", "compile"];

fn run(session: &mut Session) -> Outcome<Status> {
    let words = session.args.words().to_vec();
    let [word, name] = words.as_slice() else {
        return Err(usage("run PLAN, show PLAN or compile TEXT -o PLAN wanted"));
    };
    let name = Path::new(name);
    match as_text(word, "plan")? {
        "compile" => compile(session, name),
        _ if session.args.has("output") => Err(usage("only compile has -o")),
        "run" => try_out(session, name),
        "show" => show(session, name),
        other => {
            let near = nearest(other, WORDS.into_iter()).map(|near| format!(": did you mean {near}?"));
            Err(usage(format!(
                "no plan {}{}",
                other.escape_debug(),
                near.unwrap_or_default()
            )))
        }
    }
}

/// The refusal of a plan, with the bytes behind it.
fn refused(name: &Path, plan: &[u8], refusal: sab::PlanRefusal) -> Failure {
    Failure::Plan(PlanRefused {
        file: name.to_path_buf(),
        refusal,
        detail: why::of_plan(plan, refusal),
    })
}

fn try_out(session: &mut Session, name: &Path) -> Outcome<Status> {
    let plan = files::read(session.system, name, LIMIT)?.bytes;
    match sab::try_plan(&plan) {
        Ok(visits) => {
            if session.out.json {
                objects(session, visits.text());
            } else {
                session.out.bytes(visits.text().as_bytes());
            }
            Ok(Status::Yes)
        }
        Err(refusal) => {
            let line = format!("refused {} at {}", refusal.number, refusal.place);
            session.out.line(line);
            Err(refused(name, &plan, refusal))
        }
    }
}

/// The lines of a round as objects.
fn objects(session: &mut Session, text: &str) {
    for line in text.lines() {
        let words: Vec<&str> = line.split(' ').collect();
        let number = |at: usize| words.get(at).and_then(|word| word.parse().ok()).unwrap_or(0u64);
        session.out.object(|| match words.first() {
            Some(&"unit") => Object::new("unit")
                .number("unit", number(1))
                .text("vector", words[3..].join(" ")),
            Some(&"pair") => Object::new("pair")
                .number("first", number(1))
                .number("second", number(2))
                .number("answer", number(4)),
            _ => Object::new("skipped").number("acts", number(1)),
        });
    }
}

fn show(session: &mut Session, name: &Path) -> Outcome<Status> {
    let plan = files::read(session.system, name, LIMIT)?.bytes;
    match sab::Plan::read(&plan) {
        Ok(read) => {
            session.out.bytes(plan_text::show(&read).as_bytes());
            Ok(Status::Yes)
        }
        Err(refusal) => Err(refused(name, &plan, refusal)),
    }
}

/// A text of the longest plan is not longer.
const TEXT: usize = 8 << 20;

fn compile(session: &mut Session, name: &Path) -> Outcome<Status> {
    let target = session
        .args
        .path("output")
        .ok_or_else(|| usage("-o PLAN wanted"))?;
    let read = files::read(session.system, name, TEXT)?.bytes;
    let Ok(text) = str::from_utf8(&read) else {
        return Err(usage(format!("{} is not text", shown(name))));
    };
    let plan = plan_text::compile(text).map_err(|Fault { line, column, words }| {
        usage(format!("{}:{line}:{column}: {}", shown(name), words.escape_debug()))
    })?;
    let bytes = plan.to_bytes();
    if let Err(refusal) = sab::try_plan(&bytes) {
        return Err(refused(name, &bytes, refusal));
    }
    if files::is_standard(&target) {
        session.out.bytes(&bytes);
        return Ok(Status::Yes);
    }
    files::create(session.system, &target, &bytes, Over::Never, &|_| true)?;
    let (blocks, events) = (plan.blocks().count(), plan.blocks().map(<[_]>::len).sum());
    session.out.object(|| {
        Object::new("plan")
            .text("file", shown(&target))
            .number("blocks", blocks as u64)
            .number("events", events as u64)
    });
    session.out.line(format_args!(
        "{}: {}, {}",
        shown(&target),
        counted(blocks, "block"),
        counted(events, "event")
    ));
    Ok(Status::Yes)
}

//! `sab fold`: places of a log are freed.

use super::meet::tell_dry_run;
use super::{Command, Session};
use crate::archive::{Archive, Own, ROOM};
use crate::args::{BACKUP, DRY_RUN, OWN_UNIT, Opt, value};
use crate::failure::{Outcome, Refused, usage};
use crate::json::Object;
use crate::numbers::Case;
use crate::out::{Status, shown};
use crate::why::counted;
use sab::{Identity, Log, Record, Unit, Units, Vector};

/// `sab fold`.
pub const COMMAND: Command = Command {
    name: "fold",
    usage: &["fold FILE --units=U,U.. --own-unit=U"],
    summary: "free places in the log: fold what every unit has heard of",
    page: "\
Lists the units of the archive and folds: the records, from the lowest rank on, that
every listed unit is known to have heard of leave the log. What they come to, the
tree and the asides, stays in the file, and the tree shown, the counts of the
vector and all later answers are as before. A log holds 512 records that are not
folded; sab check says how many places are free.

    $ sab new -q office.sab --archive=12 --unit=7
    $ sab act office.sab --own-unit=7 make-folder Bench --date=2025-03-03
    7.1: unit 7 made the folder \"Bench\" in the root on 2025-03-03
    $ sab fold office.sab --units=7 --own-unit=7
    office.sab: folded 1 record of 1; 0 left, 512 places free; base: 1 entry, 0 asides
    office.sab: it has the form SAB2 now (sab help convert)

--units names every unit that makes records in this archive, now or later. A unit
that is left out and makes a record later is refused here for good (26, then 27). A
listed unit tells by each record that it makes what it has heard; one that has made
none, or none of late, holds all folding back, and it is said which. Let such a
unit make a record, a settle or a rename say, and meet it.

A file with folded records, or with a list other than all eight units, has the form
SAB2. All commands but sab merge take it, and replace it in its form; an analyser
before version 7 refuses it (3), and no SAB1 file can hold what is folded (29).
Records that are folded cannot be compared or handed out any more: a unit that
lacks them takes from another that has not folded (27), and a unit that was started
again cannot take its own back. Keep the last card from before: --backup does.

As sab act, this is for a file whose only home is this machine; --own-unit says each
time which unit this is.",
    options: OPTIONS,
    statuses: "0 folded, or nothing to fold; 3 the file cannot be read or written; 4 refused: the list lacks a unit",
    run,
};

const OPTIONS: &[Opt] = &[
    value(
        "units",
        None,
        "U,U..",
        "the units of the archive, as 0,1,2; without it those listed before",
    ),
    OWN_UNIT,
    DRY_RUN,
    BACKUP,
];

fn run(session: &mut Session) -> Outcome<Status> {
    let names = session.args.files(1..=1, "one FILE")?;
    let unit = super::act::own_unit(session)?;
    let own = Own::open(session.system, &names[0])?;
    let archive = &own.archive;
    if unit != archive.log.unit() {
        return Err(usage(format!(
            "{} is the file of unit {}, not of unit {unit}",
            shown(&names[0]),
            archive.log.unit()
        )));
    }
    let listed = archive.log.base().units();
    let units: Units = session.args.parsed("units")?.unwrap_or(listed);
    let mut log = archive.log.clone();
    let folded = log.fold(units).map_err(|refusal| {
        let detail = left_out(archive, units);
        Refused::new(&names[0], refusal, Case::Act, detail)
    })?;
    if !session.args.has("dry-run") {
        own.replace(&log, session.args.has("backup"))?;
    }
    tell(session, archive, &log, folded.into())?;
    tell_dry_run(session);
    Ok(Status::Yes)
}

/// The units that a list lacks.
fn left_out(archive: &Archive, units: Units) -> Option<String> {
    let own = archive.log.unit();
    let missing = |unit: &Unit| !units.contains(*unit);
    if missing(&own) {
        return Some(format!("unit {own} itself is not listed"));
    }
    let mut counted = Unit::ALL.into_iter().filter(|unit| archive.vector[*unit] > 0);
    let unit = counted.find(missing)?;
    Some(format!("unit {unit} has records and is not listed"))
}

fn tell(session: &mut Session, before: &Archive, log: &Log, folded: usize) -> Outcome<()> {
    let (held, left) = (before.log.records().len(), log.records().len());
    let base = log.base();
    let back = held_back(log);
    let listed: Vec<u16> = base.units().iter().map(|unit| unit.number().into()).collect();
    session.out.object(|| {
        let object = Object::new("fold")
            .text("file", before.shown())
            .text("form", before.form.keeping(log))
            .number("folded", folded as u64)
            .number("left", left as u64)
            .number("entries", base.entries().len() as u64)
            .number("asides", base.asides().len() as u64)
            .numbers("listed", &listed);
        match &back {
            Some(back) => object
                .text("next", back.record)
                .texts("held_back_by", &back.units),
            None => object,
        }
    });
    session.out.line(format_args!(
        "{}: folded {} of {held}; {left} left, {} free; base: {}, {}",
        before.shown(),
        counted(folded, "record"),
        counted(ROOM - left, "place"),
        entries(base.entries().len()),
        counted(base.asides().len(), "aside"),
    ));
    if let Some(back) = back {
        session.out.line(format_args!("{}: {}", before.shown(), back.words()));
    }
    let form = before.form.keeping(log);
    if form != before.form {
        session.out.line(format_args!(
            "{}: it has the form {form} now (sab help convert)",
            before.shown()
        ));
    }
    Ok(())
}

fn entries(count: usize) -> String {
    match count {
        1 => "1 entry".to_string(),
        some => format!("{some} entries"),
    }
}

/// The record that comes next, and the listed units that have not told of it.
struct HeldBack {
    record: Identity,
    units: Vec<Unit>,
}

impl HeldBack {
    fn words(&self) -> String {
        let names: Vec<String> = self.units.iter().map(Unit::to_string).collect();
        match names.as_slice() {
            [] => format!(
                "{} is not folded: the base has no room for 512 entries or asides more",
                self.record
            ),
            [one] => format!(
                "unit {one} has not told of {} yet: let it make a record, then meet it",
                self.record
            ),
            _ => format!(
                "units {} have not told of {} yet: let each make a record, then meet it",
                names.join(", "),
                self.record
            ),
        }
    }
}

/// What a unit has told by its last record in the log.
fn heard(log: &Log, unit: Unit) -> Vector {
    let last = log.records().rev().find(|record| record.unit() == unit);
    match last {
        None => log.base().vector(),
        Some(last) => {
            let mut counts = *last.seen().counts();
            counts[usize::from(unit.number())] = last.identity().number();
            Vector::from(counts)
        }
    }
}

/// Who holds the next record back.
fn held_back(log: &Log) -> Option<HeldBack> {
    let record = log.records().next().map(Record::identity)?;
    let others = log.base().units().iter().filter(|unit| *unit != log.unit());
    let units = others.filter(|unit| heard(log, *unit).lacks(record));
    Some(HeldBack {
        record,
        units: units.collect(),
    })
}

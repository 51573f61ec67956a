//! `sab convert`: a file of the other form.

use super::{Command, Session};
use crate::archive::{Archive, Form, LIMIT, judge, written};
use crate::args::value;
use crate::failure::{Outcome, Refused, usage};
use crate::files::{self, Bytes, Over, is_standard};
use crate::json::Object;
use crate::numbers::Case;
use crate::out::{Status, shown};
use crate::why::{self, counted};
use sab::raw::BLOCK;
use sab::{Answer, Log, Refusal, Units, to_sab1, to_sab2};
use std::path::Path;

/// `sab convert`.
pub const COMMAND: Command = Command {
    name: "convert",
    usage: &["convert FILE --to=sab1|sab2 -o OUT"],
    summary: "the same archive as a file of the other form",
    page: "\
Writes a new file OUT with the records, the archive and the unit of FILE, in the
form that is asked for. SAB1 has records alone; every analyser reads it. SAB2 has
the list of units and the base too, that is what folded records left (sab help
fold); analysers read it from version 7 on. FILE stays as it is.

    $ sab convert bench.sab --to=sab2 -o bench2.sab
    bench2.sab: SAB2, 2 blocks, 3 records, 0 folded, units 0,1,2,3,4,5,6,7
    $ sab convert bench2.sab --to=sab1 -o back.sab
    back.sab: SAB1, 1 block, 3 records
    $ cmp bench.sab back.sab

SAB1 becomes SAB2 with nothing folded and all eight units listed, and back again it
is the same file, byte for byte. The way back is refused if records are folded (29):
SAB1 has no place for what they left. It has none for a list either: if FILE lists
fewer than eight units, that is lost, and it is said which; whoever folds next
lists them again.

FILE is checked as sab check does it. One that has the form already is refused (3).",
    options: &[
        value("to", None, "FORM", "the form of OUT: sab1 or sab2"),
        value(
            "output",
            Some('o'),
            "OUT",
            "the file to write; - is standard output",
        ),
    ],
    statuses: "0 written; 3 a file cannot be read or written; 4 the file is refused, or records are folded",
    run,
};

fn run(session: &mut Session) -> Outcome<Status> {
    let names = session.args.files(1..=1, "one FILE")?;
    let form = match session.args.text("to")? {
        Some("sab1" | "SAB1") => Form::Sab1,
        Some("sab2" | "SAB2") => Form::Sab2,
        Some(other) => {
            let other = other.escape_debug();
            return Err(usage(format!("--to: {other} is not sab1 or sab2")));
        }
        None => return Err(usage("--to=sab1 or --to=sab2 wanted")),
    };
    let target = session
        .args
        .path("output")
        .ok_or_else(|| usage("-o OUT wanted"))?;
    let name = &names[0];
    let read = files::read(session.system, name, LIMIT)?;
    let file = converted(name, &read, form)?;
    let before = judge(name, &read.bytes, read.length)?;
    if is_standard(&target) {
        session.out.bytes(&file);
    } else {
        let good = |back: &[u8]| back == file;
        files::create(session.system, &target, &file, Over::Never, &good)?;
        tell(session, &target, &file)?;
    }
    tell_lost_list(session, name, &before, form);
    Ok(Status::Yes)
}

/// The file in the form that is asked for, by the library. A state file is its own
/// log's.
fn converted(name: &Path, read: &Bytes, form: Form) -> Outcome<Vec<u8>> {
    let file: Answer<Vec<u8>> = match (Form::of(&read.bytes), form) {
        (Form::State, _) => written(&judge(name, &read.bytes, read.length)?, form),
        (_, Form::Sab1) => to_sab1(&read.bytes),
        (_, _) => to_sab2(&read.bytes),
    };
    file.map_err(|refusal| refused(name, read, form, refusal).into())
}

fn refused(name: &Path, read: &Bytes, form: Form, refusal: Refusal) -> Refused {
    if Form::of(&read.bytes) == form {
        return Refused {
            todo: Some("it need not be converted".to_string()),
            ..Refused::new(
                name,
                refusal,
                Case::File,
                Some(format!("it has the form {form} already")),
            )
        };
    }
    let detail = match refusal.number {
        29 => Log::read_file(&read.bytes).ok().map(|log| {
            let folded = log.base().vector().sum() as usize;
            counted(folded, "record")
        }),
        _ => why::of_file(&read.bytes, read.length, refusal),
    };
    Refused::new(name, refusal, Case::File, detail)
}

fn tell(session: &mut Session, target: &Path, file: &[u8]) -> Outcome<()> {
    let log = judge(target, file, None)?;
    let archive = Archive::of(target, Form::of(file), log, None)?;
    let blocks = file.len() / BLOCK;
    session.out.object(|| {
        Object::new("converted")
            .text("file", shown(target))
            .text("form", archive.form)
            .number("blocks", blocks as u64)
    });
    session.out.object(|| archive.object());
    let base = match archive.form {
        Form::Sab1 => String::new(),
        _ => format!(
            ", {} folded, units {}",
            archive.folded(),
            archive.log.base().units()
        ),
    };
    session.out.line(format_args!(
        "{}: {}, {}, {}{base}",
        shown(target),
        archive.form,
        counted(blocks, "block"),
        counted(archive.log.records().len(), "record"),
    ));
    Ok(())
}

/// Says that SAB1 has no place for a short list.
fn tell_lost_list(session: &mut Session, name: &Path, before: &Log, form: Form) {
    let units = before.base().units();
    if form != Form::Sab1 || units == Units::ALL {
        return;
    }
    let listed: Vec<u16> = units.iter().map(|unit| unit.number().into()).collect();
    session.out.object(|| {
        Object::new("lost_list")
            .text("file", shown(name))
            .numbers("listed", &listed)
    });
    session.out.complain(
        Some(name),
        format_args!(
            "its list, units {units}, is lost on the way: SAB1 holds none, and all eight are listed"
        ),
        Some(
            "keep the file as it was too; whoever folds next lists the units again (sab help fold)",
        ),
    );
}

//! Why a command could not do what it was asked.

use crate::args::Usage;
use crate::files::Trouble;
use crate::json::Object;
use crate::numbers::{self, Case};
use crate::out::{Ink, Out, Status, shown};
use sab::{PlanRefusal, Refusal};
use std::path::{Path, PathBuf};

/// Why a command could not do what it was asked.
#[derive(Debug)]
pub enum Failure {
    /// The command line is wrong.
    Usage(Usage),
    /// The system refused.
    Trouble(Trouble),
    /// The library refused.
    Refused(Refused),
    /// The library refused a plan.
    Plan(PlanRefused),
}

/// What a command answers.
pub type Outcome<T> = Result<T, Failure>;

/// A refusal of the library, with the file that it is about.
#[derive(Debug)]
pub struct Refused {
    /// The file.
    pub file: PathBuf,
    /// Number and place.
    pub refusal: Refusal,
    /// The bytes behind it, if they were found.
    pub detail: Option<String>,
    /// Where it was met.
    pub case: Case,
    /// What to do, where the table's words do not say it.
    pub todo: Option<String>,
}

/// A refusal of a plan, with its file.
#[derive(Debug)]
pub struct PlanRefused {
    /// The file.
    pub file: PathBuf,
    /// Number and place.
    pub refusal: PlanRefusal,
    /// The bytes behind it, if they were found.
    pub detail: Option<String>,
}

impl PlanRefused {
    fn words(&self) -> String {
        with_detail(self.refusal.to_string(), self.detail.as_deref())
    }

    /// What to do about it.
    fn advice(&self) -> &'static str {
        match self.refusal.number {
            2 => "the plan was cut short, has something behind it, or is too long",
            3 => "not a plan; sab plan compile makes one of a text",
            4 => "a byte changed: compile or copy the plan again",
            _ => "mend what made the plan; sab plan compile makes plans that pass",
        }
    }

    /// Says it: on standard error, or as an object.
    fn tell(&self, out: &mut Out) {
        if out.json {
            out.object(|| {
                Object::new("refusal")
                    .text("file", shown(&self.file))
                    .number("number", self.refusal.number)
                    .number("place", self.refusal.place)
                    .text("words", self.words())
                    .text("todo", self.advice())
            });
            return;
        }
        let words = out.ink(Ink::Alarm, self.words());
        out.complain(Some(&self.file), words, Some(self.advice()));
    }
}

/// The words of a refusal without a place: number, cause and the bytes.
pub fn refusal_words(refusal: Refusal, case: Case, detail: Option<&str>) -> String {
    let Refusal { number, .. } = refusal;
    with_detail(
        format!("refused {number}: {}", numbers::cause(number, case)),
        detail,
    )
}

fn with_detail(words: String, detail: Option<&str>) -> String {
    match detail {
        Some(detail) => format!("{words} ({detail})"),
        None => words,
    }
}

impl Refused {
    /// A refusal of a file, or of what was asked of it.
    pub fn new(file: &Path, refusal: Refusal, case: Case, detail: Option<String>) -> Refused {
        Refused {
            file: file.to_path_buf(),
            refusal,
            detail,
            case,
            todo: None,
        }
    }

    /// The refusal as the reading program prints it, the cause, and the bytes.
    pub fn words(&self) -> String {
        let Refusal { number, place } = self.refusal;
        let cause = numbers::cause(number, self.case);
        with_detail(
            format!("refused {number} at {place}: {cause}"),
            self.detail.as_deref(),
        )
    }

    /// What to do about it.
    pub fn advice(&self) -> Option<&str> {
        self.todo
            .as_deref()
            .or(numbers::advice(self.refusal.number, self.case))
    }

    /// Says it: on standard error, or as an object.
    pub fn tell(&self, out: &mut Out) {
        if out.json {
            out.object(|| self.object());
            return;
        }
        let words = out.ink(Ink::Alarm, self.words());
        out.complain(Some(&self.file), words, self.advice());
    }

    fn object(&self) -> Object {
        Object::new("refusal")
            .text("file", shown(&self.file))
            .number("number", self.refusal.number)
            .number("place", self.refusal.place)
            .text("words", self.words())
            .maybe("todo", self.advice())
    }
}

impl From<Usage> for Failure {
    fn from(usage: Usage) -> Failure {
        Failure::Usage(usage)
    }
}

impl From<Trouble> for Failure {
    fn from(trouble: Trouble) -> Failure {
        Failure::Trouble(trouble)
    }
}

impl From<Refused> for Failure {
    fn from(refused: Refused) -> Failure {
        Failure::Refused(refused)
    }
}

/// A refusal that is no fault of any file: it has a name to be told under.
pub fn of_library(file: &Path, case: Case) -> impl Fn(Refusal) -> Failure {
    move |refusal| Failure::Refused(Refused::new(file, refusal, case, None))
}

/// A command line that is wrong, in words.
pub fn usage(words: impl Into<String>) -> Failure {
    Failure::Usage(Usage(words.into()))
}

impl Failure {
    /// Says it, and what the run comes to.
    pub fn tell(&self, command: &str, out: &mut Out) -> Status {
        match self {
            Failure::Usage(Usage(words)) => {
                let advice = format!("sab help {command} tells how it is used");
                out.complain(None, format_args!("{command}: {words}"), Some(&advice));
                Status::Usage
            }
            Failure::Trouble(trouble) => {
                out.object(|| {
                    Object::new("trouble")
                        .text("file", shown(&trouble.file))
                        .text("words", &trouble.words)
                        .maybe("todo", trouble.advice)
                });
                out.complain(Some(&trouble.file), &trouble.words, trouble.advice);
                Status::System
            }
            Failure::Refused(refused) => {
                refused.tell(out);
                Status::Refused
            }
            Failure::Plan(refused) => {
                refused.tell(out);
                Status::Refused
            }
        }
    }
}

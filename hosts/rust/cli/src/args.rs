//! The command line: words and options.
//!
//! Options stand anywhere before `--`: `-x`, `-x VALUE`, `--long`,
//! `--long=VALUE`, `--long VALUE`. A lone `-` is a word.

use std::ffi::{OsStr, OsString};
use std::fmt::Display;
use std::ops::RangeInclusive;
use std::os::unix::ffi::OsStrExt;
use std::path::PathBuf;
use std::str::FromStr;

/// A command line that is wrong, in words.
#[derive(Debug, PartialEq, Eq)]
pub struct Usage(pub String);

/// What parsing answers.
pub type Read<T> = Result<T, Usage>;

/// An option of a command.
#[derive(Clone, Copy, Debug)]
pub struct Opt {
    /// The word behind `--`.
    pub long: &'static str,
    /// The letter behind `-`, if it has one.
    pub short: Option<char>,
    /// What its value is called, if it has one.
    pub value: Option<&'static str>,
    /// What it does.
    pub words: &'static str,
}

/// An option without a value.
pub const fn flag(long: &'static str, short: Option<char>, words: &'static str) -> Opt {
    Opt {
        long,
        short,
        value: None,
        words,
    }
}

/// An option with a value.
pub const fn value(
    long: &'static str,
    short: Option<char>,
    name: &'static str,
    words: &'static str,
) -> Opt {
    Opt {
        long,
        short,
        value: Some(name),
        words,
    }
}

// Options that several commands have.
/// The unit that a new record is of.
pub const OWN_UNIT: Opt = value(
    "own-unit",
    None,
    "U",
    "the unit whose only home is this machine",
);
/// The date of a new record.
pub const DATE: Opt = value(
    "date",
    None,
    "DATE",
    "as 2025-03-03; without it today's, in universal time",
);
/// Nothing is written.
pub const DRY_RUN: Opt = flag(
    "dry-run",
    Some('n'),
    "say what would happen, and write nothing",
);
/// The old file is kept.
pub const BACKUP: Opt = flag(
    "backup",
    None,
    "keep the old file under its name with a ~ behind it",
);

impl Opt {
    /// The option as a usage line has it.
    pub fn spelled(&self) -> String {
        let short = self.short.map(|letter| format!("-{letter}, "));
        let long = match self.value {
            Some(name) => format!("--{}={name}", self.long),
            None => format!("--{}", self.long),
        };
        short.unwrap_or_default() + &long
    }
}

/// The words and options that were given.
#[derive(Debug, Default)]
pub struct Args {
    words: Vec<OsString>,
    options: Vec<(&'static str, Option<OsString>)>,
}

impl Args {
    /// Reads a command line by the options that a command has.
    pub fn read(given: impl IntoIterator<Item = OsString>, known: &[Opt]) -> Read<Args> {
        let mut given = given.into_iter();
        let mut args = Args::default();
        while let Some(word) = given.next() {
            let bytes = word.as_bytes();
            if bytes == b"--" {
                args.words.extend(given.by_ref());
            } else if let Some(long) = bytes.strip_prefix(b"--") {
                args.long(long, known, &mut given)?;
            } else if bytes.len() > 1 && bytes[0] == b'-' {
                args.short(&bytes[1..], known, &mut given)?;
            } else {
                args.words.push(word);
            }
        }
        Ok(args)
    }

    fn long(
        &mut self,
        word: &[u8],
        known: &[Opt],
        rest: &mut impl Iterator<Item = OsString>,
    ) -> Read<()> {
        let cut = word.iter().position(|byte| *byte == b'=');
        let (name, joined) = match cut {
            Some(cut) => (&word[..cut], Some(OsStr::from_bytes(&word[cut + 1..]))),
            None => (word, None),
        };
        let Some(option) = known.iter().find(|option| option.long.as_bytes() == name) else {
            let name = String::from_utf8_lossy(name);
            let hint = nearest(&name, known.iter().map(|option| option.long))
                .map(|near| format!(": did you mean --{near}?"));
            return Err(Usage(format!(
                "no option --{}{}",
                name.escape_debug(),
                hint.unwrap_or_default()
            )));
        };
        match (option.value, joined) {
            (None, None) => self.put(option, None),
            (None, Some(_)) => Err(Usage(format!("--{} has no value", option.long))),
            (Some(_), Some(value)) => self.put(option, Some(value.to_os_string())),
            (Some(_), None) => self.put_next(option, rest),
        }
    }

    fn short(
        &mut self,
        letters: &[u8],
        known: &[Opt],
        rest: &mut impl Iterator<Item = OsString>,
    ) -> Read<()> {
        for (at, letter) in letters.iter().enumerate() {
            let letter = char::from(*letter);
            let Some(option) = known.iter().find(|option| option.short == Some(letter)) else {
                let text = String::from_utf8_lossy(&letters[at..]);
                let letter = text.chars().next().unwrap_or('?');
                return Err(Usage(format!("no option -{}", letter.escape_debug())));
            };
            let behind = &letters[at + 1..];
            match option.value {
                None => self.put(option, None)?,
                Some(_) if behind.is_empty() => return self.put_next(option, rest),
                Some(_) => return self.put(option, Some(OsStr::from_bytes(behind).to_os_string())),
            }
        }
        Ok(())
    }

    fn put_next(&mut self, option: &Opt, rest: &mut impl Iterator<Item = OsString>) -> Read<()> {
        match rest.next() {
            Some(value) => self.put(option, Some(value)),
            None => Err(Usage(format!(
                "--{} needs a value: {}",
                option.long,
                option.spelled()
            ))),
        }
    }

    fn put(&mut self, option: &Opt, value: Option<OsString>) -> Read<()> {
        if option.value.is_some() && self.raw(option.long).is_some() {
            return Err(Usage(format!("--{} is given twice", option.long)));
        }
        self.options.push((option.long, value));
        Ok(())
    }

    /// Whether an option was given.
    pub fn has(&self, long: &str) -> bool {
        self.options.iter().any(|(name, _)| *name == long)
    }

    /// The value of an option as it was given.
    pub fn raw(&self, long: &str) -> Option<&OsStr> {
        let given = self.options.iter().find(|(name, _)| *name == long);
        given.and_then(|(_, value)| value.as_deref())
    }

    /// The value of an option as a path.
    pub fn path(&self, long: &str) -> Option<PathBuf> {
        self.raw(long).map(PathBuf::from)
    }

    /// The value of an option as text.
    pub fn text(&self, long: &str) -> Read<Option<&str>> {
        self.raw(long)
            .map(|value| as_text(value, &format!("--{long}")))
            .transpose()
    }

    /// The value of an option as a number within limits.
    pub fn number<T>(&self, long: &str, limits: RangeInclusive<T>) -> Read<Option<T>>
    where
        T: FromStr + PartialOrd + Display,
    {
        let Some(text) = self.text(long)? else {
            return Ok(None);
        };
        number(text, limits, &format!("--{long}")).map(Some)
    }

    /// The value of an option as something that has a text form.
    pub fn parsed<T: FromStr<Err: Display>>(&self, long: &str) -> Read<Option<T>> {
        let Some(text) = self.text(long)? else {
            return Ok(None);
        };
        parsed(text, &format!("--{long}")).map(Some)
    }

    /// The words, options apart.
    pub fn words(&self) -> &[OsString] {
        &self.words
    }

    /// The words as paths: so many at the least and at the most.
    pub fn files(&self, limits: RangeInclusive<usize>, wanted: &str) -> Read<Vec<PathBuf>> {
        if self.words.len() < *limits.start() {
            return Err(Usage(format!("{wanted} wanted")));
        }
        if self.words.len() > *limits.end() {
            let extra = self.words[*limits.end()].to_string_lossy();
            return Err(Usage(format!(
                "{wanted} wanted, and no more: {}",
                extra.escape_debug()
            )));
        }
        Ok(self.words.iter().map(PathBuf::from).collect())
    }
}

/// A word as text, or what is wrong with it.
pub fn as_text<'a>(word: &'a OsStr, what: &str) -> Read<&'a str> {
    word.to_str().ok_or_else(|| {
        let lossy = word.to_string_lossy();
        Usage(format!("{what}: {} is not text", lossy.escape_debug()))
    })
}

/// A number in decimal digits, within limits.
pub fn number<T>(text: &str, limits: RangeInclusive<T>, what: &str) -> Read<T>
where
    T: FromStr + PartialOrd + Display,
{
    let digits = !text.is_empty() && text.bytes().all(|byte| byte.is_ascii_digit());
    let number = digits.then(|| text.parse().ok()).flatten();
    number
        .filter(|number| limits.contains(number))
        .ok_or_else(|| {
            Usage(format!(
                "{what}: {text:?} is not a number from {} to {}",
                limits.start(),
                limits.end()
            ))
        })
}

/// Something that has a text form, or what is wrong with the text.
pub fn parsed<T: FromStr<Err: Display>>(text: &str, what: &str) -> Read<T> {
    text.parse()
        .map_err(|error| Usage(format!("{what}: {text:?} is {error}")))
}

/// How many letters have to be put in, left out, changed or exchanged with the
/// next to make one word of the other.
fn distance(one: &str, other: &str) -> usize {
    let (one, other): (Vec<char>, Vec<char>) = (one.chars().collect(), other.chars().collect());
    let width = other.len() + 1;
    let mut table = vec![0; (one.len() + 1) * width];
    for i in 0..=one.len() {
        for j in 0..=other.len() {
            table[i * width + j] = match (i, j) {
                (0, _) => j,
                (_, 0) => i,
                _ => {
                    let changed = usize::from(one[i - 1] != other[j - 1]);
                    let mut least = (table[(i - 1) * width + j] + 1)
                        .min(table[i * width + j - 1] + 1)
                        .min(table[(i - 1) * width + j - 1] + changed);
                    let exchanged =
                        i > 1 && j > 1 && one[i - 1] == other[j - 2] && one[i - 2] == other[j - 1];
                    if exchanged {
                        least = least.min(table[(i - 2) * width + j - 2] + 1);
                    }
                    least
                }
            };
        }
    }
    table[one.len() * width + other.len()]
}

/// The known word that is nearest to an unknown one, if one is near at all.
pub fn nearest<'a>(word: &str, known: impl Iterator<Item = &'a str>) -> Option<&'a str> {
    // No word of ours is longer, and the work grows with the length.
    if word.is_empty() || word.len() > 64 {
        return None;
    }
    known
        .map(|name| {
            let far = if name.starts_with(word) || word.starts_with(name) {
                1
            } else {
                distance(word, name)
            };
            (far, name)
        })
        .filter(|(far, name)| *far <= 1 + name.len().min(word.len()) / 3)
        .min_by_key(|(far, _)| *far)
        .map(|(_, name)| name)
}

//! The pages: the list of commands, the page of each, all of them as Markdown
//! and as a manual page. All are made from the same texts.

use crate::args::Opt;
use crate::commands::{COMMON, Command, GROUPS, all};
use std::fmt::Write;

const USE: &str = "sab COMMAND [OPTIONS] FILE..";

const STATUSES: &[(&str, &str)] = &[
    ("0", "done; of a question: yes"),
    (
        "1",
        "the answer is no, or what was asked stopped on its way",
    ),
    ("2", "the command line is wrong"),
    (
        "3",
        "the system refused: a file cannot be opened, read, written, locked, replaced",
    ),
    (
        "4",
        "the library refused: refused N at P stands in the message",
    ),
];

const INTRO: &str = "\
sab works on archive files of bench analysers (of the forms SAB1 and SAB2, usually
NAME.sab): it checks them, shows what is in them, and passes records between them. A
file that it replaces keeps its form. Every yes, no, number, tree and vector is the
answer of the proved library; sab opens files, asks, and puts the answers into words.";

const CHECKLIST: &str = "\
The checklist at a visit, with the two cards van0.sab and van1.sab:

    sab check van0.sab van1.sab      A  are the cards good?
    sab compare van0.sab van1.sab    B  who lacks what?
    sab meet van0.sab van1.sab       C  pass blocks until both hold the same
    sab asides van0.sab              D  what stands aside, and what to do";

const FILES: &str = "\
A FILE is read up to its greatest length, 44,032 bytes; - is standard input where a
file is only read. A file that is replaced is locked, worked on in memory, written
beside itself as .NAME.PID-N.sab-part, brought to the disk, read back through the
library, and only then given its name: a cut at any step leaves the old file or the
new one. Nothing is written if nothing changed. A file that is made new never
overwrites another.";

const MESSAGES: &str = "\
Results go to standard output, all else to standard error as sab: FILE: text. A
refusal always has the words refused N at P: N is a number that sab explain N
tells of, P the block of 512 bytes, counted from 0. With --json each result is an
object on a line of its own; the first line names the schema. Fields are never
renamed, new ones may be added.";

/// What `sab` alone and `sab help` print.
pub fn overview() -> String {
    let mut text = format!("usage: {USE}\n");
    for (group, commands) in GROUPS {
        let _ = write!(text, "\n{group}\n");
        for command in *commands {
            let _ = writeln!(text, "  {:<10}{}", command.name, command.summary);
        }
    }
    let _ = write!(
        text,
        "\nsab help COMMAND tells more; sab explain N tells what refused N means\n\
         status: 0 yes, 1 no, 2 wrong command line, 3 the system refused, 4 the library refused\n"
    );
    text
}

/// The options of a command, those of every command last.
fn options(command: &Command) -> impl Iterator<Item = &'static Opt> {
    command.options.iter().chain(COMMON)
}

/// The page of a command.
pub fn page(command: &Command) -> String {
    let mut text = String::new();
    for (at, usage) in command.usage.iter().enumerate() {
        let before = if at == 0 { "usage:" } else { "      " };
        let _ = writeln!(text, "{before} sab {usage}");
    }
    let _ = write!(text, "\n{}\n\noptions\n", command.page);
    let width = options(command)
        .map(|option| option.spelled().len())
        .max()
        .unwrap_or(0);
    for option in options(command) {
        let _ = writeln!(text, "  {:<width$}  {}", option.spelled(), option.words);
    }
    let _ = write!(text, "\nstatus: {}\n", command.statuses);
    text
}

/// All pages as Markdown: docs/COMMANDS.md.
pub fn markdown() -> String {
    let mut text = format!(
        "# The command sab\n\nThis page is what `sab help --all` prints.\n\n    {USE}\n\n{INTRO}\n\n{CHECKLIST}\n"
    );
    for (group, commands) in GROUPS {
        let _ = write!(
            text,
            "\n**{}**\n\n| command | what it does |\n|---|---|\n",
            capital(group)
        );
        for command in *commands {
            let _ = writeln!(
                text,
                "| [{0}](#sab-{0}) | {1} |",
                command.name, command.summary
            );
        }
    }
    text += "\n## Status\n\n| status | meaning |\n|---|---|\n";
    for (status, words) in STATUSES {
        let _ = writeln!(text, "| {status} | {words} |");
    }
    let _ = write!(
        text,
        "\nOf several files the greatest status counts.\n\n## Messages\n\n{MESSAGES}\n\n## Files\n\n{FILES}\n\n\
         ## Options of every command\n\n| option | what it does |\n|---|---|\n"
    );
    for option in COMMON {
        let _ = writeln!(text, "| `{}` | {} |", option.spelled(), option.words);
    }
    for command in all() {
        let _ = write!(text, "\n## sab {}\n\n", command.name);
        for usage in command.usage {
            let _ = writeln!(text, "    sab {usage}");
        }
        let _ = write!(text, "\n{}\n", command.page);
        if !command.options.is_empty() {
            text += "\n| option | what it does |\n|---|---|\n";
            for option in command.options {
                let _ = writeln!(text, "| `{}` | {} |", option.spelled(), option.words);
            }
        }
        let _ = write!(text, "\nStatus: {}.\n", command.statuses);
    }
    text
}

/// A text with its lines cut at a width: paragraphs, and steps that begin with a
/// number and are indented.
pub fn wrapped(text: &str, width: usize) -> String {
    let mut lines: Vec<String> = Vec::new();
    let mut indent = "";
    let mut fresh = true;
    for line in text.lines() {
        let step = line.starts_with(|letter: char| letter.is_ascii_digit());
        if step || line.is_empty() {
            fresh = true;
            indent = if step { "   " } else { "" };
        }
        if line.is_empty() {
            lines.push(String::new());
        }
        for word in line.split_whitespace() {
            match lines.last_mut() {
                Some(last) if !fresh && last.len() + 1 + word.len() <= width => {
                    last.push(' ');
                    last.push_str(word);
                }
                _ if fresh => lines.push(word.to_string()),
                _ => lines.push(format!("{indent}{word}")),
            }
            fresh = false;
        }
    }
    lines.join("\n")
}

fn capital(words: &str) -> String {
    let mut letters = words.chars();
    let first = letters.next().map(|letter| letter.to_ascii_uppercase());
    first.into_iter().chain(letters).collect()
}

/// A line as troff reads it.
fn troff(line: &str) -> String {
    let line = line.replace('\\', "\\e").replace('-', "\\-");
    match line.starts_with(['.', '\'']) {
        true => format!("\\&{line}"),
        false => line,
    }
}

/// Paragraphs, and examples indented by four, as troff.
fn troff_text(text: &str) -> String {
    let mut page = String::new();
    for part in text.split("\n\n") {
        let example = part.starts_with("    ");
        page += if example { ".PP\n.nf\n.RS\n" } else { ".PP\n" };
        for line in part.lines() {
            let line = if example {
                line.get(4..).unwrap_or("")
            } else {
                line
            };
            page += &troff(line);
            page.push('\n');
        }
        if example {
            page += ".RE\n.fi\n";
        }
    }
    page
}

/// The manual page sab(1).
pub fn man() -> String {
    let mut page = String::from(
        ".TH SAB 1 \"\" \"sab\" \"User Commands\"\n.SH NAME\nsab \\- archive files of bench analysers\n\
         .SH SYNOPSIS\n.B sab\n.I COMMAND\n[\\fIOPTIONS\\fR] \\fIFILE\\fR..\n.SH DESCRIPTION\n",
    );
    page += &troff_text(INTRO);
    page += &troff_text(CHECKLIST);
    page += ".SH OPTIONS OF EVERY COMMAND\n";
    page += &troff_options(COMMON);
    page += ".SH COMMANDS\n";
    for command in all() {
        let _ = writeln!(page, ".SS sab {}", command.name);
        page += ".nf\n";
        for usage in command.usage {
            let _ = writeln!(page, "\\fBsab\\fR {}", troff(usage));
        }
        page += ".fi\n";
        page += &troff_text(command.page);
        page += &troff_options(command.options);
        let _ = write!(page, ".PP\nStatus: {}.\n", troff(command.statuses));
    }
    page += ".SH MESSAGES\n";
    page += &troff_text(MESSAGES);
    page += ".SH FILES\n";
    page += &troff_text(FILES);
    page += ".SH EXIT STATUS\n";
    for (status, words) in STATUSES {
        let _ = write!(page, ".TP\n{status}\n{}\n", troff(words));
    }
    page += ".SH SEE ALSO\n.BR readout (1)\n";
    page
}

fn troff_options(options: &[Opt]) -> String {
    let mut text = String::new();
    for option in options {
        let _ = write!(
            text,
            ".TP\n\\fB{}\\fR\n{}\n",
            troff(&option.spelled()),
            troff(option.words)
        );
    }
    text
}

//! The pages: printed as they stand in docs/, and their examples as they say.

use crate::common::{Folder, root};
use crate::here::{output, sab};
use sab_cli::commands;
use sab_cli::out::Status;
use std::fs;
use std::path::Path;
use std::process::Command;

fn page(name: &str) -> String {
    fs::read_to_string(root().join("docs").join(name)).expect("a page")
}

#[test]
fn pages_as_they_stand_in_docs() {
    let cases = [
        (["help", "--all"], "COMMANDS.md", "scripts/sab-pages"),
        (["help", "--man"], "man/sab.1", "scripts/sab-pages"),
        (["explain", "--all"], "FIELD-CARD.md", "scripts/field-card"),
    ];
    for (words, name, script) in cases {
        let (status, out, _) = sab(&words);
        assert_eq!(status, Status::Yes);
        let out = String::from_utf8(out).unwrap();
        assert!(
            out == page(name),
            "docs/{name} is another: {script} writes it"
        );
    }
}

/// The examples of a page: command and what it prints.
fn examples(page: &str) -> Vec<(String, String)> {
    let mut examples: Vec<(String, String)> = Vec::new();
    let mut inside = false;
    for line in page.lines() {
        let Some(line) = line.strip_prefix("    ") else {
            inside = false;
            continue;
        };
        match line.strip_prefix("$ ") {
            Some(command) => {
                examples.push((command.to_string(), String::new()));
                inside = true;
            }
            None if inside => {
                let (_, printed) = examples.last_mut().unwrap();
                printed.push_str(line);
                printed.push('\n');
            }
            None => {}
        }
    }
    examples
}

#[test]
fn examples_print_what_they_say() {
    let mut count = 0;
    for command in commands::all() {
        let folder = Folder::with_examples();
        for (line, printed) in examples(command.page) {
            let program = Path::new(env!("CARGO_BIN_EXE_sab"));
            let path = format!("{}:/usr/bin:/bin", program.parent().unwrap().display());
            let mut shell = Command::new("sh");
            shell
                .args(["-c", &format!("{line} 2>&1")])
                .current_dir(&folder.0)
                .env_clear()
                .env("PATH", path);
            let ran = output(&mut shell);
            let text = String::from_utf8(ran.stdout).unwrap();
            assert_eq!(text, printed, "sab help {}: {line}", command.name);
            count += 1;
        }
    }
    assert!(count > 10, "{count}");
}

/// Every command has a page, and lines of it fit a terminal but for examples.
#[test]
fn pages_are_narrow() {
    for command in commands::all() {
        let name = command.name;
        for help in [vec!["help", name], vec![name, "--help"], vec![name, "-h"]] {
            let (status, out, err) = sab(&help);
            assert_eq!((status, err.as_str()), (Status::Yes, ""), "{help:?}");
            let text = String::from_utf8(out).unwrap();
            assert!(text.starts_with(&format!("usage: sab {name}")), "{text}");
        }
        for line in command
            .page
            .lines()
            .filter(|line| !line.starts_with("    "))
        {
            assert!(line.len() <= 84, "{name}: {line}");
        }
    }
}

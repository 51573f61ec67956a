//! The kit's page: how to use it, and what each case shows.

use crate::kit::{Case, Shown, Written};

const HEAD: &str = "\
# Conformance kit

Cases for a program that reads or writes the format of docs/FORMAT.md, with the answer to each. This page and all cases are written by
`make-conformance`; do not change them by hand.

    readout/NAME.in    a file
    readout/NAME.out   its listing, byte for byte
    plan/NAME.in       a plan of visits
    plan/NAME.out      what is printed of it, byte for byte
    lists/NAME.txt     calls, one a line, with what each must answer and leave
    tables.txt         small functions, one call a line
    merge.txt          merges of two files, one a line
    convert.txt        files of one form made into the other, one a line
    order.txt          orders of another maker, one a line
    states.txt         lists and bases written out row by row, and questions to them

The form of a line is told in vectors/README.md. In the lists, tables, merges, conversions and orders a line that begins with `#` says what the next line shows.

A reader only needs the files: give it each `.in` and compare what it prints with the `.out`. In this repository

    scripts/readout-cases conformance/readout PROGRAM

does so for any program that reads standard input and prints a listing, and

    cd hosts/rust/vectors && cargo run --release -- ../../../conformance

runs all cases on the static library; with `-- --plain` in place of `--` they are run on the plain implementation. To write the kit again:

    cd hosts/rust && cargo run --release -p make-conformance -- ../../conformance
";

pub fn page(
    good: &[Case],
    damaged: &[Case],
    plans: &[Case],
    lists: &[Written],
    lines: &[Written],
) -> String {
    let mut page = HEAD.to_string();
    page += "\n## Good files\n\n| file | bytes | what it shows |\n|---|---|---|\n";
    for case in good {
        page += &format!("| {} | {} | {} |\n", case.name, case.file.len(), case.shows);
    }
    page += "\n## Files that are refused\n\n";
    page += "In most of them a good file of two blocks, or of the form SAB2, was changed in one way, and its sums put right again.\n\n";
    page += "| file | answer | what it shows |\n|---|---|---|\n";
    for case in damaged {
        let answer = case.listing.trim_end().trim_start_matches("refused ");
        page += &format!("| {} | {answer} | {} |\n", case.name, case.shows);
    }
    page += "\n## Plans of visits\n\n| plan | bytes | the last line | what it shows |\n|---|---|---|---|\n";
    for case in plans {
        let last = case.listing.lines().last().unwrap_or_default();
        page += &format!("| {} | {} | `{last}` | {} |\n", case.name, case.file.len(), case.shows);
    }
    for list in lists {
        page += &format!("\n## lists/{}.txt: {}\n\n", list.name, list.about);
        page += &rows(&list.cases);
    }
    for lines in lines {
        page += &format!("\n## {}.txt: {}\n\n", lines.name, lines.about);
        page += &rows(&lines.cases);
    }
    page
}

/// The cases of a list, by number where they come one after the other.
fn rows(cases: &[Shown]) -> String {
    let mut text = String::from("| | answer | what it shows |\n|---|---|---|\n");
    for (case, number) in cases.iter().zip(1..) {
        text += &format!("| {number} | {} | {} |\n", case.answer, case.shows);
    }
    text
}

//! One page of an archive: self-contained, without a script, the same bytes for
//! the same archive.

use crate::archive::{Archive, ROOM};
use crate::records::{Story, state};
use crate::why::counted;
use sab::{Aside, Entry, Identity, Kind, Tree};
use std::fmt::Write;

const STYLE: &str = include_str!("page.css");

/// Text that cannot be taken for markup.
pub fn escaped(text: &str) -> String {
    let mut safe = String::with_capacity(text.len());
    for letter in text.chars() {
        match letter {
            '&' => safe += "&amp;",
            '<' => safe += "&lt;",
            '>' => safe += "&gt;",
            '"' => safe += "&quot;",
            '\'' => safe += "&#39;",
            other => safe.push(other),
        }
    }
    safe
}

/// A page around a body.
fn around(title: &str, body: &str) -> String {
    format!(
        "<!DOCTYPE html>\n<html lang=\"en\">\n<head>\n<meta charset=\"utf-8\">\n\
         <meta name=\"viewport\" content=\"width=device-width, initial-scale=1\">\n\
         <title>{}</title>\n<style>\n{STYLE}</style>\n</head>\n<body>\n{body}\
         <footer>This page follows from the archive file alone: the same file gives the same page.</footer>\n\
         </body>\n</html>\n",
        escaped(title)
    )
}

/// The page of a file that is refused.
pub fn refused(title: Option<&str>, words: &str, advice: Option<&str>) -> String {
    let heading = title.unwrap_or("A file that is refused");
    let mut body = format!(
        "<header>\n<h1>{}</h1>\n</header>\n<main>\n",
        escaped(heading)
    );
    let _ = write!(
        body,
        "<article>\n<h3><span class=\"tag\">refused</span></h3>\n<p>{}</p>\n",
        escaped(words)
    );
    if let Some(advice) = advice {
        let _ = writeln!(body, "<p><strong>To do:</strong> {}</p>", escaped(advice));
    }
    body += "<p class=\"soft\">Nothing of a refused file is shown.</p>\n</article>\n</main>\n";
    around(heading, &body)
}

/// The page of an archive.
pub fn page(archive: &Archive, tree: &Tree, title: Option<&str>) -> String {
    let story = Story::new(&archive.log, tree);
    let plain = format!("Archive {}", archive.log.archive());
    let heading = title.unwrap_or(&plain);
    let mut body = String::new();
    put_head(&mut body, archive, &story, heading);
    body += "<main>\n";
    put_room(&mut body, archive);
    put_vector(&mut body, archive);
    put_tree(&mut body, &story);
    put_asides(&mut body, &story);
    body += "</main>\n";
    around(heading, &body)
}

fn put_head(body: &mut String, archive: &Archive, story: &Story, heading: &str) {
    let totals = story.totals();
    let _ = write!(
        body,
        "<header>\n<h1>{}</h1>\n<p class=\"soft\">archive {}, as unit {} holds it; form SAB1</p>\n<ul class=\"facts\">\n",
        escaped(heading),
        archive.log.archive(),
        archive.log.unit()
    );
    let _ = write!(
        body,
        "<li>{}</li>\n<li>{}</li>\n<li>{}</li>\n",
        counted(story.records().len(), "record"),
        counted(totals.folders, "folder"),
        counted(totals.traces, "trace")
    );
    if totals.disputed > 0 {
        let first = story.first_disputed();
        let first = first.map(|entry| entry.to_string()).unwrap_or_default();
        let _ = writeln!(
            body,
            "<li class=\"a\"><a href=\"#e{first}\">{} disputed</a></li>",
            totals.disputed
        );
    }
    let _ = match totals.open {
        0 => writeln!(body, "<li>no aside open</li>"),
        open => writeln!(
            body,
            "<li class=\"a\"><a href=\"#asides\">{} open</a></li>",
            counted(open, "aside")
        ),
    };
    body.push_str("</ul>\n</header>\n");
}

fn put_room(body: &mut String, archive: &Archive) {
    let used = archive.log.records().len();
    // The greatest part that is still shown, in thousandths.
    let part = (used * 1000).div_ceil(ROOM);
    let _ = write!(
        body,
        "<section>\n<h2>Room in the log</h2>\n<p>{used} of {ROOM} records, room for {} more</p>\n\
         <div class=\"room\"><b style=\"width:{}.{}%\"></b></div>\n</section>\n",
        ROOM - used,
        part / 10,
        part % 10
    );
}

fn put_vector(body: &mut String, archive: &Archive) {
    body.push_str("<section>\n<h2>Records held of each unit</h2>\n<table>\n<tr>");
    for unit in 0..8 {
        let _ = write!(body, "<th scope=\"col\">unit {unit}</th>");
    }
    body.push_str("</tr>\n<tr>");
    for count in archive.vector.counts() {
        let _ = write!(body, "<td>{count}</td>");
    }
    body.push_str("</tr>\n</table>\n</section>\n");
}

fn put_tree(body: &mut String, story: &Story) {
    body.push_str("<section>\n<h2>Folders and traces</h2>\n");
    if story.totals().folders + story.totals().traces == 0 {
        body.push_str("<p class=\"soft\">nothing in the tree</p>\n");
    } else {
        body.push_str("<ul class=\"tree\">\n");
        put_inside(body, story, Identity::ROOT);
        body.push_str("</ul>\n");
    }
    body.push_str("</section>\n");
}

fn put_inside(body: &mut String, story: &Story, folder: Identity) {
    for entry in story.inside(folder) {
        let identity = entry.identity();
        let _ = write!(body, "<li id=\"e{identity}\">");
        if entry.kind() == Kind::Folder {
            body.push_str("<details open><summary>");
            put_entry(body, story, entry);
            body.push_str("</summary><ul>\n");
            put_inside(body, story, identity);
            body.push_str("</ul></details>");
        } else {
            put_entry(body, story, entry);
        }
        body.push_str("</li>\n");
    }
}

fn put_entry(body: &mut String, story: &Story, entry: Entry) {
    let _ = write!(
        body,
        "<b>{}</b> <i>{}</i> <time>{}</time>",
        escaped(entry.label()),
        entry.identity(),
        entry.date()
    );
    if let Some(mark) = entry.mark() {
        let mark = mark.to_string();
        let _ = write!(body, " <code title=\"{mark}\">{}</code>", &mark[..8]);
    }
    if entry.is_disputed() {
        for aside in story.disputing(entry.identity()) {
            let _ = write!(
                body,
                " <a class=\"d\" href=\"#a{aside}\">disputed by {aside}</a>"
            );
        }
    }
}

fn put_asides(body: &mut String, story: &Story) {
    body.push_str("<section id=\"asides\">\n<h2>Records that stand aside</h2>\n");
    let _ = writeln!(
        body,
        "<p class=\"soft\">{}</p>",
        story.totals().aside_words()
    );
    for aside in story.asides() {
        put_aside(body, story, aside);
    }
    body.push_str("</section>\n");
}

fn put_aside(body: &mut String, story: &Story, aside: Aside) {
    let told = story.told(aside);
    let class = if aside.is_open() { "" } else { " class=\"s\"" };
    let _ = write!(
        body,
        "<article id=\"a{0}\"{class}>\n<h3>{0} <span class=\"tag\">{1}</span> <small class=\"soft\">reason {2}</small></h3>\n<p>{3},<br>{4}</p>\n",
        aside.identity(),
        state(aside),
        aside.reason(),
        escaped(&told.did),
        escaped(&told.because)
    );
    if aside.is_open() {
        let _ = write!(
            body,
            "<p>{}</p>\n<p><strong>To do:</strong> {}</p>\n",
            escaped(&told.stake.words()),
            escaped(&told.todo)
        );
    } else {
        let _ = writeln!(body, "<p>{}</p>", escaped(&told.todo));
    }
    if let Some(mark) = story
        .record(aside.identity())
        .and_then(|record| record.mark())
    {
        let _ = writeln!(body, "<p>mark <code>{mark}</code></p>");
    }
    match aside.marks() {
        Some(marks) if story.entry(marks).is_some() => {
            let _ = writeln!(
                body,
                "<p><a href=\"#e{marks}\">{} in the tree</a></p>",
                escaped(&story.name(marks))
            );
        }
        Some(marks) => {
            let _ = writeln!(
                body,
                "<p class=\"soft\">{} is not in the tree any more</p>",
                escaped(&story.name(marks))
            );
        }
        None => {}
    }
    body.push_str("</article>\n");
}

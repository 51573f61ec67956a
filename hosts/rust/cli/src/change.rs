//! What a passing changed of what a log shows.

use crate::json::Object;
use crate::out::{Ink, Out};
use crate::records::{Story, kind_word};
use sab::{Answer, Identity, Log, Record, Tree};
use std::collections::BTreeSet;

/// What a log shows after a passing that it did not show before.
#[derive(Default)]
pub struct Change {
    /// Entries that are disputed now.
    pub disputed: Vec<Identity>,
    /// Records that acted and now stand aside.
    pub aside: Vec<Identity>,
    /// Records that came and stand aside.
    pub came: Vec<Identity>,
    /// Records that stood aside and act now.
    pub again: Vec<Identity>,
}

fn asides_of(tree: &Tree) -> BTreeSet<Identity> {
    tree.asides().map(|aside| aside.identity()).collect()
}

fn disputed_in(tree: &Tree) -> BTreeSet<Identity> {
    let disputed = tree.entries().filter(|entry| entry.is_disputed());
    disputed.map(|entry| entry.identity()).collect()
}

/// How many lines of one kind are told.
const TOLD: usize = 20;

/// Tells lines about a file; of very many only the first.
fn tell_some(out: &mut Out, file: &str, lines: &[String]) {
    for line in lines.iter().take(TOLD) {
        out.line(format_args!("{file}: {line}"));
    }
    if lines.len() > TOLD {
        let more = lines.len() - TOLD;
        out.line(format_args!(
            "{file}: and {more} more such; --json names all"
        ));
    }
}

impl Change {
    /// From one log to a later one.
    pub fn between(before: &Log, after: &Log) -> Answer<Change> {
        let (old, new) = (before.show()?, after.show()?);
        let (old_disputed, old_asides) = (disputed_in(&old), asides_of(&old));
        let held: BTreeSet<Identity> = before.records().map(Record::identity).collect();
        let now: Vec<Identity> = new.asides().map(|aside| aside.identity()).collect();
        let (aside, came) = now
            .iter()
            .filter(|identity| !old_asides.contains(identity))
            .partition(|identity| held.contains(identity));
        Ok(Change {
            disputed: new
                .entries()
                .filter(|entry| entry.is_disputed())
                .map(|entry| entry.identity())
                .filter(|identity| !old_disputed.contains(identity))
                .collect(),
            aside,
            came,
            again: old
                .asides()
                .map(|aside| aside.identity())
                .filter(|identity| !now.contains(identity))
                .collect(),
        })
    }

    /// Says it of a file.
    pub fn tell(&self, out: &mut Out, file: &str, after: &Log) -> Answer<()> {
        let tree = after.show()?;
        let story = Story::new(after, &tree);
        let disputed = self.disputed.iter().filter_map(|identity| {
            let kind = kind_word(story.entry(*identity)?.kind());
            let by: Vec<String> = story
                .disputing(*identity)
                .map(|aside| aside.to_string())
                .collect();
            let words = out.ink(Ink::Alarm, "newly disputed");
            let name = story.name(*identity);
            Some(format!("{words}: {kind} {name} by {}", by.join(", ")))
        });
        let disputed: Vec<String> = disputed.collect();
        tell_some(out, file, &disputed);
        for (what, identities) in [
            ("stood aside and acts now", &self.again),
            ("acted and stands aside now", &self.aside),
            ("came and stands aside", &self.came),
        ] {
            let lines = identities.iter().filter_map(|identity| {
                let sentence = story.sentence(story.record(*identity)?);
                let reason = story.aside(*identity).map(|aside| aside.reason());
                let reason = reason.map(|reason| format!(", reason {reason}"));
                let reason = reason.unwrap_or_default();
                Some(format!("{identity} {what}{reason}: {sentence}"))
            });
            tell_some(out, file, &lines.collect::<Vec<String>>());
        }
        Ok(())
    }

    /// Its fields in an object.
    pub fn put(&self, object: Object) -> Object {
        object
            .texts("newly_disputed", &self.disputed)
            .texts("now_aside", &self.aside)
            .texts("came_aside", &self.came)
            .texts("now_acting", &self.again)
    }
}

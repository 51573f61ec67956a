//! Entries looked up in the index of an archive, by path or by identity.

use crate::archive::Archive;
use crate::args::{Read, parsed};
use crate::failure::{Outcome, of_library};
use crate::numbers::Case;
use crate::records::quoted;
use sab::{Identity, Index};
use std::collections::HashMap;

/// An entry as it is named on the command line.
pub enum Place {
    /// By its identity, as 0.1.
    Identity(Identity),
    /// By the labels from the root on, as /Bench/Gain.
    Path(String),
}

impl Place {
    /// A place that begins with a stroke is a path.
    pub fn read(text: &str, what: &str) -> Read<Place> {
        if text.starts_with('/') {
            return Ok(Place::Path(text.to_string()));
        }
        parsed(text, what).map(Place::Identity)
    }
}

/// The index of an archive, and the line of each entry in its listing.
pub struct Places {
    /// The index.
    pub index: Index,
    lines: HashMap<Identity, String>,
}

impl Places {
    /// Of an archive.
    pub fn of(archive: &Archive) -> Outcome<Places> {
        let refused = of_library(&archive.name, Case::File);
        let index = archive.log.make_index().map_err(&refused)?;
        let listing = archive.listing()?;
        let mut lines = HashMap::new();
        for line in listing.lines().skip(2) {
            let mut words = line.split(' ');
            let entry = words.next().is_some_and(|kind| kind != "aside");
            let identity = words.next().and_then(|word| word.parse().ok());
            if let (true, Some(identity)) = (entry, identity) {
                lines.insert(identity, line.to_string());
            }
        }
        Ok(Places { index, lines })
    }

    /// The line of an entry in the listing, if it is in the tree.
    pub fn line(&self, entry: Identity) -> Option<&str> {
        self.lines.get(&entry).map(String::as_str)
    }

    /// The identity of a place, or what is not there. A stroke at the end of a
    /// path says nothing more.
    pub fn identity(&self, place: &Place) -> Result<Identity, String> {
        let path = match place {
            Place::Identity(identity) => return Ok(*identity),
            Place::Path(path) => path.strip_suffix('/').unwrap_or(path),
        };
        let mut at = Identity::ROOT;
        for label in path.split('/').skip(1) {
            at = self.entry(at, label)?;
        }
        Ok(at)
    }

    /// The entry of a folder that has a label.
    pub fn entry(&self, folder: Identity, label: &str) -> Result<Identity, String> {
        let inside = match folder.is_root() {
            true => "the root".to_string(),
            false => folder.to_string(),
        };
        let found = self.index.find(folder, label);
        found.ok_or_else(|| format!("no entry {} in {inside}", quoted(label)))
    }
}

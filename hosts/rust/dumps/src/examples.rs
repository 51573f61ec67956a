//! The example files, by name.

use library::{BASE, FILE, LISTING, LOG, Library, SAB2_FILE};
use make_vectors::chain::{file_of, seal};
use make_vectors::examples::{
    folded, moves, not_closed, operations, paper, reasons, removed, two_blocks,
};

const ARCHIVE: u32 = 305_419_896;

/// A file and its listing: one that the library wrote, or one that it refuses.
pub struct Example {
    pub file: Vec<u8>,
    pub listing: String,
    /// A file that it is nearly the same as: the page has what differs.
    pub like: Option<Vec<u8>>,
}

/// The example of a name.
pub fn example(library: &dyn Library, name: &str) -> Option<Example> {
    let (archive, unit, records) = match name {
        "empty" => (7, 0, Vec::new()),
        "paper" | "bench" => (7, 0, paper()),
        "two-blocks" => (ARCHIVE, 2, two_blocks()),
        "not-closed" => {
            let example = listed(library, file_of(&not_closed(), ARCHIVE, 2));
            let like = Some(file_of(&two_blocks(), ARCHIVE, 2));
            return Some(Example { like, ..example });
        }
        "folded" => return Some(listed(library, folded_file(library))),
        "in-itself" => return Some(in_itself(library)),
        "converted" => {
            let mut file = vec![0; SAB2_FILE];
            let blocks = library.to_sab2(&file_of(&paper(), 7, 0), &mut file);
            return Some(listed(library, whole(file, blocks.expect("a good file"))));
        }
        "operations" => (7, 1, operations()),
        "moves" => (7, 0, moves()),
        "reasons" => (7, 0, reasons()),
        "removed" => (4_294_967_295, 2, removed()),
        _ => return None,
    };
    Some(written(library, archive, unit, &records))
}

/// The records go through the library: read into a log, written again and
/// listed.
fn written(library: &dyn Library, archive: u32, unit: u8, records: &[[u8; 80]]) -> Example {
    let (log, base) = read(library, &file_of(records, archive, unit));
    let mut file = vec![0; FILE];
    let blocks = library.write_file(&log, &base, archive, unit.into(), &mut file);
    listed(
        library,
        whole(file, blocks.expect("a log that was read is sound")),
    )
}

/// The log and base that a file is read into.
fn read(library: &dyn Library, file: &[u8]) -> (Vec<u8>, Vec<u8>) {
    let (mut log, mut base) = (vec![0; LOG], vec![0; BASE]);
    library
        .read_file(&mut log, &mut base, file)
        .expect("an example is a good file");
    (log, base)
}

/// The blocks of a file, without the zeros behind them.
fn whole(mut file: Vec<u8>, blocks: u16) -> Vec<u8> {
    file.truncate(512 * usize::from(blocks));
    file
}

/// Unit 0 lists units 0 and 1, and folds what both have heard.
fn folded_file(library: &dyn Library) -> Vec<u8> {
    let (mut log, mut base) = read(library, &file_of(&folded(), 7, 0));
    let run = library.fold(&mut log, &mut base, 7, 0, 0b11);
    assert_eq!(run, Ok(5));
    let mut file = vec![0; SAB2_FILE];
    let blocks = library.write_sab2(&log, &base, 7, 0, &mut file);
    whole(file, blocks.expect("a state that was folded is sound"))
}

/// The same, but a trace lies in itself.
fn in_itself(library: &dyn Library) -> Example {
    let like = folded_file(library);
    let mut file = like.clone();
    // Row 2, the second entry: its folder is its identity.
    let row = 28 + 80 * 2;
    file.copy_within(row + 4..row + 8, row + 8);
    seal(&mut file[..512]);
    let example = listed(library, file);
    Example {
        like: Some(like),
        ..example
    }
}

/// A file, good or not, and what the library prints of it.
fn listed(library: &dyn Library, file: Vec<u8>) -> Example {
    let mut out = vec![0; LISTING];
    let length = library
        .listing_into(&file, &mut out)
        .expect("both implementations list");
    let listing = String::from_utf8(out[..length].to_vec()).expect("a listing is ASCII");
    Example {
        file,
        listing,
        like: None,
    }
}

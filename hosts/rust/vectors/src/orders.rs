//! Orders of another maker, checked against a log.

use crate::lists::{answer, kept};
use crate::words::{Fault, Words};
use library::{Library, TREE, empty_base};

/// Where the rows of a table begin, what they are long, where their identity and
/// their count stand, and the bytes of a row that are not compared.
const ROWS: [(usize, usize, usize, usize, std::ops::Range<usize>); 2] =
    [(4, 72, 4, 0, 12..20), (73_732, 12, 0, 2, 0..0)];

/// Runs one line: a log, and the names by identities or by their bytes.
pub fn row(library: &dyn Library, line: &str) -> Result<(), Fault> {
    let mut words = Words::of(line);
    let call = words.word()?;
    let log = words.bytes()?;
    let list = match call {
        "order" => words.names()?,
        "names" => words.bytes()?,
        call => return Err(format!("no call {call}")),
    };
    words.equals()?;
    words.expect(&checked(library, &log, &empty_base(), &list)?)
}

/// What an order comes to. Two tables are lent, and what is left of them is
/// compared with what is answered.
pub fn checked(
    library: &dyn Library,
    log: &[u8],
    base: &[u8],
    list: &[u8],
) -> Result<Vec<String>, Fault> {
    let lent: Vec<u8> = (0..TREE).map(|i| (7 + 31 * i) as u8).collect();
    let (mut ours, mut theirs) = (lent.clone(), lent.clone());
    let failed = library.check_order(log, base, list, &mut ours, &mut theirs);
    let mut came = answer(&failed).to_vec();
    match failed {
        Ok(failed @ (0 | 3)) => shown(library, log, base, &ours, &theirs, failed == 0)?,
        _ => {
            kept("first table", &ours, &lent)?;
            kept("second table", &theirs, &lent)?;
        }
    }
    came.push(failed.map_or("-".to_string(), |failed| failed.to_string()));
    Ok(came)
}

/// The first table is the tree of the log, and the second shows the same or not.
fn shown(
    library: &dyn Library,
    log: &[u8],
    base: &[u8],
    ours: &[u8],
    theirs: &[u8],
    accepted: bool,
) -> Result<(), Fault> {
    let mut tree = vec![0; TREE];
    if library.show(log, base, &mut tree).is_err() || tree != ours {
        return Err("the first table is not the tree of the log".to_string());
    }
    let is_same = ROWS.iter().all(|part| rows(ours, part) == rows(theirs, part));
    match is_same == accepted {
        true => Ok(()),
        false => Err("the tables do not tell what is answered".to_string()),
    }
}

/// The rows of a table by their identities, as far as they are compared.
fn rows(
    table: &[u8],
    (begin, length, identity, count, hidden): &(usize, usize, usize, usize, std::ops::Range<usize>),
) -> Vec<Vec<u8>> {
    let count = usize::from(u16::from_le_bytes([table[*count], table[count + 1]]));
    let mut rows: Vec<Vec<u8>> = table[*begin..].chunks(*length).take(count).map(<[u8]>::to_vec).collect();
    rows.iter_mut().for_each(|row| row[hidden.clone()].fill(0));
    rows.sort_by_key(|row| row[*identity..identity + 4].to_vec());
    rows
}

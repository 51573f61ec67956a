//! The tree table's rows as the lines that `readout` prints.

use crate::TREE;

/// Why a table is no good, or what differs.
pub type Fault = String;

const ROWS: usize = 1024;
const ENTRY: usize = 72;
const ASIDE: usize = 12;

/// Lines of the entries and of the asides.
pub struct Lines {
    pub entries: Vec<String>,
    pub asides: Vec<String>,
}

impl Lines {
    /// The entries, then the asides.
    pub fn all(&self) -> Vec<&String> {
        self.entries.iter().chain(&self.asides).collect()
    }
}

/// The lines that came are those expected.
pub fn same(came: &[&String], expected: &[&str]) -> Result<(), Fault> {
    if came.len() != expected.len() {
        let (expected, came) = (expected.len(), came.len());
        return Err(format!("{expected} lines expected, {came} came"));
    }
    for (expected, came) in expected.iter().zip(came) {
        if expected != came {
            return Err(format!("'{expected}' expected, '{came}' came"));
        }
    }
    Ok(())
}

fn get16(bytes: &[u8], at: usize) -> u16 {
    u16::from_le_bytes([bytes[at], bytes[at + 1]])
}

fn identity(row: &[u8], at: usize) -> Result<String, Fault> {
    if row[at] > 7 || row[at + 1] != 0 {
        return Err("tree: no identity where one is due".to_string());
    }
    Ok(format!("{}.{}", row[at], get16(row, at + 2)))
}

/// The lines of a tree table, if all of its bytes keep to the layout.
pub fn lines(tree: &[u8]) -> Result<Lines, Fault> {
    let (entries, asides) = (get16(tree, 0) as usize, get16(tree, 2) as usize);
    if tree.len() != TREE || entries > ROWS || asides > ROWS {
        return Err("tree: more rows than there are".to_string());
    }
    let (entry_rows, aside_rows) = tree[4..].split_at(ROWS * ENTRY);
    let (used_entries, no_entries) = entry_rows.split_at(entries * ENTRY);
    let (used_asides, no_asides) = aside_rows.split_at(asides * ASIDE);
    if no_entries.iter().chain(no_asides).any(|byte| *byte != 0) {
        return Err("tree: an unused row is not zero".to_string());
    }
    Ok(Lines {
        entries: used_entries
            .chunks(ENTRY)
            .map(entry_line)
            .collect::<Result<_, Fault>>()?,
        asides: used_asides
            .chunks(ASIDE)
            .map(aside_line)
            .collect::<Result<_, Fault>>()?,
    })
}

fn entry_line(row: &[u8]) -> Result<String, Fault> {
    let kind = match row[0] {
        1 => "folder",
        2 => "trace",
        _ => return Err("tree: no kind".to_string()),
    };
    if row[1] > 1 || row[2..4] != [0, 0] {
        return Err("tree: an entry's bytes 1 to 3".to_string());
    }
    let mut line = format!("{kind} {} in {} \"", identity(row, 4)?, identity(row, 8)?);
    // The last contents and place records are not printed.
    identity(row, 12)?;
    identity(row, 16)?;
    for byte in row[24..56].iter().take_while(|byte| **byte != 0) {
        if matches!(byte, b'"' | b'\\') {
            line.push('\\');
        }
        line.push(*byte as char);
    }
    line += &format!("\" {:04}-{:02}-{:02}", get16(row, 20), row[22], row[23]);
    if row[0] == 2 {
        line.push(' ');
        row[56..]
            .iter()
            .for_each(|byte| line += &format!("{byte:02x}"));
    } else if row[56..] != [0; 16] {
        return Err("tree: a folder with a mark".to_string());
    }
    if row[1] == 1 {
        line += " disputed";
    }
    Ok(line)
}

fn aside_line(row: &[u8]) -> Result<String, Fault> {
    let state = match row[5] {
        1 => "open",
        2 => "settled",
        _ => return Err("tree: no state".to_string()),
    };
    if row[6..8] != [0, 0] {
        return Err("tree: an aside's bytes 6 and 7".to_string());
    }
    let marks = match &row[8..] {
        [0, 0, 0, 0] => "-".to_string(),
        _ => identity(row, 8)?,
    };
    Ok(format!(
        "aside {} reason {} marks {marks} {state}",
        identity(row, 0)?,
        row[4]
    ))
}

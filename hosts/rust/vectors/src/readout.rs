//! Readout cases: a file and the listing of it.

use crate::words::Fault;
use library::{BASE, FILE, LISTING, LOG, Library, SAB2_FILE, TREE, empty_base, tree};

/// Runs one case: a file of either form.
pub fn case(library: &dyn Library, file: &[u8], expected: &[u8]) -> Result<(), Fault> {
    differs(expected, &listing(library, file)?)?;
    let mut out = vec![0; LISTING];
    match library.listing_into(file, &mut out) {
        None => Ok(()),
        Some(len) => differs(expected, &out[..len]),
    }
}

/// The first line in which two texts differ.
pub fn differs(expected: &[u8], came: &[u8]) -> Result<(), Fault> {
    if expected == came {
        return Ok(());
    }
    let lines = |text: &[u8]| -> Vec<String> {
        text.split_inclusive(|byte| *byte == b'\n')
            .map(|line| String::from_utf8_lossy(line).escape_debug().to_string())
            .collect()
    };
    let (expected, came) = (lines(expected), lines(came));
    let at = expected
        .iter()
        .zip(&came)
        .take_while(|(a, b)| a == b)
        .count();
    let line = |lines: &[String]| lines.get(at).cloned().unwrap_or("the end".to_string());
    Err(format!(
        "line {}: '{}' expected, '{}' came",
        at + 1,
        line(&expected),
        line(&came)
    ))
}

/// The listing by reading the file, showing its tree, and writing it again.
pub fn listing(library: &dyn Library, file: &[u8]) -> Result<Vec<u8>, Fault> {
    let lent: Vec<u8> = (0..LOG).map(|i| (3 + 31 * i) as u8).collect();
    let lent_base = crate::lists::junk(BASE);
    let (mut log, mut base) = (lent.clone(), lent_base.clone());
    let head = match library.read_file(&mut log, &mut base, file) {
        Ok(head) => head,
        Err(refusal) => {
            if log != lent || base != lent_base {
                return Err("refused, but log or base changed".to_string());
            }
            let text = format!("refused {} at {}\n", refusal.number, refusal.place);
            return Ok(text.into_bytes());
        }
    };
    let is_sab2 = file.starts_with(b"SAB2");
    if !is_sab2 && base != empty_base() {
        return Err("read, but the base is not empty".to_string());
    }
    let mut again = vec![0xa5; if is_sab2 { SAB2_FILE } else { FILE }];
    let (archive, unit) = (head.archive, head.unit.into());
    let count = if is_sab2 {
        library.write_sab2(&log, &base, archive, unit, &mut again)
    } else {
        library.write_file(&log, &base, archive, unit, &mut again)
    };
    let (blocks, tail) = again.split_at(file.len());
    let whole = count == Ok((file.len() / 512) as u16);
    if !whole || blocks != file || tail.iter().any(|byte| *byte != 0) {
        return Err("written again, the file differs".to_string());
    }
    let mut table = vec![0xa5; TREE];
    if library.show(&log, &base, &mut table).is_err() {
        return Err("read, but not shown".to_string());
    }
    let lines = tree::lines(&table)?;
    let mut text = format!(
        "archive {} unit {} records {}\nseen",
        head.archive, head.unit, head.records
    );
    head.vector
        .iter()
        .for_each(|count| text += &format!(" {count}"));
    text.push('\n');
    for line in lines.entries.iter().chain(&lines.asides) {
        text += line;
        text.push('\n');
    }
    Ok(text.into_bytes())
}

//! Merges: two files, and the one that they become.

use crate::lists::{answer, kept};
use crate::words::{Fault, Words, hash};
use library::{LOG, Library, Refusal, empty_base};

const BLOCK: usize = 512;

/// Runs one line.
pub fn row(library: &dyn Library, line: &str) -> Result<(), Fault> {
    let mut words = Words::of(line);
    match words.word()? {
        "merge" => merge(library, words),
        name => Err(format!("no call {name}")),
    }
}

fn merge(library: &dyn Library, mut words: Words) -> Result<(), Fault> {
    let lent = words.lent()?;
    let (first, second) = (words.bytes()?, words.bytes()?);
    words.equals()?;
    let lent_log: Vec<u8> = (0..LOG).map(|i| (5 + 31 * i) as u8).collect();
    let (mut log, mut file) = (lent_log.clone(), lent.clone());
    let merged = library.merge(&first, &second, &mut log, &mut file);
    let mut came = answer(&merged.map_err(Refusal::from)).to_vec();
    match merged {
        Ok(blocks) => {
            reads_back(library, &file[..BLOCK * blocks as usize], &log)?;
            came.extend(["-".to_string(), blocks.to_string(), hash(&file)]);
        }
        Err(refused) => {
            kept("file", &file, &lent)?;
            kept("log", &log, &lent_log)?;
            let named = match refused.file {
                0 => "-".to_string(),
                file => file.to_string(),
            };
            came.extend([named, "-".to_string(), "-".to_string()]);
        }
    }
    words.expect(&came)
}

/// The file reads back as the log that the merge left.
fn reads_back(library: &dyn Library, file: &[u8], log: &[u8]) -> Result<(), Fault> {
    let mut read = vec![0; LOG];
    match library.read_file(&mut read, &mut empty_base(), file) {
        Err(refusal) => Err(format!("the merged file is refused: {refusal:?}")),
        Ok(_) if read != log => Err("the lent log is not that of the file".to_string()),
        Ok(_) => Ok(()),
    }
}

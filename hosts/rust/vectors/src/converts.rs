//! Conversions: an SAB1 file as SAB2, and the way back.

use crate::lists::{answer, junk, kept};
use crate::readout;
use crate::words::{Fault, Words, hash};
use library::{Answer, FILE, Library, SAB2_FILE};

/// Runs one line.
pub fn row(library: &dyn Library, line: &str) -> Result<(), Fault> {
    let mut words = Words::of(line);
    match words.word()? {
        "convert" => convert(library, words),
        "tosab2" => one_way(words, |file, out| library.to_sab2(file, out)),
        "tosab1" => one_way(words, |file, out| library.to_sab1(file, out)),
        name => Err(format!("no call {name}")),
    }
}

/// One conversion into lent bytes.
fn one_way(
    mut words: Words,
    call: impl FnOnce(&[u8], &mut [u8]) -> Answer<u16>,
) -> Result<(), Fault> {
    let (lent, file) = (words.lent()?, words.bytes()?);
    words.equals()?;
    let mut out = lent.clone();
    let given = call(&file, &mut out);
    let mut came = answer(&given).to_vec();
    came.extend(match given {
        Ok(blocks) => [blocks.to_string(), hash(&out)],
        Err(_) => {
            kept("file", &out, &lent)?;
            ["-".to_string(), "-".to_string()]
        }
    });
    words.expect(&came)
}

/// What a call answers that writes a file, and the blocks of that file. The lent
/// memory is zero behind them, or as it was if the call is refused.
pub fn wrote(
    length: usize,
    call: impl FnOnce(&mut [u8]) -> Answer<u16>,
) -> Result<(Answer<u16>, Vec<u8>), Fault> {
    let lent = junk(length);
    let mut file = lent.clone();
    let given = call(&mut file);
    match given {
        Err(_) => kept("file", &file, &lent)?,
        Ok(blocks) => {
            let rest = file.split_off(512 * usize::from(blocks));
            if rest.iter().any(|byte| *byte != 0) {
                return Err("the bytes behind the file are not zero".to_string());
            }
        }
    }
    Ok((given, file))
}

/// To SAB2. If that is accepted, the way back gives the same bytes, no conversion
/// takes the form that it makes, and both forms list alike.
fn convert(library: &dyn Library, mut words: Words) -> Result<(), Fault> {
    let sab1 = words.bytes()?;
    words.equals()?;
    let (given, sab2) = wrote(SAB2_FILE, |out| library.to_sab2(&sab1, out))?;
    words.expect(&answer(&given))?;
    if given.is_err() {
        return Ok(());
    }
    let (back, again) = wrote(FILE, |out| library.to_sab1(&sab2, out))?;
    if back.is_err() || again != sab1 {
        return Err("the way back gives other bytes".to_string());
    }
    let (up, _) = wrote(SAB2_FILE, |out| library.to_sab2(&sab2, out))?;
    let (down, _) = wrote(FILE, |out| library.to_sab1(&sab1, out))?;
    let expected = if sab2.len() > FILE { "2" } else { "3" };
    if answer(&up) != [expected, "0"] || answer(&down) != ["3", "0"] {
        return Err("a conversion takes the form that it makes".to_string());
    }
    let listing = readout::listing(library, &sab1)?;
    readout::case(library, &sab1, &listing)?;
    readout::case(library, &sab2, &listing)
}

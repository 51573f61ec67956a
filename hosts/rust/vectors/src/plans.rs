//! Plans: the exact bytes that are printed of each.

use crate::readout::differs;
use crate::words::Fault;
use library::{LOG, LOGS, Library, PlanRefusal, empty_base};

/// Runs one case.
pub fn case(library: &dyn Library, plan: &[u8], expected: &[u8]) -> Result<(), Fault> {
    let lent: Vec<u8> = (0..LOGS).map(|i| (7 + 31 * i) as u8).collect();
    let mut logs = lent.clone();
    let Some(round) = logs.first_chunk_mut() else {
        return Err("no room for eight logs".to_string());
    };
    let (tried, text) = library.try_plan(plan, round);
    differs(expected, &text)?;
    match tried {
        Ok(()) => sound(library, &logs),
        Err(_) if logs != lent => Err("refused, but a log changed".to_string()),
        Err(PlanRefusal { number, place }) => {
            differs(expected, format!("refused {number} at {place}\n").as_bytes())
        }
    }
}

/// Each unit is left with a sound log.
fn sound(library: &dyn Library, logs: &[u8]) -> Result<(), Fault> {
    for (unit, log) in logs.chunks(LOG).enumerate() {
        if library.vector(log, &empty_base()).is_err() {
            return Err(format!("the log of unit {unit} is not sound"));
        }
    }
    Ok(())
}

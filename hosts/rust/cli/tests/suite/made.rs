//! Cards made for a test.

use sab::{Date, Identity, Log, Mark, Unit, Wish};

/// A unit's log with so many traces of its own in a folder of its own.
pub fn card(unit: Unit, traces: u16) -> Vec<u8> {
    let mut log = Log::start(7, unit);
    let date = Date::new(2025, 3, 3);
    let label = format!("Unit {unit}");
    let folder = Wish::make_folder(Identity::ROOT, &label, date).expect("a label");
    let folder = log.act(&folder).expect("a folder");
    for number in 0..traces {
        let label = format!("Trace {number}");
        let mark = Mark([number as u8; 16]);
        let wish = Wish::make_trace(folder, &label, date, mark).expect("a label");
        log.act(&wish).expect("a trace");
    }
    log.write_file().expect("a file")
}

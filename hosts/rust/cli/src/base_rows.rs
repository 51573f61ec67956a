//! The rows of list and base in an SAB2 file, looked at to say what was wrong with
//! them.

use crate::why::{bad_date, block_at, counted, no_label, number16};
use sab::raw::{BLOCK, WISH};

/// A row's bytes.
type Row = [u8; WISH];

/// What a file has in front of its records.
pub struct Front {
    /// Blocks of rows; none in an SAB1 file.
    pub blocks: usize,
    /// Rows.
    rows: usize,
    entries: usize,
    asides: usize,
    /// The listed units, bit u for unit u.
    pub list: u8,
    /// How many records of each unit are folded.
    pub folded: [usize; 8],
}

impl Front {
    /// Nothing, as in an SAB1 file.
    pub const NONE: Front = Front {
        blocks: 0,
        rows: 0,
        entries: 0,
        asides: 0,
        list: 255,
        folded: [0; 8],
    };

    /// What a file's head says.
    pub fn of(bytes: &[u8]) -> Front {
        let head = match block_at(bytes, 0) {
            Some(block) if block.starts_with(b"SAB2") => &block[28..108],
            _ => return Front::NONE,
        };
        let word = |at: usize| usize::from(number16(&head[at..]));
        let (entries, asides) = (word(2), word(4));
        let rows = 1 + entries + asides.div_ceil(6);
        Front {
            blocks: rows.div_ceil(6),
            rows,
            entries,
            asides,
            list: head[0],
            folded: std::array::from_fn(|unit| word(8 + 2 * unit)),
        }
    }

    /// What 20 found in a block of rows.
    pub fn row_fault(&self, place: usize, count: usize, is_last: bool) -> Option<String> {
        if place >= self.blocks {
            return None;
        }
        let due = (self.rows - 6 * place).min(6);
        if count != due {
            return Some(format!(
                "it has {}, and the head, which says {} and {}, wants {due}",
                counted(count, "row"),
                entries(self.entries),
                counted(self.asides, "aside"),
            ));
        }
        let wanted = self.blocks - 1;
        (is_last && place != wanted)
            .then(|| format!("it is the last, and the rows go on to block {wanted}"))
    }

    /// How many bytes of a row are used.
    fn used(&self, i: usize) -> usize {
        match i.checked_sub(1) {
            None => 24,
            Some(i) if i < self.entries => 72,
            Some(i) => 12 * (self.asides - 6 * (i - self.entries)).min(6),
        }
    }
}

fn entries(count: usize) -> String {
    match count {
        1 => "1 entry".to_string(),
        some => format!("{some} entries"),
    }
}

/// A row of a file, with its offset.
fn row(bytes: &[u8], i: usize) -> Option<(usize, &Row)> {
    let at = BLOCK * (i / 6) + 28 + WISH * (i % 6);
    let row = bytes.get(at..at + WISH)?.try_into().ok()?;
    Some((at, row))
}

/// What 31 found in the rows of a file.
pub fn fault(bytes: &[u8]) -> Option<String> {
    let front = Front::of(bytes);
    if front.entries > 512 || front.asides > 512 {
        return Some(format!(
            "the head says {} and {}, and 512 of each is the most",
            entries(front.entries),
            counted(front.asides, "aside")
        ));
    }
    let behind = (0..front.rows).find_map(|i| {
        let (at, row) = row(bytes, i)?;
        let set = row[front.used(i)..].iter().position(|byte| *byte != 0)?;
        let set = at + front.used(i) + set;
        Some(format!("byte {set} is {:02x}, behind a row", bytes[set]))
    });
    let (_, head) = row(bytes, 0)?;
    let zero = [1, 6, 7].into_iter().find(|at| head[*at] != 0);
    let zero = zero.map(|at| format!("byte {}, in the head, is {:02x}", 28 + at, head[at]));
    let unlisted = (0..8).find(|unit| front.folded[*unit] > 0 && front.list >> unit & 1 == 0);
    let unlisted = unlisted.map(|unit| {
        let folded = counted(front.folded[unit], "folded record");
        format!("unit {unit} has {folded}, and is not listed")
    });
    behind
        .or(zero)
        .or(unlisted)
        .or_else(|| (1..=front.entries).find_map(|i| entry_fault(&front, bytes, i)))
        .or_else(|| (0..front.asides).find_map(|i| aside_fault(&front, bytes, i)))
        .or_else(|| Some(together(&front)))
}

/// What is left: each row keeps its layout, and they do not go together.
fn together(front: &Front) -> String {
    format!(
        "of {} and {}: an identity stands twice, a label twice in a folder, or an entry does not reach the root",
        entries(front.entries),
        counted(front.asides, "aside")
    )
}

fn identity(field: &[u8]) -> String {
    format!("{}.{}", field[0], number16(&field[2..]))
}

/// Whether an identity is one of the folded records.
fn is_named(front: &Front, field: &[u8]) -> bool {
    let (unit, number) = (usize::from(field[0]), usize::from(number16(&field[2..])));
    unit < 8 && field[1] == 0 && (1..=front.folded[unit]).contains(&number)
}

fn entry_fault(front: &Front, bytes: &[u8], i: usize) -> Option<String> {
    let (at, row) = row(bytes, i)?;
    let names = [
        ("identity", 4),
        ("folder", 8),
        ("last contents record", 12),
        ("last place record", 16),
    ];
    let unnamed = names.into_iter().find_map(|(what, at)| {
        let field = &row[at..at + 4];
        let is_root = what == "folder" && field == [0; 4];
        (!is_root && !is_named(front, field))
            .then(|| format!("its {what} {} is none that is folded", identity(field)))
    });
    let kind = match (row[0], &row[1..4]) {
        (1 | 2, [0, 0, 0]) => None,
        (1 | 2, _) => Some("a byte behind its kind is set".to_string()),
        (kind, _) => Some(format!("kind {kind}")),
    };
    let mark = row[0] == 1 && row[56..72] != [0; 16];
    kind.or(unnamed)
        .or_else(|| bad_date(&row[20..24]))
        .or_else(|| no_label(&row[24..56]))
        .or(mark.then(|| "a folder with a mark".to_string()))
        .map(|fault| format!("the entry in bytes {at} to {}: {fault}", at + 71))
}

fn aside_fault(front: &Front, bytes: &[u8], i: usize) -> Option<String> {
    let (at, six) = row(bytes, 1 + front.entries + i / 6)?;
    let at = at + 12 * (i % 6);
    let row = &six[12 * (i % 6)..][..12];
    let fault = if !is_named(front, &row[..4]) {
        format!("its identity {} is none that is folded", identity(row))
    } else if !matches!(row[4], 12..=18 | 25) {
        format!("reason {}", row[4])
    } else if !matches!(row[5], 1 | 2) {
        format!("state {}", row[5])
    } else if row[6..8] != [0, 0] {
        "a byte behind its state is set".to_string()
    } else if row[8..12] != [0; 4] && !is_named(front, &row[8..12]) {
        format!(
            "it marks {}, which is none that is folded",
            identity(&row[8..12])
        )
    } else {
        return None;
    };
    Some(format!("the aside in bytes {at} to {}: {fault}", at + 11))
}

//! A file's bytes, field by field, with what they are.

use crate::examples::Example;

/// Bytes of a row.
const ROW: usize = 16;

struct Dump<'a> {
    file: &'a [u8],
    at: usize,
    text: String,
}

/// The listing and the dump of an example, as they stand in a page.
pub fn page_part(example: &Example) -> String {
    let mut dump = dump(&example.file);
    if let Some(like) = &example.like {
        dump = differing(&dump, &self::dump(like));
    }
    format!("```\n{}```\n\n```\n{dump}```\n", example.listing)
}

fn dump(file: &[u8]) -> String {
    let mut dump = Dump {
        file,
        at: 0,
        text: String::new(),
    };
    let mut rows = Rows::of(file);
    for block in 0..file.len() / 512 {
        dump.block(block, &mut rows);
    }
    dump.text
}

/// What a place of 80 bytes holds.
enum Row {
    Head,
    Entry,
    /// So many asides.
    Asides(usize),
    Record,
}

/// The rows of list and base that an SAB2 file has in front.
struct Rows {
    is_headed: bool,
    entries: usize,
    asides: usize,
}

impl Rows {
    fn of(file: &[u8]) -> Rows {
        let is_sab2 = file.starts_with(b"SAB2");
        let said = |at: usize| if is_sab2 { get16(file, at).into() } else { 0 };
        Rows {
            is_headed: is_sab2,
            entries: said(30),
            asides: said(32),
        }
    }

    /// The next one.
    fn next(&mut self) -> Row {
        if self.is_headed {
            self.is_headed = false;
            Row::Head
        } else if self.entries > 0 {
            self.entries -= 1;
            Row::Entry
        } else if self.asides > 0 {
            let six = self.asides.min(6);
            self.asides -= six;
            Row::Asides(six)
        } else {
            Row::Record
        }
    }
}

/// The lines of a text that are not those of another.
fn differing(text: &str, other: &str) -> String {
    text.lines()
        .zip(other.lines())
        .filter(|(line, other)| line != other)
        .map(|(line, _)| format!("{line}\n"))
        .collect()
}

fn get16(bytes: &[u8], at: usize) -> u16 {
    u16::from_le_bytes([bytes[at], bytes[at + 1]])
}

fn counts(bytes: &[u8]) -> String {
    let counts: Vec<String> = (0..8)
        .map(|unit| get16(bytes, 2 * unit).to_string())
        .collect();
    counts.join(" ")
}

fn identity(bytes: &[u8]) -> String {
    format!("{}.{}", bytes[0], get16(bytes, 2))
}

fn date(bytes: &[u8]) -> String {
    format!(
        "date {:04}-{:02}-{:02}",
        get16(bytes, 0),
        bytes[2],
        bytes[3]
    )
}

fn label(bytes: &[u8]) -> String {
    let text = bytes.iter().take_while(|byte| **byte != 0);
    text.map(|byte| *byte as char).collect()
}

const OPERATIONS: [&str; 8] = [
    "",
    "make folder",
    "make trace",
    "store",
    "remove",
    "rename",
    "settle",
    "move",
];

impl Dump<'_> {
    fn line(&mut self, line: &str) {
        self.text += line.trim_end();
        self.text.push('\n');
    }

    /// The next bytes, in rows; what they are stands behind the first row.
    fn field(&mut self, length: usize, what: &str) {
        let bytes = &self.file[self.at..self.at + length];
        let rows: Vec<String> = bytes
            .chunks(ROW)
            .map(|row| {
                row.iter()
                    .map(|byte| format!("{byte:02x}"))
                    .collect::<Vec<_>>()
                    .join(" ")
            })
            .collect();
        for (i, row) in rows.iter().enumerate() {
            let what = if i == 0 { what } else { "" };
            let line = format!("{:6}  {row:<47}  {what}", self.at + ROW * i);
            self.line(&line);
        }
        self.at += length;
    }

    /// The next bytes as far as they are meant to be zero.
    fn zeros(&mut self, length: usize, what: &str) {
        assert!(
            self.file[self.at..self.at + length]
                .iter()
                .all(|byte| *byte == 0)
        );
        let line = format!("{:6}  {:<47}  {what}", self.at, format!("00 x {length}"));
        self.line(&line);
        self.at += length;
    }

    /// A field that an operation uses, or its zeros.
    fn used(&mut self, uses: bool, length: usize, name: &str, value: &str) {
        if uses {
            self.field(length, &format!("{name} {value}"));
        } else {
            self.zeros(length, &format!("{name}, not used"));
        }
    }

    fn block(&mut self, place: usize, rows: &mut Rows) {
        let bytes = &self.file[512 * place..512 * (place + 1)];
        let archive = u32::from_le_bytes([bytes[4], bytes[5], bytes[6], bytes[7]]);
        let used = bytes[9] as usize;
        self.line(&format!("block {place}"));
        self.field(4, &format!("letters SAB{}", bytes[3] as char));
        self.field(4, &format!("archive {archive}"));
        self.field(1, &format!("unit {}", bytes[8]));
        self.field(1, &format!("count {used}"));
        self.field(2, &format!("place {}", get16(bytes, 10)));
        self.field(16, &format!("vector {}", counts(&bytes[12..28])));
        let mut unused = "places without a record";
        for row in bytes[28..].chunks(80).take(used) {
            match rows.next() {
                Row::Record => self.record(row),
                kind => {
                    self.row(row, kind);
                    unused = "places without a row";
                }
            }
        }
        if used < 6 {
            self.zeros(480 - 80 * used, unused);
        }
        self.field(2, &format!("first sum {}", get16(bytes, 508)));
        self.field(2, &format!("second sum {}", get16(bytes, 510)));
    }

    /// A row of list and base, and the zeros behind its bytes.
    fn row(&mut self, row: &[u8], kind: Row) {
        let end = self.at + 80;
        match kind {
            Row::Head => self.head(row),
            Row::Entry => self.entry(row),
            Row::Asides(count) => row.chunks(12).take(count).for_each(|row| self.aside(row)),
            Row::Record => unreachable!("a record is no row"),
        }
        if self.at < end {
            self.zeros(end - self.at, "behind the row");
        }
    }

    fn head(&mut self, row: &[u8]) {
        let listed = (0..8).filter(|unit| row[0] >> unit & 1 == 1);
        let listed: Vec<String> = listed.map(|unit| unit.to_string()).collect();
        self.line("head");
        self.field(1, &format!("list: units {}", listed.join(" ")));
        self.zeros(1, "zero");
        self.field(2, &format!("entries {}", get16(row, 2)));
        self.field(2, &format!("asides {}", get16(row, 4)));
        self.zeros(2, "zero");
        self.field(16, &format!("base vector {}", counts(&row[8..24])));
    }

    fn entry(&mut self, row: &[u8]) {
        let kind = ["", "folder", "trace"][usize::from(row[0])];
        self.line(&format!("entry {}", identity(&row[4..8])));
        self.field(1, &format!("kind {}: {kind}", row[0]));
        self.zeros(3, "zero");
        self.field(4, &format!("identity {}", identity(&row[4..8])));
        self.field(4, &format!("folder {}", identity(&row[8..12])));
        self.field(
            4,
            &format!("last contents record {}", identity(&row[12..16])),
        );
        self.field(4, &format!("last place record {}", identity(&row[16..20])));
        self.field(4, &date(&row[20..24]));
        self.field(32, &format!("label {}", label(&row[24..56])));
        self.used(row[0] == 2, 16, "mark", "");
    }

    fn aside(&mut self, row: &[u8]) {
        let marks = match row[8..12] {
            [0, 0, 0, 0] => "nothing".to_string(),
            _ => identity(&row[8..12]),
        };
        self.line(&format!("aside {}", identity(row)));
        self.field(4, &format!("identity {}", identity(row)));
        self.field(1, &format!("reason {}", row[4]));
        self.field(
            1,
            &format!(
                "state {}: {}",
                row[5],
                ["", "open", "settled"][usize::from(row[5])]
            ),
        );
        self.zeros(2, "zero");
        self.field(4, &format!("marks {marks}"));
    }

    fn record(&mut self, record: &[u8]) {
        let operation = record[1];
        let name = OPERATIONS[operation as usize];
        self.line(&format!("record {}.{}", record[0], get16(record, 2)));
        self.field(1, &format!("unit {}", record[0]));
        self.field(1, &format!("operation {operation}: {name}"));
        self.field(2, &format!("number {}", get16(record, 2)));
        self.field(16, &format!("seen {}", counts(&record[4..20])));
        self.used(operation >= 3, 4, "object", &identity(&record[20..24]));
        self.used(
            matches!(operation, 1 | 2 | 7),
            4,
            "folder",
            &identity(&record[24..28]),
        );
        self.field(4, &date(&record[28..32]));
        let label = label(&record[32..64]);
        self.used(matches!(operation, 1 | 2 | 5 | 7), 32, "label", &label);
        self.used(matches!(operation, 2 | 3), 16, "mark", "");
    }
}

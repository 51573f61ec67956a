//! Rules of the format, one word after the other.

pub fn word(bytes: &[u8], at: usize) -> usize {
    usize::from(u16::from_le_bytes([bytes[at], bytes[at + 1]]))
}

/// An identity at a place is named within the base vector.
fn is_named(base: &[u8], at: usize) -> bool {
    let unit = usize::from(base[at]);
    unit < 8 && base[at + 1] == 0 && (1..=word(base, 8 + 2 * unit)).contains(&word(base, at + 2))
}

fn is_label(label: &[u8]) -> bool {
    let end = label
        .iter()
        .position(|byte| *byte == 0)
        .unwrap_or(label.len());
    let (text, rest) = label.split_at(end);
    !text.is_empty()
        && text.iter().all(|byte| (0x20..0x7f).contains(byte))
        && text[0] != b' '
        && text[end - 1] != b' '
        && rest.iter().all(|byte| *byte == 0)
}

/// The base is sound, by the words of the format, one after the other.
pub fn is_sound_base(base: &[u8]) -> bool {
    let (n, m) = (word(base, 2), word(base, 4));
    if base[1] != 0 || n > 512 || m > 512 || word(base, 6) != 0 {
        return false;
    }
    let entry = |i: usize| &base[24 + 72 * i..96 + 72 * i];
    let aside = |i: usize| &base[36_888 + 12 * i..36_900 + 12 * i];
    let none = |bytes: &[u8]| bytes.iter().all(|byte| *byte == 0);
    let entry_fits = |i: usize| {
        let (row, at) = (entry(i), 24 + 72 * i);
        matches!(row[0], 1 | 2)
            && none(&row[1..4])
            && is_named(base, at + 4)
            && (none(&row[8..12]) || is_named(base, at + 8))
            && is_named(base, at + 12)
            && is_named(base, at + 16)
            && plain::is_date(word(row, 20) as u16, row[22], row[23])
            && is_label(&row[24..56])
            && (row[0] == 2 || none(&row[56..]))
    };
    let aside_fits = |i: usize| {
        let (row, at) = (aside(i), 36_888 + 12 * i);
        is_named(base, at)
            && (matches!(row[4], 12..=18) || row[4] == 25)
            && matches!(row[5], 1 | 2)
            && none(&row[6..8])
            && (none(&row[8..12]) || is_named(base, at + 8))
    };
    let rows = (0..n).all(entry_fits) && (0..m).all(aside_fits);
    let rest = none(&base[24 + 72 * n..36_888]) && none(&base[36_888 + 12 * m..]);
    if !rows || !rest {
        return false;
    }
    let mut ids: Vec<&[u8]> = (0..n).map(|i| &entry(i)[4..8]).collect();
    ids.extend((0..m).map(|i| &aside(i)[..4]));
    let twice = (0..ids.len()).any(|i| ids[..i].contains(&ids[i]));
    let lower = |i: usize| entry(i)[24..56].to_ascii_lowercase();
    let same = |i: usize, j: usize| entry(i)[8..12] == entry(j)[8..12] && lower(i) == lower(j);
    let labels = (0..n).any(|i| (0..i).any(|j| same(i, j)));
    let reaches = |i: usize| {
        let mut at = &entry(i)[8..12];
        for _ in 0..=n {
            if none(at) {
                return true;
            }
            match (0..n).find(|j| entry(*j)[4..8] == *at && entry(*j)[0] == 1) {
                Some(j) => at = &entry(j)[8..12],
                None => return false,
            }
        }
        false
    };
    !twice && !labels && (0..n).all(reaches)
}

//! The words of a vector line.

/// Why a word or a case is no good.
pub type Fault = String;

/// The words of one line, taken one after the other.
pub struct Words<'a> {
    words: std::str::Split<'a, char>,
}

impl<'a> Words<'a> {
    pub fn of(line: &'a str) -> Words<'a> {
        Words {
            words: line.split(' '),
        }
    }

    pub fn word(&mut self) -> Result<&'a str, Fault> {
        self.words
            .next()
            .ok_or_else(|| "a word is missing".to_string())
    }

    /// A word further on, without taking it.
    pub fn word_ahead(&self, after: usize) -> Result<&'a str, Fault> {
        self.words
            .clone()
            .nth(after)
            .ok_or_else(|| "a word is missing".to_string())
    }

    pub fn number<T: std::str::FromStr>(&mut self) -> Result<T, Fault> {
        number(self.word()?)
    }

    /// `LENGTH:HEX`, then zeros up to the length.
    pub fn bytes(&mut self) -> Result<Vec<u8>, Fault> {
        bytes(self.word()?)
    }

    /// A label's bytes in digits, without the zeros behind it; `-` for none.
    pub fn label(&mut self) -> Result<Vec<u8>, Fault> {
        match self.word()? {
            "-" => Ok(Vec::new()),
            word => bytes(&format!("{}:{word}", word.len() / 2)),
        }
    }

    /// `UNIT.NUMBER`.
    pub fn identity(&mut self) -> Result<(u32, u32), Fault> {
        let word = self.word()?;
        let (unit, of_unit) = word
            .split_once('.')
            .ok_or_else(|| format!("{word}: no identity"))?;
        Ok((number(unit)?, number(of_unit)?))
    }

    /// Identities parted by commas, or `-` for none: four bytes each.
    pub fn names(&mut self) -> Result<Vec<u8>, Fault> {
        let word = self.word()?;
        if word == "-" {
            return Ok(Vec::new());
        }
        let mut names = Vec::new();
        for name in word.split(',') {
            let (unit, of_unit) = name
                .split_once('.')
                .ok_or_else(|| format!("{name}: no identity"))?;
            let (unit, of_unit): (u8, u16) = (number(unit)?, number(of_unit)?);
            let [low, high] = of_unit.to_le_bytes();
            names.extend([unit, 0, low, high]);
        }
        Ok(names)
    }

    /// `LENGTH*SEED`: a buffer lent for writing.
    pub fn lent(&mut self) -> Result<Vec<u8>, Fault> {
        let word = self.word()?;
        let (length, seed) = word
            .split_once('*')
            .ok_or_else(|| format!("{word}: not lent"))?;
        let (length, seed): (usize, u8) = (number(length)?, number(seed)?);
        Ok((0..length)
            .map(|i| seed.wrapping_add((31 * i) as u8))
            .collect())
    }

    /// Eight counts parted by commas.
    pub fn vector(&mut self) -> Result<[u16; 8], Fault> {
        let word = self.word()?;
        let counts = word
            .split(',')
            .map(number)
            .collect::<Result<Vec<u16>, Fault>>()?;
        counts
            .try_into()
            .map_err(|_| format!("{word}: not eight counts"))
    }

    /// Units parted by commas, rising, or `-`: bit u for unit u.
    pub fn units(&mut self) -> Result<u8, Fault> {
        let word = self.word()?;
        if word == "-" {
            return Ok(0);
        }
        let mut list = 0;
        for unit in word.split(',') {
            let unit: u8 = number(unit)?;
            if unit > 7 || list >> unit != 0 {
                return Err(format!("{word}: no rising units"));
            }
            list |= 1 << unit;
        }
        Ok(list)
    }

    /// The lone `=` before what is expected.
    pub fn equals(&mut self) -> Result<(), Fault> {
        match self.word()? {
            "=" => Ok(()),
            word => Err(format!("{word} where = is due")),
        }
    }

    pub fn end(&mut self) -> Result<(), Fault> {
        match self.words.next() {
            None => Ok(()),
            Some(word) => Err(format!("{} is one word too many", shortened(word))),
        }
    }

    /// Words expected, compared with those that came.
    pub fn expect(&mut self, came: &[String]) -> Result<(), Fault> {
        for came in came {
            let expected = self.word()?;
            if expected != came {
                return Err(format!(
                    "{} expected, {} came",
                    shortened(expected),
                    shortened(came)
                ));
            }
        }
        self.end()
    }
}

fn number<T: std::str::FromStr>(word: &str) -> Result<T, Fault> {
    let plain = !word.is_empty() && word.bytes().all(|byte| byte.is_ascii_digit());
    word.parse()
        .ok()
        .filter(|_| plain)
        .ok_or_else(|| format!("{}: no number", shortened(word)))
}

/// The bytes of `LENGTH:HEX`.
pub fn bytes(word: &str) -> Result<Vec<u8>, Fault> {
    let fault = || format!("{}: no bytes", shortened(word));
    let (length, hex) = word.split_once(':').ok_or_else(fault)?;
    let length: usize = number(length)?;
    let (pairs, rest) = hex.as_bytes().as_chunks::<2>();
    if !rest.is_empty() || pairs.len() > length {
        return Err(fault());
    }
    let mut bytes = Vec::with_capacity(length);
    for [high, low] in pairs {
        bytes.push(digit(*high).ok_or_else(fault)? << 4 | digit(*low).ok_or_else(fault)?);
    }
    bytes.resize(length, 0);
    Ok(bytes)
}

fn digit(byte: u8) -> Option<u8> {
    match byte {
        b'0'..=b'9' => Some(byte - b'0'),
        b'a'..=b'f' => Some(byte - b'a' + 10),
        _ => None,
    }
}

/// FNV-1a of 64 bits, as it is written.
pub fn hash(bytes: &[u8]) -> String {
    let hash = bytes.iter().fold(0xcbf2_9ce4_8422_2325u64, |hash, byte| {
        (hash ^ *byte as u64).wrapping_mul(0x0000_0100_0000_01b3)
    });
    format!("{hash:016x}")
}

/// A vector as it is written.
pub fn vector(counts: &[u16; 8]) -> String {
    counts.map(|count| count.to_string()).join(",")
}

/// A list of units as it is written.
pub fn units(list: u8) -> String {
    let listed = (0..8).filter(|unit| list >> unit & 1 == 1);
    let units: Vec<String> = listed.map(|unit| unit.to_string()).collect();
    if units.is_empty() { "-".to_string() } else { units.join(",") }
}

/// The beginning of a long word.
pub fn shortened(word: &str) -> String {
    match word.char_indices().nth(80) {
        None => word.to_string(),
        Some((at, _)) => format!("{}..", &word[..at]),
    }
}

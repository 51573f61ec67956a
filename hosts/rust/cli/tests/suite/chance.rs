//! Files damaged by chance, through every command that reads: it answers by a
//! status, and changes no file that it refuses. `SAB_CHANCE` says how many; without
//! it 200.

use crate::common::{Folder, kit};
use crate::here::sab;
use sab_cli::out::Status;
use std::env;
use std::fs;

/// Numbers by chance, the same for the same seed.
pub struct Chance(pub u64);

impl Chance {
    /// A number below a limit.
    pub fn below(&mut self, limit: usize) -> usize {
        self.0 ^= self.0 << 13;
        self.0 ^= self.0 >> 7;
        self.0 ^= self.0 << 17;
        (self.0 % limit.max(1) as u64) as usize
    }
}

/// Puts the sums of every whole block right, so that deeper checks are met.
pub fn seal(file: &mut [u8]) {
    for block in file.chunks_exact_mut(512) {
        let (mut first, mut second) = (0u32, 0u32);
        for word in block[..508].chunks(2) {
            first = (first + u32::from(u16::from_le_bytes([word[0], word[1]]))) % 65_521;
            second = (second + first) % 65_521;
        }
        block[508..510].copy_from_slice(&(first as u16).to_le_bytes());
        block[510..].copy_from_slice(&(second as u16).to_le_bytes());
    }
}

fn damage(file: &mut Vec<u8>, chance: &mut Chance) {
    for _ in 0..1 + chance.below(4) {
        let at = chance.below(file.len());
        match chance.below(6) {
            0 => file.truncate(at),
            1 => file.insert(at, chance.below(256) as u8),
            2 if !file.is_empty() => drop(file.remove(at)),
            3 => file.extend_from_within(at..),
            _ if !file.is_empty() => file[at] = chance.below(256) as u8,
            _ => {}
        }
    }
    if chance.below(3) > 0 {
        seal(file);
    }
}

#[test]
fn damaged_by_chance() {
    let rounds: usize = env::var("SAB_CHANCE").map_or(200, |text| text.parse().expect("a number"));
    let mut good: Vec<Vec<u8>> = fs::read_dir(kit())
        .unwrap()
        .map(|entry| entry.unwrap().path())
        .filter(|path| {
            let name = path.to_string_lossy();
            name.contains("/good-") && name.ends_with(".in")
        })
        .map(|path| fs::read(path).unwrap())
        .collect();
    good.sort();
    let folder = Folder::new();
    let (one, other) = (folder.file("one"), folder.file("other"));
    let (name, name_other) = (one.to_str().unwrap(), other.to_str().unwrap());
    let mut chance = Chance(20_250_304);
    for round in 0..rounds {
        let mut file = good[chance.below(good.len())].clone();
        damage(&mut file, &mut chance);
        fs::write(&one, &file).unwrap();
        fs::write(&other, &good[chance.below(good.len())]).unwrap();
        let good_file = sab(&["check", "-q", name]).0 == Status::Yes;
        for command in ["check", "list", "tree", "ls", "log", "asides", "html"] {
            let (status, _, err) = sab(&[command, name]);
            let wanted = if good_file {
                Status::Yes
            } else {
                Status::Refused
            };
            assert_eq!(status, wanted, "round {round}: {command}: {err}");
            assert_eq!(err.is_empty(), good_file, "round {round}: {command}: {err}");
        }
        for words in [
            vec!["check", "--blocks", "--json", name],
            vec!["salvage", "--blocks", name, name_other],
            vec!["compare", name, name_other],
            vec!["diff", name, name_other],
            vec!["meet", "-n", name, name_other],
        ] {
            let (status, _, _) = sab(&words);
            assert!(
                status != Status::Usage && status != Status::System,
                "round {round}: {words:?}"
            );
        }
        if !good_file {
            let before = fs::read(&other).unwrap();
            assert_eq!(sab(&["meet", name, name_other]).0, Status::Refused);
            assert_eq!(sab(&["pass", name, name_other]).0, Status::Refused);
            assert!(fs::read(&other).unwrap() == before && fs::read(&one).unwrap() == file);
        }
        let (status, _, err) = sab(&["take", name_other, name]);
        assert!(
            status != Status::Usage && status != Status::System,
            "round {round}: {err}"
        );
        assert_eq!(
            sab(&["check", "-q", name_other]).0,
            Status::Yes,
            "round {round}"
        );
    }
}

//! A replay list: cases in one binary file, their answers in one text file. README.md gives the
//! form of both.

use crate::answer::{listing, Answer, Rooms};
use std::path::Path;
use std::{fs, io};

#[derive(Default)]
pub struct Replay {
    pub cases: usize,
    pub stdin: Vec<u8>,
    pub stdout: String,
}

impl Replay {
    pub fn push(&mut self, file: &[u8], rooms: Rooms, answer: &Answer) {
        for number in [file.len(), rooms.code, rooms.relocs] {
            let number = u32::try_from(number).expect("a case's lengths are u32s");
            self.stdin.extend(number.to_le_bytes());
        }
        self.stdin.extend(file);
        self.stdout += &listing(answer);
        self.cases += 1;
    }

    pub fn write(&self, folder: &Path) -> io::Result<()> {
        fs::create_dir_all(folder)?;
        fs::write(folder.join("stdin"), &self.stdin)?;
        fs::write(folder.join("stdout"), &self.stdout)
    }
}

//! Commands for path words.

use super::Scripts;
use crate::words::{flood_word, write, PathWord};
use crate::Path;

impl Scripts {
    fn random_path(&mut self, length: usize) -> Path {
        let mut sites: Vec<u8> = (0..6).collect();
        self.random.shuffle(&mut sites);
        sites.truncate(length);
        sites
    }

    fn lawful_word(&mut self) -> u32 {
        let said = match self.random.below(3) {
            0 => {
                let length = self.random.within(0, 5);
                PathWord::Flood { path: self.random_path(length), bit: self.random.bit() }
            }
            1 => {
                let length = self.random.within(2, 6);
                PathWord::Route { path: self.random_path(length) }
            }
            _ => {
                let length = self.random.within(2, 6);
                PathWord::FanPath { path: self.random_path(length) }
            }
        };
        write(&said)
    }

    pub(super) fn forged_flood(&mut self) -> u32 {
        let length = self.random.within(0, 5);
        flood_word(&self.random_path(length), self.random.bit())
    }

    /// A word of any kind: lawful, nearly lawful, or random.
    pub(super) fn any_word(&mut self) -> u32 {
        match self.random.below(6) {
            0 => self.lawful_word(),
            1 => self.forged_flood(),
            2 | 3 => {
                let word = if self.random.bit() { self.lawful_word() } else { self.forged_flood() };
                word ^ 1 << self.random.below(32)
            }
            4 => *self.random.pick(&[0, 1, 0x1000_0000, 0x1000_0001, 0x1000_0002, u32::MAX]),
            _ => self.random.word(),
        }
    }

    pub(super) fn read_command(&mut self) {
        let mut word = self.any_word();
        if self.random.percent(20) {
            word ^= 1 << self.random.below(32);
        }
        let word = self.hex(word);
        self.say(format!("read {word}"));
    }

    pub(super) fn write_command(&mut self) {
        let kind = match self.random.below(10) {
            0 => self.random.below(17) as u32,
            1 => self.odd_site(),
            2..=4 => 1,
            5..=7 => 10,
            _ => 11,
        };
        let tail = match self.random.below(10) {
            0 => self.random.below(17) as u32,
            1 => self.odd_site(),
            2..=4 if kind == 1 => 1,
            _ => 0,
        };
        let most = if self.random.percent(5) { 9 } else { 6 };
        let length = self.random.within(0, most);
        let mut sites: Vec<u32> = self.random_path(length).into_iter().map(u32::from).collect();
        while sites.len() < length {
            sites.push(self.random.below(8) as u32);
        }
        if self.random.percent(20) && !sites.is_empty() {
            let place = self.random.below(sites.len());
            sites[place] = self.odd_site();
        }
        let kind = self.decimal(kind);
        let tail = self.decimal(tail);
        let mut line = format!("write {kind} {tail}");
        for site in sites {
            line.push(' ');
            line.push_str(&self.decimal(site));
        }
        self.say(line);
    }

    pub(super) fn words_script(&mut self) {
        for _ in 0..self.random.within(60, 160) {
            if self.random.percent(60) {
                self.read_command();
            } else {
                self.write_command();
            }
        }
    }
}

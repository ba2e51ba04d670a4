//! Lines and their parts.

use super::Scripts;

impl Scripts {
    pub(super) fn say_bytes(&mut self, line: &[u8]) {
        self.console.answer(line);
        self.text.extend_from_slice(line);
        self.text.push(b'\n');
        self.lines += 1;
    }

    pub(super) fn say(&mut self, line: String) {
        if self.random.below(150) == 0 {
            let spaced = self.with_odd_spaces(&line);
            return self.say_bytes(spaced.as_bytes());
        }
        self.say_bytes(line.as_bytes());
    }

    fn with_odd_spaces(&mut self, line: &str) -> String {
        let space = *self.random.pick(&["  ", "\t", " \t ", "   "]);
        let before = *self.random.pick(&["", "", " ", "\t"]);
        let after = *self.random.pick(&["", " ", "\r", " \r", "\t"]);
        format!("{before}{}{after}", line.replace(' ', space))
    }

    /// A word or mask as text, in one of the ways that it can be written.
    pub(super) fn hex(&mut self, word: u32) -> String {
        match self.random.below(40) {
            0 => format!("{word:08x}"),
            1 => format!("0x{word:X}"),
            2 => format!("0x{word:08x}"),
            3 => format!("{word:X}"),
            4 => format!("00{word:08X}"),
            _ => format!("{word:08X}"),
        }
    }

    pub(super) fn mask(&mut self, mask: u32) -> String {
        match self.random.below(20) {
            0 => self.hex(mask),
            _ => format!("{mask:X}"),
        }
    }

    pub(super) fn decimal(&mut self, number: u32) -> String {
        match self.random.below(100) {
            0 => format!("00{number}"),
            _ => format!("{number}"),
        }
    }

    /// A site below n, mostly.
    pub(super) fn site(&mut self, n: u8) -> String {
        let site = if self.random.percent(92) {
            self.random.below(usize::from(n)) as u32
        } else {
            self.odd_site()
        };
        self.decimal(site)
    }

    pub(super) fn odd_site(&mut self) -> u32 {
        match self.random.below(8) {
            0..=3 => self.random.below(9) as u32,
            4 | 5 => self.random.within(255, 300) as u32,
            6 => *self.random.pick(&[31, 32, 33, 64, 65536, 1 << 31, u32::MAX - 1, u32::MAX]),
            _ => self.random.word(),
        }
    }

    /// A mask over the sites below n, mostly.
    pub(super) fn any_mask(&mut self, n: u8) -> u32 {
        match self.random.below(12) {
            0 => self.random.word(),
            1 => self.random.below(1 << (n + 1)) as u32,
            2 => 1 << self.random.below(32),
            3 => 0,
            _ => self.random.below(1 << n) as u32,
        }
    }

    /// A mask of at most `most` sites below n.
    pub(super) fn small_mask(&mut self, n: u8, most: usize) -> u32 {
        let mut mask = 0;
        for _ in 0..self.random.within(0, most) {
            mask |= 1 << self.random.below(usize::from(n));
        }
        mask
    }
}

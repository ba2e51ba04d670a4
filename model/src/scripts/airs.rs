//! Commands for the console's own air.

use super::Scripts;

impl Scripts {
    pub(super) fn eput(&mut self, site: &str, word: u32) {
        let word = self.hex(word);
        self.say(format!("eput {site} {word}"));
    }

    pub(super) fn air_kind(&mut self) -> &'static str {
        if self.random.bit() {
            "board"
        } else {
            "strip"
        }
    }

    pub(super) fn air_query(&mut self) {
        match self.random.below(10) {
            0 => self.say("elanes".to_string()),
            1..=4 => {
                let site = self.site(6);
                self.say(format!("ecount {site}"));
            }
            _ => {
                let site = self.site(6);
                let position = match self.random.below(6) {
                    0 => *self.random.pick(&[119, 120, 121, 159, 160, 161, 255, 256, 960]),
                    1 => self.odd_site(),
                    _ => self.random.below(8) as u32,
                };
                let position = self.decimal(position);
                self.say(format!("eat {site} {position}"));
            }
        }
    }

    pub(super) fn airs_script(&mut self) {
        if self.random.percent(70) {
            let kind = self.air_kind();
            self.say(format!("eair {kind}"));
        }
        if self.random.percent(12) {
            return self.full_lanes();
        }
        for _ in 0..self.random.within(50, 120) {
            match self.random.below(100) {
                0 => self.say("eclear".to_string()),
                1 => {
                    let kind = self.air_kind();
                    self.say(format!("eair {kind}"));
                }
                2..=64 => {
                    let site = self.site(6);
                    let word = self.any_word();
                    self.eput(&site, word);
                }
                _ => self.air_query(),
            }
        }
    }

    /// Fills one lane or more to their size and beyond.
    fn full_lanes(&mut self) {
        let lanes = if self.random.percent(5) { 6 } else { 1 };
        for _ in 0..lanes {
            let site = self.random.below(6);
            // A little less than the lane takes, or a little more.
            let count = self.console.air.room(site as u32) + self.random.below(5);
            let site = site.to_string();
            for _ in 0..count.saturating_sub(1) {
                let word = self.any_word();
                self.eput(&site, word);
                if self.random.percent(8) {
                    self.air_query();
                }
            }
            for _ in 0..self.random.within(1, 12) {
                self.air_query();
            }
        }
        self.say("elanes".to_string());
    }
}

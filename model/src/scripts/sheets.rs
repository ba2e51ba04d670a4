//! Commands for sheets and plans.

use super::Scripts;
use crate::maker::{damage, lengthen, random_sheet, SIZES};

impl Scripts {
    /// A size of wiring; small ones come more often.
    pub(super) fn size(&mut self) -> (u8, u8) {
        match self.random.below(10) {
            0..=2 => (3, 1),
            3 | 4 => (4, 1),
            _ => *self.random.pick(&SIZES),
        }
    }

    fn words_text(&mut self, name: &str, words: &[u32]) -> String {
        let mut line = name.to_string();
        let odd = self.random.percent(5);
        for &word in words {
            line.push(' ');
            if odd {
                line.push_str(&self.hex(word));
            } else {
                line.push_str(&format!("{word:08X}"));
            }
        }
        line
    }

    pub(super) fn sheet_command(&mut self, words: &[u32]) {
        let line = self.words_text("sheet", words);
        self.say(line);
    }

    fn items_command(&mut self, words: &[u32]) {
        let line = self.words_text("items", words);
        self.say(line);
    }

    pub(super) fn new_sheet(&mut self, (n, f): (u8, u8)) -> Vec<u32> {
        random_sheet(&mut self.random, n, f)
    }

    fn damaged(&mut self, words: &[u32]) -> Vec<u32> {
        let mut words = words.to_vec();
        for _ in 0..self.random.within(1, 2) {
            damage(&mut self.random, &mut words);
        }
        words
    }

    pub(super) fn route_command(&mut self) {
        let n = self.console.plan.n();
        let suspects = self.suspects();
        let (u, v) = (self.site(n), self.site(n));
        self.say(format!("route {suspects} {u} {v}"));
    }

    pub(super) fn fan_command(&mut self) {
        let n = self.console.plan.n();
        let suspects = self.suspects();
        let v = self.site(n);
        let from = self.any_mask(n);
        let from = self.mask(from);
        self.say(format!("fan {suspects} {v} {from}"));
    }

    /// A suspect set of the plan in hand, mostly.
    fn suspects(&mut self) -> String {
        let (n, f) = (self.console.plan.n(), self.console.plan.f());
        let mask = if self.random.percent(75) {
            self.small_mask(n, usize::from(f))
        } else {
            self.any_mask(n)
        };
        self.mask(mask)
    }

    pub(super) fn sheets_script(&mut self) {
        for _ in 0..self.random.within(1, 4) {
            let size = *self.random.pick(&SIZES);
            let sheet = self.new_sheet(size);
            self.sheet_command(&sheet);
            if self.random.percent(40) {
                self.say("plan".to_string());
            }
            if self.random.percent(40) {
                self.items_command(&sheet);
            }
            self.plan_queries(15);
            for _ in 0..self.random.within(2, 14) {
                self.damaged_command(&sheet);
            }
            if self.random.percent(2) {
                let mut long = sheet.clone();
                lengthen(&mut self.random, &mut long);
                self.sheet_command(&long);
            }
            if self.random.percent(30) {
                self.say("plan".to_string());
            }
            self.plan_queries(10);
        }
    }

    fn plan_queries(&mut self, most: usize) {
        for _ in 0..self.random.within(2, most) {
            if self.random.bit() {
                self.route_command();
            } else {
                self.fan_command();
            }
        }
    }

    pub(super) fn damaged_command(&mut self, sheet: &[u32]) {
        let damaged = self.damaged(sheet);
        if self.random.percent(25) {
            self.items_command(&damaged);
        } else {
            self.sheet_command(&damaged);
        }
    }
}

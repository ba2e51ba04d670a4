//! Commands for single ends.

use super::floors::{Manner, MANNERS};
use super::Scripts;
use crate::end::{State, PLACES};
use crate::maker::SIZES;
use crate::plan::Plan;
use crate::rules::all_expected_paths;
use crate::Path;

impl Scripts {
    /// An end that goes through many phases in few commands: its notebook is set where the
    /// weighing reads it.
    fn swift_end_script(&mut self) {
        let size = if self.random.percent(40) {
            *self.random.pick(&[(5, 2), (6, 2)])
        } else {
            *self.random.pick(&SIZES)
        };
        let sheet = self.new_sheet(size);
        self.sheet_command(&sheet);
        self.begin_command();
        let limit = self.random.within(100, 300);
        while self.lines < limit {
            match self.console.end.as_ref().map(|end| end.state) {
                Some(State::Round { round, .. }) => {
                    if round == 1 {
                        self.ask_the_ends_bit();
                    }
                    self.say("etake".to_string());
                }
                Some(State::Weighing { phase }) => {
                    self.set_book_for_weighing(phase);
                    self.say("eweigh".to_string());
                }
                _ => break,
            }
        }
        self.end_calls(3);
    }

    /// In round 1 an end puts the bit that it holds.
    fn ask_the_ends_bit(&mut self) {
        let site = self.console.end.as_ref().expect("an end has begun").site;
        self.say("espeak".to_string());
        let length = self.console.air.lane(u32::from(site)).len();
        self.say(format!("eat {site} {}", length.saturating_sub(1)));
        if self.random.percent(90) {
            self.say("eclear".to_string());
        }
    }

    /// Sets the words of the routes taken, and of some fans, to random bits.
    fn set_book_for_weighing(&mut self, phase: usize) {
        let plan = self.console.plan.clone();
        let site = self.console.end.as_ref().expect("an end has begun").site;
        let suspects = &plan.suspect_sets()[phase];
        let places = all_expected_paths(&plan.sheet, site);
        let mut paths: Vec<Path> = Vec::new();
        for u in plan.sheet.sites() {
            let route = plan.route_taken(suspects, u32::from(u), u32::from(site));
            paths.extend(route.map(|route| route.path.clone()));
        }
        let fans: Vec<_> = plan.sheet.fans.iter().filter(|fan| fan.at() == site).collect();
        for _ in 0..self.random.within(0, 2) {
            paths.extend(self.random.pick(&fans).paths.clone());
        }
        let zeros = *self.random.pick(&[20, 50, 80]);
        for path in paths {
            let heard = &path[..path.len() - 1];
            let place = places.iter().position(|expected| expected == heard);
            let word =
                if self.random.percent(zeros) { self.any_word() & !1 } else { self.any_word() | 1 };
            if let Some(place) = place {
                let word = self.hex(word);
                self.say(format!("ebookset {place} {word}"));
            }
        }
    }

    pub(super) fn end_script(&mut self) {
        if self.random.percent(20) {
            return self.swift_end_script();
        }
        let size = self.size();
        let mut sheets = vec![self.new_sheet(size)];
        if self.random.percent(40) {
            sheets.push(self.new_sheet(size));
        }
        let kind = self.air_kind();
        if self.random.percent(60) {
            self.say(format!("eair {kind}"));
        }
        if self.random.percent(10) {
            self.end_call();
        }
        self.sheet_command(&sheets[0]);
        self.begin_command();
        let limit = self.random.within(60, 240);
        while self.lines < limit {
            let fits = self.console.end.as_ref().map(|end| (end.n, end.f) == size);
            match self.console.end.as_ref().map(|end| end.state) {
                Some(State::Round { round, .. }) if fits == Some(true) => self.end_round(round),
                Some(State::Weighing { .. }) if fits == Some(true) => self.end_weighing(),
                Some(State::Done) if self.random.percent(60) => {
                    self.end_calls(5);
                    break;
                }
                _ => {
                    self.end_calls(3);
                    self.begin_command();
                }
            }
            if self.random.percent(10) {
                self.end_call();
            }
            if self.random.percent(5) {
                self.change_end_plan(&sheets);
            }
        }
    }

    pub(super) fn begin_command(&mut self) {
        let n = self.console.plan.n();
        if self.random.percent(8) {
            let site = self.odd_site();
            let bit = self.random.below(3);
            self.say(format!("begin {site} {bit}"));
        }
        let site = self.random.below(usize::from(n));
        let bit = u8::from(self.random.bit());
        self.say(format!("begin {site} {bit}"));
    }

    fn end_round(&mut self, round: usize) {
        if round == 1 && self.random.percent(30) {
            self.ask_the_ends_bit();
        }
        let site = self.console.end.as_ref().expect("an end has begun").site;
        let plan = self.console.plan.clone();
        for neighbour in plan.sheet.neighbours(site) {
            self.neighbour_words(&plan, neighbour, round);
        }
        if self.random.percent(80) {
            self.say("espeak".to_string());
        }
        if self.random.percent(5) {
            self.say("espeak".to_string());
        }
        if self.random.below(100) == 0 {
            self.fill_own_lane(site);
        }
        if self.random.percent(4) {
            self.say("elanes".to_string());
        }
        if self.random.percent(4) {
            self.set_book_command();
        }
        self.say("etake".to_string());
        if self.random.percent(10) {
            self.say("ebook".to_string());
        }
        if self.random.percent(90) {
            self.say("eclear".to_string());
        }
    }

    /// Puts words for a neighbour: mostly those that it owes.
    fn neighbour_words(&mut self, plan: &Plan, neighbour: u8, round: usize) {
        let manner =
            if self.random.percent(50) { Manner::All } else { *self.random.pick(&MANNERS) };
        for word in self.words_for(manner, plan, neighbour, round) {
            let neighbour = neighbour.to_string();
            self.eput(&neighbour, word);
        }
    }

    /// Fills the end's own lane, nearly or wholly, so that speaking is refused or just fits.
    fn fill_own_lane(&mut self, site: u8) {
        let owner = site.to_string();
        let left = self.random.below(6);
        while self.console.air.room(u32::from(site)) > left {
            let word = self.any_word();
            self.eput(&owner, word);
        }
        for _ in 0..self.random.within(1, 4) {
            self.say("espeak".to_string());
        }
    }

    fn end_weighing(&mut self) {
        if self.random.percent(15) {
            for _ in 0..self.random.within(1, 8) {
                self.set_book_command();
            }
        }
        if self.random.percent(15) {
            self.say("ebook".to_string());
        }
        self.say("eweigh".to_string());
    }

    fn set_book_command(&mut self) {
        let place = match self.random.below(30) {
            0 => self.odd_site(),
            1 => *self.random.pick(&[323, 324, 325, 326]),
            2..=5 => self.random.below(PLACES) as u32,
            _ => self.random.below(20) as u32,
        };
        let place = self.decimal(place);
        let word = match self.random.below(3) {
            0 => self.random.below(2) as u32,
            _ => self.any_word(),
        };
        let word = self.hex(word);
        self.say(format!("ebookset {place} {word}"));
    }

    /// Loads another sheet: with the same n and f, or with another size for a while.
    fn change_end_plan(&mut self, sheets: &[Vec<u32>]) {
        if self.random.percent(70) {
            let sheet = self.random.pick(sheets).clone();
            return self.sheet_command(&sheet);
        }
        // Now and then only f is another.
        let (n, f) = self.size();
        let end_n = self.console.end.as_ref().map_or(n, |end| end.n);
        let size = if self.random.percent(40) && SIZES.contains(&(end_n, f)) {
            (end_n, f)
        } else {
            (n, f)
        };
        let other = self.new_sheet(size);
        self.sheet_command(&other);
        self.end_calls(3);
        if self.random.percent(90) {
            self.sheet_command(&sheets[0]);
        }
    }

    fn end_calls(&mut self, most: usize) {
        for _ in 0..self.random.within(1, most) {
            self.end_call();
        }
    }

    /// Any call on the single end, whether it fits or not.
    pub(super) fn end_call(&mut self) {
        match self.random.below(12) {
            0 | 1 => self.say("espeak".to_string()),
            2 | 3 => self.say("etake".to_string()),
            4 | 5 => self.say("eweigh".to_string()),
            6 => self.say("ebook".to_string()),
            7 | 8 => self.set_book_command(),
            9 => {
                let site = self.odd_site();
                self.say(format!("begin {site} 1"));
            }
            10 => {
                let site = self.site(6);
                let word = self.any_word();
                self.eput(&site, word);
            }
            _ => self.say("elanes".to_string()),
        }
    }
}

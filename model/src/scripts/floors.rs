//! Commands for floors, and what rogues put.

use super::Scripts;
use crate::plan::Plan;
use crate::rules::expected_paths;
use crate::words::flood_word;
use crate::Path;

/// How a rogue behaves in a round.
#[derive(Clone, Copy)]
pub(super) enum Manner {
    Silent,
    /// Some of the words that a sound site in its place would owe, with random bits.
    Some,
    /// All of them, with random bits.
    All,
    /// All of them, with the bit that the first site of the path does not hold.
    Twisting,
    /// Words with both bits for one path.
    Contrary,
    /// One word again and again.
    Repeating,
    /// Lawful flood words of any paths.
    Forging,
    /// Words of any kind.
    Garbage,
    /// As many words as the lane takes, and some more.
    Filling,
}

pub(super) const MANNERS: [Manner; 17] = [
    Manner::Silent,
    Manner::Silent,
    Manner::Twisting,
    Manner::Twisting,
    Manner::Twisting,
    Manner::Some,
    Manner::Some,
    Manner::Some,
    Manner::All,
    Manner::All,
    Manner::All,
    Manner::Contrary,
    Manner::Contrary,
    Manner::Repeating,
    Manner::Forging,
    Manner::Forging,
    Manner::Garbage,
];

impl Scripts {
    fn floor_size(&self) -> (u8, u8) {
        (self.console.floor.plan.n(), self.console.floor.plan.f())
    }

    pub(super) fn open_command(&mut self) {
        let (n, f) = (self.console.plan.n(), self.console.plan.f());
        if self.random.percent(12) {
            let (rogues, ones) = (self.any_mask(n), self.any_mask(n));
            let (rogues, ones) = (self.mask(rogues), self.mask(ones));
            self.say(format!("open {rogues} {ones}"));
        }
        let rogues = self.small_mask(n, usize::from(f));
        let ones = self.random.below(1 << n) as u32;
        let (rogues, ones) = (self.mask(rogues), self.mask(ones));
        self.say(format!("open {rogues} {ones}"));
    }

    pub(super) fn floor_script(&mut self) {
        if self.random.percent(60) {
            let kind = self.air_kind();
            self.say(format!("air {kind}"));
        }
        if self.random.percent(95) {
            let size = self.size();
            let sheet = self.new_sheet(size);
            self.sheet_command(&sheet);
        }
        if self.random.percent(95) {
            self.open_command();
        }
        self.run_floor();
        if self.random.percent(25) {
            self.open_command();
            let limit = self.lines + 40;
            self.floor_turns(limit);
        }
    }

    /// A whole run of the largest size.
    pub(super) fn long_floor_script(&mut self) {
        let kind = self.air_kind();
        self.say(format!("air {kind}"));
        let size = *self.random.pick(&[(6, 2), (6, 2), (5, 2)]);
        let sheet = self.new_sheet(size);
        self.sheet_command(&sheet);
        self.open_command();
        self.floor_turns(usize::MAX);
        self.after_the_last_phase();
    }

    fn run_floor(&mut self) {
        let (n, _) = self.floor_size();
        let turns = self.console.floor.plan.suspect_sets().len() * usize::from(n - 1);
        let whole = turns <= 15 || turns <= 35 && self.random.percent(20);
        let limit = if whole { 500 } else { self.random.within(60, 140) };
        self.floor_turns(limit);
        self.after_the_last_phase();
    }

    fn floor_turns(&mut self, limit: usize) {
        while !self.console.floor.over() && self.lines < limit {
            self.one_turn();
        }
    }

    pub(super) fn one_turn(&mut self) {
        let (n, _) = self.floor_size();
        let mut speakers: Vec<u8> = Vec::new();
        let mut rogues: Vec<u8> = Vec::new();
        for site in 0..n {
            if self.console.floor.rogues.contains(&site) {
                rogues.push(site);
            } else {
                speakers.push(site);
            }
        }
        for rogue in rogues {
            self.rogue_words(rogue);
        }
        self.random.shuffle(&mut speakers);
        for speaker in speakers {
            self.maybe_interject();
            self.say(format!("speak {speaker}"));
        }
        if self.random.percent(4) {
            self.say("lanes".to_string());
        }
        if self.random.percent(1) {
            self.change_plan_in_hand();
        }
        if self.random.percent(2) {
            let site = self.site(n);
            self.say(format!("speak {site}"));
        }
        self.say("turn".to_string());
        self.maybe_interject();
        if self.random.percent(8) {
            let site = self.site(n);
            self.say(format!("notebook {site}"));
        }
        if self.console.floor.round() == 1 && self.random.percent(60) {
            self.ask_what_is_held();
        }
    }

    /// What each site holds, asked after a phase.
    fn ask_what_is_held(&mut self) {
        let (n, _) = self.floor_size();
        for site in 0..n {
            if !self.console.floor.rogues.contains(&site) {
                self.say(format!("held {site}"));
            }
        }
    }

    /// Another sheet while the floor runs on: whole or damaged.
    fn change_plan_in_hand(&mut self) {
        let size = self.size();
        let sheet = self.new_sheet(size);
        if self.random.bit() {
            self.sheet_command(&sheet);
        } else {
            self.damaged_command(&sheet);
        }
    }

    fn transmit(&mut self, site: u8, word: u32) {
        let word = self.hex(word);
        self.say(format!("transmit {site} {word}"));
    }

    fn rogue_words(&mut self, rogue: u8) {
        let mut manner = *self.random.pick(&MANNERS);
        if self.random.below(400) == 0 {
            manner = Manner::Filling;
        }
        for word in self.words_in_manner(manner, rogue) {
            self.transmit(rogue, word);
        }
    }

    /// The words of a rogue in this round.
    fn words_in_manner(&mut self, manner: Manner, rogue: u8) -> Vec<u32> {
        let plan = self.console.floor.plan.clone();
        let round = self.console.floor.round();
        self.words_for(manner, &plan, rogue, round)
    }

    pub(super) fn words_for(
        &mut self,
        manner: Manner,
        plan: &Plan,
        site: u8,
        round: usize,
    ) -> Vec<u32> {
        let owed = owed_paths(plan, site, round);
        let few = self.random.within(1, 5);
        match manner {
            Manner::Silent => Vec::new(),
            Manner::Some if owed.is_empty() => Vec::new(),
            Manner::Some => (0..few).map(|_| self.flood_of(&owed)).collect(),
            Manner::All => {
                // Long lists are told in full only now and then.
                let most = if self.random.percent(4) { 120 } else { 12 };
                let mut paths = owed;
                if self.random.percent(30) {
                    self.random.shuffle(&mut paths);
                }
                paths.truncate(most);
                paths.iter().map(|path| flood_word(path, self.random.percent(40))).collect()
            }
            Manner::Twisting => {
                let opposite = |path: &Path| {
                    let first = path.first().copied().unwrap_or(site);
                    !self.console.floor.held(u32::from(first)).unwrap_or(false)
                };
                owed.iter().take(24).map(|path| flood_word(path, opposite(path))).collect()
            }
            Manner::Contrary if owed.is_empty() => Vec::new(),
            Manner::Contrary => {
                let word = self.flood_of(&owed);
                let other = self.flood_of(&owed);
                vec![word, other, word ^ 1, other ^ 1]
            }
            Manner::Repeating => vec![self.any_word(); few],
            Manner::Forging => (0..few).map(|_| self.forged_flood()).collect(),
            Manner::Garbage => (0..few).map(|_| self.any_word()).collect(),
            Manner::Filling => {
                let room = self.console.floor.air.room(u32::from(site));
                let count = room + self.random.within(1, 3);
                (0..count).map(|_| self.any_word()).collect()
            }
        }
    }

    fn flood_of(&mut self, paths: &[Path]) -> u32 {
        let path = self.random.pick(paths).clone();
        flood_word(&path, self.random.percent(40))
    }

    fn maybe_interject(&mut self) {
        if self.random.percent(7) {
            self.floor_call();
        }
    }

    /// Any call on the floor, whether it fits or not.
    pub(super) fn floor_call(&mut self) {
        let (n, _) = self.floor_size();
        let site = self.site(n);
        match self.random.below(20) {
            0..=3 => self.say(format!("held {site}")),
            4 | 5 => self.say(format!("decision {site}")),
            6..=9 => self.recalled_command(),
            10 => self.say("lanes".to_string()),
            11 => self.say(format!("notebook {site}")),
            12 | 13 => self.say("state".to_string()),
            14 | 15 => self.say(format!("speak {site}")),
            16 => self.say("turn".to_string()),
            17 | 18 => {
                let word = self.any_word();
                let word = self.hex(word);
                self.say(format!("transmit {site} {word}"));
            }
            _ => {
                let (rogues, ones) = (self.any_mask(n), self.random.word());
                let (rogues, ones) = (self.mask(rogues), self.mask(ones));
                self.say(format!("open {rogues} {ones}"));
            }
        }
    }

    fn recalled_command(&mut self) {
        let plan = self.console.floor.plan.clone();
        let n = plan.n();
        let site = self.site(n);
        let listener = self.random.below(usize::from(n)) as u8;
        let length = self.random.within(1, usize::from(n) - 1);
        let paths = expected_paths(&plan.sheet, listener, length);
        let site = if self.random.percent(80) { listener.to_string() } else { site };
        let word = match self.random.below(10) {
            0 => self.any_word(),
            1 => self.forged_flood(),
            2 => self.forged_flood() & !1,
            3 if !paths.is_empty() => self.flood_of(&paths),
            _ if !paths.is_empty() => self.flood_of(&paths) & !1,
            _ => self.forged_flood() & !1,
        };
        let word = self.hex(word);
        self.say(format!("recalled {site} {word}"));
    }

    fn after_the_last_phase(&mut self) {
        let (n, _) = self.floor_size();
        for site in 0..n {
            self.say(format!("decision {site}"));
        }
        for _ in 0..self.random.within(0, 6) {
            self.floor_call();
        }
    }
}

/// The paths for which a sound site in this place owes a word in a round.
fn owed_paths(plan: &Plan, site: u8, round: usize) -> Vec<Path> {
    if round == 1 {
        return vec![Path::new()];
    }
    expected_paths(&plan.sheet, site, round - 1)
}

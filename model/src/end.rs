//! The single end: one site on its own, which is handed the plan, the air and the notebook at
//! each call.

use crate::air::Air;
use crate::plan::Plan;
use crate::refusal::Refusal;
use crate::rules::{all_expected_paths, expected_paths, hear, weigh};
use crate::words::flood_word;
use crate::Path;
use std::collections::BTreeMap;

/// The places of an end's notebook.
pub const PLACES: usize = 325;

/// An end's notebook: the word at each place. A place that is absent has the word zero.
#[derive(Clone, Debug, Default, PartialEq, Eq)]
pub struct Book {
    words: BTreeMap<usize, u32>,
}

impl Book {
    pub fn get(&self, place: usize) -> u32 {
        self.words.get(&place).copied().unwrap_or(0)
    }

    pub fn set(&mut self, place: usize, word: u32) {
        assert!(place < PLACES);
        if word == 0 {
            self.words.remove(&place);
        } else {
            self.words.insert(place, word);
        }
    }

    pub fn clear(&mut self) {
        self.words.clear();
    }

    /// All words up to the last that is not zero.
    pub fn words(&self) -> Vec<u32> {
        let length = self.words.keys().next_back().map_or(0, |last| last + 1);
        (0..length).map(|place| self.get(place)).collect()
    }
}

#[derive(Clone, Copy, Debug, PartialEq, Eq)]
pub enum State {
    Round { phase: usize, round: usize },
    Weighing { phase: usize },
    Done,
}

/// Why a call was not carried out.
#[derive(Clone, Copy, Debug, PartialEq, Eq)]
pub enum Fault {
    /// The call does not fit the state.
    State,
    Refused(Refusal),
}

#[derive(Clone, Debug, PartialEq, Eq)]
pub struct End {
    pub site: u8,
    pub bit: bool,
    pub state: State,
    /// The n and f of the plan that the end began with.
    pub n: u8,
    pub f: u8,
}

/// Of a notebook word only bit 0 counts.
fn noted(book: &Book, place: usize) -> bool {
    book.get(place) % 2 == 1
}

impl End {
    pub fn begin(plan: &Plan, site: u32, bit: bool) -> Result<End, Refusal> {
        if site >= u32::from(plan.n()) {
            return Err(Refusal::NoSite);
        }
        let state = State::Round { phase: 0, round: 1 };
        Ok(End { site: site as u8, bit, state, n: plan.n(), f: plan.f() })
    }

    fn wants_same_plan(&self, plan: &Plan) -> Result<(), Fault> {
        if (plan.n(), plan.f()) != (self.n, self.f) {
            return Err(Fault::Refused(Refusal::OtherPlan));
        }
        Ok(())
    }

    /// Puts all that the site owes in this round, and gives how many words that are.
    pub fn speak(&self, plan: &Plan, air: &mut Air, book: &Book) -> Result<usize, Fault> {
        let State::Round { round, .. } = self.state else {
            return Err(Fault::State);
        };
        self.wants_same_plan(plan)?;
        let owed = self.owed(plan, book, round);
        air.put(u32::from(self.site), &owed).map_err(Fault::Refused)?;
        Ok(owed.len())
    }

    fn owed(&self, plan: &Plan, book: &Book, round: usize) -> Vec<u32> {
        if round == 1 {
            return vec![flood_word(&[], self.bit)];
        }
        let places = self.places(plan);
        let paths = expected_paths(&plan.sheet, self.site, round - 1);
        paths.iter().map(|path| flood_word(path, noted(book, places[path]))).collect()
    }

    /// The place of each expected path: place i is the i-th of them, by length, then ascending.
    fn places(&self, plan: &Plan) -> BTreeMap<Path, usize> {
        let paths = all_expected_paths(&plan.sheet, self.site);
        paths.into_iter().enumerate().map(|(place, path)| (path, place)).collect()
    }

    /// Hears the neighbours' lanes and notes what they brought.
    pub fn take(&mut self, plan: &Plan, air: &Air, book: &mut Book) -> Result<State, Fault> {
        let State::Round { phase, round } = self.state else {
            return Err(Fault::State);
        };
        self.wants_same_plan(plan)?;
        if round == 1 {
            book.clear();
        }
        let places = self.places(plan);
        for (path, bit) in hear(air, &plan.sheet, self.site, round) {
            book.set(places[&path], flood_word(&path, bit));
        }
        self.state = if round < usize::from(self.n) - 1 {
            State::Round { phase, round: round + 1 }
        } else {
            State::Weighing { phase }
        };
        Ok(self.state)
    }

    /// Weighs the phase.
    pub fn weigh(&mut self, plan: &Plan, book: &Book) -> Result<State, Fault> {
        let State::Weighing { phase } = self.state else {
            return Err(Fault::State);
        };
        self.wants_same_plan(plan)?;
        let suspect_sets = plan.suspect_sets();
        let places = self.places(plan);
        let heard = |path: &[u8]| noted(book, places[path]);
        self.bit = weigh(plan, &suspect_sets[phase], self.site, self.bit, &heard);
        self.state = if phase + 1 < suspect_sets.len() {
            State::Round { phase: phase + 1, round: 1 }
        } else {
            State::Done
        };
        Ok(self.state)
    }
}

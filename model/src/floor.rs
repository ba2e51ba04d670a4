//! The floor: all sites of an agreement in one place.

use crate::air::{Air, AirKind};
use crate::plan::Plan;
use crate::refusal::{highest, Refusal};
use crate::rules::{all_expected_paths, hear, weigh};
use crate::words::{flood_word, read, PathWord};
use crate::{sites_of_mask, Path, Sites};
use std::collections::BTreeMap;

#[derive(Clone, Debug)]
pub struct Floor {
    pub air: Air,
    pub plan: Plan,
    pub rogues: Sites,
    /// The accepted turns.
    pub turns: usize,
    /// The sound sites that have spoken in this round.
    spoken: Sites,
    /// The bit that each sound site holds.
    held: BTreeMap<u8, bool>,
    /// What each sound site noted in the phase: a bit for each path that it heard.
    notebooks: BTreeMap<u8, BTreeMap<Path, bool>>,
}

impl Floor {
    /// A new floor over an air: open on the built-in plan, no rogues, all bits 0.
    pub fn new(kind: AirKind) -> Floor {
        Floor::opened(Air::new(kind), Plan::built_in(), Sites::new(), Sites::new())
    }

    fn opened(air: Air, plan: Plan, rogues: Sites, ones: Sites) -> Floor {
        let sound = plan.sheet.sites().into_iter().filter(|site| !rogues.contains(site));
        let held: BTreeMap<u8, bool> = sound.map(|site| (site, ones.contains(&site))).collect();
        let notebooks = held.keys().map(|&site| (site, BTreeMap::new())).collect();
        Floor { air, plan, rogues, turns: 0, spoken: Sites::new(), held, notebooks }
    }

    /// Opens the floor anew on a plan. A refused opening leaves it as it stood.
    pub fn open(&mut self, plan: &Plan, rogues: u32, ones: u32) -> Result<(), Refusal> {
        let rogues = sites_of_mask(rogues);
        let ones = sites_of_mask(ones);
        let names_no_site = rogues.union(&ones).any(|&site| site >= plan.n());
        highest(&[
            (Refusal::MaskSite, names_no_site),
            (Refusal::ManyRogues, rogues.len() > usize::from(plan.f())),
        ])?;
        *self = Floor::opened(Air::new(self.air.kind()), plan.clone(), rogues, ones);
        Ok(())
    }

    fn is_site(&self, site: u32) -> bool {
        site < u32::from(self.plan.n())
    }

    fn is_rogue(&self, site: u32) -> bool {
        self.rogues.iter().any(|&rogue| u32::from(rogue) == site)
    }

    fn is_sound(&self, site: u32) -> bool {
        self.is_site(site) && !self.is_rogue(site)
    }

    fn rounds_in_phase(&self) -> usize {
        usize::from(self.plan.n()) - 1
    }

    /// The phase that the next turn is in, from 0.
    pub fn phase(&self) -> usize {
        self.turns / self.rounds_in_phase()
    }

    /// The round that the next turn is in, from 1.
    pub fn round(&self) -> usize {
        self.turns % self.rounds_in_phase() + 1
    }

    /// Whether the last phase is over.
    pub fn over(&self) -> bool {
        self.phase() >= self.plan.suspect_sets().len()
    }

    /// Puts a word for a rogue, and gives the new length of its lane.
    pub fn transmit(&mut self, site: u32, word: u32) -> Result<usize, Refusal> {
        highest(&[
            (Refusal::NoSite, !self.is_site(site)),
            (Refusal::SoundSite, self.is_sound(site)),
            (Refusal::Over, self.over()),
            (Refusal::LaneFull, self.is_site(site) && self.air.room(site) == 0),
        ])?;
        self.air.put(site, &[word])
    }

    /// A sound site puts all that it owes in this round; gives how many words that were.
    pub fn speak(&mut self, site: u32) -> Result<usize, Refusal> {
        highest(&[
            (Refusal::NoSite, !self.is_site(site)),
            (Refusal::RogueSite, self.is_rogue(site)),
            (Refusal::Over, self.over()),
            (Refusal::Spoken, self.spoken.iter().any(|&spoken| u32::from(spoken) == site)),
        ])?;
        let v = site as u8;
        let owed = self.owed(v);
        self.air.put(site, &owed)?;
        self.spoken.insert(v);
        Ok(owed.len())
    }

    fn owed(&self, v: u8) -> Vec<u32> {
        let round = self.round();
        if round == 1 {
            return vec![flood_word(&[], self.held[&v])];
        }
        // The notebook's map has the paths of one length in ascending order.
        let noted = self.notebooks[&v].iter().filter(|(path, _)| path.len() == round - 1);
        noted.map(|(path, &bit)| flood_word(path, bit)).collect()
    }

    /// All sound sites hear, and weigh if the phase is over; gives the number of turns.
    pub fn turn(&mut self) -> Result<usize, Refusal> {
        let all_spoke = self.held.keys().all(|site| self.spoken.contains(site));
        highest(&[(Refusal::Over, self.over()), (Refusal::Unspoken, !all_spoke)])?;
        self.all_hear();
        if self.round() == self.rounds_in_phase() {
            self.all_weigh();
        }
        self.air.clear();
        self.spoken.clear();
        self.turns += 1;
        Ok(self.turns)
    }

    fn all_hear(&mut self) {
        let round = self.round();
        for (&v, notebook) in &mut self.notebooks {
            // What was noted in the phase before ends when a phase's first round is heard.
            if round == 1 {
                notebook.clear();
            }
            notebook.extend(hear(&self.air, &self.plan.sheet, v, round));
        }
    }

    fn all_weigh(&mut self) {
        let suspects = &self.plan.suspect_sets()[self.phase()];
        for (&v, bit) in &mut self.held {
            let notebook = &self.notebooks[&v];
            let heard = |path: &[u8]| notebook[path];
            *bit = weigh(&self.plan, suspects, v, *bit, &heard);
        }
    }

    /// The bit that a sound site holds.
    pub fn held(&self, site: u32) -> Result<bool, Refusal> {
        self.sound_only(site, &[])?;
        Ok(self.held[&(site as u8)])
    }

    /// The bit on which a sound site decided.
    pub fn decision(&self, site: u32) -> Result<bool, Refusal> {
        self.sound_only(site, &[(Refusal::Undecided, !self.over())])?;
        Ok(self.held[&(site as u8)])
    }

    /// What a sound site noted along the path of a flood word whose bit is 0.
    pub fn recalled(&self, site: u32, word: u32) -> Result<bool, Refusal> {
        let path = match read(word) {
            Some(PathWord::Flood { path, bit: false }) => Some(path),
            _ => None,
        };
        let noted = |path: &Path| {
            let notebook = self.notebooks.get(&u8::try_from(site).ok()?)?;
            notebook.get(path).copied()
        };
        let bit = path.as_ref().and_then(noted);
        self.sound_only(
            site,
            &[(Refusal::Path, path.is_none()), (Refusal::Unheard, bit.is_none())],
        )?;
        Ok(bit.expect("a path that is not heard is refused"))
    }

    /// The refusals of a call that is for sound sites, with further ones.
    fn sound_only(&self, site: u32, further: &[(Refusal, bool)]) -> Result<(), Refusal> {
        let mut cases = further.to_vec();
        cases.push((Refusal::NoSite, !self.is_site(site)));
        cases.push((Refusal::RogueSite, self.is_rogue(site)));
        highest(&cases)
    }

    /// The words of a site's notebook, by length, then ascending: one for each path heard so far.
    /// None for a rogue or a site not below n.
    pub fn notebook_words(&self, site: u32) -> Vec<u32> {
        if !self.is_sound(site) {
            return Vec::new();
        }
        let notebook = &self.notebooks[&(site as u8)];
        let paths = all_expected_paths(&self.plan.sheet, site as u8);
        let heard = paths.iter().filter_map(|path| Some(flood_word(path, *notebook.get(path)?)));
        heard.collect()
    }
}

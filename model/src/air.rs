//! The two airs: the board, with a lane for each site, and the strip, with one run for all.

use crate::refusal::{highest, Refusal};
use std::collections::BTreeMap;

/// Every air has lanes for six sites.
pub const SITES: u32 = 6;

/// A lane of the board takes as many words as a sound site ever owes in one round.
pub const BOARD_LANE: usize = 120;

/// A lane of the strip, and the strip's whole run.
pub const STRIP_LANE: usize = 160;
pub const STRIP_RUN: usize = 960;

#[derive(Clone, Copy, Debug, PartialEq, Eq)]
pub enum AirKind {
    Board,
    Strip,
}

#[derive(Clone, Debug, PartialEq, Eq)]
pub enum Air {
    /// The words of each site, in the order in which they were put.
    Board(BTreeMap<u32, Vec<u32>>),
    /// The pairs of all sites, in the order in which they were put.
    Strip(Vec<(u32, u32)>),
}

impl Air {
    pub fn new(kind: AirKind) -> Air {
        match kind {
            AirKind::Board => Air::Board(BTreeMap::new()),
            AirKind::Strip => Air::Strip(Vec::new()),
        }
    }

    pub fn kind(&self) -> AirKind {
        match self {
            Air::Board(_) => AirKind::Board,
            Air::Strip(_) => AirKind::Strip,
        }
    }

    /// The words of a site's lane; none for a site that has no lane.
    pub fn lane(&self, site: u32) -> Vec<u32> {
        match self {
            Air::Board(lanes) => lanes.get(&site).cloned().unwrap_or_default(),
            Air::Strip(run) => {
                let own = run.iter().filter(|pair| pair.0 == site);
                own.map(|pair| pair.1).collect()
            }
        }
    }

    /// How many more words a site's lane can take.
    pub fn room(&self, site: u32) -> usize {
        let used = self.lane(site).len();
        match self {
            Air::Board(_) => BOARD_LANE - used,
            Air::Strip(run) => (STRIP_LANE - used).min(STRIP_RUN - run.len()),
        }
    }

    /// Puts all the words on a site's lane, or none of them, and gives the lane's new length.
    pub fn put(&mut self, site: u32, words: &[u32]) -> Result<usize, Refusal> {
        highest(&[
            (Refusal::NoSite, site >= SITES),
            (Refusal::LaneFull, site < SITES && words.len() > self.room(site)),
        ])?;
        match self {
            Air::Board(lanes) => lanes.entry(site).or_default().extend(words),
            Air::Strip(run) => run.extend(words.iter().map(|&word| (site, word))),
        }
        Ok(self.lane(site).len())
    }

    pub fn clear(&mut self) {
        *self = Air::new(self.kind());
    }

    /// The words of the strip's run: for each pair a site word and the word put. A board has none.
    pub fn run_words(&self) -> Vec<u32> {
        match self {
            Air::Board(_) => Vec::new(),
            Air::Strip(run) => {
                run.iter().flat_map(|&(site, word)| [site_word(site), word]).collect()
            }
        }
    }
}

/// The site word of a pair of the strip.
pub fn site_word(site: u32) -> u32 {
    (12 << 28) + site
}

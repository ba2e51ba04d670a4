//! Path words: what a word says, and the word that says it.

use crate::Path;
use std::collections::BTreeSet;

/// What a lawful path word says.
#[derive(Clone, Debug, PartialEq, Eq)]
pub enum PathWord {
    Flood { path: Path, bit: bool },
    Route { path: Path },
    FanPath { path: Path },
}

impl PathWord {
    pub fn kind(&self) -> u32 {
        match self {
            PathWord::Flood { .. } => 1,
            PathWord::Route { .. } => 10,
            PathWord::FanPath { .. } => 11,
        }
    }

    pub fn tail(&self) -> u32 {
        match self {
            PathWord::Flood { bit, .. } => u32::from(*bit),
            PathWord::Route { .. } | PathWord::FanPath { .. } => 0,
        }
    }

    pub fn path(&self) -> &Path {
        match self {
            PathWord::Flood { path, .. }
            | PathWord::Route { path }
            | PathWord::FanPath { path } => path,
        }
    }
}

/// The bits of a word from `high` down to `low`, as a number.
pub fn bits(word: u32, high: u32, low: u32) -> u32 {
    let shifted = u64::from(word) >> low;
    (shifted % (1 << (high - low + 1))) as u32
}

/// What a kind, a tail and a list of sites say together, if they say anything.
pub fn say(kind: u32, tail: u32, sites: &[u32]) -> Option<PathWord> {
    let path = path_of(sites)?;
    match (kind, tail, path.len()) {
        (1, 0 | 1, 0..=5) => Some(PathWord::Flood { path, bit: tail == 1 }),
        (10, 0, 2..=6) => Some(PathWord::Route { path }),
        (11, 0, 2..=6) => Some(PathWord::FanPath { path }),
        _ => None,
    }
}

/// A path is a list of different sites, each below 6.
fn path_of(sites: &[u32]) -> Option<Path> {
    let different: BTreeSet<u32> = sites.iter().copied().collect();
    if different.len() < sites.len() || sites.iter().any(|&site| site >= 6) {
        return None;
    }
    Some(sites.iter().map(|&site| site as u8).collect())
}

/// What a word says; nothing if it is not lawful.
pub fn read(word: u32) -> Option<PathWord> {
    let length = bits(word, 27, 25) as usize;
    if length > 6 || bits(word, 6, 4) != 0 {
        return None;
    }
    let fields: Vec<u32> = (0..6).map(|i| bits(word, 24 - 3 * i, 22 - 3 * i)).collect();
    let (sites, past) = fields.split_at(length);
    if past.iter().any(|&field| field != 0) {
        return None;
    }
    say(bits(word, 31, 28), bits(word, 3, 0), sites)
}

/// The word that says this.
pub fn write(said: &PathWord) -> u32 {
    let mut word = said.kind() << 28;
    word += (said.path().len() as u32) << 25;
    for (i, &site) in said.path().iter().enumerate() {
        word += u32::from(site) << (22 - 3 * i);
    }
    word + said.tail()
}

/// The flood word of a path and a bit.
pub fn flood_word(path: &[u8], bit: bool) -> u32 {
    write(&PathWord::Flood { path: path.to_vec(), bit })
}

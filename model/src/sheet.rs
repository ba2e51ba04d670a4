//! Sheets: the eight rows of the check, and the items of a sheet that passes the first six.

use crate::plan::{keepers, suspect_sets};
use crate::refusal::Refusal;
use crate::words::{bits, read, PathWord};
use crate::{mask_of_sites, Path, Sites};
use std::collections::{BTreeMap, BTreeSet};

pub const MOST_WORDS: usize = 1024;

/// A sheet that passes rows 1 to 6, decoded.
#[derive(Clone, Debug, PartialEq, Eq)]
pub struct Sheet {
    pub n: u8,
    pub f: u8,
    /// Each edge with its place, the lower site first.
    pub edges: BTreeMap<(u8, u8), usize>,
    pub routes: Vec<Route>,
    pub fans: Vec<Fan>,
}

#[derive(Clone, Debug, PartialEq, Eq)]
pub struct Route {
    pub place: usize,
    pub path: Path,
}

/// f + 1 paths that end at one site and share no other.
#[derive(Clone, Debug, PartialEq, Eq)]
pub struct Fan {
    /// The place of its first word.
    pub place: usize,
    pub paths: Vec<Path>,
}

/// A refused sheet answers a refusal and a place.
#[derive(Clone, Copy, Debug, PartialEq, Eq)]
pub struct Refused {
    pub refusal: Refusal,
    pub place: u32,
}

impl Sheet {
    pub fn joined(&self, a: u8, b: u8) -> bool {
        self.edges.contains_key(&(a.min(b), a.max(b)))
    }

    pub fn sites(&self) -> Sites {
        (0..self.n).collect()
    }

    pub fn neighbours(&self, site: u8) -> Sites {
        self.sites().into_iter().filter(|&other| self.joined(site, other)).collect()
    }
}

impl Route {
    pub fn from(&self) -> u8 {
        self.path[0]
    }

    pub fn to(&self) -> u8 {
        end_of(&self.path)
    }
}

impl Fan {
    /// The site at which all its paths end.
    pub fn at(&self) -> u8 {
        end_of(&self.paths[0])
    }

    pub fn sources(&self) -> Sites {
        self.paths.iter().map(|path| path[0]).collect()
    }

    pub fn avoids(&self, suspects: &Sites) -> bool {
        self.paths.iter().all(|path| avoids(path, suspects))
    }
}

fn end_of(path: &[u8]) -> u8 {
    path[path.len() - 1]
}

/// A path avoids a set when none of the sites between its two ends is in it.
pub fn avoids(path: &[u8], suspects: &Sites) -> bool {
    path[1..path.len() - 1].iter().all(|site| !suspects.contains(site))
}

/// Rows 1 to 8.
pub fn check(words: &[u32]) -> Result<Sheet, Refused> {
    let sheet = decode(words)?;
    row_7_routes(&sheet)?;
    row_8_fans(&sheet)?;
    Ok(sheet)
}

/// Rows 1 to 6. Each row covers the whole sheet before the next begins.
pub fn decode(words: &[u32]) -> Result<Sheet, Refused> {
    row_1_size(words)?;
    let (n, f) = row_2_head(words)?;
    row_3_kinds(words)?;
    let edges = row_4_edges(words, n)?;
    let mut sheet = Sheet { n, f, edges, routes: Vec::new(), fans: Vec::new() };
    let fan_paths = row_5_paths(words, &mut sheet)?;
    sheet.fans = row_6_fans(&fan_paths, f)?;
    Ok(sheet)
}

fn refused<T>(refusal: Refusal, place: usize) -> Result<T, Refused> {
    Err(Refused { refusal, place: place as u32 })
}

fn kind_of(word: u32) -> u32 {
    bits(word, 31, 28)
}

/// The words of one kind, with their places.
fn words_of_kind(words: &[u32], kind: u32) -> Vec<(usize, u32)> {
    let placed = words.iter().copied().enumerate();
    placed.filter(|&(_, word)| kind_of(word) == kind).collect()
}

fn row_1_size(words: &[u32]) -> Result<(), Refused> {
    if words.is_empty() || words.len() > MOST_WORDS {
        return refused(Refusal::SheetSize, 0);
    }
    Ok(())
}

fn row_2_head(words: &[u32]) -> Result<(u8, u8), Refused> {
    let head = words[0];
    let n = bits(head, 7, 4);
    let f = bits(head, 3, 0);
    let lawful = kind_of(head) == 8
        && bits(head, 27, 8) == 0
        && (2..=6).contains(&n)
        && (0..=2).contains(&f);
    if !lawful {
        return refused(Refusal::Head, 0);
    }
    Ok((n as u8, f as u8))
}

fn row_3_kinds(words: &[u32]) -> Result<(), Refused> {
    for place in 1..words.len() {
        let kind = kind_of(words[place]);
        let before = kind_of(words[place - 1]);
        if !(9..=11).contains(&kind) || kind < before {
            return refused(Refusal::Kind, place);
        }
    }
    Ok(())
}

fn row_4_edges(words: &[u32], n: u8) -> Result<BTreeMap<(u8, u8), usize>, Refused> {
    let mut edges = BTreeMap::new();
    let mut before: Option<u32> = None;
    for (place, word) in words_of_kind(words, 9) {
        let lower = bits(word, 5, 3) as u8;
        let higher = bits(word, 2, 0) as u8;
        let good_bits = bits(word, 27, 6) == 0;
        let good_sites = lower < higher && higher < n;
        let ascends = before.is_none_or(|earlier| earlier < word);
        if !(good_bits && good_sites && ascends) {
            return refused(Refusal::Edge, place);
        }
        edges.insert((lower, higher), place);
        before = Some(word);
    }
    Ok(edges)
}

/// Puts the routes into the sheet, and gives the fan paths with their places.
fn row_5_paths(words: &[u32], sheet: &mut Sheet) -> Result<Vec<(usize, Path)>, Refused> {
    let mut fan_paths = Vec::new();
    for (place, &word) in words.iter().enumerate() {
        if kind_of(word) < 10 {
            continue;
        }
        match read(word) {
            Some(PathWord::Route { path }) if runs_along_edges(sheet, &path) => {
                sheet.routes.push(Route { place, path });
            }
            Some(PathWord::FanPath { path }) if runs_along_edges(sheet, &path) => {
                fan_paths.push((place, path));
            }
            _ => return refused(Refusal::Path, place),
        }
    }
    Ok(fan_paths)
}

/// Edges join only sites below n, so the steps alone would do; the first condition is there
/// because the documents state it.
fn runs_along_edges(sheet: &Sheet, path: &[u8]) -> bool {
    path.iter().all(|&site| site < sheet.n)
        && path.windows(2).all(|step| sheet.joined(step[0], step[1]))
}

fn row_6_fans(fan_paths: &[(usize, Path)], f: u8) -> Result<Vec<Fan>, Refused> {
    let size = usize::from(f) + 1;
    let mut fans = Vec::new();
    for group in fan_paths.chunks(size) {
        let place = group[0].0;
        let paths: Vec<Path> = group.iter().map(|(_, path)| path.clone()).collect();
        if paths.len() < size || !same_end(&paths) || shares_another_site(&paths) {
            return refused(Refusal::Fan, place);
        }
        fans.push(Fan { place, paths });
    }
    Ok(fans)
}

fn same_end(paths: &[Path]) -> bool {
    paths.iter().all(|path| end_of(path) == end_of(&paths[0]))
}

fn shares_another_site(paths: &[Path]) -> bool {
    let mut seen = BTreeSet::new();
    for path in paths {
        for &site in &path[..path.len() - 1] {
            if !seen.insert(site) {
                return true;
            }
        }
    }
    // The common end is the last site of every path; no path may also pass through it.
    seen.contains(&end_of(&paths[0]))
}

fn row_7_routes(sheet: &Sheet) -> Result<(), Refused> {
    for suspects in suspect_sets(sheet.n, sheet.f) {
        let served: BTreeSet<(u8, u8)> = sheet
            .routes
            .iter()
            .filter(|route| avoids(&route.path, &suspects))
            .map(|route| (route.from(), route.to()))
            .collect();
        for u in 0..sheet.n {
            for v in 0..sheet.n {
                if u != v && !served.contains(&(u, v)) {
                    return refused(Refusal::NoRoute, mask_of_sites(&suspects) as usize);
                }
            }
        }
    }
    Ok(())
}

fn row_8_fans(sheet: &Sheet) -> Result<(), Refused> {
    for suspects in suspect_sets(sheet.n, sheet.f) {
        let sources = sources_of_avoiding_fans(sheet, &suspects);
        for zeros in all_sets(sheet.n) {
            let keeping = keepers(sheet.n, sheet.f, &suspects, &zeros);
            for v in sheet.sites().difference(&keeping) {
                let served = sources[v].iter().any(|sources| sources.is_subset(&keeping));
                if !served {
                    return refused(Refusal::NoFan, mask_of_sites(&suspects) as usize);
                }
            }
        }
    }
    Ok(())
}

/// For each site the sources of each of its fans that avoids the set. Fans with equal sources
/// serve alike, so a set of them is enough.
fn sources_of_avoiding_fans(sheet: &Sheet, suspects: &Sites) -> BTreeMap<u8, BTreeSet<Sites>> {
    let mut sources: BTreeMap<u8, BTreeSet<Sites>> = BTreeMap::new();
    for site in sheet.sites() {
        sources.insert(site, BTreeSet::new());
    }
    for fan in sheet.fans.iter().filter(|fan| fan.avoids(suspects)) {
        sources.entry(fan.at()).or_default().insert(fan.sources());
    }
    sources
}

/// All sets of the sites below n.
pub fn all_sets(n: u8) -> Vec<Sites> {
    (0..1u32 << n).map(crate::sites_of_mask).collect()
}

//! A maker of sheets for random wirings, and of damaged sheets.

use crate::plan::{keepers, suspect_sets};
use crate::random::Random;
use crate::sheet::{all_sets, avoids, MOST_WORDS};
use crate::words::{write, PathWord};
use crate::{Path, Sites};
use std::collections::{BTreeMap, BTreeSet};

pub type Edges = BTreeSet<(u8, u8)>;

/// Each n and f for which some wiring has a complete sheet.
pub const SIZES: [(u8, u8); 11] =
    [(2, 0), (3, 0), (4, 0), (5, 0), (6, 0), (3, 1), (4, 1), (5, 1), (6, 1), (5, 2), (6, 2)];

/// A sheet before it is written down.
#[derive(Clone)]
pub struct Draft {
    n: u8,
    f: u8,
    edges: Edges,
    routes: Vec<Path>,
    fans: Vec<Vec<Path>>,
}

impl Draft {
    pub fn words(&self) -> Vec<u32> {
        let mut words = vec![head_word(self.n, self.f)];
        words.extend(self.edges.iter().map(|&(lower, higher)| edge_word(lower, higher)));
        for route in &self.routes {
            words.push(write(&PathWord::Route { path: route.clone() }));
        }
        for path in self.fans.iter().flatten() {
            words.push(write(&PathWord::FanPath { path: path.clone() }));
        }
        words
    }

    fn length(&self) -> usize {
        1 + self.edges.len() + self.routes.len() + self.fans.iter().map(Vec::len).sum::<usize>()
    }
}

pub fn head_word(n: u8, f: u8) -> u32 {
    (8 << 28) + (u32::from(n) << 4) + u32::from(f)
}

pub fn edge_word(lower: u8, higher: u8) -> u32 {
    (9 << 28) + (u32::from(lower) << 3) + u32::from(higher)
}

/// The edges that join all sites.
pub fn all_edges(n: u8) -> Edges {
    (0..n).flat_map(|lower| (lower + 1..n).map(move |higher| (lower, higher))).collect()
}

/// A random wiring that is likely to have a complete sheet: few edges at least, and some more.
/// Sparse wirings come often, since in them routes and fans have relays.
pub fn random_wiring(random: &mut Random, n: u8, f: u8) -> Edges {
    let mut order: Vec<u8> = (0..n).collect();
    random.shuffle(&mut order);
    let mut edges = match f {
        0 => random_tree(random, &order),
        1 => ring(&order),
        _ => all_but_some_pairs(random, &order),
    };
    let mut others: Vec<(u8, u8)> = all_edges(n).difference(&edges).copied().collect();
    random.shuffle(&mut others);
    let more = if random.bit() { 2 } else { others.len() };
    let more = random.within(0, more.min(others.len()));
    edges.extend(others.into_iter().take(more));
    edges
}

fn edge(a: u8, b: u8) -> (u8, u8) {
    (a.min(b), a.max(b))
}

/// Each site is joined to one before it.
fn random_tree(random: &mut Random, order: &[u8]) -> Edges {
    (1..order.len()).map(|i| edge(order[i], order[random.below(i)])).collect()
}

fn ring(order: &[u8]) -> Edges {
    (0..order.len()).map(|i| edge(order[i], order[(i + 1) % order.len()])).collect()
}

/// All edges, but some pairs of sites are not joined; no site is in two such pairs.
fn all_but_some_pairs(random: &mut Random, order: &[u8]) -> Edges {
    let mut edges = all_edges(order.len() as u8);
    for pair in order.chunks_exact(2) {
        if random.bit() {
            edges.remove(&edge(pair[0], pair[1]));
        }
    }
    edges
}

/// A complete sheet for some random wiring, n and f being among `SIZES`.
pub fn random_sheet(random: &mut Random, n: u8, f: u8) -> Vec<u32> {
    for _ in 0..30 {
        let edges = random_wiring(random, n, f);
        if let Some(mut draft) = complete(random, n, f, &edges) {
            embellish(random, &mut draft);
            return draft.words();
        }
    }
    let draft = complete(random, n, f, &all_edges(n));
    draft.expect("a wiring of all edges has a complete sheet").words()
}

/// A complete sheet for a wiring; none where the wiring has none.
pub fn complete(random: &mut Random, n: u8, f: u8, edges: &Edges) -> Option<Draft> {
    let mut draft = Draft { n, f, edges: edges.clone(), routes: Vec::new(), fans: Vec::new() };
    let paths = all_paths(n, edges);
    add_routes(random, &mut draft, &paths)?;
    add_fans(random, &mut draft, &paths)?;
    (draft.length() <= MOST_WORDS).then_some(draft)
}

/// All paths of at least two sites along the edges, by their last site.
fn all_paths(n: u8, edges: &Edges) -> BTreeMap<u8, Vec<Path>> {
    let mut by_end: BTreeMap<u8, Vec<Path>> = (0..n).map(|site| (site, Vec::new())).collect();
    let mut growing: Vec<Path> = (0..n).map(|site| vec![site]).collect();
    while let Some(path) = growing.pop() {
        let last = path[path.len() - 1];
        for next in 0..n {
            let joined = edges.contains(&(last.min(next), last.max(next)));
            if joined && !path.contains(&next) {
                let mut longer = path.clone();
                longer.push(next);
                by_end.get_mut(&next).expect("every site is there").push(longer.clone());
                growing.push(longer);
            }
        }
    }
    by_end
}

/// For each suspect set and pair a shortest route that avoids the set, where none so far does.
fn add_routes(
    random: &mut Random,
    draft: &mut Draft,
    paths: &BTreeMap<u8, Vec<Path>>,
) -> Option<()> {
    for suspects in suspect_sets(draft.n, draft.f) {
        for u in 0..draft.n {
            for v in (0..draft.n).filter(|&v| v != u) {
                let from_u_to_v = |path: &&Path| {
                    path[0] == u && path[path.len() - 1] == v && avoids(path, &suspects)
                };
                if draft.routes.iter().any(|route| from_u_to_v(&route)) {
                    continue;
                }
                let fitting: Vec<&Path> = paths[&v].iter().filter(from_u_to_v).collect();
                let shortest = fitting.iter().map(|path| path.len()).min()?;
                let fitting: Vec<&Path> =
                    fitting.into_iter().filter(|path| path.len() == shortest).collect();
                draft.routes.push((*random.pick(&fitting)).clone());
            }
        }
    }
    Some(())
}

/// For each suspect set, site and set of zeros that lets the site change its bit, a fan, where
/// none so far serves.
fn add_fans(random: &mut Random, draft: &mut Draft, paths: &BTreeMap<u8, Vec<Path>>) -> Option<()> {
    for suspects in suspect_sets(draft.n, draft.f) {
        for zeros in all_sets(draft.n) {
            let keeping = keepers(draft.n, draft.f, &suspects, &zeros);
            for v in (0..draft.n).filter(|v| !keeping.contains(v)) {
                let serves = |path: &Path| {
                    path[path.len() - 1] == v
                        && keeping.contains(&path[0])
                        && avoids(path, &suspects)
                };
                if draft.fans.iter().any(|fan| fan.iter().all(serves)) {
                    continue;
                }
                let mut fitting: Vec<&Path> =
                    paths[&v].iter().filter(|path| serves(path)).collect();
                random.shuffle(&mut fitting);
                fitting.sort_by_key(|path| path.len());
                draft.fans.push(disjoint(&fitting, usize::from(draft.f) + 1)?);
            }
        }
    }
    Some(())
}

/// `count` of the paths that share no site but their common end; the earlier ones are preferred.
fn disjoint(paths: &[&Path], count: usize) -> Option<Vec<Path>> {
    // Of paths over the same sites one is enough.
    let mut seen: BTreeSet<Sites> = BTreeSet::new();
    let mut choices: Vec<(Sites, Path)> = Vec::new();
    for path in paths {
        let sites: Sites = path[..path.len() - 1].iter().copied().collect();
        if seen.insert(sites.clone()) {
            choices.push((sites, path.to_vec()));
        }
    }
    let mut chosen = Vec::new();
    choose(&choices, 0, count, &Sites::new(), &mut chosen).then_some(chosen)
}

fn choose(
    choices: &[(Sites, Path)],
    from: usize,
    count: usize,
    used: &Sites,
    chosen: &mut Vec<Path>,
) -> bool {
    if count == 0 {
        return true;
    }
    for i in from..choices.len() {
        let (sites, path) = &choices[i];
        if !sites.is_disjoint(used) {
            continue;
        }
        chosen.push(path.clone());
        let used: Sites = used.union(sites).copied().collect();
        if choose(choices, i + 1, count - 1, &used, chosen) {
            return true;
        }
        chosen.pop();
    }
    false
}

/// Adds routes and fans that are not needed, and shuffles, so that it matters which is the first
/// in the sheet.
fn embellish(random: &mut Random, draft: &mut Draft) {
    let paths = all_paths(draft.n, &draft.edges);
    if random.percent(60) {
        let most = if random.percent(5) { MOST_WORDS } else { 12 };
        for _ in 0..random.within(1, most) {
            add_one(random, draft, &paths);
        }
    }
    if random.percent(30) {
        // Routes with relays before all others: they are taken wherever no relay is suspected.
        for _ in 0..random.within(1, 10) {
            let v = random.below(usize::from(draft.n)) as u8;
            let long: Vec<&Path> = paths[&v].iter().filter(|path| path.len() > 2).collect();
            if !long.is_empty() && draft.length() < MOST_WORDS {
                draft.routes.insert(0, (*random.pick(&long)).clone());
            }
        }
    }
    if random.percent(50) {
        random.shuffle(&mut draft.routes);
    }
    if random.percent(50) {
        random.shuffle(&mut draft.fans);
        for fan in &mut draft.fans {
            random.shuffle(fan);
        }
    }
}

/// Puts one more route or fan at a random position, if the sheet has room for it.
fn add_one(random: &mut Random, draft: &mut Draft, paths: &BTreeMap<u8, Vec<Path>>) {
    let v = random.below(usize::from(draft.n)) as u8;
    if random.bit() {
        if draft.length() < MOST_WORDS {
            let route = random.pick(&paths[&v]).clone();
            let position = random.below(draft.routes.len() + 1);
            draft.routes.insert(position, route);
        }
        return;
    }
    let size = usize::from(draft.f) + 1;
    let mut to_v: Vec<&Path> = paths[&v].iter().collect();
    random.shuffle(&mut to_v);
    if let Some(fan) = disjoint(&to_v, size) {
        if draft.length() + size <= MOST_WORDS {
            let position = random.below(draft.fans.len() + 1);
            draft.fans.insert(position, fan);
        }
    }
}

/// Damages a sheet in one of many ways.
pub fn damage(random: &mut Random, words: &mut Vec<u32>) {
    let any = |random: &mut Random, words: &[u32]| random.below(words.len().max(1));
    if words.is_empty() {
        words.push(random.word());
        return;
    }
    let place = any(random, words);
    let other = any(random, words);
    match random.below(18) {
        0 | 1 => words[place] ^= 1 << random.below(32),
        2 => words[place] ^= 1 << random.below(10) << if random.bit() { 0 } else { 16 },
        3 | 4 => {
            words.remove(place);
        }
        5 => words.swap(place, other),
        6 => words.insert(place, words[place]),
        7 => words.truncate(place),
        8 => words.insert(place, random.word()),
        9 => exchange_edges(random, words),
        10 => words[place] = words[other],
        11 => {
            // A run of words is left out, as from a torn page.
            let end = (place + random.within(1, 4)).min(words.len());
            words.drain(place..end);
        }
        12 => drop_route(random, words),
        13 | 14 => drop_fan(random, words),
        15 | 16 => spoil_edge(random, words),
        _ => {
            let bits = if random.bit() { 8 } else { 32 };
            words[0] ^= 1 << random.below(bits);
        }
    }
}

/// Writes another edge in the place of one, or one more, lawful or not.
fn spoil_edge(random: &mut Random, words: &mut Vec<u32>) {
    let edges = places_of_kind(words, 9);
    if edges.is_empty() {
        return;
    }
    let place = *random.pick(&edges);
    let other = 9 << 28 | random.below(64) as u32;
    match random.below(4) {
        0 => words[place] = other,
        1 => words.insert(place, other),
        2 => words[place] ^= 1 << random.below(28),
        // Both sites the same, in the order of the others.
        _ => words.insert(place, words[place] & !7 | words[place] >> 3 & 7),
    }
}

/// The places of the words of one kind.
fn places_of_kind(words: &[u32], kind: u32) -> Vec<usize> {
    (0..words.len()).filter(|&place| words[place] >> 28 == kind).collect()
}

fn drop_route(random: &mut Random, words: &mut Vec<u32>) {
    let routes = places_of_kind(words, 10);
    if !routes.is_empty() {
        words.remove(*random.pick(&routes));
    }
}

/// Leaves out a whole fan, so that the fans behind it are still counted off as before.
fn drop_fan(random: &mut Random, words: &mut Vec<u32>) {
    let fans = places_of_kind(words, 11);
    let size = (words[0] as usize & 3) + 1;
    if fans.len() >= size {
        let first = fans[0] + random.below(fans.len() / size) * size;
        words.drain(first..first + size);
    }
}

/// Exchanges two edges, so that they no longer ascend.
fn exchange_edges(random: &mut Random, words: &mut [u32]) {
    let edges = places_of_kind(words, 9);
    if !edges.is_empty() {
        words.swap(*random.pick(&edges), *random.pick(&edges));
    }
}

/// Makes a sheet longer than a sheet may be, or as long as it may be, by repeating words.
pub fn lengthen(random: &mut Random, words: &mut Vec<u32>) {
    let length = *random.pick(&[MOST_WORDS, MOST_WORDS + 1, MOST_WORDS + 2, MOST_WORDS + 100]);
    let routes = places_of_kind(words, 10);
    let place = if routes.is_empty() { 0 } else { *random.pick(&routes) };
    while words.len() < length && !words.is_empty() {
        words.insert(place, words[place]);
    }
}

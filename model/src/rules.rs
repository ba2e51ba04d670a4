//! The rules that a sound site follows, on a floor and on its own: what it expects, what it
//! hears, and how it weighs.

use crate::air::Air;
use crate::plan::{keepers, Plan};
use crate::sheet::Sheet;
use crate::words::{read, PathWord};
use crate::{Path, Sites};
use std::collections::BTreeMap;

/// The paths of one length along which v expects a bit, ascending: along edges, over different
/// sites, ending at a neighbour of v, lacking v.
pub fn expected_paths(sheet: &Sheet, v: u8, length: usize) -> Vec<Path> {
    let mut found = Vec::new();
    for first in sheet.sites().into_iter().filter(|&site| site != v) {
        extend(sheet, v, length, vec![first], &mut found);
    }
    found
}

/// Extends a path step by step. Sites are tried in ascending order, so paths are found in
/// ascending order.
fn extend(sheet: &Sheet, v: u8, length: usize, path: Path, found: &mut Vec<Path>) {
    let last = path[path.len() - 1];
    if path.len() >= length {
        if path.len() == length && sheet.joined(last, v) {
            found.push(path);
        }
        return;
    }
    for next in sheet.neighbours(last) {
        if next != v && !path.contains(&next) {
            let mut longer = path.clone();
            longer.push(next);
            extend(sheet, v, length, longer, found);
        }
    }
}

/// All paths along which v expects a bit in a phase, by length, then ascending.
pub fn all_expected_paths(sheet: &Sheet, v: u8) -> Vec<Path> {
    (1..usize::from(sheet.n)).flat_map(|length| expected_paths(sheet, v, length)).collect()
}

/// What v hears in a round: a bit for each expected path of that many sites.
pub fn hear(air: &Air, sheet: &Sheet, v: u8, round: usize) -> Vec<(Path, bool)> {
    let mut said: BTreeMap<u8, BTreeMap<Path, bool>> = BTreeMap::new();
    for neighbour in sheet.neighbours(v) {
        said.insert(neighbour, first_floods(&air.lane(u32::from(neighbour))));
    }
    let mut heard = Vec::new();
    for path in expected_paths(sheet, v, round) {
        let (relay, before) = path.split_last().expect("an expected path has a site");
        // Silence counts as the bit 1.
        let bit = said[relay].get(before).copied().unwrap_or(true);
        heard.push((path, bit));
    }
    heard
}

/// The bit of the first lawful flood word of each path in a lane. All other words are skipped.
fn first_floods(lane: &[u32]) -> BTreeMap<Path, bool> {
    let mut first = BTreeMap::new();
    for &word in lane {
        if let Some(PathWord::Flood { path, bit }) = read(word) {
            first.entry(path).or_insert(bit);
        }
    }
    first
}

/// The bit that v holds after a phase with these suspects. `own` is the bit that it held, and
/// `heard` tells the bit that it heard along an expected path.
pub fn weigh(
    plan: &Plan,
    suspects: &Sites,
    v: u8,
    own: bool,
    heard: &dyn Fn(&[u8]) -> bool,
) -> bool {
    let from = |u: u8| {
        if u == v {
            return own;
        }
        let route = plan.route_taken(suspects, u32::from(u), u32::from(v));
        heard(without_end(&route.expect("a plan has a route for every pair").path))
    };
    let zeros: Sites = plan.sheet.sites().into_iter().filter(|&u| !from(u)).collect();
    let keeping = keepers(plan.n(), plan.f(), suspects, &zeros);
    if keeping.contains(&v) {
        return own;
    }
    let fan = plan.fan_taken(suspects, u32::from(v), &keeping);
    let fan = fan.expect("a plan has a fan for every site that may change its bit");
    let bits: Vec<bool> = fan.paths.iter().map(|path| heard(without_end(path))).collect();
    if bits.iter().all(|&bit| bit == bits[0]) {
        bits[0]
    } else {
        own
    }
}

fn without_end(path: &[u8]) -> &[u8] {
    &path[..path.len() - 1]
}

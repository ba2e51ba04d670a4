//! A plain model of the agreement engine, written from the documents alone.
//!
//! It uses sets and maps and decoded words throughout, so that each rule can be read next to the
//! sentence of the documents that it follows. Nothing here is shared with the engine.

#![forbid(unsafe_code)]

pub mod air;
pub mod console;
pub mod end;
pub mod fast;
pub mod floor;
pub mod maker;
pub mod pick;
pub mod plan;
pub mod random;
pub mod refusal;
pub mod rules;
pub mod scripts;
pub mod sheet;
pub mod words;

use std::collections::BTreeSet;

/// A list of different sites.
pub type Path = Vec<u8>;

/// A set of sites.
pub type Sites = BTreeSet<u8>;

/// The set of sites that a mask names: site s is bit s.
pub fn sites_of_mask(mask: u32) -> Sites {
    (0..32u8).filter(|&site| mask >> site & 1 == 1).collect()
}

/// The mask that names a set of sites.
pub fn mask_of_sites(sites: &Sites) -> u32 {
    sites.iter().map(|&site| 1 << site).sum()
}

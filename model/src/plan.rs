//! Plans: a sheet that passed all eight rows, the suspect sets, and the route or fan taken.

use crate::sheet::{all_sets, avoids, check, Fan, Refused, Route, Sheet};
use crate::{mask_of_sites, Sites};

/// The words of the plan that is built in: two sites, none rogue.
pub const BUILT_IN: [u32; 6] =
    [0x8000_0020, 0x9000_0001, 0xA408_0000, 0xA440_0000, 0xB408_0000, 0xB440_0000];

/// A copy of a sheet that passed all eight rows.
#[derive(Clone, Debug, PartialEq, Eq)]
pub struct Plan {
    pub words: Vec<u32>,
    pub sheet: Sheet,
}

impl Plan {
    pub fn of(words: &[u32]) -> Result<Plan, Refused> {
        let sheet = check(words)?;
        Ok(Plan { words: words.to_vec(), sheet })
    }

    pub fn built_in() -> Plan {
        Plan::of(&BUILT_IN).expect("the built-in plan passes all rows")
    }

    pub fn n(&self) -> u8 {
        self.sheet.n
    }

    pub fn f(&self) -> u8 {
        self.sheet.f
    }

    pub fn suspect_sets(&self) -> Vec<Sites> {
        suspect_sets(self.n(), self.f())
    }

    /// Whether a set is among the suspect sets.
    fn is_suspect_set(&self, set: &Sites) -> bool {
        set.len() <= usize::from(self.f()) && set.is_subset(&self.sheet.sites())
    }

    /// The first route in the sheet from u to v that avoids the suspects. What is taken is
    /// defined for suspect sets only, so there is none for another set.
    pub fn route_taken(&self, suspects: &Sites, u: u32, v: u32) -> Option<&Route> {
        if !self.is_suspect_set(suspects) {
            return None;
        }
        self.sheet.routes.iter().find(|route| {
            u32::from(route.from()) == u
                && u32::from(route.to()) == v
                && avoids(&route.path, suspects)
        })
    }

    /// The first fan in the sheet at v whose sources are all in the given set and whose paths
    /// avoid the suspects. There is none for a set that is no suspect set, nor for sources that
    /// are not all sites of the plan.
    pub fn fan_taken(&self, suspects: &Sites, v: u32, from: &Sites) -> Option<&Fan> {
        if !self.is_suspect_set(suspects) || !from.is_subset(&self.sheet.sites()) {
            return None;
        }
        self.sheet.fans.iter().find(|fan| {
            u32::from(fan.at()) == v && fan.sources().is_subset(from) && fan.avoids(suspects)
        })
    }
}

/// All sets of at most f of the n sites, by size and then by mask.
pub fn suspect_sets(n: u8, f: u8) -> Vec<Sites> {
    let mut sets = all_sets(n);
    sets.retain(|set| set.len() <= usize::from(f));
    sets.sort_by_key(|set| (set.len(), mask_of_sites(set)));
    sets
}

/// A: the sites that keep their bits. All other sites are in B.
pub fn keepers(n: u8, f: u8, suspects: &Sites, zeros: &Sites) -> Sites {
    let ones: Sites = (0..n).filter(|site| !zeros.contains(site)).collect();
    let f = usize::from(f);
    let half = f / 2;
    let suspects_in_zeros = suspects.intersection(zeros).count();
    if suspects_in_zeros <= half {
        if ones.len() > f {
            ones
        } else {
            zeros.clone()
        }
    } else if zeros.len() > f {
        zeros.clone()
    } else {
        ones
    }
}

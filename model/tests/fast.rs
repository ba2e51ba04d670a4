//! The fast versions, compared with the plain model.

mod common;

use common::TRIANGLE;
use rolgevin_model::air::AirKind;
use rolgevin_model::fast::{check_sheet, FastFloor, FastPlan};
use rolgevin_model::floor::Floor;
use rolgevin_model::maker::{damage, lengthen, random_sheet, SIZES};
use rolgevin_model::plan::{Plan, BUILT_IN};
use rolgevin_model::random::Random;
use rolgevin_model::rules::expected_paths;
use rolgevin_model::sheet::check;
use rolgevin_model::words::flood_word;
use rolgevin_model::Path;

fn plain_check(words: &[u32]) -> Result<(), (u8, u32)> {
    match check(words) {
        Ok(_) => Ok(()),
        Err(refused) => Err((refused.refusal.number() as u8, refused.place)),
    }
}

fn assert_same_check(words: &[u32]) {
    assert_eq!(check_sheet(words), plain_check(words), "{words:08X?}");
}

#[test]
fn the_sheets_of_the_documents() {
    assert_eq!(check_sheet(&BUILT_IN), Ok(()));
    assert_eq!(check_sheet(&TRIANGLE), Ok(()));
    assert_eq!(check_sheet(&[]), Err((1, 0)));
    assert_eq!(check_sheet(&TRIANGLE[..15]), Err((6, 14)));
    assert_eq!(check_sheet(&TRIANGLE[..14]), Err((8, 0)));
    for place in 0..16 {
        let mut words = TRIANGLE.to_vec();
        words.remove(place);
        assert_same_check(&words);
    }
}

#[test]
fn each_bit_of_the_triangle_changed() {
    for place in 0..16 {
        for bit in 0..32 {
            let mut words = TRIANGLE;
            words[place] ^= 1 << bit;
            assert_same_check(&words);
        }
    }
}

#[test]
fn made_and_damaged_sheets() {
    let mut random = Random::new(41);
    for round in 0..400 {
        let (n, f) = SIZES[round % SIZES.len()];
        let sheet = random_sheet(&mut random, n, f);
        assert_same_check(&sheet);
        for _ in 0..20 {
            let mut words = sheet.clone();
            for _ in 0..random.within(1, 3) {
                damage(&mut random, &mut words);
            }
            assert_same_check(&words);
        }
        if round % 40 == 0 {
            let mut words = sheet;
            lengthen(&mut random, &mut words);
            assert_same_check(&words);
        }
    }
}

#[test]
fn sheets_with_single_words_left_out() {
    // So that rows 7 and 8 are met at every suspect set.
    let mut random = Random::new(43);
    for (n, f) in SIZES {
        let sheet = random_sheet(&mut random, n, f);
        for place in 0..sheet.len().min(150) {
            let mut words = sheet.clone();
            words.remove(place);
            assert_same_check(&words);
            // A whole group left out.
            let end = (place + usize::from(f) + 1).min(sheet.len());
            let mut words = sheet.clone();
            words.drain(place..end);
            assert_same_check(&words);
        }
    }
}

#[test]
fn short_lists_of_any_words() {
    let mut random = Random::new(47);
    for _ in 0..50_000 {
        let mut words = vec![0x8000_0000 | random.below(128) as u32];
        for _ in 0..random.below(8) {
            let kind = *random.pick(&[9u32, 9, 10, 11]);
            words.push(kind << 28 | random.word() >> 4 & 0x0FFF_FF80 | random.below(64) as u32);
        }
        words[1..].sort_unstable();
        assert_same_check(&words);
    }
}

/// Runs the same calls on both floors and compares every answer.
struct Both<'a> {
    plain: Floor,
    fast: FastFloor<'a>,
}

impl Both<'_> {
    fn transmit(&mut self, site: u32, word: u32) {
        let plain = self.plain.transmit(site, word);
        let plain = plain.map(|length| length as u32).map_err(|refusal| refusal.number() as u8);
        assert_eq!(self.fast.transmit(site, word), plain);
    }

    fn speak(&mut self, site: u32) {
        let plain = self.plain.speak(site);
        let plain = plain.map(|count| count as u32).map_err(|refusal| refusal.number() as u8);
        assert_eq!(self.fast.speak(site), plain);
    }

    fn turn(&mut self) {
        let plain = self.plain.turn();
        let plain = plain.map(|turns| turns as u32).map_err(|refusal| refusal.number() as u8);
        assert_eq!(self.fast.turn(), plain);
        assert_eq!(self.fast.over(), self.plain.over());
    }

    fn decisions(&self) {
        for site in [0, 1, 2, 3, 4, 5, 6, 7, 256, u32::MAX] {
            let plain = self.plain.decision(site).map_err(|refusal| refusal.number() as u8);
            assert_eq!(self.fast.decision(site), plain);
        }
    }
}

fn rogue_word(random: &mut Random, plan: &Plan, rogue: u8, round: usize) -> u32 {
    let owed = expected_paths(&plan.sheet, rogue, round.max(2) - 1);
    let flood = if round == 1 || owed.is_empty() {
        flood_word(&[], random.bit())
    } else {
        let path: &Path = random.pick(&owed);
        flood_word(path, random.percent(30))
    };
    match random.below(8) {
        0 => random.word(),
        1 => 0x1000_0000 | random.below(4) as u32,
        2 => flood ^ 1 << random.below(32),
        _ => flood,
    }
}

#[test]
fn whole_runs() {
    let mut random = Random::new(53);
    for case in 0..220 {
        let (n, f) = SIZES[case % SIZES.len()];
        if (n, f) == (6, 2) && case > 60 {
            continue;
        }
        let words = random_sheet(&mut random, n, f);
        let plan = Plan::of(&words).unwrap();
        let fast_plan = FastPlan::new(&words).unwrap();
        let mut rogues = 0;
        for _ in 0..f {
            rogues |= 1 << random.below(usize::from(n));
        }
        let ones = random.below(1 << n) as u32;
        let mut plain = Floor::new(AirKind::Board);
        plain.open(&plan, rogues, ones).unwrap();
        let fast = FastFloor::open(&fast_plan, rogues, ones).unwrap();
        let mut both = Both { plain, fast };
        while !both.plain.over() {
            for rogue in both.plain.rogues.clone() {
                let most = if random.below(40) == 0 { 130 } else { 30 };
                for _ in 0..random.below(most) {
                    let word = rogue_word(&mut random, &plan, rogue, both.plain.round());
                    both.transmit(u32::from(rogue), word);
                }
            }
            for site in 0..u32::from(n) {
                both.speak(site);
                if random.percent(2) {
                    both.turn();
                    both.speak(site);
                    both.transmit(site, 0x1000_0000);
                }
            }
            both.turn();
            if random.percent(5) {
                both.decisions();
            }
        }
        both.decisions();
        both.turn();
        both.speak(0);
        both.transmit(0, 0);
    }
}

#[test]
fn refused_openings() {
    let plan = FastPlan::new(&TRIANGLE).unwrap();
    let refused = |rogues, bits| FastFloor::open(&plan, rogues, bits).err();
    assert_eq!(refused(8, 0), Some(11));
    assert_eq!(refused(0, 8), Some(11));
    assert_eq!(refused(3, 0), Some(12));
    assert_eq!(refused(11, 0), Some(11));
    assert_eq!(refused(4, 2), None);
    assert_eq!(FastPlan::new(&TRIANGLE[..1]).err(), Some((7, 0)));
}

//! Sheets, plans, and what is taken from them.

mod common;

use common::TRIANGLE;
use rolgevin_model::maker::{
    all_edges, complete, damage, edge_word, head_word, random_sheet, SIZES,
};
use rolgevin_model::plan::{keepers, suspect_sets, Plan, BUILT_IN};
use rolgevin_model::random::Random;
use rolgevin_model::sheet::{check, decode};
use rolgevin_model::{mask_of_sites, sites_of_mask};

/// The number and place with which a sheet is refused.
fn refused(words: &[u32]) -> Option<(u32, u32)> {
    check(words).err().map(|refused| (refused.refusal.number(), refused.place))
}

fn without(place: usize) -> Vec<u32> {
    let mut words = TRIANGLE.to_vec();
    words.remove(place);
    words
}

#[test]
fn the_plans_of_the_documents_pass() {
    assert_eq!(refused(&BUILT_IN), None);
    assert_eq!(refused(&TRIANGLE), None);
}

#[test]
fn row_1_size() {
    assert_eq!(refused(&[]), Some((1, 0)));
    assert_eq!(refused(&[BUILT_IN[0]; 1025]), Some((1, 0)));
    assert_eq!(refused(&[BUILT_IN[0]; 1024]), Some((3, 1)), "1,024 words pass row 1");
    let mut full = BUILT_IN.to_vec();
    while full.len() < 1024 {
        full.insert(2, BUILT_IN[2]);
    }
    assert_eq!(refused(&full), None);
}

#[test]
fn row_2_head() {
    for head in [
        0x0000_0000, 0x8000_0010, 0x8000_0070, 0x8000_0023, 0x8000_0120, 0x8800_0020, 0x9000_0020,
        0x0000_0020, 0xFFFF_FFFF,
    ] {
        assert_eq!(refused(&[head]), Some((2, 0)), "{head:08X}");
    }
    assert_eq!(refused(&[head_word(6, 2)]), Some((7, 0)));
    assert_eq!(refused(&[head_word(2, 0)]), Some((7, 0)));
}

#[test]
fn row_3_kinds() {
    assert_eq!(refused(&[head_word(2, 0), 0x8000_0020]), Some((3, 1)));
    assert_eq!(refused(&[head_word(2, 0), 0xC000_0000]), Some((3, 1)));
    let mut words = BUILT_IN.to_vec();
    words.swap(3, 4);
    assert_eq!(refused(&words), Some((3, 4)), "a route behind a fan path");
}

#[test]
fn row_4_edges() {
    let mut words = TRIANGLE.to_vec();
    words.swap(2, 3);
    assert_eq!(refused(&words), Some((4, 3)));
    for edge in [0x9000_0000, 0x9000_0008, 0x9000_0009, 0x9000_0003, 0x9000_0041, 0x9800_0001] {
        assert_eq!(refused(&[head_word(3, 0), edge]), Some((4, 1)), "{edge:08X}");
    }
    let twice = [head_word(3, 0), edge_word(0, 1), edge_word(0, 1)];
    assert_eq!(refused(&twice), Some((4, 2)), "edges strictly ascend");
}

#[test]
fn row_5_paths() {
    let start = [head_word(3, 0), edge_word(0, 1), edge_word(1, 2)];
    for path in [0xA408_0001, 0xA000_0000, 0xA400_0000, 0xA418_0000, 0xA410_0000, 0xB410_0000] {
        let words = [start[0], start[1], start[2], path];
        assert_eq!(refused(&words), Some((5, 3)), "{path:08X}");
    }
}

#[test]
fn a_row_covers_the_whole_sheet_before_the_next_begins() {
    let mut words = TRIANGLE.to_vec();
    words[4] = 0xA000_0000;
    assert_eq!(refused(&words), Some((5, 4)));
    words[3] = 0x9000_003F;
    assert_eq!(refused(&words), Some((4, 3)));
    words[15] = 0xC000_0000;
    assert_eq!(refused(&words), Some((3, 15)));
}

#[test]
fn row_6_fans() {
    assert_eq!(refused(&without(15)), Some((6, 14)), "the last fan is short");
    let mut words = TRIANGLE.to_vec();
    words.swap(11, 12);
    assert_eq!(refused(&words), Some((6, 10)), "the ends differ");
    words = TRIANGLE.to_vec();
    words[13] = words[12];
    assert_eq!(refused(&words), Some((6, 12)), "a source is shared");
}

#[test]
fn row_7_routes() {
    assert_eq!(refused(&without(9)), Some((7, 0)), "no route from 2 to 1");
    assert_eq!(refused(&TRIANGLE[..1]), Some((7, 0)));
    // The only route from 2 to 1 goes over 0, and 0 is suspected in the set with the mask 1.
    let mut words = TRIANGLE.to_vec();
    words[9] = 0xA681_0000;
    assert_eq!(decode(&words).unwrap().routes[5].path, vec![2, 0, 1]);
    assert_eq!(refused(&words), Some((7, 1)));
}

#[test]
fn row_8_fans() {
    assert_eq!(refused(&TRIANGLE[..14]), Some((8, 0)));
    assert_eq!(refused(&TRIANGLE[..10]), Some((8, 0)));
    // Two sites cannot bear a rogue: there are no two sources for a fan.
    let words = [head_word(2, 1), edge_word(0, 1), 0xA408_0000, 0xA440_0000];
    assert_eq!(refused(&words), Some((8, 0)));
}

#[test]
fn suspect_sets_by_size_then_mask() {
    let masks = |n, f| -> Vec<u32> { suspect_sets(n, f).iter().map(mask_of_sites).collect() };
    assert_eq!(masks(2, 0), [0]);
    assert_eq!(masks(3, 1), [0, 1, 2, 4]);
    assert_eq!(masks(4, 2), [0, 1, 2, 4, 8, 3, 5, 6, 9, 10, 12]);
    assert_eq!(masks(6, 2).len(), 22);
}

#[test]
fn the_table_that_parts_the_sites() {
    let parted = |n, f, suspects, zeros| {
        mask_of_sites(&keepers(n, f, &sites_of_mask(suspects), &sites_of_mask(zeros)))
    };
    // At most h suspects in Z; N has more than f sites: N keeps.
    assert_eq!(parted(3, 1, 0, 0b001), 0b110);
    // At most h suspects in Z; N has at most f sites: Z keeps.
    assert_eq!(parted(3, 1, 0, 0b011), 0b011);
    // More than h suspects in Z; Z has more than f sites: Z keeps.
    assert_eq!(parted(4, 1, 0b0001, 0b0011), 0b0011);
    // More than h suspects in Z; Z has at most f sites: N keeps.
    assert_eq!(parted(3, 1, 0b001, 0b001), 0b110);
    // With f = 2 one suspect in Z is not more than h.
    assert_eq!(parted(6, 2, 0b000011, 0b111001), 0b111001, "N has two sites");
    assert_eq!(parted(6, 2, 0b000011, 0b011001), 0b100110, "N has three sites");
    assert_eq!(parted(6, 2, 0b000011, 0b000111), 0b000111, "two suspects in Z");
}

#[test]
fn what_is_taken_from_the_triangle() {
    let plan = Plan::of(&TRIANGLE).unwrap();
    let none = sites_of_mask(0);
    assert_eq!(plan.route_taken(&none, 0, 2).unwrap().place, 5);
    assert_eq!(plan.fan_taken(&none, 0, &sites_of_mask(6)).unwrap().place, 10);
    assert_eq!(plan.fan_taken(&none, 0, &sites_of_mask(2)), None);
    assert_eq!(plan.route_taken(&none, 0, 0), None);
    assert_eq!(plan.route_taken(&none, 256, 1), None);
}

#[test]
fn the_first_in_the_sheet_is_taken() {
    let mut words = TRIANGLE.to_vec();
    // The route 0-1-2 before the route 0-2.
    words.insert(4, 0xA60A_0000);
    let plan = Plan::of(&words).unwrap();
    assert_eq!(plan.route_taken(&sites_of_mask(0), 0, 2).unwrap().path, vec![0, 1, 2]);
    assert_eq!(plan.route_taken(&sites_of_mask(2), 0, 2).unwrap().path, vec![0, 2]);
    assert_eq!(plan.route_taken(&sites_of_mask(4), 0, 2).unwrap().path, vec![0, 1, 2]);
    assert_eq!(plan.route_taken(&sites_of_mask(5), 0, 2), None, "no suspect set");
}

#[test]
fn made_sheets_of_every_size_pass() {
    let mut random = Random::new(7);
    for _ in 0..12 {
        for (n, f) in SIZES {
            let words = random_sheet(&mut random, n, f);
            assert!(words.len() <= 1024);
            assert_eq!(refused(&words), None, "{n} sites, {f} rogues");
        }
    }
}

#[test]
fn no_other_size_has_a_sheet() {
    let mut random = Random::new(7);
    for n in 2..=6 {
        for f in 0..=2 {
            let made = complete(&mut random, n, f, &all_edges(n)).is_some();
            assert_eq!(made, SIZES.contains(&(n, f)), "{n} sites, {f} rogues");
        }
    }
}

#[test]
fn damaged_sheets_meet_every_row() {
    let mut random = Random::new(3);
    let mut met = [0u32; 9];
    for round in 0..3000 {
        let (n, f) = SIZES[round % SIZES.len()];
        let mut words = random_sheet(&mut random, n, f);
        for _ in 0..random.within(1, 3) {
            damage(&mut random, &mut words);
        }
        met[refused(&words).map_or(0, |(number, _)| number as usize)] += 1;
    }
    for row in [0, 2, 3, 4, 5, 6, 7, 8] {
        assert!(met[row] > 0, "row {row} was never met: {met:?}");
    }
}

#[test]
fn a_full_sheet_is_checked_in_time() {
    let mut random = Random::new(5);
    let draft = complete(&mut random, 6, 2, &all_edges(6)).unwrap();
    let mut words = draft.words();
    // More fans at the end: copies of the last one.
    while words.len() + 3 <= 1024 {
        words.extend_from_within(words.len() - 3..);
    }
    let start = std::time::Instant::now();
    assert_eq!(refused(&words), None);
    assert!(start.elapsed().as_millis() < 1000);
}

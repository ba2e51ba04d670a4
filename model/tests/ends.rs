//! Single ends.

mod common;

use common::{converse, tell, triangle_console, TRIANGLE_LINE};
use rolgevin_model::air::{Air, AirKind};
use rolgevin_model::console::Console;
use rolgevin_model::end::{Book, End, Fault, State};
use rolgevin_model::floor::Floor;
use rolgevin_model::maker::{complete, random_sheet, SIZES};
use rolgevin_model::plan::Plan;
use rolgevin_model::random::Random;
use rolgevin_model::refusal::Refusal;

const PAIR_LINE: &str = "sheet 80000020 90000001 A4080000 A4400000 B4080000 B4400000";

#[test]
fn beginning() {
    let mut console = triangle_console();
    converse(
        &mut console,
        &[
            ("begin 3 0", "refused 21"),
            ("begin 256 0", "refused 21"),
            ("espeak", "state"),
            ("begin 0 2", "error"),
            ("begin 3 2", "error"),
            ("begin 2 1", "ok round 0 1"),
            ("begin 3 0", "refused 21"),
            ("espeak", "ok 1"),
            ("elanes", "ok 0: | 1: | 2: 10000001 | 3: | 4: | 5:"),
            ("begin 1 0", "ok round 0 1"),
            ("elanes", "ok 0: | 1: | 2: 10000001 | 3: | 4: | 5:"),
        ],
    );
}

#[test]
fn calls_that_do_not_fit_the_state() {
    let mut console = Console::default();
    let none_begun = [("espeak", "state"), ("etake", "state"), ("eweigh", "state")];
    converse(&mut console, &none_begun);
    converse(
        &mut console,
        &[
            ("begin 0 1", "ok round 0 1"),
            ("eweigh", "state"),
            ("etake", "ok weighing 0"),
            ("espeak", "state"),
            ("etake", "state"),
            (TRIANGLE_LINE, "ok"),
            ("espeak", "state"),
            ("eweigh", "refused 14"),
            (PAIR_LINE, "ok"),
            ("eweigh", "ok done 1"),
            ("espeak", "state"),
            ("etake", "state"),
            ("eweigh", "state"),
            (TRIANGLE_LINE, "ok"),
            ("espeak", "state"),
        ],
    );
}

#[test]
fn the_drawn_phase_at_site_0() {
    let mut console = triangle_console();
    converse(
        &mut console,
        &[
            ("begin 0 0", "ok round 0 1"),
            ("espeak", "ok 1"),
            ("eput 1 10000001", "ok 1"),
            ("eput 2 10000001", "ok 1"),
            ("etake", "ok round 0 2"),
            ("ebook", "ok 2 12400001 12800001"),
            ("eclear", "ok"),
            ("espeak", "ok 2"),
            ("eput 1 12000000", "ok 1"),
            ("eput 1 12800001", "ok 2"),
            ("elanes", "ok 0: 12400001 12800001 | 1: 12000000 12800001 | 2: | 3: | 4: | 5:"),
            ("etake", "ok weighing 0"),
            ("ebook", "ok 4 12400001 12800001 14500001 14880001"),
            ("eweigh", "ok round 1 1"),
        ],
    );
    assert!(console.end.as_ref().unwrap().bit, "site 0 now holds 1");
}

#[test]
fn speaking_again_puts_the_same_words_again() {
    let mut console = triangle_console();
    converse(
        &mut console,
        &[
            ("begin 0 1", "ok round 0 1"),
            ("espeak", "ok 1"),
            ("espeak", "ok 1"),
            ("elanes", "ok 0: 10000001 10000001 | 1: | 2: | 3: | 4: | 5:"),
        ],
    );
}

#[test]
fn another_plan() {
    let mut console = triangle_console();
    tell(&mut console, "begin 0 1");
    tell(&mut console, PAIR_LINE);
    converse(&mut console, &[("espeak", "refused 14"), ("etake", "refused 14")]);
    // 14 comes before 25: the lane is full as well.
    for _ in 0..120 {
        tell(&mut console, "eput 0 0");
    }
    converse(&mut console, &[("espeak", "refused 14"), (TRIANGLE_LINE, "ok")]);
    converse(&mut console, &[("espeak", "refused 25"), ("eclear", "ok"), ("espeak", "ok 1")]);
    // Three sites in a row, none of them rogue: another f alone makes another plan.
    let row = "sheet 80000030 90000001 9000000A A4080000 A4400000 A4500000 A4880000 A60A0000 \
        A6880000 B4080000 B4400000 B4500000 B4880000 B60A0000 B6880000";
    converse(&mut console, &[(row, "ok")]);
    assert_eq!((console.plan.n(), console.plan.f()), (3, 0));
    converse(&mut console, &[("espeak", "refused 14"), ("etake", "refused 14")]);
}

#[test]
fn a_full_lane_takes_all_or_nothing() {
    let mut console = triangle_console();
    tell(&mut console, "begin 0 1");
    tell(&mut console, "etake");
    for _ in 0..119 {
        tell(&mut console, "eput 0 0");
    }
    converse(
        &mut console,
        &[
            ("espeak", "refused 25"),
            ("ecount 0", "ok 119"),
            ("eair strip", "ok"),
            ("espeak", "ok 2"),
            ("ecount 0", "ok 2"),
        ],
    );
}

#[test]
fn a_site_that_owes_nothing_speaks_on_a_full_lane() {
    // Site 0 is joined to all others, which are joined to it alone: no path of two sites ends at
    // a neighbour of 0 and lacks 0.
    let edges = [(0, 1), (0, 2), (0, 3)].into_iter().collect();
    let draft = complete(&mut Random::new(1), 4, 0, &edges).unwrap();
    let plan = Plan::of(&draft.words()).unwrap();
    let mut end = End::begin(&plan, 0, true).unwrap();
    let mut air = Air::new(AirKind::Board);
    let mut book = Book::default();
    air.put(0, &[0; 118]).unwrap();
    assert_eq!(end.take(&plan, &air, &mut book), Ok(State::Round { phase: 0, round: 2 }));
    assert_eq!(end.speak(&plan, &mut air, &book), Err(Fault::Refused(Refusal::LaneFull)));
    air.put(0, &[0; 2]).unwrap();
    assert_eq!(end.take(&plan, &air, &mut book), Ok(State::Round { phase: 0, round: 3 }));
    assert_eq!(end.speak(&plan, &mut air, &book), Ok(0));
    assert_eq!(book.words().len(), 3);
}

#[test]
fn the_first_take_of_a_phase_empties_the_whole_notebook() {
    let mut console = triangle_console();
    converse(
        &mut console,
        &[
            ("ebookset 324 FFFFFFFF", "ok"),
            ("ebookset 325 1", "error"),
            ("ebookset 4294967295 1", "error"),
            ("ebookset 2 0", "ok"),
            ("begin 0 0", "ok round 0 1"),
        ],
    );
    assert!(tell(&mut console, "ebook").starts_with("ok 325 00000000 00000000 "));
    converse(
        &mut console,
        &[
            ("etake", "ok round 0 2"),
            ("ebook", "ok 2 12400001 12800001"),
            ("ebookset 4 7", "ok"),
            ("ebookset 0 FFFFFFFE", "ok"),
            ("ebookset 1 F0000001", "ok"),
            ("espeak", "ok 2"),
            ("elanes", "ok 0: 12400000 12800001 | 1: | 2: | 3: | 4: | 5:"),
            ("etake", "ok weighing 0"),
            ("ebook", "ok 5 FFFFFFFE F0000001 14500001 14880001 00000007"),
        ],
    );
}

#[test]
fn only_bit_0_of_a_notebook_word_counts() {
    let mut console = triangle_console();
    tell(&mut console, "begin 0 1");
    tell(&mut console, "etake");
    tell(&mut console, "etake");
    converse(
        &mut console,
        &[
            ("ebookset 0 FFFFFFFE", "ok"),
            ("ebookset 1 2", "ok"),
            // From 1 and 2 the bit 0: Z = {1, 2}, N = {0} has no more than f sites, Z keeps.
            ("eweigh", "ok round 1 1"),
        ],
    );
    assert!(!console.end.as_ref().unwrap().bit);
}

#[test]
fn ends_do_as_a_floor_does() {
    let mut random = Random::new(23);
    for case in 0..60 {
        let (n, f) = SIZES[case % (SIZES.len() - 1)];
        let plan = Plan::of(&random_sheet(&mut random, n, f)).unwrap();
        let ones = random.below(1 << n) as u32;
        let rogues = if f > 0 { 1 << random.below(usize::from(n)) } else { 0 };
        let mut floor = Floor::new(AirKind::Board);
        floor.open(&plan, rogues, ones).unwrap();
        let mut air = Air::new(AirKind::Board);
        let sound: Vec<u32> = (0..u32::from(n)).filter(|&s| rogues >> s & 1 == 0).collect();
        let begin = |&site: &u32| End::begin(&plan, site, ones >> site & 1 == 1).unwrap();
        let mut ends: Vec<(End, Book)> =
            sound.iter().map(|s| (begin(s), Book::default())).collect();
        while !floor.over() {
            for &rogue in floor.rogues.clone().iter() {
                let word = 0x1000_0000 | u32::from(random.bit());
                floor.transmit(u32::from(rogue), word).unwrap();
                air.put(u32::from(rogue), &[word]).unwrap();
            }
            for (end, book) in &ends {
                let spoken = end.speak(&plan, &mut air, book).unwrap();
                assert_eq!(floor.speak(u32::from(end.site)), Ok(spoken));
            }
            assert_eq!(air, floor.air);
            floor.turn().unwrap();
            for (end, book) in &mut ends {
                let state = end.take(&plan, &air, book).unwrap();
                assert_eq!(book.words(), floor.notebook_words(u32::from(end.site)));
                if matches!(state, State::Weighing { .. }) {
                    end.weigh(&plan, book).unwrap();
                }
                assert_eq!(floor.held(u32::from(end.site)), Ok(end.bit));
            }
            air.clear();
        }
        assert!(ends.iter().all(|(end, _)| end.state == State::Done));
    }
}

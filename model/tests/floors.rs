//! Floors: the examples of the documents, and every refusal with those that it comes before.

mod common;

use common::{converse, tell, triangle_console, TRIANGLE, TRIANGLE_LINE};
use rolgevin_model::air::AirKind;
use rolgevin_model::console::Console;
use rolgevin_model::floor::Floor;
use rolgevin_model::maker::{random_sheet, SIZES};
use rolgevin_model::plan::Plan;
use rolgevin_model::random::Random;
use rolgevin_model::refusal::Refusal;
use rolgevin_model::words::flood_word;

fn triangle_floor(kind: AirKind, rogues: u32, ones: u32) -> Floor {
    let mut floor = Floor::new(kind);
    floor.open(&Plan::of(&TRIANGLE).unwrap(), rogues, ones).unwrap();
    floor
}

/// All sound sites speak, and the floor turns.
fn speak_and_turn(floor: &mut Floor) {
    for site in 0..u32::from(floor.plan.n()) {
        if !floor.rogues.contains(&(site as u8)) {
            floor.speak(site).unwrap();
        }
    }
    floor.turn().unwrap();
}

#[test]
fn the_pair_with_bits_0_and_1_decides_1_in_one_turn() {
    let mut console = Console::default();
    converse(
        &mut console,
        &[
            ("state", "ok 0 0 1 0"),
            ("open 0 2", "ok"),
            ("speak 0", "ok 1"),
            ("speak 1", "ok 1"),
            ("turn", "ok 1"),
            ("decision 0", "ok 1"),
            ("decision 1", "ok 1"),
            ("turn", "refused 24"),
            ("speak 0", "refused 24"),
            ("state", "ok 1 1 1 1"),
        ],
    );
}

#[test]
fn one_phase_drawn() {
    for air in ["air board", "air strip"] {
        let mut console = triangle_console();
        converse(
            &mut console,
            &[
                (air, "ok"),
                ("open 4 2", "ok"),
                ("transmit 2 10000001", "ok 1"),
                ("speak 0", "ok 1"),
                ("speak 1", "ok 1"),
                ("lanes", "ok 0: 10000000 | 1: 10000001 | 2: 10000001 | 3: | 4: | 5:"),
                ("turn", "ok 1"),
                ("notebook 0", "ok 2 12400001 12800001"),
                ("notebook 1", "ok 2 12000000 12800001"),
                ("recalled 0 12400000", "ok 1"),
                ("recalled 1 12000000", "ok 0"),
                ("recalled 0 14500000", "refused 29"),
                ("speak 0", "ok 2"),
                ("speak 1", "ok 2"),
                ("lanes", "ok 0: 12400001 12800001 | 1: 12000000 12800001 | 2: | 3: | 4: | 5:"),
                ("turn", "ok 2"),
                // Paths 1, 2, 1-2 and 2-1; then 0, 2, 0-2 and 2-0.
                ("notebook 0", "ok 4 12400001 12800001 14500001 14880001"),
                ("notebook 1", "ok 4 12000000 12800001 14100001 14800001"),
                ("held 0", "ok 1"),
                ("held 1", "ok 1"),
                ("state", "ok 2 1 1 0"),
            ],
        );
    }
}

#[test]
fn only_the_first_word_counts() {
    let mut floor = triangle_floor(AirKind::Board, 4, 2);
    floor.transmit(2, 0x1000_0000).unwrap();
    floor.transmit(2, 0x1000_0001).unwrap();
    speak_and_turn(&mut floor);
    speak_and_turn(&mut floor);
    assert_eq!(floor.held(0), Ok(false));
    assert_eq!(floor.held(1), Ok(false));
}

#[test]
fn unlawful_words_are_skipped() {
    let mut floor = triangle_floor(AirKind::Strip, 4, 2);
    for word in [0x1000_0002, 0x1000_0010, 0xF000_0000, 0xA408_0000, 0, 0x1000_0000] {
        floor.transmit(2, word).unwrap();
    }
    speak_and_turn(&mut floor);
    assert_eq!(floor.recalled(0, 0x1280_0000), Ok(false));
}

#[test]
fn the_triangle_decides_after_eight_turns() {
    let mut floor = triangle_floor(AirKind::Board, 4, 2);
    for turn in 1..=7 {
        assert_eq!(floor.decision(0), Err(Refusal::Undecided));
        speak_and_turn(&mut floor);
        assert_eq!(floor.turns, turn);
    }
    assert_eq!(floor.decision(0), Err(Refusal::Undecided));
    speak_and_turn(&mut floor);
    assert_eq!(floor.decision(0), Ok(true));
    assert_eq!(floor.turn(), Err(Refusal::Over));
}

#[test]
fn openings_that_are_refused_leave_the_floor_as_it_stood() {
    let mut console = triangle_console();
    converse(
        &mut console,
        &[
            ("open 4 2", "ok"),
            ("transmit 2 10000000", "ok 1"),
            ("speak 0", "ok 1"),
            ("open 8 0", "refused 11"),
            ("open 0 8", "refused 11"),
            ("open FFFFFFFF 0", "refused 11"),
            ("open 3 0", "refused 12"),
            ("open 7 0", "refused 12"),
            ("open B 0", "refused 11"),
            ("open 3 8", "refused 11"),
            ("lanes", "ok 0: 10000000 | 1: | 2: 10000000 | 3: | 4: | 5:"),
            ("speak 0", "refused 26"),
            ("open 4 2", "ok"),
            ("lanes", "ok 0: | 1: | 2: | 3: | 4: | 5:"),
            ("speak 0", "ok 1"),
        ],
    );
}

#[test]
fn refusals_on_an_open_floor_and_their_order() {
    let mut console = triangle_console();
    tell(&mut console, "open 4 2");
    converse(
        &mut console,
        &[
            ("transmit 3 10000000", "refused 21"),
            ("transmit 256 10000000", "refused 21"),
            ("transmit 0 10000000", "refused 22"),
            ("speak 3", "refused 21"),
            ("speak 4294967295", "refused 21"),
            ("speak 2", "refused 23"),
            ("turn", "refused 27"),
            ("held 3", "refused 21"),
            ("held 2", "refused 23"),
            ("decision 3", "refused 21"),
            ("decision 2", "refused 23"),
            ("decision 0", "refused 28"),
            ("recalled 0 12400002", "refused 5"),
            ("recalled 0 A4080000", "refused 5"),
            ("recalled 3 A4080000", "refused 5"),
            ("recalled 2 A4080000", "refused 5"),
            ("recalled 3 12400000", "refused 21"),
            ("recalled 258 12400000", "refused 21"),
            ("recalled 2 12400000", "refused 23"),
            ("recalled 0 12400000", "refused 29"),
            ("recalled 0 10000000", "refused 29"),
            ("recalled 0 12000000", "refused 29"),
            ("speak 0", "ok 1"),
            ("speak 0", "refused 26"),
            ("turn", "refused 27"),
            ("notebook 2", "ok 0"),
            ("notebook 3", "ok 0"),
            ("notebook 256", "ok 0"),
        ],
    );
}

#[test]
fn after_the_last_phase() {
    let mut console = triangle_console();
    tell(&mut console, "open 4 2");
    for _ in 0..8 {
        tell(&mut console, "speak 0");
        tell(&mut console, "speak 1");
        tell(&mut console, "turn");
    }
    converse(
        &mut console,
        &[
            ("state", "ok 8 4 1 1"),
            ("turn", "refused 24"),
            ("speak 0", "refused 24"),
            ("speak 2", "refused 23"),
            ("speak 3", "refused 21"),
            ("transmit 2 10000000", "refused 24"),
            ("transmit 0 10000000", "refused 22"),
            ("transmit 3 10000000", "refused 21"),
            ("decision 0", "ok 1"),
            ("decision 2", "refused 23"),
            ("decision 3", "refused 21"),
        ],
    );
}

#[test]
fn a_rogue_can_fill_its_lane() {
    for (kind, size) in [(AirKind::Board, 120), (AirKind::Strip, 160)] {
        let mut floor = triangle_floor(kind, 4, 2);
        for i in 1..=size {
            assert_eq!(floor.transmit(2, 0xF000_0000), Ok(i));
        }
        assert_eq!(floor.transmit(2, 0x1000_0000), Err(Refusal::LaneFull));
        assert_eq!(floor.transmit(0, 0x1000_0000), Err(Refusal::SoundSite));
        speak_and_turn(&mut floor);
        assert_eq!(floor.transmit(2, 0x1000_0000), Ok(1), "a turn clears the air");
    }
}

#[test]
fn a_phase_begins_with_an_empty_notebook() {
    let mut floor = triangle_floor(AirKind::Board, 4, 2);
    for _ in 0..2 {
        speak_and_turn(&mut floor);
    }
    assert_eq!(floor.notebook_words(0).len(), 4, "until the first turn of the next phase");
    assert_eq!(floor.recalled(0, 0x1450_0000), Ok(true));
    speak_and_turn(&mut floor);
    assert_eq!(floor.notebook_words(0).len(), 2);
    assert_eq!(floor.recalled(0, 0x1450_0000), Err(Refusal::Unheard));
}

#[test]
fn the_floor_keeps_the_plan_that_it_was_opened_on() {
    let mut console = triangle_console();
    tell(&mut console, "open 4 2");
    tell(&mut console, "sheet 80000020 90000001 A4080000 A4400000 B4080000 B4400000");
    converse(&mut console, &[("speak 0", "ok 1"), ("speak 1", "ok 1"), ("turn", "ok 1")]);
    converse(&mut console, &[("state", "ok 1 0 2 0"), ("open 4 0", "refused 11")]);
    converse(
        &mut console,
        &[("open 0 0", "ok"), ("state", "ok 0 0 1 0"), ("speak 2", "refused 21")],
    );
    converse(&mut console, &[(TRIANGLE_LINE, "ok"), ("speak 2", "refused 21")]);
}

#[test]
fn a_new_floor_is_open_on_the_built_in_plan() {
    let mut console = triangle_console();
    tell(&mut console, "open 4 2");
    converse(
        &mut console,
        &[
            ("air strip", "ok"),
            ("held 0", "ok 0"),
            ("held 1", "ok 0"),
            ("held 2", "refused 21"),
            ("open 4 2", "ok"),
            ("held 1", "ok 1"),
        ],
    );
}

#[test]
fn sound_sites_agree_on_a_bit_that_one_of_them_opened_with() {
    let mut random = Random::new(11);
    for case in 0..150 {
        let (n, f) = SIZES[case % SIZES.len()];
        if n == 6 && f == 2 && case > 30 {
            continue;
        }
        let plan = Plan::of(&random_sheet(&mut random, n, f)).unwrap();
        let mut rogues = 0;
        for _ in 0..f {
            rogues |= 1 << random.below(usize::from(n));
        }
        let ones = random.below(1 << n) as u32;
        let kind = if random.bit() { AirKind::Board } else { AirKind::Strip };
        let mut floor = Floor::new(kind);
        floor.open(&plan, rogues, ones).unwrap();
        while !floor.over() {
            for rogue in floor.rogues.clone() {
                for _ in 0..random.below(20) {
                    let mut path: Vec<u8> = (0..n).filter(|&site| site != rogue).collect();
                    random.shuffle(&mut path);
                    path.truncate(floor.round() - 1);
                    let word = flood_word(&path, random.bit());
                    floor.transmit(u32::from(rogue), word).unwrap();
                }
            }
            speak_and_turn(&mut floor);
        }
        let sound: Vec<u32> = (0..u32::from(n)).filter(|&s| rogues >> s & 1 == 0).collect();
        let decided = floor.decision(sound[0]).unwrap();
        assert!(sound.iter().all(|&site| floor.decision(site) == Ok(decided)));
        assert!(sound.iter().any(|&site| (ones >> site & 1 == 1) == decided));
    }
}

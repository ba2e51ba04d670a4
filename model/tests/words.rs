//! Path words.

use rolgevin_model::random::Random;
use rolgevin_model::words::{flood_word, read, say, write, PathWord};

#[test]
fn the_examples_of_the_documents() {
    assert_eq!(read(0x1240_0001), Some(PathWord::Flood { path: vec![1], bit: true }));
    assert_eq!(read(0x1240_0002), None);
    assert_eq!(read(0xA408_0000), Some(PathWord::Route { path: vec![0, 1] }));
    assert_eq!(flood_word(&[1], true), 0x1240_0001);
    assert_eq!(flood_word(&[], true), 0x1000_0001);
    assert_eq!(write(&PathWord::Route { path: vec![0, 1] }), 0xA408_0000);
    assert_eq!(write(&PathWord::FanPath { path: vec![1, 0] }), 0xB440_0000);
}

#[test]
fn a_longest_path_of_each_kind() {
    let said = PathWord::Route { path: vec![0, 1, 2, 3, 4, 5] };
    assert_eq!(read(0xAC0A_7280), Some(said));
    let said = PathWord::Flood { path: vec![0, 1, 2, 3, 4], bit: false };
    assert_eq!(read(0x1A0A_7000), Some(said));
    assert_eq!(read(0x1C0A_7280), None, "a flood word has at most five sites");
    assert_eq!(read(0xAE0A_7280), None, "no path has seven sites");
}

#[test]
fn a_route_or_fan_path_has_at_least_two_sites() {
    for kind in [10, 11] {
        assert_eq!(say(kind, 0, &[]), None);
        assert_eq!(say(kind, 0, &[3]), None);
        assert!(say(kind, 0, &[3, 4]).is_some());
    }
}

#[test]
fn what_has_no_word() {
    assert_eq!(say(1, 2, &[]), None, "the tail of a flood word is a bit");
    assert_eq!(say(10, 1, &[0, 1]), None, "the tail of a route is zero");
    assert_eq!(say(11, 1, &[0, 1]), None, "the tail of a fan path is zero");
    assert_eq!(say(1, 0, &[6]), None, "a site is below 6");
    assert_eq!(say(1, 0, &[256]), None, "a site is below 6");
    assert_eq!(say(1, 0, &[1, 1]), None, "the sites are different");
    assert_eq!(say(1, 0, &[0, 1, 2, 3, 4, 5]), None, "a flood word has at most five sites");
    assert_eq!(say(9, 0, &[0, 1]), None, "no such kind");
    assert_eq!(say(257, 0, &[]), None, "no such kind");
}

#[test]
fn bits_that_must_be_zero() {
    for bit in 4..7 {
        assert_eq!(read(0x1408_0000 | 1 << bit), None);
    }
    for bit in 7..19 {
        assert_eq!(read(0xA540_0000 | 1 << bit), None, "a field past the end");
    }
}

#[test]
fn reading_and_writing_undo_each_other() {
    let mut random = Random::new(1);
    let mut lawful = 0;
    for _ in 0..400_000 {
        let kind = *random.pick(&[1u32, 10, 11]);
        let length = random.below(7) as u32;
        // Some of the fields, and the lowest bit.
        let fields = random.word() >> 14 & (0x3FFFF << (3 * random.below(7)));
        let word = kind << 28 | length << 25 | fields << 7 & 0x1FF_FFFF | u32::from(random.bit());
        if let Some(said) = read(word) {
            lawful += 1;
            assert_eq!(write(&said), word);
        }
    }
    assert!(lawful > 1000, "only {lawful} words were lawful");
}

#[test]
fn the_lawful_words_are_as_many_as_what_can_be_said() {
    // Paths of k different sites of six: 1, 6, 30, 120, 360, 720, 720 for k from 0 to 6.
    let mut flood = 0;
    let mut routes = 0;
    for fields in 0..1u32 << 18 {
        for k in 0..8u32 {
            let rest = k << 25 | fields << 7;
            flood += u32::from(read(1 << 28 | rest).is_some());
            routes += u32::from(read(10 << 28 | rest).is_some());
        }
    }
    assert_eq!(flood, 1 + 6 + 30 + 120 + 360 + 720);
    assert_eq!(routes, 30 + 120 + 360 + 720 + 720);
}

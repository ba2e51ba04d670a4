//! The board and the strip.

use rolgevin_model::air::{site_word, Air, AirKind, BOARD_LANE, STRIP_LANE};
use rolgevin_model::refusal::Refusal;

#[test]
fn a_site_of_6_or_more_has_no_lane() {
    for kind in [AirKind::Board, AirKind::Strip] {
        let mut air = Air::new(kind);
        assert_eq!(air.put(5, &[7]), Ok(1));
        for site in [6, 7, 255, 256, u32::MAX] {
            assert_eq!(air.put(site, &[7]), Err(Refusal::NoSite));
            assert!(air.lane(site).is_empty());
        }
    }
}

#[test]
fn lanes_take_words_up_to_their_size() {
    for (kind, size) in [(AirKind::Board, BOARD_LANE), (AirKind::Strip, STRIP_LANE)] {
        let mut air = Air::new(kind);
        for site in 0..6 {
            for i in 0..size {
                assert_eq!(air.put(site, &[i as u32]), Ok(i + 1));
            }
            assert_eq!(air.put(site, &[0]), Err(Refusal::LaneFull));
            assert_eq!(air.put(site, &[]), Ok(size), "no words fit a full lane");
        }
        air.clear();
        assert_eq!(air, Air::new(kind));
    }
}

#[test]
fn several_words_are_put_all_or_not_at_all() {
    let mut air = Air::new(AirKind::Board);
    assert_eq!(air.put(0, &[1; 100]), Ok(100));
    assert_eq!(air.put(0, &[2; 21]), Err(Refusal::LaneFull));
    assert_eq!(air.lane(0).len(), 100);
    assert_eq!(air.put(0, &[2; 20]), Ok(120));
}

#[test]
fn the_run_of_the_strip() {
    assert_eq!(site_word(0), 0xC000_0000);
    assert_eq!(site_word(5), 0xC000_0005);
    let mut strip = Air::new(AirKind::Strip);
    strip.put(5, &[1, 2]).unwrap();
    strip.put(0, &[3]).unwrap();
    strip.put(5, &[4]).unwrap();
    let run = [0xC000_0005, 1, 0xC000_0005, 2, 0xC000_0000, 3, 0xC000_0005, 4];
    assert_eq!(strip.run_words(), run);
    assert_eq!(strip.lane(5), [1, 2, 4]);
    assert_eq!(strip.lane(0), [3]);
}

//! The generator of scripts.

use rolgevin_model::console::Console;
use rolgevin_model::pick::pick;
use rolgevin_model::scripts::Scripts;
use std::collections::BTreeSet;

fn scripts(seed: u64, with_end: bool, count: usize) -> Vec<Vec<u8>> {
    let mut scripts = Scripts::new(seed, with_end);
    (0..count).map(|_| scripts.script()).collect()
}

fn lines(script: &[u8]) -> Vec<&[u8]> {
    script.split(|&byte| byte == b'\n').collect()
}

#[test]
fn the_same_seed_gives_the_same_text() {
    assert_eq!(scripts(1, true, 20), scripts(1, true, 20));
    assert_ne!(scripts(1, true, 20), scripts(2, true, 20));
}

#[test]
fn each_script_begins_with_reset() {
    for script in scripts(3, true, 100) {
        let words = script.split(|byte| byte.is_ascii_whitespace());
        assert_eq!(words.clone().find(|word| !word.is_empty()), Some(&b"reset"[..]));
        assert_eq!(script.last(), Some(&b'\n'));
    }
}

#[test]
fn the_single_end_can_be_left_out() {
    let ends = ["begin", "espeak", "etake", "eweigh", "ebook", "ebookset"];
    let names = |with_end| {
        let mut names = BTreeSet::new();
        for script in scripts(4, with_end, 150) {
            for line in lines(&script) {
                let text = String::from_utf8_lossy(line).into_owned();
                names.extend(text.split_whitespace().next().map(str::to_string));
            }
        }
        names
    };
    assert!(ends.iter().all(|name| names(true).contains(*name)));
    assert!(ends.iter().all(|name| !names(false).contains(*name)));
}

#[test]
fn an_average_script_has_some_60_to_150_commands() {
    let scripts = scripts(5, true, 300);
    let commands: usize = scripts.iter().map(|script| lines(script).len() - 1).sum();
    assert!((60..=150).contains(&(commands / scripts.len())));
}

#[test]
fn every_refusal_is_met() {
    let mut met = BTreeSet::new();
    let mut console = Console::default();
    for script in scripts(6, true, 500) {
        for reply in lines(&script).into_iter().filter_map(|line| console.answer(line)) {
            if let Some(number) = reply.strip_prefix("refused ") {
                met.extend(number.split(' ').next().and_then(|text| text.parse::<u32>().ok()));
            }
        }
    }
    let numbers = [1, 2, 3, 4, 5, 6, 7, 8, 11, 12, 14, 21, 22, 23, 24, 25, 26, 27, 28, 29];
    assert_eq!(met.into_iter().collect::<Vec<u32>>(), numbers);
}

#[test]
fn picked_scripts_fit() {
    let scripts = scripts(7, true, 60);
    let picked = pick(&scripts, 30_000);
    let bytes: usize = picked.iter().map(|script| script.len()).sum();
    assert!(!picked.is_empty() && bytes <= 30_000);
}

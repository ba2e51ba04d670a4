//! What is measured: two sheets, and runs of the complete wiring of six sites with f = 2 by what two rogues do.
use rolgevin_model::maker;
use rolgevin_model::random::Random;

/// Six sites that are all joined, f = 2.
pub fn complete_sheet() -> Vec<u32> {
    let edges = maker::all_edges(6);
    let draft = maker::complete(&mut Random::new(1), 6, 2, &edges).expect("the complete wiring has a complete sheet");
    draft.words()
}

/// The same sheet with its first fan written again and again before the others, up to 1,024 words: a search has to pass
/// over all of these.
pub fn long_sheet() -> Vec<u32> {
    let mut words = complete_sheet();
    let first = words.iter().position(|word| word >> 28 == 11).expect("a sheet with fans");
    let fan: Vec<u32> = words[first..first + 3].to_vec();
    while words.len() + 3 <= 1024 {
        for (i, word) in fan.iter().enumerate() {
            words.insert(first + i, *word);
        }
    }
    words
}

/// What the rogues 4 and 5 do in a run.
#[derive(Clone, Copy, PartialEq)]
pub enum Rogues {
    None,
    Silent,
    /// 120 words each in every round that look like flood words and mostly are not lawful.
    Random,
    /// 120 lawful flood words each in every round, descending, so that no search through a lane ends early.
    Descending,
}

/// One call on a floor.
#[derive(Clone, Copy)]
pub enum Call {
    Transmit(u32, u32),
    Speak(u32),
    Turn,
    Decision(u32),
}

/// A run from the opening to the decision: 22 phases of 5 rounds.
pub struct Run {
    pub rogues: u32,
    pub bits: u32,
    pub calls: Vec<Call>,
}

fn lawful_floods(sites: u32) -> Vec<u32> {
    let mut words = Vec::new();
    let mut paths: Vec<Vec<u32>> = vec![Vec::new()];
    for _ in 0..5 {
        let mut longer = Vec::new();
        for path in &paths {
            for site in (0..sites).filter(|site| !path.contains(site)) {
                let mut more = path.clone();
                more.push(site);
                longer.push(more);
            }
        }
        for path in &longer {
            let fields: u32 = path.iter().enumerate().map(|(i, site)| site << (22 - 3 * i)).sum();
            words.push((1 << 28) + ((path.len() as u32) << 25) + fields);
        }
        paths = longer;
    }
    words.sort_unstable_by(|a, b| b.cmp(a));
    words
}

pub fn run(rogues: Rogues) -> Run {
    let mask = if rogues == Rogues::None { 0 } else { 0b110000 };
    let floods = lawful_floods(6);
    let mut state: u32 = 0x2545_F491;
    let mut calls = Vec::new();
    for turn in 0..110 {
        for rogue in [4, 5].into_iter().filter(|_| mask != 0) {
            for k in 0..120 {
                match rogues {
                    Rogues::None | Rogues::Silent => {}
                    Rogues::Random => {
                        state ^= state << 13;
                        state ^= state >> 17;
                        state ^= state << 5;
                        calls.push(Call::Transmit(rogue, (state & 0x0FFF_FFFF) | 0x1000_0000));
                    }
                    Rogues::Descending => {
                        let at = (turn * 7 + k * 5) * floods.len() / (110 * 7 + 120 * 5);
                        calls.push(Call::Transmit(rogue, floods[at] + (k as u32 & 1)));
                    }
                }
            }
        }
        for site in (0..6).filter(|site| mask >> site & 1 == 0) {
            calls.push(Call::Speak(site));
        }
        calls.push(Call::Turn);
    }
    calls.push(Call::Decision(0));
    Run { rogues: mask, bits: 0b001010, calls }
}

/// The calls as the static library takes them.
pub fn encoded(run: &Run) -> Vec<u32> {
    let mut words = Vec::new();
    for call in &run.calls {
        words.extend(match *call {
            Call::Transmit(site, word) => [1, site, word],
            Call::Speak(site) => [2, site, 0],
            Call::Turn => [3, 0, 0],
            Call::Decision(site) => [5, site, 0],
        });
    }
    words
}

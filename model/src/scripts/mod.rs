//! Command scripts at random, each of which begins with `reset`.
//!
//! A console of the model runs beside and is told each line, so that most commands fit where the
//! script stands: which plan is in hand, which round the floor is in, what the end wants.

mod airs;
mod ends;
mod floors;
mod lines;
mod odd_lines;
mod path_words;
mod sheets;

use crate::console::Console;
use crate::random::Random;

pub struct Scripts {
    random: Random,
    with_end: bool,
    text: Vec<u8>,
    /// How many lines this script has.
    lines: usize,
    console: Console,
}

impl Scripts {
    /// `with_end` says whether the commands of the single end are among the commands.
    pub fn new(seed: u64, with_end: bool) -> Scripts {
        Scripts {
            random: Random::new(seed),
            with_end,
            text: Vec::new(),
            lines: 0,
            console: Console::default(),
        }
    }

    /// The text of one more script.
    pub fn script(&mut self) -> Vec<u8> {
        self.text = Vec::new();
        self.lines = 0;
        self.console = Console::default();
        self.say("reset".to_string());
        match self.random.below(1000) {
            0..=2 => self.long_floor_script(),
            3..=119 => self.words_script(),
            120..=269 => self.sheets_script(),
            270..=379 => self.airs_script(),
            380..=679 => self.floor_script(),
            680..=899 if self.with_end => self.end_script(),
            680..=899 => self.floor_script(),
            900..=949 => self.odd_lines_script(),
            _ => self.mixed_script(),
        }
        std::mem::take(&mut self.text)
    }
}

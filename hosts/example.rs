//! A host in Rust: it checks the sheet of a triangle, runs an agreement on a floor, and runs the same agreement by two
//! single ends that are driven in step. Site 0 opens with 0, site 1 with 1, and site 2 is rogue: in the first round it
//! says that it holds 1, and later nothing.

const SHEET: [u32; 16] = [
    0x80000031, 0x90000001, 0x90000002, 0x9000000A, 0xA4080000, 0xA4100000, 0xA4400000, 0xA4500000, 0xA4800000,
    0xA4880000, 0xB4400000, 0xB4800000, 0xB4080000, 0xB4880000, 0xB4100000, 0xB4500000,
];
/// What the rogue puts in round 1: the flood word of the empty path with bit 1.
const LIE: u32 = 0x10000001;
const ROGUE: u32 = 2;
const TURNS: u32 = 8;
const WEIGHING: u32 = 2;

/// The functions of the library, each behind one that takes slices.
mod rolgevin {
    mod raw {
        unsafe extern "C" {
            pub fn rolgevin_check(sheet: *const u32, sheet_len: usize, place: *mut u32, place_len: usize) -> u32;
            pub fn rolgevin_run(
                sheet: *const u32, sheet_len: usize, rogues: u32, bits: u32, calls: *const u32, calls_len: usize,
                answers: *mut u32, answers_len: usize,
            ) -> u32;
            pub fn rolgevin_end_begin(
                sheet: *const u32, sheet_len: usize, site: u32, bit: u32, state: *mut u32, state_len: usize,
            ) -> u32;
            pub fn rolgevin_end_speak(
                sheet: *const u32, sheet_len: usize, state: *const u32, state_len: usize, notebook: *const u32,
                notebook_len: usize, words: *mut u32, words_len: usize,
            ) -> u32;
            pub fn rolgevin_end_take(
                sheet: *const u32, sheet_len: usize, state: *mut u32, state_len: usize, heard: *const u32,
                heard_len: usize, notebook: *mut u32, notebook_len: usize,
            ) -> u32;
            pub fn rolgevin_end_weigh(
                sheet: *const u32, sheet_len: usize, state: *mut u32, state_len: usize, notebook: *const u32,
                notebook_len: usize,
            ) -> u32;
        }
    }

    /// 0, or the number of a refusal.
    fn done(number: u32) -> Result<(), u32> {
        if number == 0 { Ok(()) } else { Err(number) }
    }

    // The library takes any numbers and any words in valid slices, and a Rust slice is one. A `&mut` slice shares no
    // word with another.

    /// A refusal comes with its place.
    pub fn check(sheet: &[u32]) -> Result<(), (u32, u32)> {
        let mut place = [0];
        let number =
            unsafe { raw::rolgevin_check(sheet.as_ptr(), sheet.len(), place.as_mut_ptr(), place.len()) };
        done(number).map_err(|number| (number, place[0]))
    }

    pub fn run(sheet: &[u32], rogues: u32, bits: u32, calls: &[u32], answers: &mut [u32]) -> Result<(), u32> {
        done(unsafe {
            raw::rolgevin_run(
                sheet.as_ptr(), sheet.len(), rogues, bits, calls.as_ptr(), calls.len(), answers.as_mut_ptr(),
                answers.len(),
            )
        })
    }

    pub fn end_begin(sheet: &[u32], site: u32, bit: u32, state: &mut [u32]) -> Result<(), u32> {
        done(unsafe {
            raw::rolgevin_end_begin(sheet.as_ptr(), sheet.len(), site, bit, state.as_mut_ptr(), state.len())
        })
    }

    pub fn end_speak(sheet: &[u32], state: &[u32], notebook: &[u32], words: &mut [u32]) -> Result<(), u32> {
        done(unsafe {
            raw::rolgevin_end_speak(
                sheet.as_ptr(), sheet.len(), state.as_ptr(), state.len(), notebook.as_ptr(), notebook.len(),
                words.as_mut_ptr(), words.len(),
            )
        })
    }

    pub fn end_take(sheet: &[u32], state: &mut [u32], heard: &[u32], notebook: &mut [u32]) -> Result<(), u32> {
        done(unsafe {
            raw::rolgevin_end_take(
                sheet.as_ptr(), sheet.len(), state.as_mut_ptr(), state.len(), heard.as_ptr(), heard.len(),
                notebook.as_mut_ptr(), notebook.len(),
            )
        })
    }

    pub fn end_weigh(sheet: &[u32], state: &mut [u32], notebook: &[u32]) -> Result<(), u32> {
        done(unsafe {
            raw::rolgevin_end_weigh(
                sheet.as_ptr(), sheet.len(), state.as_mut_ptr(), state.len(), notebook.as_ptr(), notebook.len(),
            )
        })
    }
}

/// A call on a floor.
#[derive(Clone, Copy)]
enum Call {
    Transmit(u32, u32),
    Speak(u32),
    Turn,
    Held(u32),
    Decision(u32),
    /// A code that is none of the six.
    Other(u32),
}

impl Call {
    fn words(self) -> [u32; 3] {
        match self {
            Call::Transmit(site, word) => [1, site, word],
            Call::Speak(site) => [2, site, 0],
            Call::Turn => [3, 0, 0],
            Call::Held(site) => [4, site, 0],
            Call::Decision(site) => [5, site, 0],
            Call::Other(code) => [code, 0, 0],
        }
    }
}

/// A list of calls, to which the host appends.
struct Calls(Vec<u32>);

impl Calls {
    fn push(&mut self, call: Call) {
        self.0.extend(call.words());
    }

    /// All answers, each a pair.
    fn run(&self) -> Result<Vec<u32>, u32> {
        let mut answers = vec![0; self.0.len() / 3 * 2];
        rolgevin::run(&SHEET, 0x4, 0x2, &self.0, &mut answers)?;
        Ok(answers)
    }

    /// Asks two sites for a bit, and runs the list again.
    fn ask(&mut self, first: Call, second: Call, what: &str) -> Result<(), u32> {
        self.push(first);
        self.push(second);
        let answers = self.run()?;
        let last = &answers[answers.len() - 4..];
        println!("{what}: 0, site 0 {} {}, site 1 {} {}", last[0], last[1], last[2], last[3]);
        Ok(())
    }
}

fn by_floor() -> Result<(), u32> {
    let mut calls = Calls(Vec::new());
    calls.push(Call::Transmit(ROGUE, LIE));
    for turn in 1..=TURNS {
        calls.push(Call::Speak(0));
        calls.push(Call::Speak(1));
        calls.push(Call::Turn);
        if turn == 2 {
            calls.ask(Call::Held(0), Call::Held(1), "held after turn 2")?;
        }
        if turn == TURNS - 1 {
            calls.ask(Call::Decision(0), Call::Decision(1), "decision after turn 7")?;
        }
    }
    calls.ask(Call::Decision(0), Call::Decision(1), "decision after turn 8")?;
    calls.push(Call::Other(7));
    let answers = calls.run()?;
    let last = &answers[answers.len() - 2..];
    println!("call 7: {} {}", last[0], last[1]);
    Ok(())
}

/// One site's end: its state and its notebook, which only it is handed.
struct End {
    site: u32,
    state: [u32; 7],
    notebook: [u32; 325],
}

impl End {
    fn begin(site: u32, bit: u32) -> Result<End, u32> {
        let mut state = [0; 7];
        rolgevin::end_begin(&SHEET, site, bit, &mut state)?;
        Ok(End { site, state, notebook: [0; 325] })
    }

    /// Puts what the end owes on the air, as pairs of site and word.
    fn speak(&self, air: &mut Vec<u32>) -> Result<(), u32> {
        let mut words = [0; 121];
        rolgevin::end_speak(&SHEET, &self.state, &self.notebook, &mut words)?;
        for word in &words[1..=words[0] as usize] {
            air.extend([self.site, *word]);
        }
        Ok(())
    }

    /// Takes the round and, where it was the last of its phase, weighs.
    fn take(&mut self, air: &[u32]) -> Result<(), u32> {
        rolgevin::end_take(&SHEET, &mut self.state, air, &mut self.notebook)?;
        if self.state[0] == WEIGHING {
            rolgevin::end_weigh(&SHEET, &mut self.state, &self.notebook)?;
        }
        Ok(())
    }
}

fn by_ends() -> Result<(), u32> {
    let mut ends = [End::begin(0, 0)?, End::begin(1, 1)?];
    for turn in 1..=TURNS {
        let mut air = Vec::new();
        if turn == 1 {
            air.extend([ROGUE, LIE]);
        }
        for end in &ends {
            end.speak(&mut air)?;
        }
        for end in &mut ends {
            end.take(&air)?;
        }
        let [a, b] = [ends[0].state, ends[1].state];
        println!("turn {turn}: site 0 tag {} bit {}, site 1 tag {} bit {}", a[0], a[2], b[0], b[2]);
    }
    Ok(())
}

fn report(what: &str, result: Result<(), (u32, u32)>) {
    let (number, place) = match result {
        Ok(()) => (0, 0),
        Err(refused) => refused,
    };
    println!("{what}: {number} at {place}");
}

fn main() -> Result<(), u32> {
    report("check", rolgevin::check(&SHEET));
    report("check without the last word", rolgevin::check(&SHEET[..15]));
    by_floor()?;
    by_ends()?;
    println!("ends: 0");
    Ok(())
}

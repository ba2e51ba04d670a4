//! The command language: a line of bytes in, at most one reply out, without the plain words.

use crate::air::{Air, AirKind};
use crate::end::{Book, End, Fault, State, PLACES};
use crate::floor::Floor;
use crate::plan::Plan;
use crate::refusal::Refusal;
use crate::sheet::{decode, Fan, Refused, Sheet};
use crate::sites_of_mask;
use crate::words::{read, say, write};
use std::fmt::Write;

pub struct Console {
    /// The plan in hand.
    pub plan: Plan,
    pub floor: Floor,
    /// The console's own air.
    pub air: Air,
    /// The single end and its notebook.
    pub end: Option<End>,
    pub book: Book,
}

impl Default for Console {
    fn default() -> Console {
        Console {
            plan: Plan::built_in(),
            floor: Floor::new(AirKind::Board),
            air: Air::new(AirKind::Board),
            end: None,
            book: Book::default(),
        }
    }
}

/// A line that is no command.
struct NoCommand;

type Reply = Result<String, NoCommand>;

impl Console {
    /// The reply to a line (without its line feed): none for a blank line and for a line that
    /// begins with `#`, white space before it aside.
    pub fn answer(&mut self, line: &[u8]) -> Option<String> {
        let parts = parts_of(line);
        let (name, arguments) = parts.split_first()?;
        if name[0] == b'#' {
            return None;
        }
        match self.carry_out(name, arguments) {
            Ok(reply) => Some(reply),
            Err(NoCommand) => Some("error".to_string()),
        }
    }

    fn carry_out(&mut self, name: &[u8], arguments: &[&[u8]]) -> Reply {
        match (name, arguments) {
            (b"reset", []) => {
                *self = Console::default();
                Ok("ok".to_string())
            }
            (b"read", [word]) => Ok(read_reply(hexadecimal(word)?)),
            (b"write", [kind, tail, sites @ ..]) => {
                Ok(write_reply(decimal(kind)?, decimal(tail)?, &all(sites, decimal)?))
            }
            (b"sheet", words) => Ok(self.sheet(&all(words, hexadecimal)?)),
            (b"plan", []) => Ok(counted_words(&self.plan.words)),
            (b"items", words) => Ok(items_reply(&all(words, hexadecimal)?)),
            (b"route", [suspects, u, v]) => {
                Ok(self.route(hexadecimal(suspects)?, decimal(u)?, decimal(v)?))
            }
            (b"fan", [suspects, v, from]) => {
                Ok(self.fan(hexadecimal(suspects)?, decimal(v)?, hexadecimal(from)?))
            }
            (b"air", [kind]) => {
                self.floor = Floor::new(air_kind(kind)?);
                Ok("ok".to_string())
            }
            (b"open", [rogues, ones]) => {
                let opened = self.floor.open(&self.plan, hexadecimal(rogues)?, hexadecimal(ones)?);
                Ok(nothing_or_refused(opened))
            }
            (b"transmit", [site, word]) => {
                Ok(count_or_refused(self.floor.transmit(decimal(site)?, hexadecimal(word)?)))
            }
            (b"speak", [site]) => Ok(count_or_refused(self.floor.speak(decimal(site)?))),
            (b"turn", []) => Ok(count_or_refused(self.floor.turn())),
            (b"held", [site]) => Ok(bit_or_refused(self.floor.held(decimal(site)?))),
            (b"decision", [site]) => Ok(bit_or_refused(self.floor.decision(decimal(site)?))),
            (b"recalled", [site, word]) => {
                Ok(bit_or_refused(self.floor.recalled(decimal(site)?, hexadecimal(word)?)))
            }
            (b"lanes", []) => Ok(lanes_reply(&self.floor.air)),
            (b"notebook", [site]) => Ok(counted_words(&self.floor.notebook_words(decimal(site)?))),
            (b"state", []) => Ok(self.state()),
            (b"eair", [kind]) => {
                self.air = Air::new(air_kind(kind)?);
                Ok("ok".to_string())
            }
            (b"eput", [site, word]) => {
                Ok(count_or_refused(self.air.put(decimal(site)?, &[hexadecimal(word)?])))
            }
            (b"ecount", [site]) => Ok(format!("ok {}", self.air.lane(decimal(site)?).len())),
            (b"eat", [site, position]) => Ok(self.word_at(decimal(site)?, decimal(position)?)),
            (b"eclear", []) => {
                self.air.clear();
                Ok("ok".to_string())
            }
            (b"elanes", []) => Ok(lanes_reply(&self.air)),
            (b"begin", [site, bit]) => Ok(self.begin(decimal(site)?, bit_of(bit)?)),
            (b"espeak", []) => Ok(self.end_speaks()),
            (b"etake", []) => Ok(self.end_takes()),
            (b"eweigh", []) => Ok(self.end_weighs()),
            (b"ebook", []) => Ok(counted_words(&self.book.words())),
            (b"ebookset", [place, word]) => self.set_book(decimal(place)?, hexadecimal(word)?),
            _ => Err(NoCommand),
        }
    }

    fn sheet(&mut self, words: &[u32]) -> String {
        match Plan::of(words) {
            Ok(plan) => {
                self.plan = plan;
                "ok".to_string()
            }
            Err(refused) => refused_sheet(refused),
        }
    }

    fn route(&self, suspects: u32, u: u32, v: u32) -> String {
        match self.plan.route_taken(&sites_of_mask(suspects), u, v) {
            Some(route) => format!("ok {} {}", route.place, dashed(&route.path)),
            None => "ok none".to_string(),
        }
    }

    fn fan(&self, suspects: u32, v: u32, from: u32) -> String {
        match self.plan.fan_taken(&sites_of_mask(suspects), v, &sites_of_mask(from)) {
            Some(fan) => {
                let paths: Vec<String> = fan.paths.iter().map(|path| dashed(path)).collect();
                format!("ok {} {}", fan.place, paths.join(" "))
            }
            None => "ok none".to_string(),
        }
    }

    fn state(&self) -> String {
        let floor = &self.floor;
        let over = u8::from(floor.over());
        format!("ok {} {} {} {}", floor.turns, floor.phase(), floor.round(), over)
    }

    fn word_at(&self, site: u32, position: u32) -> String {
        match self.air.lane(site).get(position as usize) {
            Some(word) => format!("ok {word:08X}"),
            None => "ok none".to_string(),
        }
    }

    fn begin(&mut self, site: u32, bit: bool) -> String {
        match End::begin(&self.plan, site, bit) {
            Ok(end) => {
                let reply = state_reply(&end);
                self.end = Some(end);
                reply
            }
            Err(refusal) => refused_reply(refusal),
        }
    }

    fn end_speaks(&mut self) -> String {
        let Some(end) = &self.end else {
            return fault_reply(Fault::State);
        };
        match end.speak(&self.plan, &mut self.air, &self.book) {
            Ok(count) => format!("ok {count}"),
            Err(fault) => fault_reply(fault),
        }
    }

    fn end_takes(&mut self) -> String {
        let Some(end) = &mut self.end else {
            return fault_reply(Fault::State);
        };
        match end.take(&self.plan, &self.air, &mut self.book) {
            Ok(_) => state_reply(end),
            Err(fault) => fault_reply(fault),
        }
    }

    fn end_weighs(&mut self) -> String {
        let Some(end) = &mut self.end else {
            return fault_reply(Fault::State);
        };
        match end.weigh(&self.plan, &self.book) {
            Ok(_) => state_reply(end),
            Err(fault) => fault_reply(fault),
        }
    }

    fn set_book(&mut self, place: u32, word: u32) -> Reply {
        if place as usize >= PLACES {
            return Err(NoCommand);
        }
        self.book.set(place as usize, word);
        Ok("ok".to_string())
    }
}

/// The parts of a line, which white space separates.
fn parts_of(line: &[u8]) -> Vec<&[u8]> {
    let parts = line.split(|byte| byte.is_ascii_whitespace());
    parts.filter(|part| !part.is_empty()).collect()
}

fn all(
    parts: &[&[u8]],
    number: fn(&[u8]) -> Result<u32, NoCommand>,
) -> Result<Vec<u32>, NoCommand> {
    parts.iter().map(|part| number(part)).collect()
}

/// Words and masks: with or without `0x`, upper or lower case.
fn hexadecimal(part: &[u8]) -> Result<u32, NoCommand> {
    let digits = part.strip_prefix(b"0x").unwrap_or(part);
    number(digits, 16)
}

/// Sites, lengths, places and counts.
fn decimal(part: &[u8]) -> Result<u32, NoCommand> {
    number(part, 10)
}

/// A number of digits only, which fits 32 bits. Leading zeros do not matter.
fn number(digits: &[u8], base: u32) -> Result<u32, NoCommand> {
    if digits.is_empty() {
        return Err(NoCommand);
    }
    let mut value: u32 = 0;
    for &byte in digits {
        let digit = char::from(byte).to_digit(base).ok_or(NoCommand)?;
        let grown = value.checked_mul(base).and_then(|tens| tens.checked_add(digit));
        value = grown.ok_or(NoCommand)?;
    }
    Ok(value)
}

fn bit_of(part: &[u8]) -> Result<bool, NoCommand> {
    match decimal(part)? {
        0 => Ok(false),
        1 => Ok(true),
        _ => Err(NoCommand),
    }
}

fn air_kind(part: &[u8]) -> Result<AirKind, NoCommand> {
    match part {
        b"board" => Ok(AirKind::Board),
        b"strip" => Ok(AirKind::Strip),
        _ => Err(NoCommand),
    }
}

fn refused_reply(refusal: Refusal) -> String {
    format!("refused {}", refusal.number())
}

fn refused_sheet(refused: Refused) -> String {
    format!("refused {} {}", refused.refusal.number(), refused.place)
}

fn nothing_or_refused(result: Result<(), Refusal>) -> String {
    match result {
        Ok(()) => "ok".to_string(),
        Err(refusal) => refused_reply(refusal),
    }
}

fn count_or_refused(result: Result<usize, Refusal>) -> String {
    match result {
        Ok(count) => format!("ok {count}"),
        Err(refusal) => refused_reply(refusal),
    }
}

fn bit_or_refused(result: Result<bool, Refusal>) -> String {
    count_or_refused(result.map(usize::from))
}

fn fault_reply(fault: Fault) -> String {
    match fault {
        Fault::State => "state".to_string(),
        Fault::Refused(refusal) => refused_reply(refusal),
    }
}

fn state_reply(end: &End) -> String {
    match end.state {
        State::Round { phase, round } => format!("ok round {phase} {round}"),
        State::Weighing { phase } => format!("ok weighing {phase}"),
        State::Done => format!("ok done {}", u8::from(end.bit)),
    }
}

fn read_reply(word: u32) -> String {
    match read(word) {
        Some(said) => format!("ok {} {} [{}]", said.kind(), said.tail(), dashed(said.path())),
        None => refused_reply(Refusal::Path),
    }
}

fn write_reply(kind: u32, tail: u32, sites: &[u32]) -> String {
    match say(kind, tail, sites) {
        Some(said) => format!("ok {:08X}", write(&said)),
        None => refused_reply(Refusal::Path),
    }
}

fn dashed(path: &[u8]) -> String {
    let sites: Vec<String> = path.iter().map(|site| site.to_string()).collect();
    sites.join("-")
}

fn counted_words(words: &[u32]) -> String {
    let mut reply = format!("ok {}", words.len());
    push_words(&mut reply, words);
    reply
}

fn push_words(reply: &mut String, words: &[u32]) {
    for word in words {
        write!(reply, " {word:08X}").expect("a string takes any text");
    }
}

fn lanes_reply(air: &Air) -> String {
    let mut lanes = Vec::new();
    for site in 0..crate::air::SITES {
        let mut lane = format!("{site}:");
        push_words(&mut lane, &air.lane(site));
        lanes.push(lane);
    }
    format!("ok {}", lanes.join(" | "))
}

fn items_reply(words: &[u32]) -> String {
    match decode(words) {
        Ok(sheet) => format!("ok {}", items_of(&sheet, words).join(" ")),
        Err(refused) => refused_sheet(refused),
    }
}

fn items_of(sheet: &Sheet, words: &[u32]) -> Vec<String> {
    let mut items = vec![format!("head@0:{},{}", sheet.n, sheet.f)];
    // Edges ascend, so the map has them in the order of the sheet.
    for ((lower, higher), place) in &sheet.edges {
        items.push(format!("edge@{place}:{lower}-{higher}"));
    }
    for route in &sheet.routes {
        items.push(format!("route@{}:{:08X}", route.place, words[route.place]));
    }
    for fan in &sheet.fans {
        items.push(format!("fan@{}:{}", fan.place, fan_words(fan, words)));
    }
    items
}

fn fan_words(fan: &Fan, words: &[u32]) -> String {
    let own = &words[fan.place..fan.place + fan.paths.len()];
    let own: Vec<String> = own.iter().map(|word| format!("{word:08X}")).collect();
    own.join("+")
}

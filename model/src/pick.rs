//! Picks from many scripts a few that together meet as much as possible.

use crate::air::{Air, AirKind};
use crate::console::Console;
use std::collections::{BTreeMap, BTreeSet};

/// What a script meets, each with its worth: commands with the sorts of their replies, and where
/// they were given.
type Met = BTreeMap<String, usize>;

/// Picks scripts until no other one fits into `most_bytes` or adds anything: each time the one
/// that adds most for its length. They come in the order in which they stood.
pub fn pick(scripts: &[Vec<u8>], most_bytes: usize) -> Vec<&[u8]> {
    let met: Vec<Met> = scripts.iter().map(|script| met_by(script)).collect();
    let mut chosen: BTreeSet<usize> = BTreeSet::new();
    let mut all = Met::new();
    let mut bytes = 0;
    while let Some(best) = best_of(scripts, &met, &all, most_bytes - bytes) {
        bytes += scripts[best].len();
        all.extend(met[best].clone());
        chosen.insert(best);
    }
    chosen.into_iter().map(|i| scripts[i].as_slice()).collect()
}

fn best_of(scripts: &[Vec<u8>], met: &[Met], all: &Met, room: usize) -> Option<usize> {
    let mut best: Option<(usize, usize)> = None;
    for (i, script) in scripts.iter().enumerate().filter(|(_, script)| script.len() <= room) {
        let new = met[i].iter().filter(|(what, _)| !all.contains_key(*what));
        // How much it adds for each million bytes.
        let worth = new.map(|(_, worth)| worth).sum::<usize>() * 1_000_000 / script.len();
        if worth > best.map_or(0, |(_, most)| most) {
            best = Some((i, worth));
        }
    }
    best.map(|(i, _)| i)
}

/// Rare things are worth more, since the scripts that meet them are long.
fn met_by(script: &[u8]) -> Met {
    let mut console = Console::default();
    let mut met = Met::new();
    for line in script.split(|&byte| byte == b'\n') {
        let name = name_of(line);
        let where_given = where_given(&console, &name);
        let Some(reply) = console.answer(line) else { continue };
        if reply == "error" {
            met.insert("error".to_string(), 20);
            continue;
        }
        met.insert(format!("{name} {}{}", sort_of(&reply), air_of(&console, &name)), 50);
        met.insert(format!("{name} {} {where_given}", detail_of(&reply)), 1);
        if name == "turn" && console.floor.over() {
            met.insert(format!("over {:?}", size_of_floor(&console)), 300);
        }
        if name == "sheet" {
            let size = (console.plan.n(), console.plan.f());
            met.insert(format!("sheet {} {size:?}", sort_of(&reply)), 10);
        }
    }
    met
}

fn name_of(line: &[u8]) -> String {
    let mut parts = line.split(|byte| byte.is_ascii_whitespace()).filter(|part| !part.is_empty());
    String::from_utf8_lossy(parts.next().unwrap_or_default()).into_owned()
}

/// A reply without its values, but with the number of a refusal.
fn sort_of(reply: &str) -> String {
    let parts: Vec<&str> = reply.split(' ').collect();
    match parts[..] {
        ["refused", number, ..] => format!("refused {number}"),
        ["ok", sort @ ("none" | "round" | "weighing" | "done"), ..] => format!("ok {sort}"),
        ["ok", bit @ ("0" | "1")] => format!("ok {bit}"),
        _ => parts[0].to_string(),
    }
}

/// A refusal with its place; of other replies the sort.
fn detail_of(reply: &str) -> String {
    if reply.starts_with("refused") {
        reply.to_string()
    } else {
        sort_of(reply)
    }
}

fn is_for_floor(name: &str) -> bool {
    let names = "open transmit speak held decision recalled lanes notebook turn state";
    names.split(' ').any(|other| other == name)
}

fn is_for_end(name: &str) -> bool {
    ["begin", "espeak", "etake", "eweigh"].contains(&name)
}

fn air_of(console: &Console, name: &str) -> &'static str {
    if is_for_floor(name) {
        kind_of(&console.floor.air)
    } else if is_for_end(name) || ["eput", "ecount", "eat", "elanes"].contains(&name) {
        kind_of(&console.air)
    } else {
        ""
    }
}

fn kind_of(air: &Air) -> &'static str {
    match air.kind() {
        AirKind::Board => " on a board",
        AirKind::Strip => " on a strip",
    }
}

fn size_of_floor(console: &Console) -> (u8, u8) {
    (console.floor.plan.n(), console.floor.plan.f())
}

/// Where a command is given: which air, which size, which phase.
fn where_given(console: &Console, name: &str) -> String {
    let air = air_of(console, name);
    if is_for_floor(name) {
        let phase = if name == "turn" { console.floor.phase() } else { 0 };
        format!("{air} {:?} {phase}", size_of_floor(console))
    } else if is_for_end(name) {
        let size = (console.plan.n(), console.plan.f());
        let state = console.end.as_ref().map(|end| end.state);
        format!("{air} {size:?} {state:?}")
    } else {
        air.to_string()
    }
}

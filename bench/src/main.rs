//! Times the engine beside the model and beside a version of the model that is written to be fast, in one process and on
//! the same inputs. `rolgevin-bench` prints a table of times; `rolgevin-bench LINE SIDE COUNT` does one thing COUNT times,
//! for a tool that counts instructions. Every answer is compared, so that no side saves work.
mod engine;
mod inputs;

use inputs::{Call, Rogues, Run};
use rolgevin_model::air::AirKind;
use rolgevin_model::fast::{self, FastFloor, FastPlan};
use rolgevin_model::floor::Floor;
use rolgevin_model::plan::Plan;
use rolgevin_model::sheet;
use std::hint::black_box;
use std::time::{Duration, Instant};

const SIDES: [&str; 3] = ["engine", "model", "fast"];
const LINES: [&str; 6] = ["load-226", "load-1024", "run-none", "run-silent", "run-random", "run-descending"];

/// A line of the table, ready to be done on any side.
struct Line {
    sheet: Vec<u32>,
    /// The run, with its calls as words; none where only the sheet is loaded.
    run: Option<(Run, Vec<u32>)>,
    plan: Plan,
    fast_plan: FastPlan,
}

fn line(name: &str) -> Line {
    let sheet = if name == "load-1024" { inputs::long_sheet() } else { inputs::complete_sheet() };
    let rogues = match name {
        "run-none" => Some(Rogues::None),
        "run-silent" => Some(Rogues::Silent),
        "run-random" => Some(Rogues::Random),
        "run-descending" => Some(Rogues::Descending),
        _ => None,
    };
    let run = rogues.map(|rogues| {
        let run = inputs::run(rogues);
        let words = inputs::encoded(&run);
        (run, words)
    });
    let plan = Plan::of(&sheet).ok().expect("a complete sheet");
    let fast_plan = FastPlan::new(&sheet).ok().expect("a complete sheet");
    Line { sheet, run, plan, fast_plan }
}

fn model_run(plan: &Plan, run: &Run) -> u32 {
    let mut floor = Floor::new(AirKind::Board);
    floor.open(plan, run.rogues, run.bits).ok().expect("an opening that is taken");
    let mut decision = 2;
    for call in &run.calls {
        match *call {
            Call::Transmit(site, word) => drop(black_box(floor.transmit(site, word))),
            Call::Speak(site) => drop(black_box(floor.speak(site))),
            Call::Turn => drop(black_box(floor.turn())),
            Call::Decision(site) => decision = floor.decision(site).map_or(2, u32::from),
        }
    }
    decision
}

fn fast_run(plan: &FastPlan, run: &Run) -> u32 {
    let mut floor = FastFloor::open(plan, run.rogues, run.bits).expect("an opening that is taken");
    let mut decision = 2;
    for call in &run.calls {
        match *call {
            Call::Transmit(site, word) => drop(black_box(floor.transmit(site, word))),
            Call::Speak(site) => drop(black_box(floor.speak(site))),
            Call::Turn => drop(black_box(floor.turn())),
            Call::Decision(site) => decision = floor.decision(site).map_or(2, u32::from),
        }
    }
    decision
}

/// Does the line once; a run on the engine loads its sheet too. The answer: 0 for a sheet that is complete, else the bit
/// decided.
fn once(line: &Line, side: &str, answers: &mut [u32]) -> u32 {
    match (&line.run, side) {
        (None, "engine") => engine::check(black_box(&line.sheet)),
        (None, "model") => sheet::check(black_box(&line.sheet)).is_err() as u32,
        (None, _) => fast::check_sheet(black_box(&line.sheet)).is_err() as u32,
        (Some((run, words)), "engine") => {
            assert_eq!(engine::run(&line.sheet, run.rogues, run.bits, black_box(words), answers), 0);
            let last = 2 * (words.len() / 3) - 2;
            assert_eq!(answers[last], 0);
            answers[last + 1]
        }
        (Some((run, _)), "model") => model_run(black_box(&line.plan), run),
        (Some((run, _)), _) => fast_run(black_box(&line.fast_plan), run),
    }
}

/// The least time of several tries, each long enough for the clock.
fn time(mut work: impl FnMut()) -> Duration {
    let mut best = Duration::MAX;
    for _ in 0..5 {
        let mut count = 0u32;
        let start = Instant::now();
        while start.elapsed() < Duration::from_millis(60) {
            work();
            count += 1;
        }
        best = best.min(start.elapsed() / count);
    }
    best
}

fn table() {
    println!("line            engine      model       fast   engine/model  engine/fast");
    for name in LINES {
        let line = line(name);
        let mut answers = vec![0; 2 * line.run.as_ref().map_or(0, |(run, _)| run.calls.len())];
        let wanted = once(&line, "model", &mut answers);
        let mut times = SIDES.map(|side| {
            assert_eq!(once(&line, side, &mut answers), wanted, "{name} on {side}");
            time(|| {
                black_box(once(&line, side, &mut answers));
            })
        });
        if line.run.is_some() {
            // The engine's run loads its sheet; the others are handed a plan.
            times[0] = times[0].saturating_sub(time(|| {
                black_box(engine::check(black_box(&line.sheet)));
            }));
        }
        let [engine, model, fast] = times.map(|t| t.as_secs_f64() * 1e6);
        println!("{name:<14} {engine:>8.1} us {model:>8.1} us {fast:>8.1} us {:>8.3} {:>11.2}", engine / model, engine / fast);
    }
}

fn main() {
    let arguments: Vec<String> = std::env::args().skip(1).collect();
    match arguments.as_slice() {
        [] => table(),
        [name, side, count] if LINES.contains(&name.as_str()) && SIDES.contains(&side.as_str()) => {
            let line = line(name);
            let mut answers = vec![0; 2 * line.run.as_ref().map_or(0, |(run, _)| run.calls.len())];
            for _ in 0..count.parse().expect("a count") {
                black_box(once(&line, side, &mut answers));
            }
        }
        _ => {
            eprintln!("usage: rolgevin-bench [LINE SIDE COUNT], LINE of {LINES:?}, SIDE of {SIDES:?}");
            std::process::exit(2);
        }
    }
}

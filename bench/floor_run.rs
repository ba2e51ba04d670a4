// A plain Rust floor, to measure the engine's rounds against: each word that is heard is decoded.
// It reads the console's `sheet`, `open`, `transmit`, `speak`, `turn` and `decision` lines (sheets are taken as checked)
// and answers as the console does, without the plain words. By the rules of docs/ALGORITHM.md; build with `rustc -O`.
use std::io::{self, BufRead, Write};

#[derive(Default)]
struct Floor {
    n: usize,
    f: u32,
    joined: Vec<Vec<bool>>,
    routes: Vec<Vec<usize>>,
    fans: Vec<Vec<Vec<usize>>>,
    sets: Vec<u32>,
    expected: Vec<Vec<Vec<Vec<usize>>>>,
    rogues: u32,
    bits: Vec<bool>,
    spoken: Vec<bool>,
    notes: Vec<Vec<(Vec<usize>, bool)>>,
    lanes: Vec<Vec<u32>>,
    turns: usize,
}

fn sites(word: u32) -> Vec<usize> {
    (0..(word >> 25) & 7).map(|i| ((word >> (22 - 3 * i)) & 7) as usize).collect()
}

// The path and the bit of a lawful flood word.
fn flood(word: u32) -> Option<(Vec<usize>, bool)> {
    let count = (word >> 25) & 7;
    if word >> 28 != 1 || count > 5 || word & 0x7e != 0 {
        return None;
    }
    let path = sites(word);
    let rest = (count..6).all(|i| (word >> (22 - 3 * i)) & 7 == 0);
    let different = (0..path.len()).all(|i| path[i] < 6 && !path[..i].contains(&path[i]));
    if rest && different { Some((path, word & 1 == 1)) } else { None }
}

fn word_of(path: &[usize], bit: bool) -> u32 {
    let fields = path.iter().enumerate().map(|(i, s)| (*s as u32) << (22 - 3 * i)).sum::<u32>();
    0x1000_0000 + ((path.len() as u32) << 25) + fields + bit as u32
}

impl Floor {
    fn load(&mut self, words: &[u32]) {
        *self = Floor { n: ((words[0] >> 4) & 15) as usize, f: words[0] & 15, ..Floor::default() };
        self.joined = vec![vec![false; self.n]; self.n];
        let mut fan_paths = Vec::new();
        for word in &words[1..] {
            match word >> 28 {
                9 => {
                    let (a, b) = (((word >> 3) & 7) as usize, (word & 7) as usize);
                    self.joined[a][b] = true;
                    self.joined[b][a] = true;
                }
                10 => self.routes.push(sites(*word)),
                _ => fan_paths.push(sites(*word)),
            }
        }
        self.fans = fan_paths.chunks(self.f as usize + 1).map(|c| c.to_vec()).collect();
        self.sets = (0u32..1 << self.n).filter(|m| m.count_ones() <= self.f).collect();
        self.sets.sort_by_key(|m| (m.count_ones(), *m));
        for v in 0..self.n {
            let mut levels = Vec::new();
            let mut paths: Vec<Vec<usize>> = (0..self.n).map(|s| vec![s]).collect();
            for _ in 1..self.n {
                let ends = |p: &&Vec<usize>| self.joined[*p.last().unwrap()][v] && !p.contains(&v);
                levels.push(paths.iter().filter(ends).cloned().collect());
                paths = paths.iter().flat_map(|p| self.longer(p)).collect();
            }
            self.expected.push(levels);
        }
    }

    fn longer(&self, path: &[usize]) -> Vec<Vec<usize>> {
        let next = |s: &usize| self.joined[*path.last().unwrap()][*s] && !path.contains(s);
        (0..self.n).filter(next).map(|s| [path, &[s]].concat()).collect()
    }

    fn open(&mut self, rogues: u32, bits: u32) {
        self.rogues = rogues;
        self.bits = (0..self.n).map(|v| (bits >> v) & 1 == 1).collect();
        self.spoken = vec![false; self.n];
        self.notes = vec![Vec::new(); self.n];
        self.lanes = vec![Vec::new(); self.n];
        self.turns = 0;
    }

    fn sound(&self, v: usize) -> bool {
        (self.rogues >> v) & 1 == 0
    }

    fn speak(&mut self, v: usize) -> usize {
        let round = self.turns % (self.n - 1) + 1;
        let words: Vec<u32> = if round == 1 {
            vec![word_of(&[], self.bits[v])]
        } else {
            self.notes[v].iter().filter(|(p, _)| p.len() == round - 1).map(|(p, b)| word_of(p, *b)).collect()
        };
        self.lanes[v].extend(&words);
        self.spoken[v] = true;
        words.len()
    }

    fn heard(&self, path: &[usize]) -> bool {
        let (last, front) = path.split_last().unwrap();
        let words = self.lanes[*last].iter().filter_map(|w| flood(*w));
        words.filter(|(p, _)| p == front).map(|(_, b)| b).next().unwrap_or(true)
    }

    fn told(&self, v: usize, path: &[usize]) -> bool {
        self.notes[v].iter().find(|(p, _)| p == path).unwrap().1
    }

    fn weighed(&self, v: usize, set: u32) -> bool {
        let avoids = |p: &[usize]| p[1..p.len() - 1].iter().all(|s| (set >> s) & 1 == 0);
        let mut zeros = 0u32;
        for u in 0..self.n {
            let bit = if u == v {
                self.bits[v]
            } else {
                let route = self.routes.iter().find(|p| p[0] == u && *p.last().unwrap() == v && avoids(p)).unwrap();
                self.told(v, &route[..route.len() - 1])
            };
            if !bit {
                zeros |= 1 << u;
            }
        }
        let others = (1 << self.n) - 1 - zeros;
        let keep = if (zeros & set).count_ones() <= self.f / 2 {
            if others.count_ones() > self.f { others } else { zeros }
        } else if zeros.count_ones() > self.f {
            zeros
        } else {
            others
        };
        if (keep >> v) & 1 == 1 {
            return self.bits[v];
        }
        let serves = |fan: &&Vec<Vec<usize>>| *fan[0].last().unwrap() == v && fan.iter().all(|p| (keep >> p[0]) & 1 == 1 && avoids(p));
        let fan = self.fans.iter().find(serves).unwrap();
        let bits: Vec<bool> = fan.iter().map(|p| self.told(v, &p[..p.len() - 1])).collect();
        if bits.iter().all(|b| *b == bits[0]) { bits[0] } else { self.bits[v] }
    }

    fn turn(&mut self) -> usize {
        let round = self.turns % (self.n - 1) + 1;
        for v in 0..self.n {
            if self.sound(v) {
                let mut notes = if round == 1 { Vec::new() } else { std::mem::take(&mut self.notes[v]) };
                for path in &self.expected[v][round - 1] {
                    notes.push((path.clone(), self.heard(path)));
                }
                self.notes[v] = notes;
            }
        }
        if round == self.n - 1 {
            let set = self.sets[self.turns / (self.n - 1)];
            self.bits = (0..self.n).map(|v| if self.sound(v) { self.weighed(v, set) } else { false }).collect();
        }
        self.spoken = vec![false; self.n];
        self.lanes.iter_mut().for_each(Vec::clear);
        self.turns += 1;
        self.turns
    }
}

fn main() {
    let mut out = io::BufWriter::new(io::stdout());
    let mut floor = Floor::default();
    for line in io::stdin().lock().lines() {
        let line = line.unwrap();
        let tokens: Vec<&str> = line.split_ascii_whitespace().collect();
        let hex = |i: usize| u32::from_str_radix(tokens[i], 16).unwrap();
        let number = |i: usize| tokens[i].parse::<usize>().unwrap();
        match tokens[0] {
            "sheet" => {
                let words: Vec<u32> = (1..tokens.len()).map(hex).collect();
                floor.load(&words);
                writeln!(out, "ok").unwrap();
            }
            "open" => {
                floor.open(hex(1), hex(2));
                writeln!(out, "ok").unwrap();
            }
            "transmit" => {
                floor.lanes[number(1)].push(hex(2));
                writeln!(out, "ok {}", floor.lanes[number(1)].len()).unwrap();
            }
            "speak" => writeln!(out, "ok {}", floor.speak(number(1))).unwrap(),
            "turn" => writeln!(out, "ok {}", floor.turn()).unwrap(),
            _ => writeln!(out, "ok {}", floor.bits[number(1)] as u8).unwrap(),
        }
    }
}

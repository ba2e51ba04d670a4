// A plain Rust reading of the sheet check, to measure the engine's loading against.
// It reads `sheet W..` lines as the console does and answers `ok` or `refused NUMBER PLACE`.
// By the rules of docs/FORMATS.md and docs/REFUSALS.md; build with `rustc -O`.
use std::io::{self, BufRead, Write};

struct Sheet {
    n: u32,
    f: u32,
    routes: Vec<Vec<u32>>,
    fans: Vec<Vec<Vec<u32>>>,
}

fn path(word: u32) -> Option<Vec<u32>> {
    let count = (word >> 25) & 7;
    let fields: Vec<u32> = (0..6).map(|i| (word >> (22 - 3 * i)) & 7).collect();
    if !(2..=6).contains(&count) || word & 0x7f != 0 {
        return None;
    }
    let (sites, rest) = fields.split_at(count as usize);
    let different = (0..sites.len()).all(|i| !sites[..i].contains(&sites[i]));
    if sites.iter().any(|s| *s > 5) || !different || rest.iter().any(|s| *s != 0) {
        return None;
    }
    Some(sites.to_vec())
}

fn read(words: &[u32]) -> Result<Sheet, (u32, usize)> {
    if words.is_empty() || words.len() > 1024 {
        return Err((1, 0));
    }
    let (n, f) = ((words[0] >> 4) & 15, words[0] & 15);
    if words[0] >> 8 != 0x80_0000 || !(2..=6).contains(&n) || f > 2 {
        return Err((2, 0));
    }
    for i in 1..words.len() {
        let kind = words[i] >> 28;
        if !(9..=11).contains(&kind) || kind < words[i - 1] >> 28 {
            return Err((3, i));
        }
    }
    let mut joined = [[false; 8]; 8];
    for i in 1..words.len() {
        let word = words[i];
        if word >> 28 == 9 {
            let (a, b) = ((word >> 3) & 7, word & 7);
            if word & 0x0fff_ffc0 != 0 || a >= b || b >= n || words[i - 1] >= word {
                return Err((4, i));
            }
            joined[a as usize][b as usize] = true;
            joined[b as usize][a as usize] = true;
        }
    }
    let (mut routes, mut fan_paths, mut first_fan) = (Vec::new(), Vec::new(), 0);
    for i in 1..words.len() {
        let kind = words[i] >> 28;
        if kind >= 10 {
            let p = path(words[i]).ok_or((5, i))?;
            let linked = p.windows(2).all(|w| joined[w[0] as usize][w[1] as usize]);
            if p.iter().any(|s| *s >= n) || !linked {
                return Err((5, i));
            }
            if kind == 10 {
                routes.push(p);
            } else {
                if fan_paths.is_empty() {
                    first_fan = i;
                }
                fan_paths.push(p);
            }
        }
    }
    let mut fans = Vec::new();
    for (g, group) in fan_paths.chunks(f as usize + 1).enumerate() {
        let place = first_fan + g * (f as usize + 1);
        let end = group[0].last();
        let shared = (0..group.len()).any(|k| {
            let own = &group[k][..group[k].len() - 1];
            group[..k].iter().any(|p| p[..p.len() - 1].iter().any(|s| own.contains(s)))
        });
        if group.len() < f as usize + 1 || group.iter().any(|p| p.last() != end) || shared {
            return Err((6, place));
        }
        fans.push(group.to_vec());
    }
    Ok(Sheet { n, f, routes, fans })
}

fn avoids(set: u32, p: &[u32]) -> bool {
    p[1..p.len() - 1].iter().all(|s| (set >> s) & 1 == 0)
}

fn keepers(n: u32, f: u32, set: u32, zeros: u32) -> u32 {
    let others = (1 << n) - 1 - zeros;
    if (zeros & set).count_ones() <= f / 2 {
        if others.count_ones() > f { others } else { zeros }
    } else if zeros.count_ones() > f {
        zeros
    } else {
        others
    }
}

fn check(words: &[u32]) -> Result<(), (u32, usize)> {
    let sheet = read(words)?;
    let mut sets: Vec<u32> = (0u32..1 << sheet.n).filter(|m| m.count_ones() <= sheet.f).collect();
    sets.sort_by_key(|m| (m.count_ones(), *m));
    for set in &sets {
        for u in 0..sheet.n {
            for v in 0..sheet.n {
                let found = u == v || sheet.routes.iter().any(|p| p[0] == u && *p.last().unwrap() == v && avoids(*set, p));
                if !found {
                    return Err((7, *set as usize));
                }
            }
        }
    }
    for set in &sets {
        for v in 0..sheet.n {
            for zeros in 0..1 << sheet.n {
                let a = keepers(sheet.n, sheet.f, *set, zeros);
                let serves = |fan: &Vec<Vec<u32>>| {
                    *fan[0].last().unwrap() == v && fan.iter().all(|p| (a >> p[0]) & 1 == 1 && avoids(*set, p))
                };
                if (a >> v) & 1 == 0 && !sheet.fans.iter().any(serves) {
                    return Err((8, *set as usize));
                }
            }
        }
    }
    Ok(())
}

fn main() {
    let mut out = io::BufWriter::new(io::stdout());
    for line in io::stdin().lock().lines() {
        let line = line.unwrap();
        let words: Vec<u32> = line.split_ascii_whitespace().skip(1).map(|t| u32::from_str_radix(t, 16).unwrap()).collect();
        match check(&words) {
            Ok(()) => writeln!(out, "ok").unwrap(),
            Err((number, place)) => writeln!(out, "refused {number} {place}").unwrap(),
        }
    }
}

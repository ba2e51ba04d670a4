//! `generate SEED COUNT [BYTES]` writes COUNT command scripts to standard output, each of which
//! begins with `reset`. With BYTES it writes of these only some that together meet as much as
//! possible, and no more than BYTES in all. The same arguments give the same text. Where the
//! environment variable WITHOUT_END is set to something, the commands of the single end are left
//! out.

use rolgevin_model::pick::pick;
use rolgevin_model::scripts::Scripts;
use std::io::{self, BufWriter, Write};

fn main() -> io::Result<()> {
    let arguments: Vec<String> = std::env::args().skip(1).collect();
    let numbers: Result<Vec<u64>, _> = arguments.iter().map(|text| text.parse()).collect();
    match numbers.as_deref() {
        Ok([seed, count]) => write_scripts(*seed, *count, None),
        Ok([seed, count, bytes]) => write_scripts(*seed, *count, Some(*bytes as usize)),
        _ => {
            eprintln!("usage: generate SEED COUNT [BYTES]");
            std::process::exit(2);
        }
    }
}

fn write_scripts(seed: u64, count: u64, most_bytes: Option<usize>) -> io::Result<()> {
    let without_end = std::env::var_os("WITHOUT_END").is_some_and(|value| !value.is_empty());
    let mut scripts = Scripts::new(seed, !without_end);
    let mut output = BufWriter::new(io::stdout().lock());
    if let Some(most_bytes) = most_bytes {
        let all: Vec<Vec<u8>> = (0..count).map(|_| scripts.script()).collect();
        for script in pick(&all, most_bytes) {
            output.write_all(script)?;
        }
    } else {
        for _ in 0..count {
            output.write_all(&scripts.script())?;
        }
    }
    output.flush()
}

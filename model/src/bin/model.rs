//! Reads commands from standard input, a line each, and writes the replies without the plain
//! words that the console appends. With the option `-n` each reply has the number of the line
//! that it answers in front of it, from 1.

use rolgevin_model::console::Console;
use std::io::{self, BufRead, BufWriter, Write};

fn main() -> io::Result<()> {
    let numbered = std::env::args().nth(1).as_deref() == Some("-n");
    let mut input = io::stdin().lock();
    let mut output = BufWriter::with_capacity(1 << 16, io::stdout().lock());
    let mut console = Console::default();
    let mut line = Vec::new();
    let mut number = 0;
    while input.read_until(b'\n', &mut line)? > 0 {
        number += 1;
        if line.last() == Some(&b'\n') {
            line.pop();
        }
        if let Some(reply) = console.answer(&line) {
            if numbered {
                write!(output, "{number} ")?;
            }
            writeln!(output, "{reply}")?;
        }
        line.clear();
    }
    output.flush()
}

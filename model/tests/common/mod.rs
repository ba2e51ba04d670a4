//! What several tests use: the sheet of the triangle, and a console that is told lines.
#![allow(dead_code)]

use rolgevin_model::console::Console;

/// Three sites, all joined, of which one may be rogue.
pub const TRIANGLE: [u32; 16] = [
    0x8000_0031, 0x9000_0001, 0x9000_0002, 0x9000_000A, 0xA408_0000, 0xA410_0000, 0xA440_0000,
    0xA450_0000, 0xA480_0000, 0xA488_0000, 0xB440_0000, 0xB480_0000, 0xB408_0000, 0xB488_0000,
    0xB410_0000, 0xB450_0000,
];

pub const TRIANGLE_LINE: &str = "sheet 80000031 90000001 90000002 9000000A A4080000 A4100000 \
    A4400000 A4500000 A4800000 A4880000 B4400000 B4800000 B4080000 B4880000 B4100000 B4500000";

/// Tells each line to the console and compares its reply with the one that stands beside it.
pub fn converse(console: &mut Console, lines: &[(&str, &str)]) {
    for (line, reply) in lines {
        let got = console.answer(line.as_bytes());
        assert_eq!(got.as_deref(), Some(*reply), "the reply to: {line}");
    }
}

/// A console with the plan of the triangle in hand.
pub fn triangle_console() -> Console {
    let mut console = Console::default();
    converse(&mut console, &[(TRIANGLE_LINE, "ok")]);
    console
}

/// Tells a line whose reply does not matter.
pub fn tell(console: &mut Console, line: &str) -> String {
    console.answer(line.as_bytes()).expect("the line is answered")
}

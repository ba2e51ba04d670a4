//! Lines that are no commands, and all commands in any order.

use super::Scripts;

/// Each command with the number of its arguments.
const COMMANDS: [(&str, usize); 31] = [
    ("reset", 0),
    ("read", 1),
    ("write", 3),
    ("sheet", 1),
    ("plan", 0),
    ("items", 1),
    ("route", 3),
    ("fan", 3),
    ("air", 1),
    ("open", 2),
    ("transmit", 2),
    ("speak", 1),
    ("turn", 0),
    ("held", 1),
    ("decision", 1),
    ("recalled", 2),
    ("lanes", 0),
    ("notebook", 1),
    ("state", 0),
    ("eair", 1),
    ("eput", 2),
    ("ecount", 1),
    ("eat", 2),
    ("eclear", 0),
    ("elanes", 0),
    ("begin", 2),
    ("espeak", 0),
    ("etake", 0),
    ("eweigh", 0),
    ("ebook", 0),
    ("ebookset", 2),
];

impl Scripts {
    pub(super) fn odd_lines_script(&mut self) {
        for _ in 0..self.random.within(60, 120) {
            if self.random.percent(80) {
                self.odd_line();
            } else {
                self.any_command();
            }
        }
    }

    fn odd_line(&mut self) {
        match self.random.below(12) {
            0..=4 => self.wrong_count(),
            5..=8 => self.bad_argument(),
            9 => self.unknown_command(),
            10 => self.odd_bytes(),
            _ => self.no_answer(),
        }
    }

    fn command(&mut self) -> (&'static str, usize) {
        loop {
            let command = *self.random.pick(&COMMANDS);
            if self.with_end || !is_end_command(command.0) {
                return command;
            }
        }
    }

    /// A command with one argument too few or too many.
    fn wrong_count(&mut self) {
        let (name, count) = self.command();
        let given = if self.random.bit() { count + 1 } else { count.saturating_sub(1) };
        let mut line = name.to_string();
        for _ in 0..given {
            let argument = *self.random.pick(&["0", "1", "2", "0", "1", "board", "10000001"]);
            line.push(' ');
            line.push_str(argument);
        }
        self.say(line);
    }

    /// A command with the right number of arguments, of which one is no number or too large.
    fn bad_argument(&mut self) {
        let (name, count) = self.command();
        let bad = self.random.below(count.max(1));
        let mut line = name.to_string();
        for i in 0..count {
            line.push(' ');
            let argument = if i == bad { self.bad_number() } else { "1".to_string() };
            line.push_str(&argument);
        }
        self.say(line);
    }

    fn bad_number(&mut self) -> String {
        let bad = [
            "x", "0x", "-1", "+1", "1.0", "1,0", "4294967296", "100000000", "1FFFFFFFF", "g",
            "0xg", "00x1", "0x0x1", "x1", "99999999999999999999999", "1_000", "é", "#", "#1", "A",
            "a", "ffffffff", "4294967295", "0b1", "1e3", "Board", "strip", "boards", "0x100000000",
            "000000000000000000001", "0x0000000000000000000001", "''", "\"1\"", "1-2",
        ];
        (*self.random.pick(&bad)).to_string()
    }

    fn unknown_command(&mut self) {
        let unknown = [
            "hello", "READ 0", "Reset", "resets", "rese", "re set", "e", "eput2 0 0", "air",
            "eair", "air boar", "air Strip", "eair strips", "?", "0", "reset#", "reset # now",
            "read  # 0", "plan ;", "write", "write 1", "read 0X10000000", "plan\x0B",
            "read\x0C10000000", "route", "quit", "ok", "refused 5", "state 1", "-", "read,0",
            "lanes 0", "held", "begins", "",
        ];
        let line = (*self.random.pick(&unknown)).to_string();
        self.say(line);
    }

    fn odd_bytes(&mut self) {
        let (name, _) = self.command();
        let mut line: Vec<u8> = name.bytes().collect();
        for _ in 0..self.random.within(1, 4) {
            let odd = *self.random.pick(&[0u8, 1, 7, 8, 27, 127, 128, 160, 194, 195, 255]);
            let place = self.random.below(line.len() + 1);
            line.insert(place, odd);
        }
        if self.random.percent(10) {
            let length = self.random.within(100, 3000);
            line = vec![*self.random.pick(&[b'x', b'0', b'1', 0, 255]); length];
        }
        self.say_bytes(&line);
    }

    /// Blank lines and comments.
    fn no_answer(&mut self) {
        let lines =
            ["", " ", "\t", "  \r", "\x0C", "# reset", "#", "#reset", "## 1 2", "  # reset", "\t#"];
        let line = *self.random.pick(&lines);
        self.say_bytes(line.as_bytes());
    }

    pub(super) fn mixed_script(&mut self) {
        for _ in 0..self.random.within(60, 140) {
            self.any_command();
        }
    }

    fn any_command(&mut self) {
        match self.random.below(100) {
            0..=9 => self.read_command(),
            10..=17 => self.write_command(),
            18..=19 => {
                let size = *self.random.pick(&[(2, 0), (3, 0), (3, 1), (4, 0), (4, 1)]);
                let sheet = self.new_sheet(size);
                if self.random.bit() {
                    self.sheet_command(&sheet);
                } else {
                    self.damaged_command(&sheet);
                }
            }
            20 => self.say("plan".to_string()),
            21..=24 => self.route_command(),
            25..=28 => self.fan_command(),
            29 => {
                let kind = self.air_kind();
                self.say(format!("air {kind}"));
            }
            30..=32 => self.open_command(),
            33..=47 => self.floor_call(),
            48..=54 => self.one_turn(),
            55..=58 => self.air_query(),
            59..=63 => {
                let site = self.site(6);
                let word = self.any_word();
                self.eput(&site, word);
            }
            64 => {
                let kind = self.air_kind();
                self.say(format!("eair {kind}"));
            }
            65 => self.say("eclear".to_string()),
            66 => self.say("reset".to_string()),
            67..=72 => self.odd_line(),
            73..=76 if self.with_end => self.begin_command(),
            77..=95 if self.with_end => self.end_call(),
            _ => self.floor_call(),
        }
    }
}

fn is_end_command(name: &str) -> bool {
    ["begin", "espeak", "etake", "eweigh", "ebook", "ebookset"].contains(&name)
}

//! The command language.

mod common;

use common::{converse, tell, triangle_console, TRIANGLE_LINE};
use rolgevin_model::console::Console;

#[test]
fn lines_that_get_no_answer() {
    let mut console = Console::default();
    for line in ["", " ", "\t", "  \r", "#", "# reset", "#reset", "  # reset"] {
        assert_eq!(console.answer(line.as_bytes()), None);
    }
}

#[test]
fn the_example_of_the_console_document() {
    let mut console = Console::default();
    converse(
        &mut console,
        &[
            (TRIANGLE_LINE, "ok"),
            ("route 0 0 2", "ok 5 0-2"),
            ("fan 0 0 6", "ok 10 1-0 2-0"),
            ("sheet 80000031", "refused 7 0"),
        ],
    );
}

#[test]
fn path_words() {
    converse(
        &mut Console::default(),
        &[
            ("read 12400001", "ok 1 1 [1]"),
            ("read 0x12400001", "ok 1 1 [1]"),
            ("read 12400002", "refused 5"),
            ("read 10000000", "ok 1 0 []"),
            ("read a4080000", "ok 10 0 [0-1]"),
            ("write 1 1 1", "ok 12400001"),
            ("write 1 0", "ok 10000000"),
            ("write 10 0 0 1", "ok A4080000"),
            ("write 11 0 1 0", "ok B4400000"),
            ("write 10 0 0 1 2 3 4 5 6", "refused 5"),
            ("write 4294967295 0", "refused 5"),
            ("  read\t0012400001 \r", "ok 1 1 [1]"),
        ],
    );
}

#[test]
fn lines_that_are_no_commands() {
    let mut console = Console::default();
    for line in [
        "hello", "READ 0", "read", "read 1 2", "read 0x", "read xyz", "read 100000000", "read +1",
        "read -1", "write", "write 1", "write 1 x", "write 1 0 A", "write 1 0 4294967296",
        "reset now", "air", "air Board", "eair boards", "open 0", "plan 0", "state 0", "turn 1",
        "ebookset 0", "begin 0", "begin 0 2", "begin 0 x", "espeak 0", "sheet 0 x", "items -",
        "route 0 0", "fan 0 0 0 0", "eput 0 100000000", "eat 0",
    ] {
        assert_eq!(tell(&mut console, line), "error", "{line}");
    }
    assert_eq!(console.answer(&[0xFF, 0xFE]).as_deref(), Some("error"));
    assert_eq!(console.answer(b"read 1\x002").as_deref(), Some("error"));
    assert_eq!(console.answer(&vec![b'x'; 100_000]).as_deref(), Some("error"));
    let mut zeros = b"read ".to_vec();
    zeros.extend(vec![b'0'; 10_000]);
    zeros.extend(b"12400001");
    assert_eq!(console.answer(&zeros).as_deref(), Some("ok 1 1 [1]"));
}

#[test]
fn the_plan_in_hand() {
    converse(
        &mut Console::default(),
        &[
            ("plan", "ok 6 80000020 90000001 A4080000 A4400000 B4080000 B4400000"),
            ("route 0 0 1", "ok 2 0-1"),
            ("fan 0 0 2", "ok 5 1-0"),
            ("sheet", "refused 1 0"),
            ("items", "refused 1 0"),
            ("items 80000031 90000001", "ok head@0:3,1 edge@1:0-1"),
            ("items 80000031 90000001 A4080000 90000001", "refused 3 3"),
            ("plan", "ok 6 80000020 90000001 A4080000 A4400000 B4080000 B4400000"),
            (
                "items 80000020 90000001 A4080000 B4080000 B4400000",
                "ok head@0:2,0 edge@1:0-1 route@2:A4080000 fan@3:B4080000 fan@4:B4400000",
            ),
        ],
    );
}

#[test]
fn items_of_the_triangle() {
    let line = TRIANGLE_LINE.replacen("sheet", "items", 1);
    let items = "ok head@0:3,1 edge@1:0-1 edge@2:0-2 edge@3:1-2 route@4:A4080000 \
        route@5:A4100000 route@6:A4400000 route@7:A4500000 route@8:A4800000 route@9:A4880000 \
        fan@10:B4400000+B4800000 fan@12:B4080000+B4880000 fan@14:B4100000+B4500000";
    converse(&mut Console::default(), &[(&line, items)]);
}

#[test]
fn what_a_plan_is_asked_outside_its_range() {
    let mut console = triangle_console();
    converse(
        &mut console,
        &[
            ("route 0 0 0", "ok none"),
            ("route 0 3 0", "ok none"),
            ("route 0 0 256", "ok none"),
            ("route 4 0 1", "ok 4 0-1"),
            ("route 3 0 1", "ok none"),
            ("route 8 0 1", "ok none"),
            ("route FFFFFFFF 0 1", "ok none"),
            ("fan 0 3 6", "ok none"),
            ("fan 0 256 6", "ok none"),
            ("fan 0 0 0", "ok none"),
            ("fan 0 0 7", "ok 10 1-0 2-0"),
            ("fan 0 0 E", "ok none"),
            ("fan 3 0 6", "ok none"),
            ("fan FFFFFFFF 0 6", "ok none"),
        ],
    );
}

#[test]
fn the_consoles_own_air() {
    for air in ["eair board", "eair strip"] {
        converse(
            &mut Console::default(),
            &[
                (air, "ok"),
                ("eput 2 10000001", "ok 1"),
                ("eput 2 00000000", "ok 2"),
                ("eput 0 FFFFFFFF", "ok 1"),
                ("eput 6 3", "refused 21"),
                ("ecount 2", "ok 2"),
                ("ecount 6", "ok 0"),
                ("ecount 258", "ok 0"),
                ("eat 2 0", "ok 10000001"),
                ("eat 2 2", "ok none"),
                ("eat 6 0", "ok none"),
                ("eat 0 4294967295", "ok none"),
                ("elanes", "ok 0: FFFFFFFF | 1: | 2: 10000001 00000000 | 3: | 4: | 5:"),
                ("lanes", "ok 0: | 1: | 2: | 3: | 4: | 5:"),
                ("eclear", "ok"),
                ("elanes", "ok 0: | 1: | 2: | 3: | 4: | 5:"),
            ],
        );
    }
}

#[test]
fn a_reset_goes_back_to_the_start() {
    let mut console = triangle_console();
    for line in
        ["air strip", "open 4 2", "speak 0", "eair strip", "eput 0 1", "begin 2 1", "ebookset 0 1"]
    {
        assert!(tell(&mut console, line).starts_with("ok"), "{line}");
    }
    converse(
        &mut console,
        &[
            ("reset", "ok"),
            ("plan", "ok 6 80000020 90000001 A4080000 A4400000 B4080000 B4400000"),
            ("state", "ok 0 0 1 0"),
            ("held 1", "ok 0"),
            ("lanes", "ok 0: | 1: | 2: | 3: | 4: | 5:"),
            ("elanes", "ok 0: | 1: | 2: | 3: | 4: | 5:"),
            ("ebook", "ok 0"),
            ("espeak", "state"),
        ],
    );
    for _ in 0..120 {
        tell(&mut console, "eput 0 1");
    }
    converse(&mut console, &[("eput 0 1", "refused 25")]);
}

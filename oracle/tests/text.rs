//! The text of a script, read back, is the script.

use oracle::generate::generate;
use oracle::parse::parse;
use oracle::script::{expected, list, render};

#[test]
fn read_back() {
    let commands = generate(5, 2000);
    assert!(parse(&render(&commands)) == commands);
}

#[test]
fn lists() {
    assert_eq!(list(&[]), "");
    assert_eq!(
        list(&[1, 2, 2, u32::MAX, u32::MAX, u32::MAX, 0]),
        " 1 2*2 -1*3 0"
    );
}

/// The words of walks with probes, and their three lines; an empty list is nothing after the word.
#[test]
fn probes() {
    let script = "table 3 9 0 12 0*2
inputs 0 5 1 6
controls 0*16
load 1 1
probes 0*2 1 0
latest 7*3
probed 2 1 3 3 5
probes
probed 0 1 0 0 0
latest -1
probed 2 1 1 2 0
";
    let printed = "load 1 1
probed 2 0 | 0 -6 9
latest -6*2 7
recorded 7 0 -6*2 9
probed refused 14 -1 |
latest
recorded
probed refused 12 -1 | 9
latest -1 -6
recorded
";
    let commands = parse(script.as_bytes());
    assert_eq!(expected(&commands), printed);
    assert_eq!(render(&commands), script.as_bytes());
}

/// The words of joins; the kind may be any number, and what was accepted is the table from then on.
#[test]
fn joins() {
    let script = "table 1 5 0
second 3 9 0
join -1 9
join 7 8
join 7 10
second 5 0*2
join 7 15
check
second
join 7 0
";
    let printed = "join refused 4 2 | 9*9
join refused 12 -1 | 9*8
join 9 | 1 5 0 3 9 0 7 0 1 9
join 15 | 1 5 0 3 9 0 7 0 1 5 0*2 7 2 3
check 0 1 2 0
join refused 3 0 |
";
    let commands = parse(script.as_bytes());
    assert_eq!(expected(&commands), printed);
    assert_eq!(render(&commands), script.as_bytes());
}

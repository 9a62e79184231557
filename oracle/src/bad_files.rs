//! Cases of column files: damaged ones, and round trips of good ones.

use crate::circuits::sample;
use crate::column::{text, LINE};
use crate::good_cases::{circuit, more, Circuit};
use crate::random::Random;
use crate::script::Command;

pub fn bad_file_case(random: &mut Random) -> Vec<Command> {
    let size = 1 + random.below(6);
    let good = circuit(random, size).table;
    let mut case = vec![Command::Memory(0)];
    for _ in 0..1 + random.below(3) {
        let mut file = text(&good);
        let line = random.below(file.len() / LINE);
        damage(random, &mut file, line);
        let whole = file.len().is_multiple_of(LINE) && !file.is_empty();
        if whole && random.percent(15) {
            let line = random.below(file.len() / LINE);
            damage(random, &mut file, line);
        }
        case.push(Command::File(file));
        case.push(Command::Read(good.len() + more(random)));
        if random.percent(20) {
            case.push(Command::Print);
        }
    }
    case
}

/// A number's text in the wrong form, in 12 columns.
fn wrong_column(random: &mut Random) -> String {
    let text = random.pick(&[
        "05",
        "00",
        "-05",
        "+5",
        "-0",
        "+0",
        "-",
        "",
        "--5",
        "- 5",
        "5-",
        "1 2",
        "5 ",
        "\t5",
        "/5",
        ":",
        "5.",
        "0x5",
        "1e3",
        "2147483648",
        "-2147483649",
        "4294967296",
        "4294967301",
        "99999999999",
        "999999999999",
        "-99999999999",
        "000000000005",
        "5\r",
        "5\t",
        "5\0",
        "a",
        "\u{7f}5",
    ]);
    // A byte 0 would make the script a binary file.
    let text = text.replace('\0', "\u{1}");
    format!("{text:>12}")
}

/// A node number that is not the line's, or not a number.
fn wrong_number(random: &mut Random, line: usize) -> String {
    let near = (line + 1).to_string();
    let zero = format!("{line:04}");
    let minus = format!("-{}", line + 1);
    let texts = [
        near.as_str(),
        zero.as_str(),
        minus.as_str(),
        "-1",
        "511",
        "512",
        "9999",
        "-999",
        "-0",
        "+0",
        "",
        "x",
        "\t0",
        "0 ",
    ];
    let at = random.below(texts.len());
    format!("{:>4}", texts[at])
}

/// Damages a file of whole lines at one of them.
fn damage(random: &mut Random, file: &mut Vec<u8>, line: usize) {
    let at = LINE * line;
    let column = 4 + 12 * random.below(3);
    match random.below(22) {
        0..=6 => overwrite(file, at + column, &wrong_column(random)),
        7..=10 => overwrite(file, at, &wrong_number(random, line)),
        11 => {
            // A wrong number and a wrong column: "only the first wrong column counts".
            overwrite(file, at, &wrong_number(random, line));
            overwrite(file, at + column, &wrong_column(random));
        }
        12 => {
            // No line feed at the end, or another byte in its place.
            file.pop();
            file.extend(random.pick(&["", " ", "0", "\r"]).as_bytes());
        }
        13 => file.clear(),
        14 => drop(file.remove(at + random.below(LINE))),
        15 => file.insert(at + random.below(LINE), random.pick(b" 0\r\n")),
        16 => file.insert(at + LINE - 1, b'\r'),
        17 => file.extend(&b"\n   0           5           0           0"[..1 + random.below(40)]),
        18 => file.extend(b" \n"),
        19 => {
            let place = at + random.below(LINE);
            file[place] = random.pick(b" 0123456789-+\t\r\n./:x");
        }
        20 => {
            let extreme = random.pick(&["-2147483648", "2147483647", "-1", "0"]);
            overwrite(file, at + column, &format!("{extreme:>12}"));
        }
        _ => file.truncate(random.below(file.len())),
    }
}

fn overwrite(file: &mut [u8], at: usize, text: &str) {
    file[at..at + text.len()].copy_from_slice(text.as_bytes());
}

/// Write, then read; read, then write; and the print of what was written.
pub fn round_case(random: &mut Random) -> Vec<Command> {
    let mut case = vec![Command::Memory(0)];
    let table = if random.percent(40) {
        let numbers = 3 * (1 + random.below(4));
        (0..numbers).map(|_| sample(random) as u32).collect()
    } else {
        let size = 1 + random.below(6);
        circuit(random, size).table
    };
    let (length, bytes) = (table.len(), table.len() / 3 * LINE);
    if random.percent(50) {
        case.push(Command::Table(table.clone()));
        if random.percent(30) {
            case.push(Command::Write(bytes - 1 - random.below(bytes.min(60))));
        }
        case.push(Command::Write(bytes + more(random)));
        case.push(Command::Table(vec![]));
        case.push(Command::Read(length));
    } else {
        case.push(Command::File(text(&table)));
        if random.percent(30) {
            case.push(Command::Read(length - 1 - random.below(length.min(3))));
        }
        case.push(Command::Read(length + more(random)));
        case.push(Command::Write(bytes + more(random)));
    }
    let good = Circuit::of(table);
    if good.is_none() || random.percent(40) {
        case.push(Command::Print);
    }
    case
}

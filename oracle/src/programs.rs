//! What the programs `translate` and `play` print for their standard input.

use crate::arity::{check, Checked};
use crate::column::{parse, parse_number};
use crate::engine::Refusal;
use crate::meaning::Meaning;
use crate::scene::row;
use crate::script::{expected, Command};

/// "one of more than 65,536 bytes with its line feed"
const BUFFER: usize = 65536;

/// The circuit of a file: lines, table, 10, 11.
fn circuit(file: &[u8]) -> Result<(Vec<u32>, Checked), Refusal> {
    let table = parse(file)?;
    let checked = check(&table)?;
    if checked.counts.instructions > 2048 {
        return Err(Refusal::nowhere(10));
    }
    if checked.counts.cells > 16384 {
        return Err(Refusal::nowhere(11));
    }
    Ok((table, checked))
}

/// "prints the code"; "On refusal it prints number and place".
pub fn translated(file: &[u8]) -> String {
    expected(&[Command::File(file.to_vec()), Command::Print])
}

/// What stands before the first empty line, and what stands after it.
fn parts(input: &[u8]) -> (&[u8], &[u8]) {
    let mut line = 0;
    while let Some(length) = input[line..].iter().position(|&b| b == b'\n') {
        if length == 0 {
            return (&input[..line], &input[line + 1..]);
        }
        line += length + 1;
    }
    (input, &[])
}

/// A line of samples.
enum Line {
    Tick(Vec<u32>),
    Control(usize, u32),
    Malformed,
}

impl Line {
    /// "n numbers separated by spaces", or `control SLOT VALUE`.
    fn of(line: &[u8], n: usize) -> Line {
        if line.len() + 1 > BUFFER {
            return Line::Malformed;
        }
        let words: Vec<&[u8]> = line
            .split(|&b| b == b' ')
            .filter(|w| !w.is_empty())
            .collect();
        if let [b"control", slot, value] = words[..] {
            return match (parse_number(slot), parse_number(value)) {
                (Some(slot @ 0..=15), Some(value)) => Line::Control(slot as usize, value),
                _ => Line::Malformed,
            };
        }
        match words
            .into_iter()
            .map(parse_number)
            .collect::<Option<Vec<u32>>>()
        {
            Some(numbers) if numbers.len() == n => Line::Tick(numbers),
            _ => Line::Malformed,
        }
    }
}

/// "one line a tick, the m outputs separated by spaces"
pub fn played(input: &[u8]) -> String {
    let (file, samples) = parts(input);
    let (table, checked) = match circuit(file) {
        Ok(circuit) => circuit,
        Err(refusal) => return row(&[refusal.number, refusal.place as u32]),
    };
    let mut meaning = Meaning::of_checked(&table, &checked);
    let mut controls = [0; 16];
    let mut text = String::new();
    // the lines of the circuit and the empty one
    let first = table.len() / 3 + 1;
    for (at, line) in samples.split_inclusive(|&b| b == b'\n').enumerate() {
        let line = line.strip_suffix(b"\n").unwrap_or(line);
        match Line::of(line, checked.counts.inputs as usize) {
            Line::Control(slot, value) => controls[slot] = value,
            Line::Tick(inputs) => {
                let outputs = meaning.tick(&inputs, &controls);
                let outputs: Vec<String> =
                    outputs.iter().map(|&o| (o as i32).to_string()).collect();
                text += &(outputs.join(" ") + "\n");
            }
            Line::Malformed => return text + &format!("line {} is malformed\n", first + at),
        }
    }
    text
}

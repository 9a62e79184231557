//! Random inputs of the programs `translate` and `play`.

use crate::bad_tables::damaged;
use crate::column::text;
use crate::good_cases::{circuit, controls, inputs, usual_size, Circuit};
use crate::random::Random;

/// The file of an accepted circuit, or one with a fault.
pub fn file(random: &mut Random) -> (Circuit, Vec<u8>) {
    let size = usual_size(random);
    let circuit = circuit(random, size);
    let mut table = circuit.table.clone();
    if random.percent(12) {
        table = damaged(random, &table);
        table.truncate(table.len() / 3 * 3);
    }
    let mut file = text(&table);
    if random.percent(6) && !file.is_empty() {
        let at = random.below(file.len());
        file[at] = random.pick(b"\n 0157-+x");
    }
    if random.percent(3) {
        file.truncate(random.below(file.len() + 1));
    }
    (circuit, file)
}

fn spaces(random: &mut Random, least: usize) -> String {
    let more = if random.percent(10) {
        random.below(4)
    } else {
        0
    };
    " ".repeat(least + more)
}

/// A tick's line, and rarely one that is none.
fn tick(random: &mut Random, inputs: &[u32]) -> String {
    if random.percent(1) && random.percent(30) {
        let wrong = [
            "x",
            "1 2 3 4 5 6",
            "+1",
            "01",
            "-0",
            "2147483648",
            "-2147483649",
            "1\t2",
            "1\r",
            "control 16 1",
            "control 1",
            "control -1 1",
            "control 1 2 3",
            "Control 1 1",
            "control 1 1x",
            "control1 1",
            "- 1",
            "--1",
            "1-",
        ];
        return wrong[random.below(wrong.len())].to_string();
    }
    let numbers: Vec<String> = inputs.iter().map(|&n| (n as i32).to_string()).collect();
    let mut line = spaces(random, 0);
    for (at, number) in numbers.iter().enumerate() {
        line += &(spaces(random, usize::from(at > 0)) + number);
    }
    line + &spaces(random, 0)
}

/// An input of `play`.
pub fn case(random: &mut Random) -> Vec<u8> {
    let (circuit, mut input) = file(random);
    if random.percent(2) {
        return input;
    }
    input.push(b'\n');
    let ticks = match random.below(20) {
        0 => 0,
        1 => 250 + random.below(20),
        2 => 500 + random.below(600),
        _ => 1 + random.below(40),
    };
    let n = circuit.counts.inputs as usize;
    let samples = inputs(random, &circuit, ticks);
    for tick_at in 0..ticks {
        if random.percent(5) {
            let slot = random.below(16);
            let value = controls(random, &circuit)[slot] as i32;
            input.extend(format!("control {slot} {value}\n").bytes());
        }
        input.extend(tick(random, &samples[tick_at * n..][..n]).bytes());
        input.push(b'\n');
    }
    if random.percent(10) {
        input.pop();
    }
    input
}

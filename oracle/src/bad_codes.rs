//! Cases of damaged code, and of code and tables on cells that no load has cleared.

use crate::arity::check;
use crate::circuits::sample;
use crate::flat::{self, length, Instruction, HEADER, INPUTS, WIDTH};
use crate::good_cases::{block, circuit, controls, inputs, more, Circuit};
use crate::random::Random;
use crate::samples::{operands, BEYOND, SELECTOR};
use crate::script::Command;
use crate::translate;

/// Runs of damaged code; where the check lets one pass, it is run.
pub fn bad_code_case(random: &mut Random) -> Vec<Command> {
    let good = damageable(random);
    let checked = check(&good.table).expect("an accepted table");
    let code = translate::code(&good.table, &checked);
    let cells = good.counts.cells as usize;
    let mut case = vec![Command::Memory(sample(random) as u32)];
    case.push(Command::Load(cells as u32, cells));
    case.push(Command::Controls(controls(random, &good)));
    for _ in 0..1 + random.below(3) {
        let mut bad = code.clone();
        damage(random, &mut bad);
        let whole = bad.len() > HEADER + WIDTH && bad.starts_with(&code[..HEADER]);
        if whole && random.percent(10) {
            damage(random, &mut bad);
        }
        run(random, &good, bad, &mut case);
    }
    case.push(Command::Cells((cells + 1).min(60)));
    case
}

/// A circuit of a few nodes; every fourth, and some besides, has a selector.
fn damageable(random: &mut Random) -> Circuit {
    let selects = random.percent(25);
    loop {
        let size = 3 + random.below(9);
        let circuit = circuit(random, size);
        let mut nodes = circuit.table.chunks(3);
        if !selects || nodes.any(|node| node[..2] == [3, SELECTOR]) {
            return circuit;
        }
    }
}

/// A damaged code that row 13 refuses.
pub fn refused_code(random: &mut Random, good: &[u32]) -> Vec<u32> {
    loop {
        let mut bad = good.to_vec();
        damage(random, &mut bad);
        if flat::check(&bad).is_err() {
            return bad;
        }
    }
}

/// Mostly one of these, now and then any sample.
pub fn often(random: &mut Random, usual: &[i32]) -> u32 {
    if random.percent(20) {
        sample(random) as u32
    } else {
        random.pick(usual) as u32
    }
}

/// One run of a code, with a block that mostly fits it.
pub fn run(random: &mut Random, near: &Circuit, code: Vec<u32>, case: &mut Vec<Command>) {
    let ticks = random.pick(&[0, 1, 1, 2, 2, 3]);
    let head = flat::check(&code);
    let (given, lent, out) = match head {
        Ok(counts) => {
            let given = (0..ticks * counts.inputs as usize)
                .map(|_| often(random, &[1, 1, 0, 0, 2, -1]))
                .collect();
            let out = ticks * counts.outputs as usize;
            (given, counts.cells as usize, out)
        }
        Err(_) => (inputs(random, near, ticks), near.counts.cells as usize, 2),
    };
    let wrong = random.below(30);
    let ticks = if wrong == 0 { 4097 } else { ticks as u32 };
    let out = if wrong == 1 { 0 } else { out + more(random) };
    case.push(Command::Code(code));
    case.push(Command::Inputs(given));
    case.push(Command::Run(ticks, lent, out));
}

/// The places of an instruction that hold registers.
fn registers(six: &Instruction) -> &'static [usize] {
    match six[0] {
        3 => &INPUTS[..operands(six[1]).unwrap_or(2)],
        4 => &[1, 2],
        6 => &[2],
        7 => &[1],
        _ => &[],
    }
}

/// The place that holds a cell.
fn cell(six: &Instruction) -> &'static [usize] {
    match six[0] {
        4 => &[3],
        5 | 6 => &[1],
        _ => &[],
    }
}

/// The places that are not used, the last the most often. E4: "the sixth 0 except for op 10"; "the
/// fifth of code 3 stays 0".
fn unused(six: &Instruction) -> &'static [usize] {
    match (six[0], operands(six[1])) {
        (1 | 2 | 5, _) => &[2, 3, 4, 5, 5, 5],
        (3, Some(3)) => &[4],
        (3, Some(1)) | (6 | 7, _) => &[3, 4, 5, 5],
        (3, _) => &[4, 5, 5],
        (4, _) => &[5],
        _ => &[],
    }
}

pub fn selects(six: &Instruction) -> bool {
    six[..2] == [3, SELECTOR]
}

/// One clause of row 13, or something near it that passes.
pub fn damage(random: &mut Random, code: &mut Vec<u32>) {
    let (n, c) = (code[0] as usize, code[2] as usize);
    if c == 0 || code.len() < length(c, 0) || random.percent(20) {
        return damage_frame(random, code);
    }
    let selectors: Vec<usize> = (0..c)
        .filter(|&i| selects(&flat::instruction(code, i)))
        .collect();
    let i = match selectors.len() {
        1.. if random.percent(50) => random.pick(&selectors),
        _ => random.below(c),
    };
    let at = length(i, 0);
    let spot = Spot {
        six: flat::instruction(code, i),
        own: (n + i) as i32,
        cells: code[3] as i32,
        left: (c - i) as i32,
    };
    if selects(&spot.six) && random.percent(8) {
        // the third register in the fifth place
        return code.swap(at + 4, at + 5);
    }
    let (places, values) = clause(random, &spot);
    if !places.is_empty() {
        code[at + random.pick(places)] = random.pick(&values) as u32;
    }
}

/// An instruction, its register, the count of cells, the instructions from it on.
struct Spot {
    six: Instruction,
    own: i32,
    cells: i32,
    left: i32,
}

/// Places in an instruction, and what to put at one of them.
fn clause(random: &mut Random, spot: &Spot) -> (&'static [usize], Vec<i32>) {
    let (own, cells, left) = (spot.own, spot.cells, spot.left);
    let any = random.within(0, own.max(1));
    let kind = spot.six[0];
    match random.below(12) {
        0 => (&[0], vec![0, 8, -1, i32::MAX, 1, 2, 3, 4, 5, 6, 7]),
        1 | 2 => {
            let values = vec![own, own, own + 1, own - 1, -1, i32::MIN, any];
            (registers(&spot.six), values)
        }
        // "the third input register"
        3 | 4 if selects(&spot.six) => (&[5], vec![own, own, own + 1, own - 1, -1, i32::MIN]),
        3 | 4 => {
            let values = vec![cells, cells, cells - 1, -1, i32::MIN, i32::MAX, 0];
            (cell(&spot.six), values)
        }
        5 | 6 => (unused(&spot.six), vec![1, -1, 256, own - 1]),
        7 | 8 if kind == 3 => (&[1], vec![0, BEYOND as i32, -1, 1, 6, 8, 9, 10]),
        7 | 8 if kind == 2 => (&[1], vec![16, 16, -1, 15, i32::MAX]),
        7..=9 if kind == 4 => (&[4], vec![4096, -1, i32::MIN, i32::MAX, any.min(4095)]),
        7..=11 if kind == 7 => {
            let values = vec![left, left, left - 1, left - 1, -1, i32::MIN, i32::MAX, 0];
            (&[2], values)
        }
        _ => (&[1, 2, 3, 4, 5], vec![0, 1, own - 1, own, cells, -1]),
    }
}

/// Header numbers, the length, and the output registers; the header must be a good one.
fn damage_frame(random: &mut Random, code: &mut Vec<u32>) {
    let (n, c) = (code[0] as i32, code[2] as i32);
    let m = code.len().min(code[1] as usize);
    let outs = code.len() - m;
    match random.below(9) {
        0 | 1 => {
            let field = random.below(HEADER);
            let most = [32, 32, 2048, 16384][field];
            let now = code[field] as i32;
            let values = [-1, most + 1, most, now + 1, now - 1, i32::MIN, i32::MAX];
            code[field] = random.pick(&values) as u32;
        }
        2 => code.push(0),
        3 => drop(code.pop()),
        4 => code.truncate(random.below(code.len())),
        5 if outs >= length(c as usize, 0) => narrow(code),
        _ if m > 0 => {
            let values = [n + c, n + c, n + c - 1, -1, i32::MIN, i32::MAX, 0];
            code[outs + random.below(m)] = random.pick(&values) as u32;
        }
        _ => code[3] += 1,
    }
}

/// Instructions of five numbers, as before E4.
fn narrow(code: &mut Vec<u32>) {
    for i in (1..=code[2] as usize).rev() {
        code.remove(length(i, 0) - 1);
    }
}

/// Walks and runs on cells that hold garbage or another table's past.
pub fn garbage_case(random: &mut Random) -> Vec<Command> {
    let mut case = vec![Command::Memory(often(random, &[1, 2, 3, -1, i32::MIN]))];
    let mut most = 0;
    for _ in 0..1 + random.below(2) {
        let size = 3 + random.below(12);
        let circuit = circuit(random, size);
        let cells = circuit.counts.cells as usize;
        most = most.max(cells);
        case.push(Command::Table(circuit.table.clone()));
        case.push(Command::Controls(controls(random, &circuit)));
        case.push(Command::Translate(circuit.code_length()));
        if random.percent(20) {
            case.push(Command::Load(random.below(cells + 1) as u32, cells));
        }
        let ticks = 1 + random.below(8);
        block(random, &circuit, ticks, &mut case);
    }
    case.push(Command::Cells(most + 1));
    case
}

//! Cases at and just beyond the limits: 32 wires, 2,048 instructions, 16,384 cells, 512 nodes,
//! 4,096 ticks.

use crate::bad_tables::{too_wide, wide};
use crate::circuits::{beside, cable, leaf, ondemand, pair, table, Tree};
use crate::clocks::demand;
use crate::column::text;
use crate::flat::WIDTH;
use crate::good_cases::Circuit;
use crate::random::Random;
use crate::samples::{ops, SELECTOR};
use crate::script::{Command, Lent};

pub fn limit_case(random: &mut Random) -> Vec<Command> {
    match random.weighted(&[2, 6, 3, 2, 2]) {
        0 => wires(random),
        1 => instructions(random),
        2 => cells(random),
        3 => header(random),
        _ => ticks(random),
    }
}

/// "32 inputs pass; 33 get 8."
fn wires(random: &mut Random) -> Vec<Command> {
    let tree = match random.below(3) {
        0 => wide(random, 32),
        1 => ondemand(wide(random, 31)),
        _ => {
            let sources = (0..32).map(|i| leaf(1, i)).collect();
            beside(random, sources)
        }
    };
    let good = Circuit::of(table(random, &tree)).expect("32 wires");
    let mut case = vec![Command::Memory(3), Command::Controls(vec![1; 16])];
    case.push(Command::Table(good.table.clone()));
    case.push(Command::Check);
    case.extend(call(random, &good, 2));
    case.push(Command::Table(too_wide(random)));
    case.push(Command::Check);
    case
}

/// Load, and a block of so many ticks, walked; one number in 50 is a clock without demand.
fn call(random: &mut Random, circuit: &Circuit, ticks: usize) -> Vec<Command> {
    let counts = circuit.counts;
    let given = (0..ticks * counts.inputs as usize)
        .map(|_| match random.below(50) {
            0 => 0,
            1..=20 => 1,
            _ => demand(random) as u32,
        })
        .collect();
    let cells = counts.cells as usize;
    let lent = cells.min(17000);
    let (ticks, out) = (ticks as u32, ticks * counts.outputs as usize);
    vec![
        Command::Load(cells as u32, lent),
        Command::Inputs(given),
        Command::Walk(ticks, lent, out),
        Command::Cells(lent.min(40)),
    ]
}

/// Thirty-one ondemands around 32 numbers: 2,047 instructions. Each box behind them adds one.
fn instructions(random: &mut Random) -> Vec<Command> {
    let numbers = (0..32).map(|_| leaf(1, random.within(0, 3))).collect();
    let mut tree = beside(random, numbers);
    for _ in 0..31 {
        tree = ondemand(tree);
    }
    let beyond = random.pick(&[0, 1, 2, 2, 2, 3, 4]);
    let mut boxes: Vec<Tree> = (0..beyond).map(|_| leaf(3, random.within(8, 9))).collect();
    let mut free = 32 - beyond;
    if random.percent(25) {
        // Too many instructions and too many cells: 10 comes before 11.
        boxes.extend((0..5).map(|_| leaf(4, 4095)));
        free -= 10;
    }
    boxes.extend((0..free).map(|_| cable()));
    let tree = pair(7, tree, beside(random, boxes));
    let circuit = Circuit::of(table(random, &tree)).expect("an accepted table");
    let mut case = vec![Command::Memory(3), Command::Controls(vec![1; 16])];
    case.push(Command::Table(circuit.table.clone()));
    case.push(Command::Check);
    case.push(Command::Translate(random.pick(&[0, 5, 9000])));
    if circuit.counts.instructions <= 2048 && random.percent(15) {
        case.push(Command::Translate(circuit.code_length()));
    }
    case.extend(call(random, &circuit, 1));
    case
}

/// "Four delays of D 4095 fit 16,384 cells; a fifth gets 11."
fn cells(random: &mut Random) -> Vec<Command> {
    let mut boxes: Vec<Tree> = (0..4).map(|_| leaf(4, 4095)).collect();
    match random.below(5) {
        0 => {}
        1 => boxes.push(leaf(4, 4095)),
        2 => boxes.push(leaf(4, 0)),
        3 => boxes.push(pair(11, leaf(3, 1), cable())),
        _ => {
            boxes[0] = leaf(4, 4094);
            boxes.push(leaf(4, 0));
        }
    }
    let tree = beside(random, boxes);
    let circuit = Circuit::of(table(random, &tree)).expect("an accepted table");
    let mut case = vec![Command::Memory(3), Command::Controls(vec![1; 16])];
    case.push(Command::Table(circuit.table.clone()));
    case.push(Command::Check);
    case.push(Command::Translate(random.pick(&[0, circuit.code_length()])));
    let ticks = random.below(3);
    let lent = (circuit.counts.cells as usize).min(17000);
    case.extend(call(random, &circuit, ticks));
    // 11 comes before 14 and 12, and before 15.
    case.push(Command::Walk(random.pick(&[-1, 2, 4097]) as u32, 5, 0));
    case.push(Command::Inputs(vec![]));
    case.push(Command::Probes(vec![0; random.pick(&[0, 1, 2, 33, 34])]));
    case.push(Command::Probed(Lent {
        ticks: random.pick(&[0, 0, -1]) as u32,
        cells: random.pick(&[lent, lent, 5]),
        out: 0,
        latest: 0,
        recording: 0,
    }));
    case
}

/// "header negative or above 32, 32, 2,048, 16,384", with code that is good otherwise.
fn header(random: &mut Random) -> Vec<Command> {
    let mut counts = [1, 1, 2, 5];
    let field = random.weighted(&[3, 3, 2, 3]);
    counts[field] = [32, 32, 2048, 16384][field] + random.below(2);
    let [n, m, c, cells] = counts;
    let mut code: Vec<u32> = counts.iter().map(|&count| count as u32).collect();
    let mut number = [0; WIDTH];
    number[0] = 1;
    code.extend(number.repeat(c));
    code.extend((0..m).map(|_| random.below(n + c) as u32));
    vec![
        Command::Memory(3),
        Command::Controls(vec![0; 16]),
        Command::Inputs((0..n as u32).collect()),
        Command::Code(code),
        Command::Run(1, cells, m),
    ]
}

/// "ticks not 0 to 4,096"
fn ticks(random: &mut Random) -> Vec<Command> {
    let amount = leaf(1, random.pick(&[4000, 4095, 4096, -1]));
    let tree = match random.below(4) {
        0 => leaf(1, random.within(-3, 3)),
        1 => pair(7, leaf(2, 4), leaf(3, 9)),
        _ => pair(7, pair(8, leaf(2, 1), amount), leaf(4, 4095)),
    };
    let circuit = Circuit::of(table(random, &tree)).expect("an accepted table");
    let cells = circuit.counts.cells as usize;
    let mut case = vec![Command::Memory(3), Command::Controls(vec![6; 16])];
    case.push(Command::Table(circuit.table.clone()));
    case.push(Command::Translate(circuit.code_length()));
    case.push(Command::Load(cells as u32, cells));
    case.push(Command::Inputs(vec![]));
    for ticks in [4096, 4097, -1, 4096] {
        case.push(Command::Walk(ticks as u32, cells, 4100));
        case.push(Command::Run(ticks as u32, cells, 4100));
    }
    case.push(Command::Cells(cells));
    case
}

/// Every op on the same two inputs, at their extremes; the selector on x y x and on y x y.
pub fn operations_case(random: &mut Random) -> Vec<Command> {
    let mut boxes: Vec<Tree> = ops().into_iter().map(|op| leaf(3, op as i32)).collect();
    boxes.push(leaf(3, SELECTOR as i32));
    let tree = pair(9, pair(8, cable(), cable()), beside(random, boxes));
    let circuit = Circuit::of(table(random, &tree)).expect("an accepted table");
    let extremes = [0, 1, -1, 2, -3, i32::MIN, i32::MAX, i32::MIN + 1, 46341];
    let ticks = 24;
    let samples = ticks * circuit.counts.outputs as usize;
    let given = (0..2 * ticks)
        .map(|_| random.pick(&extremes) as u32)
        .collect();
    vec![
        Command::Memory(0),
        Command::Table(circuit.table.clone()),
        Command::Translate(circuit.code_length()),
        Command::Controls(vec![0; 16]),
        Command::Load(0, 0),
        Command::Inputs(given),
        Command::Walk(ticks as u32, 0, samples),
        Command::Run(ticks as u32, 0, samples),
    ]
}

/// A circuit of exactly 512 nodes, or one with a 513th.
pub fn nodes_case(random: &mut Random, beyond: bool) -> Vec<Command> {
    // An ondemand cable, then boxes behind it one by one: a deep tree.
    let mut table = vec![5, 0, 0, 12, 0, 0];
    for last in (1..511).step_by(2) {
        let kind = if random.percent(10) {
            [3, random.pick(&[8, 9]), 0]
        } else {
            [5, 0, 0]
        };
        table.extend(kind);
        table.extend([7, last, last + 1]);
    }
    if beyond {
        table.extend([5, 0, 0]);
    }
    vec![
        Command::Memory(0),
        Command::File(text(&table)),
        Command::Read(table.len()),
        Command::Print,
        Command::Table(table),
        Command::Check,
        Command::Write(random.below(60)),
        Command::Load(1, 1),
        Command::Inputs(vec![0, 4, 2, 5, 0, 6, u32::MAX, 7]),
        Command::Controls(vec![0; 16]),
        Command::Walk(4, 1, 4),
    ]
}

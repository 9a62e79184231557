//! Cases of accepted circuits: a load, blocks on both memories, refused calls between them.

use crate::amounts;
use crate::arity::check;
use crate::bad_codes::refused_code;
use crate::bad_tables::damaged;
use crate::circuits::{build, ondemand, sample, table};
use crate::clocks;
use crate::engine::Counts;
use crate::flat::length;
use crate::graph::{Graph, Signal};
use crate::random::Random;
use crate::script::Command;
use crate::translate::code;

/// What an input or a control is to the clocks, selectors and delays of a circuit.
#[derive(Clone, Copy)]
enum Role {
    None,
    /// A clock, or the first input of a selector: 0 or any other number.
    Truth,
    /// A side of a difference or a product that is one.
    Side,
    /// The amount of a delay of this D.
    Amount(u32),
}

/// An accepted table and what a case needs to know of it.
pub struct Circuit {
    pub table: Vec<u32>,
    pub counts: Counts,
    inputs: [Role; 32],
    controls: [Role; 16],
}

impl Circuit {
    pub fn of(table: Vec<u32>) -> Option<Circuit> {
        let checked = check(&table).ok()?;
        let graph = Graph::of(&table, &checked);
        let (mut inputs, mut controls) = ([Role::None; 32], [Role::None; 16]);
        let mut note = |signals: Vec<&Signal>, role| {
            for signal in signals {
                match *signal {
                    Signal::Input(j) => inputs[j] = role,
                    Signal::Control(slot) => controls[slot] = role,
                    _ => {}
                }
            }
        };
        for (signal, d) in graph.amounts() {
            note(vec![signal], Role::Amount(d));
        }
        note(graph.sides(), Role::Side);
        note(graph.tests(), Role::Truth);
        note(graph.clocks(), Role::Truth);
        Some(Circuit {
            table,
            counts: checked.counts,
            inputs,
            controls,
        })
    }

    pub fn code_length(&self) -> usize {
        let counts = self.counts;
        length(counts.instructions as usize, counts.outputs as usize)
    }
}

/// An accepted circuit of about so many nodes that translator and walker take.
pub fn circuit(random: &mut Random, size: usize) -> Circuit {
    loop {
        let inputs = random.pick(&[0, 1, 1, 1, 2, 2, 2, 2, 3, 3, 3, 4, 5]);
        let outputs = random.pick(&[
            0, 1, 1, 1, 1, 1, 1, 1, 1, 1, 1, 1, 2, 2, 2, 2, 2, 2, 3, 3, 5,
        ]);
        let mut tree = build(random, inputs, outputs, size);
        if size > 1 && random.percent(15) {
            tree = ondemand(tree);
        }
        if let Some(circuit) = Circuit::of(table(random, &tree)) {
            let counts = circuit.counts;
            if counts.instructions <= 2048 && counts.cells <= 16384 {
                return circuit;
            }
        }
    }
}

pub fn usual_size(random: &mut Random) -> usize {
    match random.below(100) {
        0..=59 => 1 + random.below(12),
        60..=95 => 10 + random.below(25),
        _ => 30 + random.below(40),
    }
}

pub fn controls(random: &mut Random, circuit: &Circuit) -> Vec<u32> {
    let quiet = random.percent(50);
    let near = clocks::near(random);
    let value = |role: &Role| match role {
        Role::Truth => clocks::value(random),
        Role::Side => random.pick(&near),
        Role::Amount(d) => {
            let out = random.percent(40);
            amounts::amount(random, *d, out)
        }
        Role::None if quiet => 3,
        Role::None => sample(random),
    };
    circuit
        .controls
        .iter()
        .map(value)
        .map(|v| v as u32)
        .collect()
}

pub fn inputs(random: &mut Random, circuit: &Circuit, ticks: usize) -> Vec<u32> {
    let roles = &circuit.inputs[..circuit.counts.inputs as usize];
    let plain = random.percent(60);
    let (near, mood) = (clocks::near(random), amounts::mood(random));
    let value = |(tick, role): (usize, &Role)| match role {
        Role::Truth => clocks::value(random),
        Role::Side => random.pick(&near),
        Role::Amount(d) => mood.amount(random, *d, tick, ticks),
        Role::None if plain => random.within(0, 9),
        Role::None => sample(random),
    };
    let all = (0..ticks).flat_map(|tick| roles.iter().map(move |role| (tick, role)));
    all.map(value).map(|v| v as u32).collect()
}

pub fn ticks(random: &mut Random) -> usize {
    match random.below(20) {
        0 => 0,
        1 | 2 => 1,
        3 | 4 => 2,
        5..=17 => 3 + random.below(12),
        _ => 10 + random.below(25),
    }
}

/// How much longer than needed a buffer is: "a buffer longer than needed keeps its
/// content past the needed part".
pub fn more(random: &mut Random) -> usize {
    if random.percent(25) {
        1 + random.below(3)
    } else {
        0
    }
}

/// The beginning of a case: garbage in the memories, and a table.
pub fn begin(random: &mut Random, circuit: &Circuit, case: &mut Vec<Command>) {
    case.push(Command::Memory(sample(random) as u32));
    case.push(Command::Table(circuit.table.clone()));
    ready(random, circuit, case);
}

/// What a table needs before its blocks: controls, its code, a load; perhaps refused calls.
pub fn ready(random: &mut Random, circuit: &Circuit, case: &mut Vec<Command>) {
    case.push(Command::Controls(controls(random, circuit)));
    if random.percent(40) {
        case.push(Command::Check);
    }
    let length = circuit.code_length();
    if random.percent(6) {
        case.push(Command::Translate(length - 1 - random.below(3)));
    }
    case.push(Command::Translate(length + more(random)));
    let cells = circuit.counts.cells as usize;
    if random.percent(4) {
        case.push(Command::Load(
            random.pick(&[-1, i32::MIN, 16385, i32::MAX]) as u32,
            17000,
        ));
    }
    if random.percent(4) {
        case.push(Command::Load(cells as u32 + 1, cells));
    }
    let named = if random.percent(20) {
        (cells + 1 + random.below(9)).min(16384)
    } else {
        cells
    };
    case.push(Command::Load(named as u32, named + more(random)));
}

/// A block of so many ticks on both memories.
pub fn block(random: &mut Random, circuit: &Circuit, ticks: usize, case: &mut Vec<Command>) {
    let given = inputs(random, circuit, ticks);
    let n = circuit.counts.inputs as usize;
    let cells = circuit.counts.cells as usize;
    let m = circuit.counts.outputs as usize;
    case.push(Command::Inputs(given.clone()));
    if random.percent(20) {
        case.push(Command::Controls(controls(random, circuit)));
    }
    let lent = cells + more(random);
    case.push(Command::Walk(ticks as u32, lent, ticks * m + more(random)));
    if ticks < 4 || random.percent(85) {
        case.push(Command::Run(ticks as u32, lent, ticks * m + more(random)));
        return;
    }
    // The same ticks, cut in two for the runs.
    let cut = 1 + random.below(ticks - 1);
    for (from, to) in [(0, cut), (cut, ticks)] {
        let ticks = to - from;
        case.push(Command::Inputs(given[from * n..to * n].to_vec()));
        case.push(Command::Run(ticks as u32, lent, ticks * m));
    }
}

/// A call that rows 14 or 12 refuse; it leaves everything as it was.
fn refused_block(random: &mut Random, circuit: &Circuit, case: &mut Vec<Command>) {
    let n = circuit.counts.inputs as usize;
    let m = circuit.counts.outputs as usize;
    let cells = circuit.counts.cells as usize;
    let mut given = inputs(random, circuit, 2);
    let mut held = controls(random, circuit);
    let (mut ticks, mut lent, mut out) = (2u32, cells, 2 * m);
    match random.below(6) {
        0 => ticks = random.pick(&[-1, 4097, i32::MIN, i32::MAX, 3]) as u32,
        1 => given.push(1),
        2 if n > 0 => drop(given.pop()),
        3 => held.resize(random.pick(&[0, 15, 17, 32]), 1),
        4 if cells > 0 => lent -= 1 + random.below(cells.min(3)),
        _ => out = out.saturating_sub(1 + random.below(2)),
    }
    let back = controls(random, circuit);
    case.push(Command::Inputs(given));
    case.push(Command::Controls(held));
    case.push(Command::Walk(ticks, lent, out));
    case.push(Command::Run(ticks, lent, out));
    case.push(Command::Controls(back));
}

/// Any other refused call: damaged code, a damaged table, a load that is refused.
fn other_refused(random: &mut Random, circuit: &Circuit, case: &mut Vec<Command>) {
    let cells = circuit.counts.cells as usize;
    match random.below(4) {
        0 | 1 => {
            let checked = check(&circuit.table).expect("an accepted table");
            let good = code(&circuit.table, &checked);
            case.push(Command::Code(refused_code(random, &good)));
            case.push(Command::Run(1, cells, 1));
            case.push(Command::Code(good));
        }
        2 => {
            case.push(Command::Table(damaged(random, &circuit.table)));
            case.push(Command::Walk(1, cells, 1));
            case.push(Command::Translate(3));
            case.push(Command::Table(circuit.table.clone()));
        }
        _ => {
            case.push(Command::Load(random.pick(&[-5, 16385]) as u32, cells));
            case.push(Command::Load(cells as u32 + 1, cells));
        }
    }
}

/// A whole case on one circuit.
pub fn good_case(random: &mut Random, size: usize) -> Vec<Command> {
    let circuit = circuit(random, size);
    let mut case = Vec::new();
    begin(random, &circuit, &mut case);
    let cells = circuit.counts.cells as usize;
    for _ in 0..1 + random.below(3) {
        let ticks = ticks(random);
        block(random, &circuit, ticks, &mut case);
        if random.percent(15) {
            refused_block(random, &circuit, &mut case);
        }
        if size < 20 && random.percent(8) {
            other_refused(random, &circuit, &mut case);
        }
        if cells > 0 && random.percent(30) {
            case.push(Command::Cells(cells));
        }
    }
    case.push(Command::Cells(cells + more(random)));
    case
}

/// A case with a block of up to 4,096 ticks.
pub fn long_case(random: &mut Random) -> Vec<Command> {
    let circuit = loop {
        let size = 4 + random.below(12);
        let circuit = circuit(random, size);
        if circuit.counts.inputs * 2 + circuit.counts.outputs <= 4 {
            break circuit;
        }
    };
    let mut case = Vec::new();
    begin(random, &circuit, &mut case);
    let many = random.pick(&[300, 500, 1000, 4095, 4096]);
    block(random, &circuit, many, &mut case);
    block(random, &circuit, 5, &mut case);
    case.push(Command::Cells(circuit.counts.cells as usize));
    case
}

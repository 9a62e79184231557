//! Cases of clipped delays (E6): small circuits with delays on either side of every composition and
//! in bodies, whose amounts are mostly inputs and controls; blocks walked, walked with probes, run.

use crate::amounts::amount;
use crate::circuits::{beside, cable, leaf, ondemand, pair, sample, table, Tree};
use crate::good_cases::{begin, block, inputs, more, ticks, Circuit};
use crate::random::Random;
use crate::samples::SELECTOR;
use crate::script::{Command, Lent};

/// D: short ones, so that an end of 0 to D is never far, and now and then a long one.
fn length(random: &mut Random) -> i32 {
    match random.below(60) {
        0 | 1 => 4095,
        2 | 3 => random.within(256, 4094),
        4..=6 => random.within(8, 255),
        7..=17 => 0,
        _ => random.pick(&[1, 1, 2, 2, 3, 5]),
    }
}

/// A delay on one output of a tree: the amount a new input, a control, or a number.
fn behind(random: &mut Random, tree: Tree, fed: bool) -> Tree {
    let d = length(random);
    let out = random.percent(40);
    let amount = match random.percent(50) {
        _ if fed => cable(),
        true => leaf(2, random.within(0, 15)),
        false => leaf(1, amount(random, d as u32, out)),
    };
    pair(7, pair(8, tree, amount), leaf(4, d))
}

/// A delay on a cable.
fn on_cable(random: &mut Random) -> Tree {
    behind(random, cable(), false)
}

/// A tree with delays, at least one input and one output, so many compositions deep at most.
fn delays(random: &mut Random, depth: usize) -> Tree {
    if depth == 0 {
        return behind(random, cable(), true);
    }
    let first = delays(random, depth - 1);
    match random.below(16) {
        0 | 1 => pair(7, first, on_cable(random)),
        2 | 3 => behind(random, first, true),
        4 | 5 => {
            let beam = pair(8, first, delays(random, depth - 1));
            let onto = if random.percent(50) {
                cable()
            } else {
                on_cable(random)
            };
            pair(10, beam, onto)
        }
        6 => {
            let beam = pair(8, first, on_cable(random));
            pair(7, beam, leaf(4, length(random)))
        }
        7 | 8 => pair(
            9,
            first,
            pair(10, pair(8, on_cable(random), cable()), cable()),
        ),
        9 | 10 => pair(11, first, on_cable(random)),
        11 => {
            let both = vec![cable(), first, on_cable(random)];
            let beam = beside(random, both);
            pair(7, beam, leaf(3, SELECTOR as i32))
        }
        _ => ondemand(first),
    }
}

/// A counter as the amount: outside from some tick on, whatever the inputs.
fn counted(random: &mut Random) -> Tree {
    let step = leaf(1, random.pick(&[1, 1, -1, 2]));
    let counter = pair(11, pair(7, pair(8, step, cable()), leaf(3, 1)), cable());
    let late = pair(7, pair(8, cable(), counter), leaf(4, random.within(0, 6)));
    match random.percent(40) {
        true => ondemand(late),
        false => late,
    }
}

fn circuit(random: &mut Random) -> Circuit {
    loop {
        let depth = random.pick(&[0, 1, 1, 2, 2, 2, 3]);
        let mut tree = match random.percent(8) {
            true => counted(random),
            false => delays(random, depth),
        };
        if random.percent(20) {
            tree = pair(8, tree, on_cable(random));
        }
        if random.percent(20) {
            tree = ondemand(tree);
        }
        let circuit = Circuit::of(table(random, &tree));
        if let Some(circuit) = circuit.filter(|circuit| circuit.counts.cells <= 16384) {
            return circuit;
        }
    }
}

/// A walk with probes: the report is that of the walk without.
fn probed(random: &mut Random, circuit: &Circuit, ticks: usize, case: &mut Vec<Command>) {
    let counts = circuit.counts;
    let last = (circuit.table.len() / 3 - 1) as u32;
    let many = random.pick(&[0, 1, 1, 3]);
    case.push(Command::Inputs(inputs(random, circuit, ticks)));
    case.push(Command::Probes([last, 0].repeat(many)));
    case.push(Command::Latest(vec![0; many]));
    case.push(Command::Probed(Lent {
        ticks: ticks as u32,
        cells: counts.cells as usize + more(random),
        out: ticks * counts.outputs as usize,
        latest: many,
        recording: ticks * many + more(random),
    }));
}

pub fn clipped_case(random: &mut Random) -> Vec<Command> {
    let circuit = circuit(random);
    let cells = circuit.counts.cells as usize;
    let mut case = Vec::new();
    begin(random, &circuit, &mut case);
    if random.percent(10) {
        case.push(Command::Memory(sample(random) as u32));
    }
    for _ in 0..1 + random.below(3) {
        let ticks = ticks(random);
        block(random, &circuit, ticks, &mut case);
        if random.percent(50) {
            probed(random, &circuit, ticks, &mut case);
        }
        if random.percent(8) {
            case.push(Command::Load(cells as u32, cells));
        }
    }
    if cells < 40 {
        case.push(Command::Cells(cells));
    }
    case
}

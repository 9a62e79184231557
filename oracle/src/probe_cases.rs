//! Cases of walks with probes (E5): blocks on one list, refused calls between them, and lists and
//! cells that nobody has set to 0.

use crate::arity::{check, Node};
use crate::circuits::{build, ondemand, sample, table};
use crate::good_cases::{begin, circuit, controls, inputs, more, ticks, Circuit};
use crate::graph::Graph;
use crate::probes::MOST_PROBES;
use crate::random::Random;
use crate::script::{Command, Lent};

/// Node and output.
type Pair = [u32; 2];

/// The wires of a circuit, those in bodies and those of ondemands once more, and the nodes without
/// outputs.
struct Wires {
    all: Vec<Pair>,
    inside: Vec<Pair>,
    demanded: Vec<Pair>,
    cuts: Vec<u32>,
    nodes: usize,
}

impl Wires {
    fn of(circuit: &Circuit) -> Wires {
        let checked = check(&circuit.table).expect("an accepted table");
        let graph = Graph::of(&circuit.table, &checked);
        let mut wires = Wires {
            all: vec![],
            inside: vec![],
            demanded: vec![],
            cuts: vec![],
            nodes: graph.wires.len(),
        };
        for (node, ids) in graph.wires.iter().enumerate() {
            for (output, &id) in ids.iter().enumerate() {
                let pair = [node as u32, output as u32];
                wires.all.push(pair);
                if graph.signals[id].1 > 0 {
                    wires.inside.push(pair);
                }
                if Node::at(&circuit.table, node).kind == 12 {
                    wires.demanded.push(pair);
                }
            }
            if ids.is_empty() {
                wires.cuts.push(node as u32);
            }
        }
        wires
    }

    /// One wire; there must be one.
    fn pick(&self, random: &mut Random) -> Pair {
        match random.below(10) {
            0..=4 if !self.inside.is_empty() => random.pick(&self.inside),
            5 | 6 if !self.demanded.is_empty() => random.pick(&self.demanded),
            _ => random.pick(&self.all),
        }
    }

    /// Some probes, one of them again now and then.
    fn named(&self, random: &mut Random) -> Vec<u32> {
        let many = random.pick(&[0, 1, 1, 2, 2, 2, 3, 3, 4, 5, 6, 8, 12, 15, 16, 16]);
        let mut pairs: Vec<Pair> = vec![];
        while pairs.len() < many && !self.all.is_empty() {
            let again = !pairs.is_empty() && random.percent(15);
            let pair = match again {
                true => random.pick(&pairs),
                false => self.pick(random),
            };
            pairs.push(pair);
        }
        pairs.concat()
    }

    /// "one that names no output of the table"
    fn none(&self, random: &mut Random) -> Pair {
        let far = random.pick(&[-1, i32::MIN, i32::MAX, 512, -2]) as u32;
        let beyond = |node: u32| self.all.iter().filter(|pair| pair[0] == node).count() as u32;
        let node = random.below(self.nodes) as u32;
        match random.below(12) {
            0..=4 if !self.cuts.is_empty() => [random.pick(&self.cuts), 0],
            0 | 5 | 10 => [self.nodes as u32, 0],
            1 | 6 | 11 => [far, 0],
            2 | 7 => [node, far],
            _ => [node, beyond(node)],
        }
    }
}

/// Bodies in bodies whose clocks are inputs: a clock within may be a demand where the one around it
/// is none.
fn nested(random: &mut Random) -> Circuit {
    loop {
        let (inputs, outputs) = (random.below(3), random.pick(&[0, 1, 1, 1, 2]));
        let size = 1 + random.below(8);
        let mut tree = build(random, inputs, outputs, size);
        for _ in 0..random.pick(&[2, 2, 3, 4]) {
            tree = ondemand(tree);
        }
        let circuit = Circuit::of(table(random, &tree)).expect("an accepted table");
        if circuit.counts.cells <= 16384 {
            return circuit;
        }
    }
}

/// A circuit that has a body, if one of the first few has.
fn demanding(random: &mut Random) -> (Circuit, Wires) {
    if random.percent(15) {
        let circuit = nested(random);
        let wires = Wires::of(&circuit);
        return (circuit, wires);
    }
    for last in [false, false, false, false, true] {
        let size = random.pick(&[1, 3, 6, 9, 12, 16, 20, 30]) + random.below(4);
        let circuit = circuit(random, size);
        let wires = Wires::of(&circuit);
        if last || !wires.inside.is_empty() {
            return (circuit, wires);
        }
    }
    unreachable!()
}

/// "the caller sets the list to 0 with each load": mostly.
fn set_list(random: &mut Random, case: &mut Vec<Command>) {
    let mut list = vec![0; 40];
    if random.percent(40) {
        list.fill_with(|| sample(random) as u32);
    }
    case.push(Command::Latest(list));
}

/// What a walk with probes brings, before any of it is spoiled.
struct Call {
    given: Vec<u32>,
    held: Vec<u32>,
    named: Vec<u32>,
    lent: Lent,
}

impl Call {
    fn new(random: &mut Random, circuit: &Circuit, named: &[u32], ticks: usize) -> Call {
        let counts = circuit.counts;
        Call {
            given: inputs(random, circuit, ticks),
            held: controls(random, circuit),
            named: named.to_vec(),
            lent: Lent {
                ticks: ticks as u32,
                cells: counts.cells as usize,
                out: ticks * counts.outputs as usize,
                latest: named.len() / 2,
                recording: ticks * (named.len() / 2),
            },
        }
    }

    /// Rows 14, 15 and 12, one of them; a few leave the call as it is.
    fn spoil(&mut self, random: &mut Random, wires: &Wires) {
        let lent = &mut self.lent;
        let buffer = match random.weighted(&[1, 1, 1, 6, 1, 1, 2, 2]) {
            0 => return lent.ticks = random.pick(&[-1, 4097, i32::MIN, 3]) as u32,
            1 => return self.given.push(1),
            2 => return self.held.resize(random.pick(&[0, 15, 17]), 1),
            3 => return self.misname(random, wires),
            4 => &mut lent.cells,
            5 => &mut lent.out,
            6 => &mut lent.latest,
            _ => &mut lent.recording,
        };
        *buffer = buffer.saturating_sub(1 + random.below(2));
    }

    /// "an odd count of probe numbers, more than 16 probes or one that names no output"
    fn misname(&mut self, random: &mut Random, wires: &Wires) {
        let named = &mut self.named;
        let at = 2 * random.below(named.len() / 2 + 1);
        let wrong = wires.none(random);
        match random.below(10) {
            0 if !named.is_empty() => drop(named.pop()),
            1 => named.push(random.pick(&[0, 1, u32::MAX])),
            2 => named.resize(random.pick(&[33, 64]), 0),
            3 if !wires.all.is_empty() => {
                while named.len() <= 2 * MOST_PROBES {
                    named.extend(wires.pick(random));
                }
            }
            _ if named.len() == 2 * MOST_PROBES => {
                let last = at.min(named.len() - 2);
                named[last..last + 2].copy_from_slice(&wrong);
            }
            _ => drop(named.splice(at..at, wrong)),
        }
        // What a script holds.
        named.truncate(64);
    }

    fn play(self, case: &mut Vec<Command>) {
        case.push(Command::Inputs(self.given));
        case.push(Command::Controls(self.held));
        case.push(Command::Probes(self.named));
        case.push(Command::Probed(self.lent));
    }
}

/// A block, walked with probes or now and then without, and run.
fn block(
    random: &mut Random,
    circuit: &Circuit,
    named: &[u32],
    ticks: usize,
    case: &mut Vec<Command>,
) {
    let mut call = Call::new(random, circuit, named, ticks);
    let lent = call.lent;
    case.push(Command::Inputs(std::mem::take(&mut call.given)));
    if random.percent(30) {
        case.push(Command::Controls(call.held));
    }
    if random.percent(10) {
        case.push(Command::Walk(lent.ticks, lent.cells, lent.out));
    } else {
        case.push(Command::Probed(Lent {
            ticks: lent.ticks,
            cells: lent.cells + more(random),
            out: lent.out + more(random),
            latest: lent.latest + more(random),
            recording: lent.recording + more(random),
        }));
    }
    case.push(Command::Run(lent.ticks, lent.cells, lent.out));
}

/// A call that is refused, mostly for one thing; then the probes are as before.
fn refused(
    random: &mut Random,
    circuit: &Circuit,
    wires: &Wires,
    named: &[u32],
    case: &mut Vec<Command>,
) {
    let ticks = random.pick(&[0, 0, 1, 2, 3]);
    let mut call = Call::new(random, circuit, named, ticks);
    for _ in 0..random.pick(&[1, 1, 1, 2, 3]) {
        call.spoil(random, wires);
    }
    call.play(case);
    case.push(Command::Controls(controls(random, circuit)));
    case.push(Command::Probes(named.to_vec()));
}

pub fn probed_case(random: &mut Random) -> Vec<Command> {
    let (circuit, wires) = demanding(random);
    let cells = circuit.counts.cells as usize;
    let mut named = wires.named(random);
    let mut case = Vec::new();
    begin(random, &circuit, &mut case);
    if random.percent(10) {
        case.push(Command::Memory(sample(random) as u32));
    }
    set_list(random, &mut case);
    case.push(Command::Probes(named.clone()));
    for _ in 0..1 + random.below(4) {
        let ticks = match named.len() < 4 && random.percent(1) {
            true => random.pick(&[300, 1000, 4096]),
            false => ticks(random),
        };
        block(random, &circuit, &named, ticks, &mut case);
        if random.percent(60) {
            refused(random, &circuit, &wires, &named, &mut case);
        }
        if random.percent(10) {
            named = wires.named(random);
            case.push(Command::Probes(named.clone()));
        }
        if random.percent(10) {
            case.push(Command::Load(cells as u32, cells));
            set_list(random, &mut case);
        }
    }
    case.push(Command::Cells(cells + more(random)));
    case
}

//! Walks with probes against the oracle, on fresh random circuits: blocks one after another, refused calls between them.
use oracle::arity::check;
use oracle::circuits::{build, ondemand, sample, table};
use oracle::engine::{Block, Engine, Probes};
use oracle::entries::Past;
use oracle::good_cases::{circuit, controls, inputs, more, usual_size, Circuit};
use oracle::random::Random;
use proved::{seeded, Proved, Work};

mod proved;

/// What a call is lent.
#[derive(Clone, Debug, PartialEq)]
struct Lent {
    cells: Vec<u32>,
    outputs: Vec<u32>,
    latest: Vec<u32>,
    recording: Vec<u32>,
}

struct Call {
    named: Vec<u32>,
    ticks: u32,
    inputs: Vec<u32>,
    controls: Vec<u32>,
    lent: Lent,
}

impl Call {
    /// The answer of one who walks, and what it leaves.
    fn by(
        &self,
        walk: impl FnOnce(&Block, &mut [u32], &mut [u32], &mut Probes) -> Work,
    ) -> (Work, Lent) {
        let mut lent = self.lent.clone();
        let block = Block {
            ticks: self.ticks,
            inputs: &self.inputs,
            controls: &self.controls,
        };
        let mut probes = Probes {
            named: &self.named,
            latest: &mut lent.latest,
            recording: &mut lent.recording,
        };
        let answer = walk(&block, &mut lent.cells, &mut lent.outputs, &mut probes);
        (answer, lent)
    }
}

/// A circuit with probes, the outputs of each node, its past, and what goes on from call to call.
struct Probed {
    circuit: Circuit,
    outputs: Vec<usize>,
    named: Vec<u32>,
    past: Past,
    cells: Vec<u32>,
    latest: Vec<u32>,
}

/// A circuit, in three of four cases one in two bodies.
fn nested(random: &mut Random) -> Circuit {
    let size = usual_size(random);
    if random.percent(25) {
        return circuit(random, size);
    }
    loop {
        let (n, m) = (random.below(4), random.below(4));
        let tree = ondemand(ondemand(build(random, n, m, size)));
        let found = Circuit::of(table(random, &tree));
        if let Some(circuit) = found.filter(|circuit| circuit.counts.cells <= 16384) {
            return circuit;
        }
    }
}

/// Every output of every node, given how many each has.
fn wires(outputs: &[usize]) -> Vec<[u32; 2]> {
    let nodes = outputs.iter().enumerate();
    nodes
        .flat_map(|(node, &many)| (0..many).map(move |i| [node as u32, i as u32]))
        .collect()
}

impl Probed {
    /// Mostly after a load and with a list of 0; else whatever the cells and the list hold.
    fn new(random: &mut Random) -> Probed {
        let circuit = nested(random);
        let checked = check(&circuit.table).expect("an accepted table");
        let outputs: Vec<usize> = checked.arities.iter().map(|a| a.outputs).collect();
        let wires = wires(&outputs);
        let many = match wires.len() {
            0 => 0,
            _ => random.pick(&[0, 1, 2, 3, 5, 9, 15, 16]),
        };
        let named = (0..many).flat_map(|_| random.pick(&wires)).collect();
        let mut any = |many| (0..many).map(|_| sample(random) as u32).collect();
        let count = circuit.counts.cells;
        let (mut cells, mut latest): (Vec<u32>, Vec<u32>) = (any(count as usize), any(many));
        let mut past = Past::default();
        if random.percent(85) {
            let answer = past.load(count, &mut cells.clone());
            assert_eq!(Proved.load(count, &mut cells), answer);
        }
        if random.percent(85) {
            latest.fill(0);
        }
        Probed {
            circuit,
            outputs,
            named,
            past,
            cells,
            latest,
        }
    }

    /// The lengths that a block needs, of cells, outputs, list and recording.
    fn needed(&self, ticks: usize) -> [usize; 4] {
        let (cells, probes) = (self.cells.len(), self.latest.len());
        let m = self.circuit.counts.outputs as usize;
        [cells, ticks * m, probes, ticks * probes]
    }

    /// A block of so many ticks, into buffers that may be longer than needed.
    fn block(&self, random: &mut Random, ticks: usize) -> Call {
        let longer = |needed| vec![9; needed + more(random)];
        let [mut cells, outputs, mut latest, recording] = self.needed(ticks).map(longer);
        cells[..self.cells.len()].copy_from_slice(&self.cells);
        latest[..self.latest.len()].copy_from_slice(&self.latest);
        Call {
            named: self.named.clone(),
            ticks: ticks as u32,
            inputs: inputs(random, &self.circuit, ticks),
            controls: controls(random, &self.circuit),
            lent: Lent {
                cells,
                outputs,
                latest,
                recording,
            },
        }
    }

    /// The block with one thing wrong, of those in rows 14, 15 and 12.
    fn refused(&self, random: &mut Random, ticks: usize) -> Call {
        let mut call = self.block(random, ticks);
        let node = random.below(self.outputs.len());
        let past = [node as u32, self.outputs[node] as u32];
        let nodes = self.outputs.len() as u32;
        let short = random.below(4);
        let needed = self.needed(ticks)[short];
        let lent = &mut call.lent;
        match random.below(10) {
            0 => call.ticks = random.pick(&[-1, 4097, i32::MIN]) as u32,
            1 => call.inputs.push(1),
            2 => drop(call.controls.pop()),
            3 => call.named = vec![0; 2 * 17],
            4 => call.named = vec![nodes, 0],
            5 => call.named = past.to_vec(),
            6 => call.named = [[0, 0], [u32::MAX, 0]].concat(),
            7 | 8 if needed > 0 => {
                let buffers = [
                    &mut lent.cells,
                    &mut lent.outputs,
                    &mut lent.latest,
                    &mut lent.recording,
                ];
                buffers[short].truncate(needed - 1);
            }
            _ => call.named.push(0),
        }
        call
    }

    /// What the engine answers and leaves, which is what the oracle does.
    fn walk(&mut self, call: &Call) -> (Work, Lent) {
        let (table, past) = (&self.circuit.table, &mut self.past);
        let wanted =
            call.by(|block, cells, out, probes| past.walk_probed(table, block, cells, out, probes));
        let got = call
            .by(|block, cells, out, probes| Proved.walk_probed(table, block, cells, out, probes));
        assert_eq!(got, wanted, "{table:?} {:?}", call.named);
        got
    }

    /// Some blocks, refused calls before them.
    fn live(&mut self, random: &mut Random) {
        for _ in 0..1 + random.below(5) {
            let ticks = random.below(9);
            if random.percent(50) {
                let call = self.refused(random, ticks);
                let (answer, lent) = self.walk(&call);
                assert!(answer.is_err() && lent == call.lent);
            }
            let call = self.block(random, ticks);
            let (answer, lent) = self.walk(&call);
            assert!(answer.is_ok());
            self.cells = lent.cells[..self.cells.len()].to_vec();
            self.latest = lent.latest[..self.latest.len()].to_vec();
        }
    }
}

/// In how many bodies of ondemands each node lies.
fn depths(table: &[u32]) -> Vec<usize> {
    let mut depths = vec![0; table.len() / 3];
    for (node, numbers) in table.chunks(3).enumerate().rev() {
        let children = match numbers[0] {
            12 => &numbers[1..2],
            7..=11 => &numbers[1..],
            _ => &[],
        };
        for &child in children {
            depths[child as usize] = depths[node] + usize::from(numbers[0] == 12);
        }
    }
    depths
}

#[test]
fn fresh_probes() {
    let (seed, count) = seeded("live probes", 3000);
    let mut random = Random::new(seed);
    let (mut all, mut deep) = (0, 0);
    for _ in 0..count {
        let mut probed = Probed::new(&mut random);
        probed.live(&mut random);
        let depths = depths(&probed.circuit.table);
        let nodes = probed.named.iter().step_by(2);
        deep += nodes.filter(|&&node| depths[node as usize] > 1).count();
        all += probed.latest.len();
    }
    // Of a few cases it may be fewer.
    assert!(
        2 * deep >= all || count < 1000,
        "{deep} of {all} probes in two bodies"
    );
}

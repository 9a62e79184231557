//! E5: walks with probes. What each wire shows, tick by tick and from call to call; what is kept; the longest recording.
use circuit::{CELLS, CONTROLS, PROBES, PROBE_NUMBERS, RECORDING_NUMBERS, TICKS};

type Node = [i32; 3];

/// A node and an output of it.
type Probe = [i32; 2];

const CABLE: Node = [5, 0, 0];
const ADD: Node = [3, 1, 0];
/// Addition, cable, recursion, ondemand.
const ON_DEMAND: [Node; 4] = [ADD, CABLE, [11, 0, 1], [12, 2, 0]];
/// The clock 0 1 0 1 0, the signal 5 to 9.
const CLOCKED: [i32; 10] = [0, 5, 1, 6, 0, 7, 1, 8, 0, 9];

/// A loaded circuit, and what goes on from call to call.
struct Walk {
    table: Vec<i32>,
    probes: Vec<i32>,
    inputs: usize,
    outputs: usize,
    cells: Vec<i32>,
    latest: Vec<i32>,
}

impl Walk {
    fn new(nodes: &[Node], probes: &[Probe]) -> Walk {
        let table = nodes.concat();
        let counts = circuit::check(&table).expect("a circuit");
        let mut cells = vec![9; counts.cells as usize];
        circuit::load(counts.cells, &mut cells).expect("cleared cells");
        Walk {
            table,
            probes: probes.concat(),
            inputs: counts.inputs as usize,
            outputs: counts.outputs as usize,
            cells,
            latest: vec![0; probes.len()],
        }
    }

    /// The recording of a block. Answer, samples and cells are those of a walk without probes.
    fn block(&mut self, inputs: &[i32]) -> Vec<i32> {
        let ticks = inputs.len() / self.inputs;
        let mut cells = self.cells.clone();
        let mut outputs = vec![9; ticks * self.outputs];
        let mut recording = vec![9; ticks * self.latest.len()];
        let mut plain = outputs.clone();
        let silent = [0; CONTROLS];
        let answer = circuit::walk_probed(
            &self.table,
            &self.probes,
            ticks as u32,
            inputs,
            &silent,
            &mut self.cells,
            &mut outputs,
            &mut self.latest,
            &mut recording,
        );
        assert_eq!(answer.map(|worked| worked.samples), Ok(outputs.len()));
        let same = circuit::walk(
            &self.table,
            ticks as u32,
            inputs,
            &silent,
            &mut cells,
            &mut plain,
        );
        assert_eq!(same, answer);
        assert_eq!((&outputs, &self.cells), (&plain, &cells));
        recording
    }
}

/// What the probes show over a history, in one block and however else it is cut.
fn shows(nodes: &[Node], probes: &[Probe], inputs: &[i32], expected: &[i32]) {
    assert_eq!(Walk::new(nodes, probes).block(inputs), expected);
    let whole = Walk::new(nodes, probes).inputs;
    for block in 1..inputs.len() / whole {
        let mut walk = Walk::new(nodes, probes);
        let parts = inputs.chunks(block * whole);
        let recording: Vec<i32> = parts
            .flat_map(|part| [walk.block(&[]), walk.block(part)].concat())
            .collect();
        assert_eq!(recording, expected, "in blocks of {block}");
    }
}

/// "A wire inside an on-demand body shows its value at the latest demand that reached it, and 0 before that."
#[test]
fn in_a_body() {
    let rows = [[0, 0, 0], [6, 0, 6], [6, 0, 6], [14, 6, 14], [14, 6, 14]];
    let probes = [[0, 0], [1, 0], [3, 0]];
    shows(&ON_DEMAND, &probes, &CLOCKED, &rows.concat());
}

/// In a body a cable on demand and another cable; the clock of the body, that of the cable, and their signals.
#[test]
fn in_a_body_of_a_body() {
    let nodes = [CABLE, [12, 0, 0], CABLE, [8, 1, 2], [12, 3, 0]];
    let inputs = [
        [1, 0, 5, 50],
        [0, 1, 6, 60],
        [1, 1, 7, 70],
        [1, 0, 8, 80],
        [0, 0, 9, 90],
    ];
    let rows = [[50, 0, 0], [50, 0, 0], [70, 7, 7], [80, 7, 7], [80, 7, 7]];
    shows(
        &nodes,
        &[[2, 0], [0, 0], [1, 0]],
        &inputs.concat(),
        &rows.concat(),
    );
    let rows = [[50, 0], [50, 0], [70, 7], [80, 7], [80, 7]];
    shows(&nodes, &[[4, 1], [3, 0]], &inputs.concat(), &rows.concat());
}

/// "A wire may be named twice": in the order named, whatever the order of the nodes.
#[test]
fn named_twice() {
    let rows = [
        [0; 4],
        [0, 6, 6, 0],
        [0, 6, 6, 0],
        [6, 14, 14, 6],
        [6, 14, 14, 6],
    ];
    let probes = [[1, 0], [3, 0], [0, 0], [1, 0]];
    shows(&ON_DEMAND, &probes, &CLOCKED, &rows.concat());
}

/// "And no probe at all is allowed."
#[test]
fn none() {
    shows(&ON_DEMAND, &[], &CLOCKED, &[]);
}

/// A list that was not set to 0: each of the numbers stands until a demand reaches its wire, also where two are one wire.
#[test]
fn list_of_any_numbers() {
    let mut walk = Walk::new(&ON_DEMAND, &[[0, 0], [3, 0], [0, 0], [1, 0], [2, 0]]);
    walk.latest = vec![7, -1, i32::MIN, 8, 9];
    assert_eq!(walk.block(&CLOCKED[..2]), [7, 0, i32::MIN, 8, 9]);
    assert_eq!(walk.latest, [7, 0, i32::MIN, 8, 9]);
    assert_eq!(walk.block(&CLOCKED[2..4]), [6, 6, 6, 0, 6]);
    assert_eq!(walk.latest, [6, 6, 6, 0, 6]);
}

/// Sixteen of the 32 outputs of one node, from the last down.
#[test]
fn sixteen() {
    let mut nodes = vec![CABLE];
    while nodes.len() < 63 {
        let last = nodes.len() as i32 - 1;
        nodes.extend([CABLE, [8, last, last + 1]]);
    }
    let probes: Vec<Probe> = (0..PROBES as i32).map(|i| [62, 31 - i]).collect();
    assert_eq!(probes.concat().len(), PROBE_NUMBERS);
    let inputs: Vec<i32> = (0..64).map(|i| i * i - 1000).collect();
    let rows = inputs.chunks(32).flat_map(|tick| tick[16..].iter().rev());
    shows(&nodes, &probes, &inputs, &rows.copied().collect::<Vec<_>>());
}

/// 4,096 ticks and 16 probes, of the addition and of the cable of an integrator.
#[test]
fn longest_recording() {
    let probes: Vec<Probe> = (0..PROBES as i32).map(|i| [i % 2, 0]).collect();
    let mut walk = Walk::new(&ON_DEMAND[..3], &probes);
    let recording = walk.block(&[1; TICKS]);
    assert_eq!(recording.len(), RECORDING_NUMBERS);
    for (tick, row) in recording.chunks(PROBES).enumerate() {
        assert_eq!(row, [tick as i32 + 1, tick as i32].repeat(PROBES / 2));
    }
}

/// "A buffer that is longer than needed keeps its content past the needed part."
#[test]
fn longer_buffers() {
    let (mut cells, mut outputs) = ([0; CELLS], [9; 4]);
    cells[2..].fill(9);
    let (mut latest, mut recording) = ([0, 0, 9], [9; 7]);
    let answer = circuit::walk_probed(
        &ON_DEMAND.concat(),
        &[0, 0, 1, 0],
        3,
        &CLOCKED[2..8],
        &[0; CONTROLS],
        &mut cells,
        &mut outputs,
        &mut latest,
        &mut recording,
    );
    assert_eq!(answer.map(|worked| worked.samples), Ok(3));
    assert_eq!(outputs, [6, 6, 14, 9]);
    assert_eq!(cells[..3], [14, 14, 9]);
    assert_eq!(cells[2..], [9; CELLS - 2]);
    assert_eq!(latest, [14, 6, 9]);
    assert_eq!(recording, [6, 0, 6, 0, 14, 6, 9]);
}

//! Walks with probes (E5): by hand, and three ways to the same recording.

use oracle::arity::check;
use oracle::circuits::sample;
use oracle::engine::{Block, Probes, Refusal};
use oracle::entries::Past;
use oracle::good_cases::{circuit, controls, inputs, usual_size, Circuit};
use oracle::meaning::Meaning;
use oracle::probes::{wires, Wire};
use oracle::random::Random;

/// Everything that a walk with probes is lent.
#[derive(Clone, Debug, PartialEq, Eq)]
struct Lent {
    cells: Vec<u32>,
    outputs: Vec<u32>,
    latest: Vec<u32>,
    recording: Vec<u32>,
}

impl Lent {
    /// Exactly what a call needs; outputs and recording hold 9.
    fn exact(circuit: &Circuit, ticks: usize, probes: usize) -> Lent {
        Lent {
            cells: vec![0; circuit.counts.cells as usize],
            outputs: vec![9; ticks * circuit.counts.outputs as usize],
            latest: vec![0; probes],
            recording: vec![9; ticks * probes],
        }
    }
}

/// A walk with probes; its count of samples.
fn call(
    past: &mut Past,
    table: &[u32],
    named: &[u32],
    block: &Block,
    lent: &mut Lent,
) -> Result<u32, Refusal> {
    let mut probes = Probes {
        named,
        latest: &mut lent.latest,
        recording: &mut lent.recording,
    };
    let (cells, outputs) = (&mut lent.cells, &mut lent.outputs);
    let answer = past.walk_probed(table, block, cells, outputs, &mut probes);
    answer.map(|worked| worked.samples)
}

fn block<'a>(ticks: usize, inputs: &'a [u32], controls: &'a [u32]) -> Block<'a> {
    Block {
        ticks: ticks as u32,
        inputs,
        controls,
    }
}

fn words(numbers: &[i32]) -> Vec<u32> {
    numbers.iter().map(|&number| number as u32).collect()
}

/// What is recorded of a table after a load, in blocks of these inputs, and the list at the end.
fn recorded(table: &[i32], named: &[i32], blocks: &[&[i32]], list: &[i32]) -> [Vec<i32>; 2] {
    let circuit = Circuit::of(words(table)).expect("an accepted table");
    let (named, mut past) = (words(named), Past::default());
    let mut cells = vec![7; circuit.counts.cells as usize];
    past.load(circuit.counts.cells, &mut cells).expect("a load");
    let (mut latest, mut all) = (words(list), vec![]);
    for given in blocks {
        let ticks = given.len() / circuit.counts.inputs as usize;
        let mut lent = Lent::exact(&circuit, ticks, list.len());
        (lent.cells, lent.latest) = (cells, latest);
        let given = words(given);
        let block = block(ticks, &given, &[0; 16]);
        let answer = call(&mut past, &circuit.table, &named, &block, &mut lent);
        assert_eq!(answer, Ok(lent.outputs.len() as u32));
        (cells, latest) = (lent.cells, lent.latest);
        all.extend(lent.recording);
    }
    [all, latest].map(|list| list.iter().map(|&word| word as i32).collect())
}

/// "A wire inside an on-demand body shows its value at the latest demand that reached it, and 0
/// before that"; "The latest values stand from call to call".
#[test]
fn in_a_body() {
    // A negation on demand; the probes are the ondemand and the negation.
    let table = [3, 9, 0, 12, 0, 0];
    let (first, second) = ([0, 5, 1, 6, 0, 7], [0, 8, -1, 9]);
    let [all, latest] = recorded(&table, &[1, 0, 0, 0], &[&first, &second], &[0, 0]);
    assert_eq!(all, [0, 0, -6, -6, -6, -6, -6, -6, -9, -9]);
    assert_eq!(latest, [-9, -9]);
    // A list that was not set to 0: the ondemand gives its cell, the negation is not reached.
    let [all, latest] = recorded(&table, &[1, 0, 0, 0], &[&first, &second], &[3, 4]);
    assert_eq!(all, [0, 4, -6, -6, -6, -6, -6, -6, -9, -9]);
    assert_eq!(latest, [-9, -9]);
}

/// A body in a body: a cable that is reached where both clocks are demands, and the inner ondemand,
/// which is reached at the outer's demands.
#[test]
fn in_two_bodies() {
    let table = [5, 0, 0, 12, 0, 0, 12, 1, 0];
    let ticks = [0, 1, 1, 1, 0, 2, 0, 1, 3, 1, 1, 4, 0, 0, 5];
    let [all, _] = recorded(&table, &[0, 0, 1, 0, 2, 0], &[&ticks], &[7, 8, 6]);
    assert_eq!(all, [7, 8, 0, 7, 0, 0, 7, 0, 0, 4, 4, 4, 4, 4, 4]);
}

/// A body without an instruction: a cable and then a cut, on demand.
#[test]
fn in_a_body_without_outputs() {
    let table = [5, 0, 0, 6, 0, 0, 7, 0, 1, 12, 2, 0];
    let ticks = [0, 1, 1, 2, 0, 3];
    let [all, _] = recorded(&table, &[0, 0], &[&ticks], &[0]);
    assert_eq!(all, [0, 2, 2]);
}

/// "within a tick in the order named"; "A wire may be named twice, and no probe at all is allowed".
#[test]
fn order_and_repetition() {
    // The integrator; its own output, the cable that feeds it, the addition, twice.
    let table = [3, 1, 0, 5, 0, 0, 11, 0, 1];
    let named = [2, 0, 1, 0, 0, 0, 1, 0];
    let [all, latest] = recorded(&table, &named, &[&[1, 2, 3]], &[7; 4]);
    assert_eq!(all, [1, 0, 1, 0, 3, 1, 3, 1, 6, 3, 6, 3]);
    assert_eq!(latest, [6, 3, 6, 3]);
    assert_eq!(recorded(&table, &[], &[&[1, 2, 3]], &[]), [vec![], vec![]]);
}

/// "Refusal 15, for an odd count of probe numbers, more than 16 probes or one that names no output
/// of the table".
#[test]
fn row_15() {
    // A parallel of a cable and a cut, and a cable beside: one output, none, one, two.
    let table = [5, 0, 0, 6, 0, 0, 8, 0, 1, 5, 0, 0, 8, 2, 3];
    let checked = check(&table).expect("an accepted table");
    let named = |numbers: &[i32]| wires(&words(numbers), &checked).map(|wires| wires.len());
    let refused = Err(Refusal::nowhere(15));
    let good: [&[i32]; 6] = [&[], &[0, 0], &[2, 0], &[3, 0], &[4, 1], &[4, 1].repeat(16)];
    for numbers in good {
        assert_eq!(named(numbers), Ok(numbers.len() / 2), "{numbers:?}");
    }
    let bad = [
        [0, 1],
        [1, 0],
        [2, 1],
        [4, 2],
        [5, 0],
        [-1, 0],
        [0, -1],
        [i32::MIN, 0],
        [0, i32::MIN],
        [i32::MAX, i32::MAX],
    ];
    for pair in bad {
        assert_eq!(named(&pair), refused, "{pair:?}");
        assert_eq!(named(&[&[4, 0].repeat(15)[..], &pair].concat()), refused);
    }
    for count in [1, 31, 33, 34, 64] {
        assert_eq!(named(&vec![0; count]), refused, "{count} numbers");
    }
}

/// "checked after 14 and before 12", and a refused call writes nothing: every two of the refusals
/// at once, the earlier one is given.
#[test]
fn order_of_refusals() {
    let integrator = Circuit::of(vec![3, 1, 0, 5, 0, 0, 11, 0, 1]).expect("an accepted table");
    let mut wide = vec![4, 4095, 0, 4, 4095, 0, 8, 0, 1];
    for last in [2, 4, 6] {
        wide.extend([4, 4095, 0, 8, last, last + 1]);
    }
    let loose = [5, 0, 0, 5, 0, 0];
    let tables = [
        (&loose[..], Some(Refusal::at(9, 0))),
        (&wide, Some(Refusal::nowhere(11))),
        (&integrator.table, None),
    ];
    for (table, first) in tables {
        for wrong in 0..8 {
            let ticks = if wrong & 1 == 1 { 4097 } else { 3 };
            let named: &[u32] = if wrong & 2 == 2 { &[3, 0] } else { &[2, 0] };
            let mut lent = Lent::exact(&integrator, 3, 1);
            if wrong & 4 == 4 {
                lent.recording.pop();
            }
            let before = lent.clone();
            let block = block(ticks, &[1, 2, 3], &[0; 16]);
            let answer = call(&mut Past::default(), table, named, &block, &mut lent);
            let rows = [(1, 14), (2, 15), (4, 12)];
            let row = rows.iter().find(|(bit, _)| wrong & bit != 0);
            let wanted = first.or(row.map(|&(_, number)| Refusal::nowhere(number)));
            assert_eq!(answer, wanted.map_or(Ok(3), Err));
            assert_eq!(answer.is_err(), lent == before);
        }
    }
}

/// Row 12 of each buffer, with ticks and without.
#[test]
fn row_12() {
    let circuit = Circuit::of(vec![3, 1, 0, 5, 0, 0, 11, 0, 1]).expect("an accepted table");
    for ticks in [0, 3] {
        let given = vec![1; ticks];
        let block = block(ticks, &given, &[0; 16]);
        let exact = Lent::exact(&circuit, ticks, 2);
        for short in 0..4 {
            let mut lent = exact.clone();
            let buffers = [
                &mut lent.cells,
                &mut lent.latest,
                &mut lent.outputs,
                &mut lent.recording,
            ];
            let shortened = buffers[short].pop().is_some();
            let before = lent.clone();
            let named = [2, 0, 1, 0];
            let table = &circuit.table;
            let answer = call(&mut Past::default(), table, &named, &block, &mut lent);
            let wanted = if shortened {
                Err(Refusal::nowhere(12))
            } else {
                Ok(ticks as u32)
            };
            assert_eq!(answer, wanted, "{ticks} ticks, buffer {short}");
            assert_eq!(lent == before, shortened || ticks == 0);
        }
    }
}

/// A random circuit, wires of it and their names.
struct Probed {
    circuit: Circuit,
    wires: Vec<Wire>,
    named: Vec<u32>,
}

impl Probed {
    fn new(random: &mut Random) -> Probed {
        let size = usual_size(random);
        let circuit = circuit(random, size);
        let checked = check(&circuit.table).expect("an accepted table");
        let nodes = checked.arities.iter().enumerate();
        let all: Vec<[u32; 2]> = nodes
            .flat_map(|(node, arity)| (0..arity.outputs).map(move |i| [node as u32, i as u32]))
            .collect();
        let many = if all.is_empty() { 0 } else { random.below(17) };
        let named: Vec<u32> = (0..many).flat_map(|_| random.pick(&all)).collect();
        let wires = wires(&named, &checked).expect("wires");
        Probed {
            circuit,
            wires,
            named,
        }
    }

    /// What a block leaves by the meaning over the whole history, without any list.
    fn meant(&self, meaning: &mut Meaning, block: &Block) -> Lent {
        let n = self.circuit.counts.inputs as usize;
        let (mut outputs, mut recording) = (vec![], vec![]);
        for tick in 0..block.ticks as usize {
            let now = &block.inputs[tick * n..(tick + 1) * n];
            outputs.extend(meaning.tick(now, block.controls));
            recording.extend(self.wires.iter().map(|&wire| meaning.shows(wire)));
        }
        Lent {
            cells: meaning.cells(),
            outputs,
            latest: self.wires.iter().map(|&wire| meaning.shows(wire)).collect(),
            recording,
        }
    }

    /// A walk of some of the wires without any known past.
    fn walk(&self, named: &[u32], block: &Block, lent: &mut Lent) {
        let answer = call(
            &mut Past::default(),
            &self.circuit.table,
            named,
            block,
            lent,
        );
        let samples = block.ticks * self.circuit.counts.outputs;
        assert_eq!(answer, Ok(samples));
    }
}

/// "If that was done, .. the recording must equal, for every probe, what the meaning gives for that
/// wire": the meaning over the whole history, the list that goes on with the meaning's ticks, and
/// the list that goes on with those of the translation.
#[test]
fn law() {
    let mut random = Random::new(55);
    let (mut probes, mut unreached) = (0, 0);
    for _ in 0..3000 {
        let probed = Probed::new(&mut random);
        let (circuit, wires) = (&probed.circuit, &probed.wires);
        let (mut meaning, mut told) = (Meaning::of(&circuit.table), Past::default());
        let mut last = Lent::exact(circuit, 0, wires.len());
        last.cells.fill(3);
        told.load(circuit.counts.cells, &mut last.cells)
            .expect("a load");
        let mut history = 0;
        for _ in 0..random.below(5) {
            let ticks = random.below(9);
            let given = inputs(&mut random, circuit, ticks);
            let held = controls(&mut random, circuit);
            let block = block(ticks, &given, &held);
            let wanted = probed.meant(&mut meaning, &block);
            let mut first = Lent::exact(circuit, ticks, wires.len());
            (first.cells, first.latest) = (last.cells, last.latest);
            let mut second = first.clone();
            let (table, named) = (&circuit.table, &probed.named);
            call(&mut told, table, named, &block, &mut first).expect("a walk");
            probed.walk(named, &block, &mut second);
            assert_eq!(first, wanted, "{table:?} {named:?}");
            assert_eq!(second, wanted, "{table:?} {named:?}");
            // A refused call between two others.
            let odd = [&named[..], &[0]].concat();
            let refused = call(&mut told, table, &odd, &block, &mut first);
            assert_eq!(refused, Err(Refusal::nowhere(15)));
            assert_eq!(first, wanted);
            last = wanted;
            history += ticks;
        }
        probes += wires.len();
        let without = |&&wire: &&Wire| meaning.reached(wire) < history;
        unreached += wires.iter().filter(without).count();
    }
    println!("{probes} probes, {unreached} of which not every tick has reached");
    assert!(10 * unreached > probes);
}

/// Whatever cells and list hold: each probe shows what it shows alone, however the ticks are cut
/// into blocks, and "the circuit's own samples are the same with probes or without".
#[test]
fn any_list() {
    let mut random = Random::new(56);
    let (mut probes, mut kept) = (0, 0);
    for _ in 0..2000 {
        let probed = Probed::new(&mut random);
        let (circuit, named) = (&probed.circuit, &probed.named);
        let ticks = 1 + random.below(8);
        let given = inputs(&mut random, circuit, ticks);
        let held = controls(&mut random, circuit);
        let block = block(ticks, &given, &held);
        let mut start = Lent::exact(circuit, ticks, probed.wires.len());
        start.cells.fill_with(|| sample(&mut random) as u32);
        start.latest.fill_with(|| 1000 + random.below(1000) as u32);
        let mut together = start.clone();
        probed.walk(named, &block, &mut together);
        each_alone(&probed, &block, &start, &together);
        tick_by_tick(&probed, &block, &start, &together);
        let mut plain = start.clone();
        let walked = &mut Past::default();
        let answer = walked.walk(&circuit.table, &block, &mut plain.cells, &mut plain.outputs);
        let samples = answer.map(|worked| worked.samples);
        assert_eq!(samples, Ok(plain.outputs.len() as u32));
        assert_eq!(plain.cells, together.cells);
        assert_eq!(plain.outputs, together.outputs);
        let pairs = start.latest.iter().zip(&together.latest);
        kept += pairs.filter(|(before, after)| before == after).count();
        probes += start.latest.len();
    }
    println!("{probes} probes, {kept} of which keep their number");
    assert!(40 * kept > probes);
}

fn each_alone(probed: &Probed, block: &Block, start: &Lent, together: &Lent) {
    let many = probed.wires.len();
    for i in 0..many {
        let mut alone = start.clone();
        alone.latest = vec![start.latest[i]];
        alone.recording.truncate(block.ticks as usize);
        probed.walk(&probed.named[2 * i..2 * i + 2], block, &mut alone);
        let column = together.recording.iter().skip(i).step_by(many);
        assert!(alone.recording.iter().eq(column));
        assert_eq!(alone.latest, [together.latest[i]]);
    }
}

fn tick_by_tick(probed: &Probed, whole: &Block, start: &Lent, together: &Lent) {
    let n = probed.circuit.counts.inputs as usize;
    let mut cut = start.clone();
    let (mut outputs, mut recording) = (vec![], vec![]);
    for tick in 0..whole.ticks as usize {
        let one = block(1, &whole.inputs[tick * n..(tick + 1) * n], whole.controls);
        probed.walk(&probed.named, &one, &mut cut);
        outputs.extend(&cut.outputs[..probed.circuit.counts.outputs as usize]);
        recording.extend(&cut.recording[..probed.wires.len()]);
    }
    (cut.outputs, cut.recording) = (outputs, recording);
    assert_eq!(cut, *together);
}

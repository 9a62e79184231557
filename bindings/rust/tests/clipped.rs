//! E6: in how many ticks of a call a delay was clipped. Walked, walked with probes and run, in one call and in blocks.
use circuit::{Refusal, Worked, CONTROLS, TICKS};

const SILENT: [i32; CONTROLS] = [0; CONTROLS];

/// A circuit with its code, and its cells for walks, walks with probes and runs.
struct Circuit {
    table: Vec<i32>,
    code: Vec<i32>,
    cells: [Vec<i32>; 3],
}

impl Circuit {
    fn loaded(nodes: &[[i32; 3]]) -> Circuit {
        let table = nodes.concat();
        let counts = circuit::check(&table).expect("a circuit");
        let mut code = vec![0; circuit::CODE_NUMBERS];
        let numbers = circuit::translate(&table, &mut code).expect("a code");
        code.truncate(numbers);
        let cells = [(); 3].map(|()| {
            let mut cells = vec![9; counts.cells as usize];
            circuit::load(counts.cells, &mut cells).expect("cleared cells");
            cells
        });
        Circuit { table, code, cells }
    }

    /// The answer to a block of so many ticks, which is the same for all three.
    fn work(&mut self, ticks: u32, inputs: &[i32]) -> Result<Worked, Refusal> {
        let mut outputs = vec![9; 2 * TICKS];
        let out = &mut outputs[..];
        let [walked, probed, ran] = &mut self.cells;
        let answer = circuit::walk(&self.table, ticks, inputs, &SILENT, walked, out);
        let with = circuit::walk_probed(
            &self.table,
            &[],
            ticks,
            inputs,
            &SILENT,
            probed,
            out,
            &mut [],
            &mut [],
        );
        let run = circuit::run(&self.code, ticks, inputs, &SILENT, ran, out);
        assert_eq!((with, run), (answer, answer));
        answer
    }

    /// What a block reports.
    fn clipped(&mut self, ticks: u32, inputs: &[i32]) -> usize {
        self.work(ticks, inputs).expect("an accepted call").clipped
    }
}

/// What the ticks of a circuit report in one call, and one by one.
fn reports(nodes: &[[i32; 3]], ticks: &[&[i32]]) -> (usize, Vec<usize>) {
    let mut circuit = Circuit::loaded(nodes);
    let one = ticks.iter().map(|tick| circuit.clipped(1, tick)).collect();
    let all = Circuit::loaded(nodes).clipped(ticks.len() as u32, &ticks.concat());
    (all, one)
}

/// "outside 0 to D"
#[test]
fn amounts() {
    for d in [0, 1, 3, 4095] {
        let delay = [[4, d, 0]];
        for (amount, clipped) in [
            (-1, 1),
            (0, 0),
            (d, 0),
            (d + 1, 1),
            (i32::MIN, 1),
            (i32::MAX, 1),
        ] {
            let report = Circuit::loaded(&delay).clipped(1, &[5, amount]);
            assert_eq!(report, clipped, "D = {d}, amount {amount}");
        }
    }
}

/// "at least one delay": D = 1 and D = 2 side by side; both clipped, none, the first, the second.
#[test]
fn ticks() {
    let two = [[4, 1, 0], [4, 2, 0], [8, 0, 1]];
    let ticks: [&[i32]; 4] = [&[5, -1, 6, 3], &[5, 1, 6, 2], &[5, 2, 6, 0], &[5, 0, 6, 3]];
    assert_eq!(reports(&two, &ticks), (3, vec![1, 0, 1, 1]));
    assert_eq!(reports(&two, &ticks[..2]), (1, vec![1, 0]));
}

/// "A delay in a body without demand does not count": D = 1 in two bodies.
#[test]
fn demands() {
    let bodies = [[4, 1, 0], [12, 0, 0], [12, 1, 0]];
    let ticks: [&[i32]; 5] = [
        &[0, 1, 5, 2],
        &[1, 0, 5, 2],
        &[1, 1, 5, 2],
        &[2, -1, 5, 1],
        &[-1, 2, 5, -1],
    ];
    assert_eq!(reports(&bodies, &ticks), (2, vec![0, 0, 1, 0, 1]));
}

/// A code 4 that is skipped, and one that is not, on the same cells: the amount of both is register 1.
#[test]
fn skipped() {
    let instructions = [[7, 0, 1, 0, 0, 0], [4, 0, 1, 0, 1, 0], [4, 0, 1, 0, 2, 0]];
    let code = [&[2, 0, 3, 3][..], instructions.as_flattened()].concat();
    let run = |inputs: &[i32]| {
        let ticks = inputs.len() as u32 / 2;
        circuit::run(&code, ticks, inputs, &SILENT, &mut [0; 3], &mut [])
            .map(|worked| worked.clipped)
    };
    assert_eq!(run(&[0, 2]), Ok(0));
    assert_eq!(run(&[1, 2]), Ok(1));
    assert_eq!(run(&[0, 3]), Ok(1));
    assert_eq!(run(&[0, 2, 1, 2, 0, 3, 1, 1, 1, -1]), Ok(3));
}

/// The longest call, clipped at every tick; a call of no ticks; a refused call, which reports nothing and changes nothing.
#[test]
fn calls() {
    let mut delay = Circuit::loaded(&[[4, 3, 0]]);
    let worked = delay.work(TICKS as u32, &[7, 4].repeat(TICKS));
    let all = Worked {
        samples: TICKS,
        clipped: TICKS,
    };
    assert_eq!(worked, Ok(all));
    assert_eq!(delay.clipped(0, &[]), 0);
    let number = 14;
    assert_eq!(delay.work(2, &[7, 4]), Err(Refusal { number, place: -1 }));
    assert_eq!(delay.clipped(2, &[7, 4, 7, 3]), 1);
}

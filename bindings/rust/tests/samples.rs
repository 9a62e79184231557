//! The document's samples, those of E1 and selectors, through walker and runner, in one call and tick by tick.
use circuit::{
    Counts, Refusal, Worked, CELLS, CODE_NUMBERS, CONTROLS, FILE_BYTES, HEADER_NUMBERS,
    INSTRUCTION_NUMBERS, TABLE_NUMBERS,
};

type Node = [i32; 3];

const CABLE: Node = [5, 0, 0];
const ADD: Node = [3, 1, 0];
const SUBTRACT: Node = [3, 2, 0];
const MULTIPLY: Node = [3, 3, 0];
const SELECT: Node = [3, 10, 0];

/// The outputs of some ticks, in blocks of `block`: the walker's, which are the runner's, and the cells of both.
fn played(nodes: &[Node], ticks: usize, inputs: &[i32], block: usize) -> Vec<i32> {
    let table = nodes.concat();
    let counts = circuit::check(&table).expect("a circuit");
    let (n, m) = (counts.inputs as usize, counts.outputs as usize);
    let mut code = vec![0; CODE_NUMBERS];
    let numbers = circuit::translate(&table, &mut code).expect("a code");
    let mut walked = vec![9; counts.cells as usize];
    let mut ran = walked.clone();
    assert_eq!(
        circuit::load(counts.cells, &mut walked),
        Ok(counts.cells as usize)
    );
    assert_eq!(
        circuit::load(counts.cells, &mut ran),
        Ok(counts.cells as usize)
    );
    let mut all = Vec::new();
    for from in (0..ticks).step_by(block) {
        let now = block.min(ticks - from);
        let part = &inputs[from * n..(from + now) * n];
        let mut outputs = vec![9; now * m];
        let mut again = outputs.clone();
        let answer = circuit::walk(
            &table,
            now as u32,
            part,
            &[0; CONTROLS],
            &mut walked,
            &mut outputs,
        );
        assert_eq!(answer.map(|worked| worked.samples), Ok(now * m));
        let same = circuit::run(
            &code[..numbers],
            now as u32,
            part,
            &[0; CONTROLS],
            &mut ran,
            &mut again,
        );
        assert_eq!(same, answer);
        assert_eq!(outputs, again);
        assert_eq!(walked, ran);
        all.extend(outputs);
    }
    all
}

fn sample(nodes: &[Node], ticks: usize, inputs: &[i32], expected: &[i32]) {
    assert_eq!(played(nodes, ticks, inputs, ticks), expected);
    assert_eq!(played(nodes, ticks, inputs, 1), expected);
}

/// Each tick's clock and input.
fn clocked(clock: &[i32], input: &[i32]) -> Vec<i32> {
    clock
        .iter()
        .zip(input)
        .flat_map(|(&h, &x)| [h, x])
        .collect()
}

#[test]
fn integrator() {
    sample(&[ADD, CABLE, [11, 0, 1]], 4, &[1, 2, 3, 4], &[1, 3, 6, 10]);
}

#[test]
fn generator() {
    let left = [CABLE, [1, 12345, 0], [8, 0, 1], ADD, [7, 2, 3]];
    let right = [CABLE, [1, 1103515245, 0], [8, 5, 6], MULTIPLY, [7, 7, 8]];
    sample(
        &[&left[..], &right[..], &[[11, 4, 9]]].concat(),
        3,
        &[],
        &[12345, -740551042, -1492899873],
    );
}

const DELAYED_1: [Node; 5] = [[1, 1, 0], [1, 1, 0], [8, 0, 1], [4, 1, 0], [7, 2, 3]];

#[test]
fn constant_delayed() {
    sample(&DELAYED_1, 3, &[], &[0, 1, 1]);
}

#[test]
fn product_keeps_low_bits() {
    sample(
        &[[1, 65536, 0], [1, 32768, 0], [8, 0, 1], MULTIPLY, [7, 2, 3]],
        1,
        &[],
        &[-2147483648],
    );
}

#[test]
fn merge() {
    let numbers = [
        [1, 1, 0],
        [1, 2, 0],
        [8, 0, 1],
        [1, 3, 0],
        [1, 4, 0],
        [8, 3, 4],
        [8, 2, 5],
    ];
    sample(
        &[&numbers[..], &[CABLE, CABLE, [8, 7, 8], [10, 6, 9]]].concat(),
        1,
        &[],
        &[4, 6],
    );
}

#[test]
fn ondemand() {
    let clock = [1, 0, 0, 1, 0, 0, 0, 1, 0];
    let input: Vec<i32> = (10..19).collect();
    sample(
        &[CABLE, [12, 0, 0]],
        9,
        &clocked(&clock, &input),
        &[10, 10, 10, 13, 13, 13, 13, 17, 17],
    );
    let integrator = [ADD, CABLE, [11, 0, 1], [12, 2, 0]];
    sample(
        &integrator,
        4,
        &clocked(&[1, 0, 1, 1], &[5, 6, 7, 8]),
        &[5, 5, 12, 20],
    );
    sample(
        &[&DELAYED_1[..], &[[12, 4, 0]]].concat(),
        4,
        &[0, 1, 0, 1],
        &[0, 0, 0, 1],
    );
    let inputs = [1, 1, 1, 1, 0, 2, 0, 1, 3, 1, 1, 4];
    sample(&[CABLE, [12, 0, 0], [12, 1, 0]], 4, &inputs, &[1, 1, 1, 4]);
}

/// E1: "A clock is any number but zero."
#[test]
fn clocks() {
    let cable = [CABLE, [12, 0, 0]];
    let input: Vec<i32> = (10..19).collect();
    sample(&cable, 9, &clocked(&[2; 9], &input), &input);
    let clock = [3, 0, -1, 0, i32::MAX, i32::MIN];
    sample(
        &cable,
        6,
        &clocked(&clock, &input),
        &[10, 10, 12, 12, 14, 15],
    );
}

/// E1: "Our engineers take clocks from differences": 2, 0, -3, 0, and 0 - -2147483648, which wraps.
#[test]
fn clock_of_a_difference() {
    let difference = [SUBTRACT, CABLE, [8, 0, 1]];
    let integrator = [ADD, CABLE, [11, 3, 4], [12, 5, 0]];
    let inputs = [[5, 3, 5], [4, 4, 6], [4, 7, 7], [2, 2, 8], [0, i32::MIN, 9]];
    sample(
        &[&difference[..], &integrator[..], &[[7, 2, 6]]].concat(),
        5,
        &inputs.concat(),
        &[5, 5, 12, 12, 21],
    );
}

/// E4: "it gives the second when the first is 0, otherwise the third".
#[test]
fn selector() {
    const ENDS: [[i32; 2]; 2] = [[i32::MAX, i32::MIN], [i32::MIN, i32::MAX]];
    let (mut inputs, mut expected) = (Vec::new(), Vec::new());
    for first in [0, 1, -1, 2, i32::MAX, i32::MIN] {
        for [second, third] in [[7, 8], [0, -1]].into_iter().chain(ENDS) {
            inputs.extend([first, second, third]);
            expected.push(if first == 0 { second } else { third });
        }
    }
    sample(&[SELECT], expected.len(), &inputs, &expected);
}

#[test]
fn code_of_a_selector() {
    assert_eq!(
        circuit::check(&SELECT),
        Ok(Counts {
            inputs: 3,
            outputs: 1,
            instructions: 1,
            cells: 0
        })
    );
    let mut code = [9; 12];
    assert_eq!(circuit::translate(&SELECT, &mut code), Ok(11));
    assert_eq!(code, [3, 1, 1, 0, 3, 10, 0, 1, 0, 2, 3, 9]);
    let mut short = [9; 10];
    assert_eq!(
        circuit::translate(&SELECT, &mut short),
        Err(Refusal {
            number: 12,
            place: -1
        })
    );
    assert_eq!(short, [9; 10]);
}

/// A selector in a recursion: where two inputs are equal it takes the third one, otherwise it holds what it gave last.
/// The difference of 0 and -2147483648 wraps, and is not 0.
#[test]
fn sample_and_hold() {
    // The held one, the difference, the input, twice; of these the difference, the input, the held one.
    let left = [CABLE, SUBTRACT, CABLE, [8, 0, 1], [8, 3, 2]];
    let routes = [
        [6, 0, 0],
        CABLE,
        CABLE,
        CABLE,
        [6, 0, 0],
        [6, 0, 0],
        [8, 5, 6],
        [8, 11, 7],
        [8, 12, 8],
        [8, 13, 9],
        [8, 14, 10],
    ];
    let switch = [[9, 4, 15], SELECT, [7, 16, 17], CABLE, [11, 18, 19]];
    let inputs = [
        [1, 0, 5],
        [3, 3, 6],
        [0, i32::MIN, 7],
        [i32::MIN, i32::MIN, i32::MIN],
        [0, -1, 8],
        [0, 0, i32::MAX],
    ];
    sample(
        &[&left[..], &routes[..], &switch[..]].concat(),
        6,
        &inputs.concat(),
        &[0, 6, 6, i32::MIN, i32::MIN, i32::MAX],
    );
}

/// So many delays of D 4095 side by side.
fn delays(count: i32) -> Vec<i32> {
    let mut nodes = vec![[4, 4095, 0]];
    for _ in 1..count {
        let last = nodes.len() as i32 - 1;
        nodes.push([4, 4095, 0]);
        nodes.push([8, last, last + 1]);
    }
    nodes.concat()
}

#[test]
fn cells_at_the_limit() {
    let mut code = vec![9; CODE_NUMBERS];
    let mut cells = vec![0; CELLS];
    let mut outputs = [9; 5];
    assert_eq!(
        circuit::check(&delays(4)),
        Ok(Counts {
            inputs: 8,
            outputs: 4,
            instructions: 4,
            cells: 16384
        })
    );
    assert_eq!(
        circuit::translate(&delays(4), &mut code),
        Ok(HEADER_NUMBERS + 4 * INSTRUCTION_NUMBERS + 4)
    );
    assert_eq!(
        circuit::walk(
            &delays(4),
            1,
            &[7; 8],
            &[0; CONTROLS],
            &mut cells,
            &mut outputs
        ),
        Ok(Worked {
            samples: 4,
            clipped: 0
        })
    );
    assert_eq!(outputs, [0, 0, 0, 0, 9]);
    let eleven = Refusal {
        number: 11,
        place: -1,
    };
    assert_eq!(
        circuit::check(&delays(5)).map(|counts| counts.cells),
        Ok(20480)
    );
    assert_eq!(circuit::translate(&delays(5), &mut code), Err(eleven));
    assert_eq!(
        circuit::walk(
            &delays(5),
            1,
            &[7; 10],
            &[0; CONTROLS],
            &mut cells,
            &mut outputs
        ),
        Err(eleven)
    );
}

#[test]
fn inputs_at_the_limit() {
    let mut nodes = vec![CABLE];
    while nodes.len() < 63 {
        let last = nodes.len() as i32 - 1;
        nodes.push(CABLE);
        nodes.push([8, last, last + 1]);
    }
    assert_eq!(
        circuit::check(&nodes.concat()),
        Ok(Counts {
            inputs: 32,
            outputs: 32,
            instructions: 0,
            cells: 0
        })
    );
    nodes.push(CABLE);
    nodes.push([8, 62, 63]);
    assert_eq!(
        circuit::check(&nodes.concat()),
        Err(Refusal {
            number: 8,
            place: 64
        })
    );
}

#[test]
fn files() {
    let file = include_bytes!("../../../samples/integrator.txt");
    let mut table = [9; TABLE_NUMBERS];
    assert_eq!(circuit::read(file, &mut table), Ok(3));
    assert_eq!(table[..10], [3, 1, 0, 5, 0, 0, 11, 0, 1, 9]);
    let mut again = [b'.'; 124];
    assert_eq!(circuit::write(&table[..9], &mut again), Ok(123));
    assert_eq!(again[..123], file[..]);
    assert_eq!(again[123], b'.');
    let mut code = [9; 24];
    assert_eq!(circuit::translate(&table[..9], &mut code), Ok(23));
    assert_eq!(code[..4], [1, 1, 3, 1]);
    let instructions = [[5, 0, 0, 0, 0, 0], [3, 1, 1, 0, 0, 0], [6, 0, 2, 0, 0, 0]];
    assert_eq!(code[4..22], instructions.concat());
    assert_eq!(code[22..], [2, 9]);
}

#[test]
fn lines_at_the_limit() {
    let table = [5, 0, 0].repeat(512);
    let mut file = [0; FILE_BYTES + 1];
    assert_eq!(circuit::write(&table, &mut file), Ok(FILE_BYTES));
    let mut read = [9; TABLE_NUMBERS];
    assert_eq!(circuit::read(&file[..FILE_BYTES], &mut read), Ok(512));
    assert_eq!(read[..], table[..]);
    assert_eq!(
        circuit::read(&file, &mut read),
        Err(Refusal {
            number: 3,
            place: 512
        })
    );
}

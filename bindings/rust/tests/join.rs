//! E8: two tables joined. What is written, by number; that "its samples are the composition of the two meanings", on the
//! samples of the parts; and its refusals, each with its place.
use circuit::{Refusal, CODE_NUMBERS, CONTROLS, TABLE_NUMBERS};

const SEQUENCE: i32 = 7;
const PARALLEL: i32 = 8;
const SPLIT: i32 = 9;
const MERGE: i32 = 10;
const RECURSION: i32 = 11;

const CABLE: [i32; 3] = [5, 0, 0];
const ADD: [i32; 3] = [3, 1, 0];
const TWO: [i32; 9] = [5, 0, 0, 5, 0, 0, 8, 0, 1];
const INTEGRATOR: [i32; 9] = [3, 1, 0, 5, 0, 0, 11, 0, 1];
/// The input as it was a tick ago.
const LATE: [i32; 15] = [5, 0, 0, 1, 1, 0, 8, 0, 1, 4, 1, 0, 7, 2, 3];
/// Three times the input.
const TRIPLE: [i32; 15] = [5, 0, 0, 1, 3, 0, 8, 0, 1, 3, 3, 0, 7, 2, 3];
const NEGATION: [i32; 3] = [3, 9, 0];

fn refusal<T>(number: u32, place: i32) -> Result<T, Refusal> {
    Err(Refusal { number, place })
}

/// The answer, and what is written; of the buffer of 9 nothing else has changed.
fn answer(kind: i32, first: &[i32], second: &[i32]) -> Result<Vec<i32>, Refusal> {
    let mut buffer = vec![9; TABLE_NUMBERS + 1];
    let answer = circuit::join(kind, first, second, &mut buffer);
    let rest = buffer.split_off(answer.unwrap_or(0));
    assert!(rest.iter().all(|&number| number == 9));
    answer.map(|_| buffer)
}

fn join(kind: i32, first: &[i32], second: &[i32]) -> Vec<i32> {
    answer(kind, first, second).expect("two that can be joined")
}

/// The samples of a circuit from its load on: the walker's, which are the runner's.
fn samples(table: &[i32], ticks: usize, inputs: &[i32]) -> Vec<i32> {
    let counts = circuit::check(table).expect("a circuit");
    let mut code = vec![0; CODE_NUMBERS];
    let numbers = circuit::translate(table, &mut code).expect("a code");
    let mut walked = vec![0; counts.cells as usize];
    let mut ran = walked.clone();
    let mut outputs = vec![9; ticks * counts.outputs as usize];
    let mut again = outputs.clone();
    let ticks = ticks as u32;
    let controls = [0; CONTROLS];
    let walk = circuit::walk(table, ticks, inputs, &controls, &mut walked, &mut outputs);
    let code = &code[..numbers];
    let run = circuit::run(code, ticks, inputs, &controls, &mut ran, &mut again);
    assert_eq!(walk.map(|worked| worked.samples), Ok(outputs.len()));
    assert_eq!((run, again, ran), (walk, outputs.clone(), walked));
    outputs
}

/// Two signals side by side, tick by tick.
fn beside(left: &[i32], right: &[i32]) -> Vec<i32> {
    let ticks = left.iter().zip(right);
    ticks.flat_map(|(&left, &right)| [left, right]).collect()
}

const PARTS: [&[i32]; 5] = [&CABLE, &NEGATION, &INTEGRATOR, &LATE, &TRIPLE];
const SIGNAL: [i32; 8] = [1, -2, 3, 40, -500, 6000, i32::MAX, i32::MIN];
const OTHER: [i32; 8] = [7, 0, -7, i32::MIN, 5, 1, 1, 2];

#[test]
fn written() {
    assert_eq!(join(RECURSION, &ADD, &CABLE), INTEGRATOR);
    assert_eq!(join(PARALLEL, &CABLE, &CABLE), TWO);
    let behind = [5, 0, 0, 3, 1, 0, 5, 0, 0, 11, 1, 2, 7, 0, 3];
    assert_eq!(join(SEQUENCE, &CABLE, &INTEGRATOR), behind);
    // Values, slots, ops and D are no children, and stay; the body of an ondemand is one.
    let parts = [1, 1, 0, 2, 1, 0, 8, 0, 1, 4, 1, 0, 7, 2, 3, 12, 4, 0];
    let moved = [1, 1, 0, 2, 1, 0, 8, 3, 4, 4, 1, 0, 7, 5, 6, 12, 7, 0];
    let wanted = [&TWO[..], &moved, &[8, 2, 8]].concat();
    assert_eq!(join(PARALLEL, &TWO, &parts), wanted);
}

/// One after another: what the first gives is what the second takes.
#[test]
fn sequences() {
    for first in PARTS {
        for second in PARTS {
            let after = samples(second, 8, &samples(first, 8, &SIGNAL));
            assert_eq!(samples(&join(SEQUENCE, first, second), 8, &SIGNAL), after);
        }
    }
}

/// Side by side: each has inputs and outputs of its own.
#[test]
fn parallels() {
    for first in PARTS {
        for second in PARTS {
            let wanted = beside(&samples(first, 8, &SIGNAL), &samples(second, 8, &OTHER));
            let joined = join(PARALLEL, first, second);
            assert_eq!(samples(&joined, 8, &beside(&SIGNAL, &OTHER)), wanted);
        }
    }
}

/// Two parts onto one cable are added; one part onto both inputs of an addition is doubled.
#[test]
fn merges_and_splits() {
    for first in PARTS {
        let signal = samples(first, 8, &SIGNAL);
        let doubled: Vec<i32> = signal.iter().map(|x| x.wrapping_add(*x)).collect();
        assert_eq!(samples(&join(SPLIT, first, &ADD), 8, &SIGNAL), doubled);
        for second in PARTS {
            let both = signal.iter().zip(samples(second, 8, &OTHER));
            let sum: Vec<i32> = both.map(|(x, y)| x.wrapping_add(y)).collect();
            let merged = join(MERGE, &join(PARALLEL, first, second), &CABLE);
            assert_eq!(samples(&merged, 8, &beside(&SIGNAL, &OTHER)), sum);
        }
    }
}

/// An addition fed back through a negation: each output is the input less the output before.
#[test]
fn recursions() {
    let fed_back = join(RECURSION, &ADD, &NEGATION);
    assert_eq!(samples(&fed_back, 5, &[1, 2, 3, 4, 5]), [1, 1, 2, 2, 3]);
}

/// Other tables, the same samples.
#[test]
fn sequences_of_three() {
    for first in PARTS {
        for second in PARTS {
            for third in PARTS {
                let left = join(SEQUENCE, &join(SEQUENCE, first, second), third);
                let right = join(SEQUENCE, first, &join(SEQUENCE, second, third));
                assert_ne!(left, right);
                assert_eq!(samples(&left, 8, &SIGNAL), samples(&right, 8, &SIGNAL));
            }
        }
    }
}

/// Cables in a row, an odd count of nodes; with an ondemand around them an even one.
fn row(nodes: usize) -> Vec<i32> {
    let mut row = CABLE.to_vec();
    while row.len() / 3 + 1 < nodes {
        row = join(SEQUENCE, &row, &CABLE);
    }
    if nodes % 2 == 0 {
        row.extend([12, nodes as i32 - 2, 0]);
    }
    assert_eq!(row.len(), 3 * nodes);
    row
}

/// "Refusal 17 is for two lengths and the new node exceeding 512; it follows the checks of the first and then the second
/// table and precedes those of the joined one." Kind 13 would be 4, an empty buffer 12.
#[test]
fn too_many() {
    let (all, some, others) = (row(512), row(256), row(255));
    assert_eq!(join(SEQUENCE, &some, &others).len(), TABLE_NUMBERS);
    assert_eq!(answer(SEQUENCE, &row(257), &others), refusal(17, -1));
    assert_eq!(answer(SEQUENCE, &all, &CABLE), refusal(17, -1));
    assert_eq!(answer(SEQUENCE, &CABLE, &all), refusal(17, -1));
    assert_eq!(answer(13, &all, &all), refusal(17, -1));
    assert_eq!(circuit::join(8, &all, &CABLE, &mut []), refusal(17, -1));
    let wrong = [5, 0, 0, 5, 0, 0, 7, 0, 1, 13, 0, 0];
    assert_eq!(answer(SEQUENCE, &all, &wrong), refusal(4, 3));
    assert_eq!(answer(SEQUENCE, &wrong, &all), refusal(4, 3));
}

/// The first table's before the second's, whose place is in its own numbering.
#[test]
fn refused_tables() {
    let (loose, wrong) = ([5, 0, 0, 5, 0, 0], [5, 0, 0, 2, 16, 0]);
    assert_eq!(answer(SEQUENCE, &wrong, &loose), refusal(5, 1));
    assert_eq!(answer(SEQUENCE, &loose, &wrong), refusal(9, 0));
    assert_eq!(answer(SEQUENCE, &INTEGRATOR, &wrong), refusal(5, 1));
    assert_eq!(answer(13, &INTEGRATOR, &loose), refusal(9, 0));
    assert_eq!(answer(13, &INTEGRATOR, &CABLE[..2]), refusal(3, 0));
    assert_eq!(answer(13, &[5; 3 * 513], &[]), refusal(3, 512));
    assert_eq!(answer(13, &CABLE, &[5; 3 * 513]), refusal(3, 512));
}

/// Those of the joined table, at its last node; a buffer too short comes after them.
#[test]
fn refused_joins() {
    for kind in [0, 13, -1, 256 + 7, i32::MIN, i32::MAX] {
        assert_eq!(answer(kind, &INTEGRATOR, &CABLE), refusal(4, 4), "{kind}");
    }
    for kind in [1, 2, 3, 4, 5, 6, 12] {
        assert_eq!(answer(kind, &CABLE, &CABLE), refusal(5, 2), "{kind}");
    }
    assert_eq!(answer(SEQUENCE, &TWO, &INTEGRATOR), refusal(7, 6));
    let nothing = [1, 7, 0, 6, 0, 0, 7, 0, 1];
    assert_eq!(answer(RECURSION, &CABLE, &nothing), refusal(16, 4));
    let wide = (1..32).fold(CABLE.to_vec(), |wide, _| join(PARALLEL, &wide, &CABLE));
    assert_eq!(answer(PARALLEL, &wide, &CABLE), refusal(8, 64));
    assert_eq!(circuit::join(8, &wide, &CABLE, &mut []), refusal(8, 64));
    let mut short = [9; 11];
    assert_eq!(circuit::join(9, &TWO, &TWO, &mut short), refusal(12, -1));
    assert_eq!(short, [9; 11]);
}

/// "The result is accepted if and only if the arity rule, the limit of 32 and the feedback check pass": five delays of D 4095
/// have 20,480 cells, more than are lent to a circuit.
#[test]
fn sizes_are_not_looked_at() {
    let delay = [4, 4095, 0];
    let all = (1..5).fold(delay.to_vec(), |all, _| join(PARALLEL, &all, &delay));
    assert_eq!(circuit::check(&all).map(|counts| counts.cells), Ok(20480));
    assert_eq!(
        circuit::translate(&all, &mut [9; CODE_NUMBERS]),
        refusal(11, -1)
    );
}

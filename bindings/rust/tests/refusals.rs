//! Every refusal by number and place; a refused call writes nothing; empty slices.
use circuit::{
    Refusal, Worked, CELLS, CODE_NUMBERS, CONTROLS, HEADER_NUMBERS, INSTRUCTION_NUMBERS,
    PROBE_NUMBERS,
};

const INTEGRATOR: [i32; 9] = [3, 1, 0, 5, 0, 0, 11, 0, 1];
/// The numbers of its code: three instructions, one output.
const INTEGRATOR_CODE: usize = HEADER_NUMBERS + 3 * INSTRUCTION_NUMBERS + 1;
const SILENT: [i32; CONTROLS] = [0; CONTROLS];

fn refusal<T>(number: u32, place: i32) -> Result<T, Refusal> {
    Err(Refusal { number, place })
}

/// The count of samples that walker or runner answer with.
fn samples(answer: Result<Worked, Refusal>) -> Result<usize, Refusal> {
    answer.map(|worked| worked.samples)
}

fn line(number: &str, kind: &str, first: &str, second: &str) -> String {
    format!("{number:>4}{kind:>12}{first:>12}{second:>12}\n")
}

/// The reader's answer to a refused file.
fn unread(file: &str) -> Result<usize, Refusal> {
    let mut table = [9; 12];
    let answer = circuit::read(file.as_bytes(), &mut table);
    assert_eq!(table, [9; 12]);
    answer
}

/// A call of the walker with probes that is lent so many cells, outputs, latest values and numbers of a recording.
fn probed(
    table: &[i32],
    probes: &[i32],
    ticks: u32,
    inputs: &[i32],
    lent: [usize; 4],
) -> Result<usize, Refusal> {
    let mut buffers = lent.map(|length| vec![9; length]);
    let [cells, outputs, latest, recording] = &mut buffers;
    let answer = circuit::walk_probed(
        table, probes, ticks, inputs, &SILENT, cells, outputs, latest, recording,
    );
    assert!(answer.is_ok() || buffers == lent.map(|length| vec![9; length]));
    samples(answer)
}

/// The answer of check, translator and walker to a refused table.
fn unchecked(nodes: &[[i32; 3]]) -> Result<usize, Refusal> {
    let table = nodes.concat();
    let (mut code, mut cells, mut outputs) = ([9; 99], [9; 99], [9; 99]);
    let answer = circuit::translate(&table, &mut code);
    assert_eq!(circuit::check(&table).map(|_| 0), answer);
    let walked = circuit::walk(&table, 0, &[], &SILENT, &mut cells, &mut outputs);
    assert_eq!(samples(walked), answer);
    assert_eq!((code, cells, outputs), ([9; 99], [9; 99], [9; 99]));
    assert_eq!(probed(&table, &[0], 4097, &[], [0; 4]), answer);
    answer
}

#[test]
fn lines() {
    let good = line("0", "5", "0", "0");
    assert_eq!(unread(&(good.clone() + "   1")), refusal(1, 1));
    assert_eq!(unread(&line("0", "05", "0", "0")), refusal(1, 0));
    assert_eq!(unread(&line("0", "1", "2147483648", "0")), refusal(1, 0));
    assert_eq!(
        unread(&(good.clone() + &line("2", "5", "0", "0"))),
        refusal(2, 1)
    );
    assert_eq!(unread(&line("-1", "x", "0", "0")), refusal(2, 0));
    assert_eq!(unread(""), refusal(3, 0));
    assert_eq!(unread(&good.repeat(513)), refusal(2, 1));
}

/// "20,993 bytes are enough": what follows them in a file changes neither answer nor table, wherever a line is wrong.
#[test]
fn bytes_enough() {
    let lines = |count: usize| -> String {
        (0..count)
            .map(|i| line(&i.to_string(), "5", "0", "0"))
            .collect()
    };
    let mut files = vec![lines(512), lines(513), lines(600), "0".repeat(30000)];
    for at in [0, 40, 41, 20950, 20990, 20991, 20992, 20993, 21000] {
        for byte in ["x", "\n", " "] {
            let mut file = lines(600);
            file.replace_range(at..at + 1, byte);
            files.push(file);
        }
    }
    for file in files {
        let mut tables = [[9; 1536]; 2];
        let [whole, cut] = &mut tables;
        let answer = circuit::read(file.as_bytes(), whole);
        let enough = &file.as_bytes()[..file.len().min(20993)];
        assert_eq!(circuit::read(enough, cut), answer);
        assert_eq!(whole, cut);
    }
}

#[test]
fn nodes() {
    assert_eq!(unchecked(&[]), refusal(3, 0));
    assert_eq!(unchecked(&[[5, 0, 0]; 513]), refusal(3, 512));
    assert_eq!(circuit::check(&INTEGRATOR[..8]), refusal(3, 0));
    assert_eq!(unchecked(&[[5, 0, 0], [13, 0, 0]]), refusal(4, 1));
    assert_eq!(unchecked(&[[-1, 0, 0]]), refusal(4, 0));
    assert_eq!(unchecked(&[[2, 16, 0]]), refusal(5, 0));
    assert_eq!(unchecked(&[[3, 0, 0]]), refusal(5, 0));
    assert_eq!(unchecked(&[[3, 11, 0]]), refusal(5, 0));
    assert_eq!(unchecked(&[[3, 10, 1]]), refusal(5, 0));
    assert_eq!(unchecked(&[[4, 4096, 0]]), refusal(5, 0));
    assert_eq!(unchecked(&[[5, 0, 1]]), refusal(5, 0));
    assert_eq!(unchecked(&[[5, 0, 0], [12, 1, 0]]), refusal(6, 1));
    assert_eq!(unchecked(&[[5, 0, 0], [12, -1, 0]]), refusal(6, 1));
    assert_eq!(unchecked(&[[5, 0, 0], [7, 0, 0]]), refusal(6, 1));
    assert_eq!(
        unchecked(&[[5, 0, 0], [12, 0, 0], [12, 0, 0]]),
        refusal(6, 2)
    );
    assert_eq!(unchecked(&[[5, 0, 0], [3, 1, 0], [7, 0, 1]]), refusal(7, 2));
    assert_eq!(unchecked(&[[5, 0, 0], [5, 0, 0]]), refusal(9, 0));
}

/// E7: "A recursion whose right side has neither inputs nor outputs"; the place is the recursion, and the first wrong node
/// decides.
#[test]
fn empty_feedback() {
    const EMPTY: [[i32; 3]; 5] = [[1, 7, 0], [6, 0, 0], [7, 0, 1], [5, 0, 0], [11, 3, 2]];
    let with = |later: &[[i32; 3]]| unchecked(&[&EMPTY, later].concat());
    assert_eq!(unchecked(&EMPTY), refusal(16, 4));
    assert_eq!(with(&[[12, 4, 0]]), refusal(16, 4));
    assert_eq!(with(&[[13, 0, 0]]), refusal(16, 4));
    assert_eq!(with(&[[7, 4, 4]]), refusal(16, 4));
    let earlier = [[5, 0, 0], [3, 1, 0], [7, 0, 1]];
    let moved = [[1, 7, 0], [6, 0, 0], [7, 3, 4], [5, 0, 0], [11, 6, 5]];
    assert_eq!(unchecked(&[&earlier[..], &moved].concat()), refusal(7, 2));
    for right in [[6, 0, 0], [1, 7, 0]] {
        let fed = [[5, 0, 0], right, [11, 0, 1]].concat();
        assert_eq!(circuit::check(&fed).map(|counts| counts.outputs), Ok(1));
    }
}

/// "The lowest-numbered node that is nobody's child", here 1 of 1 and 3, and 2 of 2 and 3.
#[test]
fn loose_nodes() {
    assert_eq!(
        unchecked(&[[5, 0, 0], [1, 4, 0], [12, 0, 0], [2, 3, 0], [12, 2, 0]]),
        refusal(9, 1)
    );
    assert_eq!(
        unchecked(&[[5, 0, 0], [5, 0, 0], [8, 0, 1], [6, 0, 0], [1, 4, 0]]),
        refusal(9, 2)
    );
}

/// A parallel of 32 numbers under so many ondemands, each of which adds an input.
fn nested(depth: i32) -> Vec<[i32; 3]> {
    let mut nodes = vec![[1, 7, 0]];
    while nodes.len() < 63 {
        let last = nodes.len() as i32 - 1;
        nodes.push([1, 7, 0]);
        nodes.push([8, last, last + 1]);
    }
    (0..depth).for_each(|k| nodes.push([12, 62 + k, 0]));
    nodes
}

#[test]
fn widths_and_sizes() {
    let (mut code, mut cells) = ([9; CODE_NUMBERS], [9; CELLS]);
    assert_eq!(
        circuit::translate(&nested(31).concat(), &mut code),
        Ok(HEADER_NUMBERS + INSTRUCTION_NUMBERS * (32 + 31 * 65) + 32)
    );
    code = [9; CODE_NUMBERS];
    assert_eq!(
        circuit::translate(&nested(32).concat(), &mut code),
        refusal(10, -1)
    );
    assert_eq!(unchecked(&nested(33)), refusal(8, 95));
    assert_eq!(circuit::load(16385, &mut cells), refusal(11, -1));
    assert_eq!((code, cells), ([9; CODE_NUMBERS], [9; CELLS]));
    assert_eq!(circuit::load(16384, &mut cells), Ok(16384));
    assert_eq!(cells, [0; CELLS]);
}

#[test]
fn codes_and_blocks() {
    let mut code = [0; INTEGRATOR_CODE];
    assert_eq!(
        circuit::translate(&INTEGRATOR, &mut code),
        Ok(INTEGRATOR_CODE)
    );
    let run =
        |code: &[i32], ticks, inputs: &[i32], controls: &[i32], cells: usize, outputs: usize| {
            let (mut lent, mut written) = ([9; 3], [9; 3]);
            let answer = circuit::run(
                code,
                ticks,
                inputs,
                controls,
                &mut lent[..cells],
                &mut written[..outputs],
            );
            assert!(answer.is_ok() || (lent, written) == ([9; 3], [9; 3]));
            samples(answer)
        };
    assert_eq!(
        run(&code[..INTEGRATOR_CODE - 1], 2, &[1, 2], &SILENT, 1, 2),
        refusal(13, -1)
    );
    assert_eq!(run(&code, 4097, &[1, 2], &SILENT, 1, 2), refusal(14, -1));
    assert_eq!(run(&code, 2, &[1], &SILENT, 1, 2), refusal(14, -1));
    assert_eq!(run(&code, 2, &[1, 2], &SILENT[1..], 0, 0), refusal(14, -1));
    assert_eq!(run(&code, 2, &[1, 2], &SILENT, 0, 2), refusal(12, -1));
    assert_eq!(run(&code, 2, &[1, 2], &SILENT, 1, 1), refusal(12, -1));
    assert_eq!(run(&code, 2, &[1, 2], &SILENT, 3, 3), Ok(2));
}

/// The runner's answer to a code of three inputs, one instruction and its register as output, on two cells for one tick.
fn ran(instruction: &[i32]) -> Result<usize, Refusal> {
    let code = [&[3, 1, 1, 2], instruction, &[3]].concat();
    let (mut cells, mut outputs) = ([9; 2], [9; 1]);
    let answer = circuit::run(&code, 1, &[0, 7, 8], &SILENT, &mut cells, &mut outputs);
    assert!(answer.is_ok() || (cells, outputs) == ([9; 2], [9; 1]));
    samples(answer)
}

/// E4: "every instruction has six numbers, the sixth 0 except for op 10, where it is the third input register; the fifth
/// of code 3 stays 0". Register 3 is the instruction's own.
#[test]
fn codes_of_a_selector() {
    assert_eq!(ran(&[3, 10, 0, 1, 0, 2]), Ok(1));
    assert_eq!(ran(&[3, 10, 2, 2, 0, 0]), Ok(1));
    for wrong in [
        [3, 10, 3, 1, 0, 2],
        [3, 10, 0, 3, 0, 2],
        [3, 10, 0, 1, 0, 3],
        [3, 10, 0, 1, 0, -1],
        [3, 10, 0, 1, 2, 0],
        [3, 10, 0, 1, 1, 2],
        [3, 0, 0, 1, 0, 2],
        [3, 11, 0, 1, 0, 0],
        [3, 11, 0, 1, 0, 2],
    ] {
        assert_eq!(ran(&wrong), refusal(13, -1), "{wrong:?}");
    }
}

#[test]
fn sixth_numbers() {
    let others = [
        [1, 7, 0, 0, 0, 0],
        [2, 15, 0, 0, 0, 0],
        [4, 0, 1, 0, 1, 0],
        [5, 1, 0, 0, 0, 0],
        [6, 1, 2, 0, 0, 0],
        [7, 0, 0, 0, 0, 0],
    ];
    let second = |op| if op < 8 { 1 } else { 0 };
    let operations = (1..=9).map(|op| [3, op, 0, second(op), 0, 0]);
    for good in operations.chain(others) {
        assert_eq!(ran(&good), Ok(1), "{good:?}");
        for sixth in [1, 2, -1, i32::MIN] {
            let mut wrong = good;
            wrong[INSTRUCTION_NUMBERS - 1] = sixth;
            assert_eq!(ran(&wrong), refusal(13, -1), "{wrong:?}");
        }
    }
}

/// Code as it was before E4, five numbers an instruction: an addition, and the integrator.
#[test]
fn old_codes() {
    assert_eq!(ran(&[3, 1, 0, 1, 0]), refusal(13, -1));
    let integrator = [1, 1, 3, 1, 5, 0, 0, 0, 0, 3, 1, 1, 0, 0, 6, 0, 2, 0, 0, 2];
    assert_eq!(
        circuit::run(&integrator, 1, &[1], &SILENT, &mut [9], &mut [9]),
        refusal(13, -1)
    );
}

/// E5: "an odd count of probe numbers, more than 16 probes or one that names no output of the table". Nodes 0 to 2: a cable
/// and a cut side by side. No buffer is lent, which would be 12.
#[test]
fn wrong_probes() {
    let table = [5, 0, 0, 6, 0, 0, 8, 0, 1];
    let mut many = [0; PROBE_NUMBERS + 2];
    for wrong in [
        &[0][..],
        &[0, 0, 2],
        &[3, 0],
        &[0, 0, 3, 0],
        &[0, 1],
        &[1, 0],
        &[2, 1],
        &[-1, 0],
        &[0, -1],
        &[i32::MIN, 0],
        &[0, i32::MIN],
        &[i32::MAX, i32::MAX],
        &many[..PROBE_NUMBERS + 1],
        &many,
    ] {
        let answer = probed(&table, wrong, 1, &[5, 6], [0; 4]);
        assert_eq!(answer, refusal(15, -1), "{wrong:?}");
    }
    many[PROBE_NUMBERS - 1] = 1;
    assert_eq!(
        probed(&table, &many[..PROBE_NUMBERS], 0, &[], [0; 4]),
        refusal(15, -1)
    );
    assert_eq!(
        probed(&table, &[0, 0, 2, 0], 1, &[5, 6], [0, 1, 2, 2]),
        Ok(1)
    );
}

/// E5: 15 "is checked after 14 and before 12"; and after 11, which the table of five delays has.
#[test]
fn order_with_probes() {
    let mut delays = vec![[4, 4095, 0]];
    while delays.len() < 9 {
        let last = delays.len() as i32 - 1;
        delays.extend([[4, 4095, 0], [8, last, last + 1]]);
    }
    let delays = delays.concat();
    assert_eq!(probed(&delays, &[0], 1, &[0; 9], [0; 4]), refusal(11, -1));
    assert_eq!(probed(&INTEGRATOR, &[0], 1, &[], [0; 4]), refusal(14, -1));
    assert_eq!(
        probed(&INTEGRATOR, &[0], 4097, &[0; 4097], [0; 4]),
        refusal(14, -1)
    );
    assert_eq!(probed(&INTEGRATOR, &[0], 1, &[7], [0; 4]), refusal(15, -1));
}

/// Two ticks and two probes need 1 cell, 2 outputs, a list of 2 and a recording of 4; without ticks 1 and 2.
#[test]
fn short_with_probes() {
    let walked =
        |ticks, inputs: &[i32], lent| probed(&INTEGRATOR, &[0, 0, 2, 0], ticks, inputs, lent);
    assert_eq!(walked(2, &[1, 2], [1, 2, 2, 4]), Ok(2));
    assert_eq!(walked(0, &[], [1, 0, 2, 0]), Ok(0));
    for short in [[0, 2, 2, 4], [1, 1, 2, 4], [1, 2, 1, 4], [1, 2, 2, 3]] {
        assert_eq!(walked(2, &[1, 2], short), refusal(12, -1), "{short:?}");
    }
    for short in [[0, 0, 2, 0], [1, 0, 1, 0]] {
        assert_eq!(walked(0, &[], short), refusal(12, -1), "{short:?}");
    }
}

#[test]
fn short_buffers() {
    let file = line("0", "5", "0", "0");
    assert_eq!(circuit::read(file.as_bytes(), &mut [9; 2]), refusal(12, -1));
    assert_eq!(circuit::write(&INTEGRATOR, &mut [9; 122]), refusal(12, -1));
    assert_eq!(
        circuit::translate(&INTEGRATOR, &mut [9; INTEGRATOR_CODE - 1]),
        refusal(12, -1)
    );
    assert_eq!(
        circuit::join(7, &INTEGRATOR, &INTEGRATOR, &mut [9; 20]),
        refusal(12, -1)
    );
    assert_eq!(circuit::load(3, &mut [9; 2]), refusal(12, -1));
    assert_eq!(
        circuit::walk(&INTEGRATOR, 2, &[1, 2], &SILENT, &mut [9], &mut [9]),
        refusal(12, -1)
    );
}

#[test]
fn empty_slices() {
    let number = [1, 7, 0];
    assert_eq!(circuit::check(&[]), refusal(3, 0));
    assert_eq!(circuit::read(&[], &mut []), refusal(3, 0));
    assert_eq!(circuit::write(&[], &mut []), refusal(3, 0));
    assert_eq!(circuit::write(&number, &mut []), refusal(12, -1));
    assert_eq!(circuit::join(7, &[], &[], &mut []), refusal(3, 0));
    assert_eq!(circuit::join(7, &number, &[], &mut []), refusal(3, 0));
    assert_eq!(circuit::join(8, &number, &number, &mut []), refusal(12, -1));
    assert_eq!(circuit::translate(&[], &mut []), refusal(3, 0));
    assert_eq!(circuit::translate(&number, &mut []), refusal(12, -1));
    assert_eq!(circuit::load(0, &mut []), Ok(0));
    assert_eq!(circuit::load(1, &mut []), refusal(12, -1));
    let nothing = Worked {
        samples: 0,
        clipped: 0,
    };
    assert_eq!(
        circuit::walk(&number, 0, &[], &SILENT, &mut [], &mut []),
        Ok(nothing)
    );
    assert_eq!(
        circuit::walk(&[], 0, &[], &[], &mut [], &mut []),
        refusal(3, 0)
    );
    assert_eq!(
        circuit::run(&[0, 0, 0, 0], 0, &[], &SILENT, &mut [], &mut []),
        Ok(nothing)
    );
    assert_eq!(probed(&number, &[], 0, &[], [0; 4]), Ok(0));
    assert_eq!(
        circuit::run(&[], 0, &[], &[], &mut [], &mut []),
        refusal(13, -1)
    );
}

#[test]
fn printed() {
    let printed = |number, place| Refusal { number, place }.to_string();
    assert_eq!(printed(7, 2), "refusal 7 at node 2: no arity rule fits");
    assert_eq!(
        printed(2, 1),
        "refusal 2 at line 1: a node number that is not the line's place"
    );
    assert_eq!(printed(13, -1), "refusal 13: numbers that are no flat code");
    assert_eq!(
        printed(15, -1),
        "refusal 15: an odd count of probe numbers, more than 16 probes, or one that names no output of the table"
    );
    assert_eq!(
        printed(17, -1),
        "refusal 17: two tables to be joined whose nodes and the joining one are more than 512"
    );
}

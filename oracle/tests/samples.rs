//! The document's bench samples, and those of E1 and E4, by the meaning.

use oracle::arity::check;
use oracle::column::{parse, text};
use oracle::engine::Refusal;
use oracle::meaning::Meaning;
use oracle::script::{expected, Command};

const INTEGRATOR: [i32; 9] = [3, 1, 0, 5, 0, 0, 11, 0, 1];

fn words(numbers: &[i32]) -> Vec<u32> {
    numbers.iter().map(|&number| number as u32).collect()
}

/// The samples of a table at ticks with these inputs, one list an input.
fn samples(table: &[i32], inputs: &[&[i32]], ticks: usize) -> Vec<i32> {
    let mut meaning = Meaning::of(&words(table));
    let mut given = Vec::new();
    for tick in 0..ticks {
        let now: Vec<i32> = inputs.iter().map(|input| input[tick]).collect();
        given.extend(meaning.tick(&words(&now), &[0; 16]));
    }
    given.iter().map(|&sample| sample as i32).collect()
}

#[test]
fn integrator() {
    let given = samples(&INTEGRATOR, &[&[1, 2, 3, 4]], 4);
    assert_eq!(given, [1, 3, 6, 10]);
}

#[test]
fn generator() {
    // (12345, _ : +) ~ (1103515245, _ : *)
    let table = [
        [1, 12345, 0],
        [5, 0, 0],
        [8, 0, 1],
        [3, 1, 0],
        [7, 2, 3],
        [1, 1103515245, 0],
        [5, 0, 0],
        [8, 5, 6],
        [3, 3, 0],
        [7, 7, 8],
        [11, 4, 9],
    ];
    let given = samples(&table.concat(), &[], 3);
    assert_eq!(given, [12345, -740551042, -1492899873]);
}

const DELAYED_ONE: [[i32; 3]; 5] = [[1, 1, 0], [1, 1, 0], [8, 0, 1], [4, 1, 0], [7, 2, 3]];

#[test]
fn delayed_number() {
    assert_eq!(samples(&DELAYED_ONE.concat(), &[], 3), [0, 1, 1]);
}

#[test]
fn product() {
    let table = [
        [1, 65536, 0],
        [1, 32768, 0],
        [8, 0, 1],
        [3, 3, 0],
        [7, 2, 3],
    ];
    assert_eq!(samples(&table.concat(), &[], 1), [-2147483648]);
}

#[test]
fn merge_of_four() {
    let numbers = [[1, 1, 0], [1, 2, 0], [1, 3, 0], [1, 4, 0]].concat();
    let beams = [[8, 0, 1], [8, 2, 3], [8, 4, 5]].concat();
    let cables = [[5, 0, 0], [5, 0, 0], [8, 7, 8], [10, 6, 9]].concat();
    assert_eq!(samples(&[numbers, beams, cables].concat(), &[], 1), [4, 6]);
}

#[test]
fn ondemand_cable() {
    let table = [5, 0, 0, 12, 0, 0];
    let clock = [1, 0, 0, 1, 0, 0, 0, 1, 0];
    let input: Vec<i32> = (10..19).collect();
    let given = samples(&table, &[&clock, &input], 9);
    assert_eq!(given, [10, 10, 10, 13, 13, 13, 13, 17, 17]);
}

/// E1: "The bench sample with clock 2 now repeats its input at every tick."
#[test]
fn clock_of_2() {
    let input: Vec<i32> = (10..19).collect();
    let given = samples(&[5, 0, 0, 12, 0, 0], &[&[2; 9], &input], 9);
    assert_eq!(given, input);
}

/// E1: "A clock is any number but zero."
#[test]
fn clock_of_any_number() {
    let clock = [3, 0, -1, 0, i32::MAX, i32::MIN];
    let input = [10, 11, 12, 13, 14, 15];
    let given = samples(&[5, 0, 0, 12, 0, 0], &[&clock, &input], 6);
    assert_eq!(given, [10, 10, 12, 12, 14, 15]);
}

#[test]
fn ondemand_integrator() {
    let mut table = INTEGRATOR.to_vec();
    table.extend([12, 2, 0]);
    let given = samples(&table, &[&[1, 0, 1, 1], &[5, 6, 7, 8]], 4);
    assert_eq!(given, [5, 5, 12, 20]);
}

/// E1: "Our engineers take clocks from differences".
#[test]
fn clock_of_a_difference() {
    // (-, _) : ondemand(+ ~ _)
    let table = [
        [3, 2, 0],
        [5, 0, 0],
        [8, 0, 1],
        [3, 1, 0],
        [5, 0, 0],
        [11, 3, 4],
        [12, 5, 0],
        [7, 2, 6],
    ];
    // Differences 2 0 -3 0 -2147483648: the last one keeps its low 32 bits.
    let (first, second) = ([5, 4, 4, 2, 0], [3, 4, 7, 2, i32::MIN]);
    let given = samples(&table.concat(), &[&first, &second, &[5, 6, 7, 8, 9]], 5);
    assert_eq!(given, [5, 5, 12, 12, 21]);
}

#[test]
fn ondemand_delayed_number() {
    let mut table = DELAYED_ONE.concat();
    table.extend([12, 4, 0]);
    assert_eq!(samples(&table, &[&[0, 1, 0, 1]], 4), [0, 0, 0, 1]);
}

#[test]
fn ondemand_in_ondemand() {
    let table = [5, 0, 0, 12, 0, 0, 12, 1, 0];
    let (outer, inner) = ([1, 1, 0, 1], [1, 0, 1, 1]);
    let given = samples(&table, &[&outer, &inner, &[1, 2, 3, 4]], 4);
    assert_eq!(given, [1, 1, 1, 4]);
}

/// E4: "it gives the second when the first is 0, otherwise the third".
#[test]
fn selector() {
    let first = [0, 1, -1, 2, i32::MIN, 0];
    let (second, third) = ([10, 11, 12, 13, 14, 15], [20, 21, 22, 23, 24, 25]);
    let given = samples(&[3, 10, 0], &[&first, &second, &third], 6);
    assert_eq!(given, [10, 21, 22, 23, 24, 15]);
}

/// E4: "two multiplications and an addition, and those wrap".
#[test]
fn selector_of_extremes() {
    let first = [0, 1, 2, -1, i32::MIN];
    let (second, third) = ([i32::MAX; 5], [i32::MIN; 5]);
    let given = samples(&[3, 10, 0], &[&first, &second, &third], 5);
    assert_eq!(given, [i32::MAX, i32::MIN, i32::MIN, i32::MIN, i32::MIN]);
    let given = samples(&[3, 10, 0], &[&first, &third, &second], 5);
    assert_eq!(given, [i32::MIN, i32::MAX, i32::MAX, i32::MAX, i32::MAX]);
}

/// Both sides of a selector go on at every tick.
#[test]
fn selector_of_integrators() {
    // (_, (+ ~ _), (+ ~ _)) : select2
    let integrators = [[3, 1, 0], [5, 0, 0], [11, 1, 2], [3, 1, 0], [5, 0, 0]];
    let ends = [[11, 4, 5], [8, 3, 6], [8, 0, 7], [3, 10, 0], [7, 8, 9]];
    let table = [&[[5, 0, 0]][..], &integrators, &ends].concat().concat();
    let given = samples(&table, &[&[0, 1, 0, -5], &[1; 4], &[10; 4]], 4);
    assert_eq!(given, [1, 20, 3, 40]);
}

/// A selector whose first input is its own output one tick late.
#[test]
fn selector_by_itself() {
    let (second, third) = ([0, 4, 5, 7, 8], [9, 9, 6, 0, 9]);
    let table = [3, 10, 0, 5, 0, 0, 11, 0, 1];
    assert_eq!(samples(&table, &[&second, &third], 5), [0, 4, 6, 0, 8]);
}

/// A selector on demand, its clock made of its own output one tick late.
#[test]
fn selector_on_its_own_demand() {
    // ondemand(select2) ~ _: the clock is 0 and stays so
    let silent = [3, 10, 0, 12, 0, 0, 5, 0, 0, 11, 1, 2];
    let (first, second, third) = ([0, 7, 0, 5], [5, 5, 8, 8], [9, 1, 9, 9]);
    let given = samples(&silent, &[&first, &second, &third], 4);
    assert_eq!(given, [0; 4]);
    // ondemand(select2) ~ (1, _ : -): the clock is 1, -4, then 0
    let clock = [[1, 1, 0], [5, 0, 0], [8, 2, 3], [3, 2, 0], [7, 4, 5]];
    let table = [&silent[..6], &clock.concat(), &[11, 1, 6]].concat();
    let given = samples(&table, &[&first, &second, &third], 4);
    assert_eq!(given, [5, 1, 1, 1]);
}

#[test]
fn cells_by_the_formulas() {
    // A delay of 3 in an ondemand, five demands in seven ticks.
    let mut meaning = Meaning::of(&[4, 3, 0, 12, 0, 0]);
    let clock = words(&[2, 0, -1, 1, 0, i32::MIN, 3]);
    for (tick, &now) in clock.iter().enumerate() {
        meaning.tick(&[now, 10 + tick as u32, 2], &[0; 16]);
    }
    // Demands at 0 2 3 5 6: ring places 0 1 2 0 1 hold 15 16 13; the output was two ago.
    assert_eq!(meaning.cells(), [2, 15, 16, 13, 13]);
}

#[test]
fn delays_fill_the_cells() {
    let four = [
        [4, 4095, 0],
        [4, 4095, 0],
        [4, 4095, 0],
        [4, 4095, 0],
        [8, 0, 1],
        [8, 2, 3],
        [8, 4, 5],
    ];
    let five = [[4, 4095, 0], [8, 6, 7]];
    let commands = [
        Command::Table(words(&four.concat())),
        Command::Check,
        Command::Translate(32),
        Command::Table(words(&[four.concat(), five.concat()].concat())),
        Command::Check,
        Command::Translate(2),
        Command::Walk(0, 0, 0),
    ];
    let printed = expected(&commands);
    let lines: Vec<&str> = printed.lines().collect();
    assert_eq!(lines[0], "check 8 4 4 16384");
    assert!(lines[1].starts_with("translate 32 | 8 4*2 16384 4 0 1 0 4095 0 4 2 3 4096"));
    assert_eq!(lines[2], "check 10 5 5 20480");
    assert_eq!(lines[3], "translate refused 11 -1 | 9*2");
    assert_eq!(lines[4], "walk refused 11 -1 |");
}

/// So many cables side by side.
fn cables(count: u32) -> Vec<u32> {
    let mut table = vec![5, 0, 0];
    for last in 0..count - 1 {
        table.extend([5, 0, 0, 8, 2 * last, 2 * last + 1]);
    }
    table
}

#[test]
fn wires_and_lines() {
    assert_eq!(check(&cables(32)).expect("32 wires").counts.inputs, 32);
    let refused = check(&cables(33)).expect_err("33 wires");
    assert_eq!(refused, Refusal::at(8, 64));
    let lines = [5, 0, 0].repeat(513);
    assert_eq!(parse(&text(&lines[3..])).expect("512 lines").len(), 1536);
    assert_eq!(parse(&text(&lines)), Err(Refusal::at(3, 512)));
}

/// E4: "Kind 3 and code 3 accept ops 1 to 10".
#[test]
fn ops() {
    for op in 1..=10 {
        let counts = check(&[3, op, 0]).expect("an op").counts;
        let inputs = [2, 2, 2, 2, 2, 2, 2, 1, 1, 3][op as usize - 1];
        assert_eq!([counts.inputs, counts.outputs], [inputs, 1]);
        assert_eq!([counts.instructions, counts.cells], [1, 0]);
    }
    for op in [0, -1, 11, 12, 256 + 10, i32::MIN, i32::MAX] {
        let refused = check(&words(&[3, op, 0])).expect_err("no op");
        assert_eq!(refused, Refusal::at(5, 0));
    }
}

/// E7: "A recursion whose right side has neither inputs nor outputs"; "refusal 16, with the node as
/// its place".
#[test]
fn empty_feedback() {
    // A number that is cut, then a cable or a cut.
    let with = |rest: &[i32]| {
        let nothing = [1, 7, 0, 6, 0, 0, 7, 0, 1];
        check(&words(&[&nothing[..], rest].concat())).map(|checked| checked.counts.inputs)
    };
    assert_eq!(with(&[5, 0, 0, 11, 3, 2]), Err(Refusal::at(16, 4)));
    assert_eq!(
        with(&[5, 0, 0, 11, 3, 2, 13, 0, 0]),
        Err(Refusal::at(16, 4))
    );
    assert_eq!(with(&[5, 0, 0, 11, 2, 3]), Err(Refusal::at(7, 4)));
    assert_eq!(with(&[5, 0, 0, 11, 4, 2]), Err(Refusal::at(6, 4)));
    assert_eq!(with(&[5, 0, 0, 8, 3, 2]), Ok(1));
    // Its clock is an input.
    assert_eq!(with(&[12, 2, 0, 5, 0, 0, 11, 4, 3]), Ok(1));
    for right in [[6, 0, 0], [1, 7, 0]] {
        let only = [vec![3, 1, 0], right.to_vec(), vec![11, 0, 1]].concat();
        assert!(check(&only).is_ok());
    }
}

/// E4: "The translator's print gains that column in each instruction line".
#[test]
fn selector_print() {
    let file = text(&[3, 10, 0]);
    let print = "           3           1           1           0
           3          10           0           1           0           2
           3
";
    assert_eq!(expected(&[Command::File(file), Command::Print]), print);
}

#[test]
fn integrator_print() {
    let file = "   0           3           1           0
   1           5           0           0
   2          11           0           1
";
    let print = "           1           1           3           1
           5           0           0           0           0           0
           3           1           1           0           0           0
           6           0           2           0           0           0
           2
";
    let commands = [Command::File(file.as_bytes().to_vec()), Command::Print];
    assert_eq!(expected(&commands), print);
    let refused = [Command::File(vec![]), Command::Print];
    assert_eq!(expected(&refused), "           3           0\n");
}

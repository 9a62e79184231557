//! Flat code: its check (row 13) and an interpreter of it, for code that is not the
//! translator's and for cells that no history has made.

use crate::arity::MOST_WIRES;
use crate::engine::{Counts, Refusal};
use crate::samples::{amount, clipped, operands, operate};

/// "Header: inputs n, outputs m, instruction count c, cell count."
pub const HEADER: usize = 4;
/// E4: "every instruction has six numbers".
pub const WIDTH: usize = 6;
pub const MOST_INSTRUCTIONS: usize = 2048;
pub const MOST_CELLS: usize = 16384;
/// The numbers of the largest code.
pub const MOST_CODE: usize = length(MOST_INSTRUCTIONS, MOST_WIRES);

/// An instruction: its code and five operands.
pub type Instruction = [u32; WIDTH];

/// Where an operation's input registers stand. E4: "the sixth 0 except for op 10, where it is the
/// third input register; the fifth of code 3 stays 0".
pub const INPUTS: [usize; 3] = [2, 3, 5];

/// E4: "The code length is 4+6c+m."
pub const fn length(instructions: usize, outputs: usize) -> usize {
    HEADER + WIDTH * instructions + outputs
}

/// The header of a code that passes row 13.
pub fn check(code: &[u32]) -> Result<Counts, Refusal> {
    let counts = header(code).ok_or(Refusal::nowhere(13))?;
    let (n, c) = (counts.inputs as usize, counts.instructions as usize);
    let good = code.len() == length(c, counts.outputs as usize)
        && (0..c).all(|i| instruction_fits(&instruction(code, i), i, &counts))
        && outputs(code).iter().all(|&r| (r as usize) < n + c);
    if good {
        Ok(counts)
    } else {
        Err(Refusal::nowhere(13))
    }
}

/// "header negative or above 32, 32, 2,048, 16,384"; a negative number is a large one here.
fn header(code: &[u32]) -> Option<Counts> {
    let head = code.get(..HEADER)?;
    let fits = head[0] as usize <= MOST_WIRES
        && head[1] as usize <= MOST_WIRES
        && head[2] as usize <= MOST_INSTRUCTIONS
        && head[3] as usize <= MOST_CELLS;
    fits.then(|| Counts {
        inputs: head[0],
        outputs: head[1],
        instructions: head[2],
        cells: head[3],
    })
}

pub fn instruction(code: &[u32], i: usize) -> Instruction {
    let six = &code[length(i, 0)..length(i + 1, 0)];
    six.try_into().expect("an instruction")
}

/// The output registers of a code.
pub fn outputs(code: &[u32]) -> &[u32] {
    &code[length(code[2] as usize, 0)..]
}

fn instruction_fits(six: &Instruction, i: usize, counts: &Counts) -> bool {
    let [kind, a, b, c, d, e] = *six;
    // "a register negative or not below the instruction's own"
    let register = |r: u32| (r as usize) < counts.inputs as usize + i;
    let cell = |first: u32, many: u32| u64::from(first) + u64::from(many) <= counts.cells.into();
    let unused = |numbers: &[u32]| numbers.iter().all(|&number| number == 0);
    match kind {
        1 => unused(&[b, c, d, e]),
        2 => a <= 15 && unused(&[b, c, d, e]),
        3 => operands(a).is_some_and(|many| {
            let (used, others) = INPUTS.split_at(many);
            let free = others.iter().all(|&place| six[place] == 0);
            used.iter().all(|&place| register(six[place])) && free && d == 0
        }),
        // "a cell, each of a delay's D+1 included, outside the count"
        4 => register(a) && register(b) && d <= 4095 && cell(c, d + 1) && e == 0,
        5 => cell(a, 1) && unused(&[b, c, d, e]),
        6 => cell(a, 1) && register(b) && unused(&[c, d, e]),
        // "a skip count negative or past the end"
        7 => {
            let left = counts.instructions as usize - i;
            register(a) && (b as usize) < left && unused(&[c, d, e])
        }
        _ => false,
    }
}

/// What an op gives for its inputs.
pub type Operate = fn(u32, &[i32]) -> i32;

/// Runs checked code on a block: `inputs` and `outputs` tick after tick. Gives the count of ticks
/// with a clipped delay.
pub fn interpret(
    code: &[u32],
    inputs: &[u32],
    controls: &[u32],
    cells: &mut [u32],
    outputs: &mut [u32],
    ticks: usize,
) -> u32 {
    interpret_by(operate, code, inputs, controls, cells, outputs, ticks)
}

/// The same with ops that may be wrong ones.
pub fn interpret_by(
    operate: Operate,
    code: &[u32],
    inputs: &[u32],
    controls: &[u32],
    cells: &mut [u32],
    outputs: &mut [u32],
    ticks: usize,
) -> u32 {
    let (n, m) = (code[0] as usize, code[1] as usize);
    let mut clipped = 0;
    for tick in 0..ticks {
        let inputs = &inputs[tick * n..(tick + 1) * n];
        let traced = trace(operate, code, inputs, controls, cells);
        traced.give(code, &mut outputs[tick * m..(tick + 1) * m]);
        clipped += u32::from(traced.clips());
    }
    clipped
}

/// What a tick leaves: every register, and of each instruction whether it was worked, and whether it
/// was a delay that was clipped.
pub struct Trace {
    pub registers: Vec<u32>,
    pub worked: Vec<bool>,
    pub clipped: Vec<bool>,
}

impl Trace {
    /// The outputs of the tick.
    pub fn give(&self, code: &[u32], outputs: &mut [u32]) {
        for (output, &register) in outputs.iter_mut().zip(self::outputs(code)) {
            *output = self.registers[register as usize];
        }
    }

    /// E6: whether "at least one delay that was worked in that tick was clipped".
    pub fn clips(&self) -> bool {
        self.clipped.contains(&true)
    }
}

/// One tick of checked code.
pub fn trace(
    operate: Operate,
    code: &[u32],
    inputs: &[u32],
    controls: &[u32],
    cells: &mut [u32],
) -> Trace {
    let (n, c) = (code[0] as usize, code[2] as usize);
    let mut registers = inputs.to_vec();
    // "At the start of a tick those are 0."
    registers.resize(n + c, 0);
    let (mut worked, mut clipped) = (vec![false; c], vec![false; c]);
    let mut i = 0;
    while i < c {
        let six = instruction(code, i);
        let step = step(operate, &six, n + i, &mut registers, controls, cells);
        (worked[i], clipped[i]) = (true, matches!(step, Step::Clipped));
        i += match step {
            Step::Skip(many) => 1 + many,
            _ => 1,
        };
    }
    Trace {
        registers,
        worked,
        clipped,
    }
}

/// What comes of an instruction besides its register.
enum Step {
    On,
    /// Skips so many.
    Skip(usize),
    Clipped,
}

/// One instruction.
fn step(
    operate: Operate,
    six: &Instruction,
    own: usize,
    registers: &mut [u32],
    controls: &[u32],
    cells: &mut [u32],
) -> Step {
    let mut step = Step::On;
    let [kind, a, b, c, d, _] = six.map(|number| number as usize);
    registers[own] = match kind {
        1 => six[1],
        2 => controls[a],
        3 => {
            let many = operands(six[1]).expect("an op");
            let inputs = INPUTS.map(|place| registers[six[place] as usize] as i32);
            operate(six[1], &inputs[..many]) as u32
        }
        4 => {
            let (given, clips) = delay(&mut cells[c..=c + d], registers[a], registers[b] as i32);
            if clips {
                step = Step::Clipped;
            }
            given
        }
        5 => cells[a],
        6 => {
            cells[a] = registers[b];
            0
        }
        // E1: "a demand when the clock isn't 0", "the skip instruction" too
        _ => {
            if registers[a] == 0 {
                step = Step::Skip(b);
            }
            0
        }
    };
    step
}

/// "It reads ring place p-A modulo D (its input if A is 0), then stores its input at p and
/// moves p on by 1 modulo D. A position outside 0 to D-1 counts as 0. With D = 0 it touches
/// nothing." E6: "The delay step shall say with its value whether the amount was outside 0 to D."
fn delay(own: &mut [u32], input: u32, second: i32) -> (u32, bool) {
    let (position, ring) = own.split_first_mut().expect("a position");
    let d = ring.len();
    let clips = clipped(second, d as u32);
    if d == 0 {
        return (input, clips);
    }
    let ago = amount(second, d as u32) as usize;
    let p = if (*position as usize) < d {
        *position as usize
    } else {
        0
    };
    let given = if ago == 0 {
        input
    } else {
        ring[(p + d - ago) % d]
    };
    ring[p] = input;
    *position = ((p + 1) % d) as u32;
    (given, clips)
}

//! The same interpreter in safe Rust: flat code, decoded once a call, then one match an instruction.
use crate::engine::{Block, HEADER_NUMBERS, INSTRUCTION_NUMBERS, Worked};
use std::hint::black_box;

const REGISTERS: usize = 32 + 2048;

#[derive(Clone, Copy)]
enum Instruction {
    Number(u32),
    Control(usize),
    Add(usize, usize),
    Subtract(usize, usize),
    Multiply(usize, usize),
    Quotient(usize, usize),
    Remainder(usize, usize),
    Less(usize, usize),
    Equal(usize, usize),
    Absolute(usize),
    Negate(usize),
    Select(usize, usize, usize),
    Delay(usize, usize, usize, usize),
    Read(usize),
    Write(usize, usize),
    Skip(usize, usize),
}

fn decode(x: &[u32]) -> Instruction {
    use Instruction::*;
    let [a, b, c, d] = [1, 2, 3, 4].map(|i| x[i] as usize);
    match (x[0], x[1]) {
        (1, value) => Number(value),
        (2, _) => Control(a),
        (3, 1) => Add(b, c),
        (3, 2) => Subtract(b, c),
        (3, 3) => Multiply(b, c),
        (3, 4) => Quotient(b, c),
        (3, 5) => Remainder(b, c),
        (3, 6) => Less(b, c),
        (3, 7) => Equal(b, c),
        (3, 8) => Absolute(b),
        (3, 9) => Negate(b),
        (3, _) => Select(b, c, x[5] as usize),
        (4, _) => Delay(a, b, c, d),
        (5, _) => Read(a),
        (6, _) => Write(a, b),
        _ => Skip(a, b),
    }
}

fn quotient(a: u32, b: u32) -> u32 {
    if b == 0 {
        return 0;
    }
    (a as i32).wrapping_div(b as i32) as u32
}

fn remainder(a: u32, b: u32) -> u32 {
    if b == 0 {
        return 0;
    }
    (a as i32).wrapping_rem(b as i32) as u32
}

/// Sets `clipped` where the amount is outside 0 to D: as an unsigned number, a negative one is above every D.
fn delay(line: &mut [u32], input: u32, amount: u32, clipped: &mut bool) -> u32 {
    let (position, ring) = line.split_first_mut().expect("a delay has a cell");
    let d = ring.len();
    *clipped |= amount as usize > d;
    if d == 0 {
        return input;
    }
    let p = if (*position as usize) < d {
        *position as usize
    } else {
        0
    };
    let back = (amount as i32).clamp(0, d as i32) as usize;
    let value = match back {
        0 => input,
        _ if p < back => ring[p + d - back],
        _ => ring[p - back],
    };
    ring[p] = input;
    *position = if p + 1 < d { p as u32 + 1 } else { 0 };
    value
}

/// Was a delay clipped?
#[inline(always)]
fn tick(
    program: &[Instruction],
    first: usize,
    controls: &[u32],
    r: &mut [u32; REGISTERS],
    cells: &mut [u32],
) -> bool {
    use Instruction::*;
    let mut i = 0;
    let mut clipped = false;
    while let Some(&x) = program.get(i) {
        let own = first + i;
        i += 1;
        r[own] = match x {
            Number(value) => value,
            Control(slot) => controls[slot],
            Add(a, b) => r[a].wrapping_add(r[b]),
            Subtract(a, b) => r[a].wrapping_sub(r[b]),
            Multiply(a, b) => r[a].wrapping_mul(r[b]),
            Quotient(a, b) => quotient(r[a], r[b]),
            Remainder(a, b) => remainder(r[a], r[b]),
            Less(a, b) => u32::from((r[a] as i32) < r[b] as i32),
            Equal(a, b) => u32::from(r[a] == r[b]),
            Absolute(a) => (r[a] as i32).unsigned_abs(),
            Negate(a) => r[a].wrapping_neg(),
            Select(a, b, c) => r[if r[a] == 0 { b } else { c }],
            Delay(a, b, cell, d) => delay(&mut cells[cell..=cell + d], r[a], r[b], &mut clipped),
            Read(cell) => cells[cell],
            Write(cell, a) => {
                cells[cell] = r[a];
                0
            }
            Skip(a, count) => {
                if r[a] == 0 {
                    r[own + 1..=own + count].fill(0);
                    i += count;
                }
                0
            }
        };
    }
    clipped
}

/// Runs a code that has passed the check.
/// The copies differ in their number alone, which keeps the compiler from making them one.
pub fn run<const COPY: usize>(
    code: &[u32],
    block: &Block,
    cells: &mut [u32],
    outputs: &mut [u32],
) -> Worked {
    black_box(COPY);
    let [n, m, count] = [0, 1, 2].map(|i| code[i] as usize);
    let (instructions, results) = code[HEADER_NUMBERS..].split_at(INSTRUCTION_NUMBERS * count);
    let instructions = instructions.chunks_exact(INSTRUCTION_NUMBERS);
    let program: Vec<Instruction> = instructions.map(decode).collect();
    let mut r = [0; REGISTERS];
    let mut clipped = 0;
    for t in 0..block.ticks {
        r[..n].copy_from_slice(&block.inputs[t * n..][..n]);
        clipped += usize::from(tick(&program, n, block.controls, &mut r, cells));
        for (output, &register) in outputs[t * m..][..m].iter_mut().zip(results) {
            *output = r[register as usize];
        }
    }
    Worked {
        samples: block.ticks * m,
        clipped,
    }
}

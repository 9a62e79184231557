//! Cases of code that is nobody's translation: random code, and code with an instruction of each
//! kind, one number of which is wrong.

use crate::bad_codes::{damage, often, run, selects};
use crate::circuits::sample;
use crate::flat::{instruction, length, Instruction, HEADER, INPUTS, WIDTH};
use crate::good_cases::{controls, Circuit};
use crate::random::Random;
use crate::samples::{operands, ops, BEYOND};
use crate::script::Command;

/// Where an instruction is to stand: its own register, the instructions after it, the cells.
struct Place {
    own: usize,
    left: usize,
    cells: usize,
}

impl Place {
    /// Whether there are registers and cells for an instruction of a code.
    fn takes(&self, code: u32) -> bool {
        let registers = self.own > 0 || !matches!(code, 3 | 4 | 6 | 7);
        registers && (self.cells > 0 || !matches!(code, 4..=6))
    }

    /// An instruction of a code, and an op if it is an operation.
    fn fill(&self, random: &mut Random, code: u32, op: u32) -> Instruction {
        let register = |random: &mut Random| random.below(self.own) as u32;
        let cell = |random: &mut Random| random.below(self.cells) as u32;
        match code {
            3 => {
                let mut six = [0; WIDTH];
                six[..2].copy_from_slice(&[3, op]);
                for &place in &INPUTS[..operands(op).expect("an op")] {
                    six[place] = register(random);
                }
                six
            }
            4 => {
                let first = cell(random);
                let d = random.below(self.cells - first as usize) as u32;
                [4, register(random), register(random), first, d, 0]
            }
            5 => [5, cell(random), 0, 0, 0, 0],
            6 => [6, cell(random), register(random), 0, 0, 0],
            7 => {
                let count = random.below(self.left + 1) as u32;
                [7, register(random), count, 0, 0, 0]
            }
            2 => [2, random.below(16) as u32, 0, 0, 0, 0],
            _ => [1, often(random, &[0, 1, 2, -1]), 0, 0, 0, 0],
        }
    }
}

/// Random code that passes: cells shared at will, skips over anything, skipped registers read;
/// every op as often as the others.
fn random_code(random: &mut Random) -> Vec<u32> {
    let (n, m) = (random.below(4), random.below(4));
    let (c, cells) = (1 + random.below(14), random.below(12));
    let mut code: Vec<u32> = [n, m, c, cells].map(|w| w as u32).to_vec();
    for i in 0..c {
        let (own, left) = (n + i, c - i - 1);
        let place = Place { own, left, cells };
        let wanted = random.pick(&[1, 2, 3, 3, 3, 3, 4, 4, 5, 5, 6, 6, 7, 7]);
        let kind = if place.takes(wanted) { wanted } else { 1 };
        let op = random.pick(&ops());
        code.extend(place.fill(random, kind, op));
    }
    for _ in 0..m {
        code.push(random.below(n + c) as u32);
    }
    code
}

/// Delays with skips over some of them, on cells that they share at will; clocks and amounts are
/// inputs. A delay that is skipped does not count as clipped (E6).
fn delays_code(random: &mut Random) -> Vec<u32> {
    let (n, m, cells) = (4, random.below(3), 1 + random.below(8));
    let c = 2 + random.below(6);
    let mut code: Vec<u32> = [n, m, c, cells].map(|w| w as u32).to_vec();
    for i in 0..c {
        let left = c - i - 1;
        if left > 0 && (i == 0 || random.percent(45)) {
            let count = 1 + random.below(left.min(3));
            code.extend([7, random.below(n) as u32, count as u32, 0, 0, 0]);
            continue;
        }
        let (own, amount) = (n + i, random.below(n) as u32);
        let mut delay = Place { own, left, cells }.fill(random, 4, 0);
        delay[2] = amount;
        code.extend(delay);
    }
    code.extend((0..m).map(|_| random.below(n + c) as u32));
    code
}

/// Random code on cells full of one number or cleared.
pub fn random_code_case(random: &mut Random) -> Vec<Command> {
    let near = Circuit::of(vec![5, 0, 0]).expect("a cable");
    let mut case = vec![Command::Memory(sample(random) as u32)];
    case.push(Command::Controls(controls(random, &near)));
    if random.percent(50) {
        case.push(Command::Load(random.below(12) as u32, 12));
    }
    for _ in 0..1 + random.below(3) {
        let mut code = match random.percent(60) {
            true => delays_code(random),
            false => random_code(random),
        };
        if random.percent(25) {
            damage(random, &mut code);
        }
        run(random, &near, code, &mut case);
        if random.percent(50) {
            case.push(Command::Inputs(vec![]));
            case.push(Command::Run(0, 20, 1));
        }
    }
    case.push(Command::Cells(13));
    case
}

/// An instruction of each code and an operation of each op, in a random order; every register is
/// an output.
fn every_instruction(random: &mut Random) -> Vec<u32> {
    let mut kinds: Vec<(u32, u32)> = [1, 2, 4, 5, 6, 7].map(|code| (code, 0)).to_vec();
    kinds.extend(ops().into_iter().map(|op| (3, op)));
    let (n, c, cells) = (3, kinds.len(), 5);
    let mut code: Vec<u32> = [n, n + c, c, cells].map(|w| w as u32).to_vec();
    for i in 0..c {
        let (kind, op) = kinds.remove(random.below(kinds.len()));
        let (own, left) = (n + i, c - i - 1);
        let place = Place { own, left, cells };
        code.extend(place.fill(random, kind, op));
    }
    code.extend(0..(n + c) as u32);
    code
}

/// E4's clauses of row 13, each at each instruction: "the sixth 0 except for op 10, where it is the
/// third input register; the fifth of code 3 stays 0"; "Kind 3 and code 3 accept ops 1 to 10".
pub fn operands_case(random: &mut Random) -> Vec<Command> {
    let good = every_instruction(random);
    let (n, m, c) = (good[0] as usize, good[1] as usize, good[2] as usize);
    let mut case = vec![Command::Memory(sample(random) as u32)];
    case.push(Command::Controls((0..16).collect()));
    case.push(Command::Inputs(
        (0..n).map(|_| sample(random) as u32).collect(),
    ));
    let mut codes = vec![good.clone()];
    for i in 0..c {
        let (own, six) = ((n + i) as i32, instruction(&good, i));
        let mut wrong = vec![(5, random.pick(&[1, -1, own - 1, own, i32::MIN]))];
        if selects(&six) {
            wrong = [own, own + 1, own - 1, -1, i32::MIN]
                .map(|r| (5, r))
                .to_vec();
            wrong.extend([0, -1, BEYOND as i32].map(|op| (1, op)));
        }
        if six[0] == 3 {
            wrong.push((4, random.pick(&[1, -1, own - 1])));
        }
        for (place, number) in wrong {
            let mut bad = good.clone();
            bad[length(i, 0) + place] = number as u32;
            codes.push(bad);
        }
    }
    for code in codes {
        case.push(Command::Code(code));
        case.push(Command::Run(1, good[HEADER - 1] as usize, m));
    }
    case
}
